//! Reserved indices (request P6), with figures by hand.

use super::*;

fn reserve(index: u64) -> Command {
    Command::Reserve { index }
}

fn erase(index: u64) -> Command {
    Command::Erase { index }
}

fn answers(nodes: usize, commands: &[Command]) -> Vec<Answer> {
    let mut pool = Pool::new(nodes).expect("a good size");
    let replies = pool.run(&batch(commands)).expect("a good batch");
    replies.iter().map(|reply| reply.answer).collect()
}

/// Tag 7, length 8 and the index; 0F is answer 15.
#[test]
fn the_bytes_of_a_reserve_and_of_its_reply() {
    let mut record = Vec::new();
    reserve(64).write(&mut record);
    assert_eq!(record, [7, 0, 8, 0, 0, 0, 0, 0, 0, 0, 64]);
    assert_eq!(Command::read(&record), Some(reserve(64)));
    assert_eq!(Command::read(&record[..10]), None);
    let mut bytes = [0; 24];
    bytes[..4].copy_from_slice(&[135, 0, 21, 15]);
    let reply = Reply::read(&bytes).expect("a reply");
    assert_eq!((reply.tag, reply.answer), (Tag::Reserve, Answer::Covered));
    assert_eq!(reply.bytes(), bytes);
    bytes[0] = 136;
    assert_eq!(Reply::read(&bytes), None);
}

#[test]
fn on_a_fresh_pool_and_as_head() {
    let (reply, pool) = run(1, &[reserve(5)]);
    assert_eq!(reply.done(), Ok(Entry::reserved(5)));
    assert_eq!((slot(&pool, 0, 5), pool.words()[1]), (layout::RESERVED_WORD, 4098));
    assert!(pool.check().is_ok());
    let (reply, pool) = run(1, &[reserve(0)]);
    assert_eq!((reply.index, reply.order, reply.word, reply.marks.0), (0, 0, Word(0), 0));
    assert_eq!((pool.words()[..4].to_vec(), free_nodes(&pool)), (vec![1, 1030, 0, 0], 1));
    assert!(pool.check().is_ok());
}

/// 64 beside 0 needs three nodes; and what is covered is told first.
#[test]
fn covered_and_too_few_nodes() {
    use Answer::{Covered, Done, TooFewNodes};
    assert_eq!(answers(2, &[CASE_2, reserve(0), reserve(64)]), [Done, Covered, TooFewNodes]);
    assert_eq!(answers(3, &[CASE_2, reserve(64), reserve(64)]), [Done, Done, Covered]);
    assert_eq!(least_nodes(&[reserve(0), reserve(64)]), 3);
    assert_eq!(least_nodes(&[reserve(LAST)]), 11);
    assert_eq!(least_nodes(&[reserve(0), reserve(LAST)]), 21);
    // Order 6 at 0 takes the one node.
    assert_eq!(answers(1, &[store(0, 6, 3), reserve(5)]), [Done, Covered]);
}

#[test]
fn it_is_no_entry() {
    let commands = [reserve(5), load(5), mark(5, 0), Command::Unmark { index: 5, mark: 2 }];
    assert_eq!(answers(1, &commands)[1..], [Answer::Absent; 3]);
    assert_eq!(last_reply(1, &commands[..2]).count, 1);
    // Each of the slots 0 to 63 is passed, and then the head's block.
    for filter in 0..=FIND_ANY {
        let reply = last_reply(1, &[reserve(5), find(0, LAST, filter, 100)]);
        assert_eq!((reply.answer, reply.count), (Answer::Ended, 65));
        let reply = last_reply(1, &[reserve(0), find(0, LAST, filter, 1)]);
        assert_eq!((reply.paused_at(), reply.count), (Some(1), 1));
    }
    let (_, mut pool) = run(1, &[reserve(5), store(7, 0, 3), reserve(9)]);
    assert_eq!(bases(&mut pool, 0, LAST, FIND_ANY), [7]);
}

#[test]
fn a_store_takes_its_place_and_an_erase_ends_it() {
    let reply = last_reply(1, &[reserve(5), store(5, 0, 9)]);
    assert_eq!(reply.done().map(|entry| (entry.base, entry.word)), Ok((5, Word(9))));
    let (reply, pool) = run(1, &[reserve(8), reserve(13), store(8, 3, 9)]);
    assert_eq!(reply.done().map(|entry| (entry.base, entry.last())), Ok((8, 15)));
    assert!((9..16).all(|at| slot(&pool, 0, at) == 34));
    let (reply, pool) = run(1, &[reserve(5), erase(5)]);
    assert_eq!(reply.done(), Ok(Entry::reserved(5)));
    assert_eq!((free_nodes(&pool), pool.words()[1]), (1, 0));
    assert_eq!(answer(1, &[reserve(5), erase(5), erase(5)]), Answer::Absent);
}

#[test]
fn a_list_has_it_with_the_word_0() {
    let (_, pool) = run(3, &[reserve(0), CASE_3, mark(64, 1), reserve(70)]);
    let list = pool.list(..).expect("a good pool");
    assert_eq!(list.bytes()[..21], [&[32, 0, 18][..], &[0; 18]].concat());
    let lines: Vec<String> = list.clone().map(|entry| entry.to_string()).collect();
    assert_eq!(lines, ["0 reserved", "64 order 0 value 2 marks 1", "70 reserved"]);
    let reserved: Vec<bool> = list.map(Entry::is_reserved).collect();
    assert_eq!(reserved, [true, false, true]);
    assert_eq!(pool.list(1..=69).expect("a good pool").len(), 1);
}

/// A reserved index has order 0 and no marks; other bytes with the word 0 are no entry of a list.
#[test]
fn listed_bytes_of_a_reserved_index() {
    let bytes = Entry::reserved(70).listed();
    assert_eq!(Entry::read_listed(&bytes), Some(Entry::reserved(70)));
    for (place, byte) in [(11, 1), (11, 63), (20, 1), (20, 4)] {
        let mut other = bytes;
        other[place] = byte;
        assert_eq!(Entry::read_listed(&other), None, "byte {place}");
        assert_eq!(Listing::read(other.to_vec()).map_err(|bad| bad.place), Err(0));
    }
}

#[test]
fn as_text() {
    let lines = [
        (last_reply(1, &[reserve(5)]), "reserve: done, 5 reserved"),
        (
            last_reply(1, &[reserve(0), reserve(0)]),
            "reserve: index is covered by an entry or reserved",
        ),
        (last_reply(1, &[reserve(64)]), "reserve: too few free nodes"),
        (last_reply(1, &[reserve(5), erase(5)]), "erase: done, 5 reserved"),
        (last_reply(1, &[reserve(5), load(5)]), "load: no entry covers the index, count 1"),
    ];
    for (reply, text) in lines {
        assert_eq!(reply.to_string(), text);
    }
    assert_eq!(reserve(LAST).to_string(), "reserve max");
    assert_eq!(Tag::from_byte(7), Some(Tag::Reserve));
    assert_eq!(Tag::from_byte(8), None);
}

/// The word stands where an entry of order 0 could, without marks, and nowhere else.
#[test]
fn the_check_of_its_word() {
    let checked = |words: &[(usize, u64)]| {
        let (_, mut pool) = run(1, &[reserve(5), store(6, 0, 3)]);
        words.iter().for_each(|(place, word)| pool.words_mut()[*place] = *word);
        // A right count, so that it is the word that is told.
        pool.words_mut()[layout::count_place(0)] = layout::filled_slots(pool.words(), 0);
        pool.check().is_ok()
    };
    let (at, marks) = (|slot| layout::slot_place(0, slot), layout::mark_place(0, 0));
    assert!(checked(&[]) && checked(&[(at(6), 1030)]) && checked(&[(at(63), 1030)]));
    // Mark 0 of slot 5, with the anchor's; the head; the shift 6; words beside it.
    assert!(!checked(&[(marks, 1 << 5), (2, 1)]) && checked(&[(marks, 1 << 6), (2, 1)]));
    assert!(!checked(&[(1, 1030)]) && !checked(&[(layout::node_place(0), 7)]));
    assert!(!checked(&[(at(5), 1026)]) && !checked(&[(at(5), 1034)]));
    // A sibling of the entry in slot 6, but none of what is reserved.
    assert!(checked(&[(at(7), 26)]) && !checked(&[(at(6), 22)]));
}
