//! The plain engine (P12) by the wrapper: its slices, its refusals, its replies beside a pool's.

use xapool_host::layout::RESERVED_WORD;
use xapool_host::{
    bytes_of_words, Answer, BatchBuilder, Command, Engine, Entry, Plain, Pool, Refusal, Walk, Word,
    FIND_ANY, MOST_ENTRIES, PLAIN_FILE,
};

fn store(index: u64, order: u8, word: u64) -> Command {
    Command::Store { index, order, word: Word(word) }
}

fn answers(plain: &mut Plain, commands: &[Command]) -> Vec<Answer> {
    let replies = plain.run_all(commands.iter().copied()).expect("a good list");
    replies.iter().map(|reply| reply.answer).collect()
}

/// A reservation at 7, an entry of order 3 at 64 with mark 1.
fn two() -> Plain<'static> {
    let mut plain = Plain::new(3).expect("room");
    let commands =
        [store(64, 3, 5), Command::Reserve { index: 7 }, Command::Mark { index: 70, mark: 1 }];
    assert_eq!(answers(&mut plain, &commands), [Answer::Done; 3]);
    plain
}

#[test]
fn rooms() {
    for room in [0, 1, 40, MOST_ENTRIES] {
        let plain = Plain::new(room).expect("a good room");
        assert_eq!((plain.room(), plain.in_use()), (room, 0));
        assert_eq!(plain.check(), Ok(()));
    }
    assert_eq!(Plain::new(MOST_ENTRIES + 1).err(), Some(Refusal::SliceLength));
    assert_eq!(Plain::new(usize::MAX).err(), Some(Refusal::SliceLength));
}

#[test]
fn slices_are_the_list() {
    let plain = two();
    assert_eq!(plain.slices(), [[7, 64, 0], [0, 3, 0], [RESERVED_WORD, 5, 0], [0, 2, 0]]);
    let entries = plain.entries().expect("a list");
    assert_eq!(
        entries.iter().map(Entry::to_string).collect::<Vec<_>>(),
        ["7 reserved", "64 order 3 value 2 marks 1"]
    );
    assert_eq!((plain.room(), plain.in_use()), (3, 2));
}

#[test]
fn lent_slices_are_written_and_nothing_else() {
    let mut words = [0xEE; 12];
    let (index, rest) = words.split_at_mut(3);
    let (order, rest) = rest.split_at_mut(3);
    let (word, marks) = rest.split_at_mut(3);
    let mut plain = Plain::over([index, order, word, marks]);
    assert_eq!(plain.check(), Err(Refusal::NotAList));
    assert_eq!(plain.init(), Ok(()));
    assert_eq!(answers(&mut plain, &[store(9, 0, 5)]), [Answer::Done]);
    assert_eq!(plain.clone().into_slices(), plain.into_slices());
    assert_eq!(words, [9, 0, 0, 0, 0, 0, 5, 0, 0, 0, 0, 0]);
}

#[test]
fn refusals_say_what_is_wrong_and_alter_nothing() {
    let unequal = Plain::from_slices([vec![0; 3], vec![0; 3], vec![0; 2], vec![0; 3]]);
    let mut batch = BatchBuilder::new();
    batch.push(store(1, 0, 3)).expect("room");
    for (mut plain, refusal) in [
        (unequal, Refusal::SliceLength),
        (Plain::from_slices([(); 4].map(|()| vec![0; 4097])), Refusal::SliceLength),
        (Plain::from_slices([(); 4].map(|()| vec![2; 1])), Refusal::NotAList),
    ] {
        let before = plain.clone().into_slices();
        assert_eq!(plain.check(), Err(refusal));
        assert_eq!(plain.run(&batch).err(), Some(refusal));
        assert_eq!(plain.run_all([]).map_err(Refusal::from).err(), Some(refusal));
        assert_eq!(plain.entries().err(), Some(refusal));
        assert_eq!(plain.into_slices(), before);
    }
    let mut plain = two();
    let before = plain.clone().into_slices();
    assert_eq!(plain.run_bytes(&[9], &mut [0; 24]), Err(Refusal::BadBatch { place: 0 }));
    assert_eq!(
        plain.run_bytes(batch.bytes(), &mut [0; 23]),
        Err(Refusal::ReplySpace { commands: 1 })
    );
    assert_eq!(plain.into_slices(), before);
    let answer = |refusal: Refusal| refusal.answer().map(Answer::number);
    assert_eq!(answer(Refusal::SliceLength), Some(1));
    assert_eq!(answer(Refusal::NotAList), Some(2));
    assert_eq!(Refusal::NotAList.to_string(), "the slices do not hold a list and then zeros");
}

#[test]
fn no_room_is_11_and_finds_do_not_pause() {
    let mut plain = two();
    let find = |filter, budget| Command::Find { first: 0, last: u64::MAX, filter, budget };
    use Answer::{Absent, BadOrder, Covered, Done, Ended, NoBudget, TooFewNodes};
    let commands = [
        store(100, 0, 5),
        store(101, 0, 5),
        Command::Reserve { index: 102 },
        Command::Reserve { index: 7 },
        store(101, 64, 5),
        Command::Load { index: 7 },
        find(FIND_ANY, 1),
        find(2, 1),
        find(1, 0),
        store(7, 0, 9),
    ];
    let wanted =
        [Done, TooFewNodes, TooFewNodes, Covered, BadOrder, Absent, Done, Ended, NoBudget, Done];
    assert_eq!(answers(&mut plain, &commands), wanted);
}

/// Code that takes either engine: the replies are the same but for the counts.
fn by(engine: &mut impl Engine) -> Vec<(Answer, u64, u8, u64, u8)> {
    let mut commands = Vec::new();
    for index in 0..300 {
        commands.push(store(index * 3, 0, 2 * index + 1));
        commands.push(Command::Mark { index: index * 3, mark: (index % 4) as u8 });
        commands.push(Command::Load { index: index * 2 });
    }
    commands.push(store(0, 8, 7));
    for first in 0..300 {
        commands.push(Command::Find { first, last: 800, filter: (first % 4) as u8, budget: 9999 });
        commands.push(Command::Erase { index: first * 5 });
    }
    let replies = engine.run_all(commands).expect("nothing is refused");
    let seen = |reply: &xapool_host::Reply| {
        (reply.answer, reply.index, reply.order, reply.word.0, reply.marks.0)
    };
    replies.iter().map(seen).collect()
}

#[test]
fn both_engines_reply_the_same() {
    let mut pool = Pool::new(40).expect("nodes");
    let mut plain = Plain::new(400).expect("room");
    assert_eq!(by(&mut pool), by(&mut plain));
    let listed: Vec<Entry> = pool.list(..).expect("a list").collect();
    assert_eq!(plain.entries().expect("a list"), listed);
}

#[test]
fn a_walk_takes_either() {
    let mut plain = two();
    let mut walk = Walk::over(.., FIND_ANY);
    let entry = walk.next_in(&mut plain).expect("a list").expect("an entry");
    assert_eq!((entry.base, entry.order), (64, 3));
    assert_eq!(walk.next_in(&mut plain), Ok(None));
}

#[test]
fn saved_and_read_again() {
    for plain in [two(), Plain::new(0).expect("room"), Plain::new(4096).expect("room")] {
        let bytes = plain.to_bytes();
        assert_eq!(bytes.len(), 16 + 32 * plain.room());
        assert_eq!(bytes[..8], PLAIN_FILE);
        let again = Plain::from_bytes(&bytes).expect("a list");
        assert_eq!(again.slices(), plain.slices());
    }
}

#[test]
fn what_was_not_saved_so_is_refused() {
    let good = two().to_bytes();
    // Cut anywhere, or longer.
    for size in 0..good.len() {
        assert_eq!(Plain::from_bytes(&good[..size]).err(), Some(Refusal::SliceLength), "{size}");
    }
    assert!(Plain::from_bytes(&[&good[..], &[0; 8]].concat()).is_err());
    assert!(Plain::from_bytes(&[&good[..], &[0; 32]].concat()).is_err());
    // Another room, also the largest number.
    for room in [0, 2, 4, 4097, u64::MAX] {
        let mut bytes = good.clone();
        bytes[8..16].copy_from_slice(&bytes_of_words(&[room]));
        assert_eq!(Plain::from_bytes(&bytes).err(), Some(Refusal::SliceLength), "{room}");
    }
    // No list, and a pool.
    let mut bytes = good;
    bytes[16] = 65;
    assert_eq!(Plain::from_bytes(&bytes).err(), Some(Refusal::NotAList));
    let pool = Pool::new(1).expect("a node").to_bytes();
    assert_eq!(Plain::from_bytes(&pool).err(), Some(Refusal::SliceLength));
}
