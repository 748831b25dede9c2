//! Preparing the script of a command (request P11). Places and values are worked out by hand from R27 to R31 and R35: node
//! n begins at 4 + 70n with shift + 1, owner, filled count and three mark words, its slot j is at 10 + 70n + j, and its
//! word is 4098 + 4n.

use crate::helpers::*;
use reference::awkward::Commands;
use reference::batch::Command;
use reference::calls::{check, run};
use reference::random::Random;
use reference::scripts::{apply, prepare};

/// What stands in the slice before.
fn slice(room: usize) -> Vec<u64> {
    (0..room as u64).map(|place| place | 0xABCD << 48).collect()
}

/// The whole of a call: answer and number, and that pool and slice are what they were but for this start of the slice.
fn expect(words: &[u64], record: &[u8], room: usize, answer: u64, number: u64, start: &[u64]) {
    let (before, mut space, mut wanted) = (words.to_vec(), slice(room), slice(room));
    wanted[..start.len()].copy_from_slice(start);
    let given = prepare(words, record, &mut space);
    assert_eq!(given, outcome(answer, number), "{record:?} in {room} words");
    assert_eq!(space, wanted, "{record:?} in {room} words");
    assert_eq!(words, before);
}

/// The command is prepared as this script in every room that is enough, and answered 4 in any other. Applied it leaves
/// what the command leaves.
fn prepares(pool: &mut Pool, command: Command, script: &[u64]) {
    let (record, size) = (bytes_of(command), script.len());
    for room in [size, size + 1, size + 7, 10 * size + 100] {
        expect(&pool.words, &record, room, 0, size as u64, script);
    }
    for room in 0..size {
        expect(&pool.words, &record, room, 4, size as u64, &[]);
    }
    let mut applied = pool.words.clone();
    assert_eq!(apply(&mut applied, script), outcome(0, 0));
    pool.run(&record, 1);
    assert_eq!(applied, pool.words);
}

/// The command is refused with its own answer, whatever the room.
fn refuses(pool: &Pool, command: Command, answer: u64) {
    for room in [0, 1, 2, 60, 1000] {
        expect(&pool.words, &bytes_of(command), room, answer, 0, &[]);
    }
}

fn store(index: u64, order: u8, word: u64) -> Command {
    Command::Store { index, order, word }
}

fn mark(index: u64, mark: u8) -> Command {
    Command::Mark { index, mark }
}

fn unmark(index: u64, mark: u8) -> Command {
    Command::Unmark { index, mark }
}

fn erase(index: u64) -> Command {
    Command::Erase { index }
}

fn reserve(index: u64) -> Command {
    Command::Reserve { index }
}

/// Case 2, then case 3: node 0 of shift 6, and 1 and 2 below its slots 0 and 1, the entries in slot 0 of each. Then case
/// 11: all these words go.
#[test]
fn cases_2_3_and_11() {
    let mut pool = Pool::fresh(3);
    prepares(&mut pool, store(0, 0, 3), &[1, 3]);
    let head = [1, 4098, 4, 7, 6, 2, 10, 4102, 11, 4106];
    let below = [74, 1, 75, 1, 76, 1, 80, 3, 144, 1, 145, 2, 146, 1, 150, 5];
    prepares(&mut pool, store(64, 0, 5), &[&head[..], &below].concat());
    let head = [1, 3, 4, 0, 6, 0, 10, 0, 11, 0];
    let below = [74, 0, 75, 0, 76, 0, 80, 0, 144, 0, 145, 0, 146, 0, 150, 0];
    prepares(&mut pool, erase(64), &[&head[..], &below].concat());
    prepares(&mut pool, erase(0), &[1, 0]);
}

/// Case 4: a new head, number 3, of shift 12 over the old one, which gets an owner: 1 + 64 * 3. Nodes 4 and 5 lead to
/// 4096.
#[test]
fn case_4_a_head_above_the_head() {
    let mut pool = case_3(6);
    let head = [1, 4110, 5, 193, 214, 13, 216, 2, 220, 4098, 221, 4114];
    let below = [284, 7, 285, 194, 286, 1, 290, 4118, 354, 1, 355, 257, 356, 1, 360, 7];
    prepares(&mut pool, store(4096, 0, 7), &[&head[..], &below].concat());
    let head = [1, 4098, 5, 0, 214, 0, 216, 0, 220, 0, 221, 0];
    let below = [284, 0, 285, 0, 286, 0, 290, 0, 354, 0, 355, 0, 356, 0, 360, 0];
    prepares(&mut pool, erase(4096), &[&head[..], &below].concat());
}

/// Case 8: the word in slot 8 and seven siblings with 34. Case 9: only the word is another; then the node is freed.
#[test]
fn cases_8_and_9_siblings() {
    let mut pool = Pool::fresh(1);
    let slots = [18, 7, 19, 34, 20, 34, 21, 34, 22, 34, 23, 34, 24, 34, 25, 34];
    prepares(&mut pool, store(8, 3, 7), &[&[1, 4098, 4, 1, 6, 8][..], &slots].concat());
    prepares(&mut pool, store(10, 0, 9), &[18, 9]);
    let slots = [18, 0, 19, 0, 20, 0, 21, 0, 22, 0, 23, 0, 24, 0, 25, 0];
    prepares(&mut pool, erase(11), &[&[1, 0, 4, 0, 6, 0][..], &slots].concat());
}

/// Case 10: node 1, in slot 1 of the head, is freed with its mark words, and in its stead stands the entry. The marks of
/// the slot and of the anchor, 0 and 1, are the same as before.
#[test]
fn case_10_a_node_freed_by_a_store() {
    let mut pool = Pool::fresh(2);
    prepares(
        &mut pool,
        store(64, 0, 5),
        &[1, 4098, 4, 7, 6, 1, 11, 4102, 74, 1, 75, 2, 76, 1, 80, 5],
    );
    prepares(&mut pool, store(65, 0, 9), &[76, 2, 81, 9]);
    prepares(&mut pool, mark(64, 0), &[2, 1, 7, 2, 77, 1]);
    prepares(&mut pool, mark(65, 1), &[2, 3, 8, 2, 78, 2]);
    let freed = [74, 0, 75, 0, 76, 0, 77, 0, 78, 0, 80, 0, 81, 0];
    prepares(&mut pool, store(64, 6, 13), &[&[11, 13][..], &freed].concat());
}

/// Cases 10a and 10b: mark 2 goes, from the slots above and the anchor too; mark 0 stays.
#[test]
fn cases_10a_and_10b_mark_2_goes() {
    let mut pool = case_2(1);
    prepares(&mut pool, mark(0, 0), &[2, 1]);
    prepares(&mut pool, mark(0, 2), &[2, 5]);
    prepares(&mut pool, store(0, 0, 3), &[2, 1]);
    let mut pool = Pool::fresh(3);
    // Node 0 of shift 12, node 1 in its slot 1, node 2 in slot 0 of that.
    pool.put(4096, 5);
    prepares(&mut pool, mark(4096, 0), &[2, 1, 7, 2, 77, 1, 147, 1]);
    prepares(&mut pool, mark(4096, 2), &[2, 5, 9, 2, 79, 1, 149, 1]);
    let siblings = [151, 2, 152, 2, 153, 2, 154, 2, 155, 2, 156, 2, 157, 2];
    let wider = [&[2, 1, 9, 0, 79, 0, 146, 8, 149, 0, 150, 7][..], &siblings].concat();
    prepares(&mut pool, store(4096, 3, 7), &wider);
}

/// A mark above stays while another slot has it (R122).
#[test]
fn marks_up_and_down() {
    let mut pool = case_3(3);
    prepares(&mut pool, mark(64, 0), &[2, 1, 7, 2, 147, 1]);
    prepares(&mut pool, mark(0, 0), &[7, 3, 77, 1]);
    prepares(&mut pool, unmark(64, 0), &[7, 1, 147, 0]);
    prepares(&mut pool, unmark(0, 0), &[2, 0, 7, 0, 77, 0]);
}

/// What changes no word is done with no word, in a slice of none too.
#[test]
fn a_script_of_no_words() {
    let mut pool = case_3(3);
    prepares(&mut pool, unmark(64, 1), &[]);
    prepares(&mut pool, store(64, 0, 5), &[]);
    prepares(&mut pool, mark(64, 1), &[2, 2, 8, 2, 148, 1]);
    prepares(&mut pool, mark(64, 1), &[]);
    prepares(&mut pool, store(64, 0, 5), &[]);
}

/// Case 13a: as head, in a node of shift 0, and with a store in its place.
#[test]
fn reservations() {
    let mut pool = Pool::fresh(1);
    prepares(&mut pool, reserve(0), &[1, 1030]);
    prepares(&mut pool, erase(0), &[1, 0]);
    prepares(&mut pool, reserve(5), &[1, 4098, 4, 1, 6, 1, 15, 1030]);
    prepares(&mut pool, store(5, 0, 9), &[15, 9]);
    prepares(&mut pool, erase(5), &[1, 0, 4, 0, 6, 0, 15, 0]);
}

/// Case 12: node 0 of shift 60, the word in slot 8, siblings of 8 in 9 to 15. Beside it order 63 at 0 has slots 0 to 7.
#[test]
fn case_12_the_widest_entries() {
    let mut pool = Pool::fresh(1);
    let slots = [18, 7, 19, 34, 20, 34, 21, 34, 22, 34, 23, 34, 24, 34, 25, 34];
    prepares(&mut pool, store(1 << 63, 63, 7), &[&[1, 4098, 4, 61, 6, 8][..], &slots].concat());
    prepares(&mut pool, mark(LAST, 2), &[2, 4, 9, 256]);
    let slots = [10, 5, 11, 2, 12, 2, 13, 2, 14, 2, 15, 2, 16, 2, 17, 2];
    prepares(&mut pool, store(0, 63, 5), &[&[6, 16][..], &slots].concat());
}

/// Each in the order of R81; that the slice is too small is said last.
#[test]
fn the_answers_of_the_command() {
    let mut pool = case_2(2);
    refuses(&pool, store(13, 64, 0), 5);
    refuses(&pool, store(64, 255, 5), 5);
    refuses(&pool, store(13, 3, 0), 14);
    refuses(&pool, store(65, 1, 5), 14);
    refuses(&pool, store(8, 3, 0), 6);
    refuses(&pool, store(64, 0, 1030), 6);
    refuses(&pool, mark(1, 3), 7);
    refuses(&pool, unmark(0, 255), 7);
    refuses(&pool, mark(1, 2), 10);
    refuses(&pool, unmark(LAST, 0), 10);
    refuses(&pool, erase(1), 10);
    // Three nodes are needed, and two are free.
    refuses(&pool, store(64, 0, 5), 11);
    refuses(&pool, reserve(64), 11);
    refuses(&pool, reserve(0), 15);
    // All of these need no node but the last: for that two nodes are needed, and one is free.
    pool.expect_store(8, 3, 7, gives(8, 3, 7, 0));
    pool.expect(reserve(1), gives(1, 0, 0, 0));
    refuses(&pool, reserve(15), 15);
    refuses(&pool, reserve(1), 15);
    refuses(&pool, mark(1, 0), 10);
    refuses(&pool, unmark(1, 0), 10);
    refuses(&pool, reserve(64), 11);
}

/// What a store frees is not free for it (R124). With order 6 over what is in node 0, of shift 0, that node goes and one of
/// shift 6 comes.
#[test]
fn freed_nodes_are_not_used_again() {
    let mut pool = Pool::fresh(1);
    pool.put(1, 5);
    refuses(&pool, store(0, 6, 7), 11);
    let mut pool = Pool::fresh(2);
    pool.put(1, 5);
    prepares(&mut pool, store(0, 6, 7), &[1, 4102, 4, 0, 6, 0, 11, 0, 74, 7, 76, 1, 80, 7]);
    // Now node 0 is the lowest free again.
    prepares(&mut pool, store(64, 0, 9), &[4, 1, 5, 66, 6, 1, 10, 9, 76, 2, 81, 4098]);
}

/// Not one whole record of a changing command: 3 with the number 0, whatever is wrong and wherever.
#[test]
fn other_bytes_are_answer_3() {
    let pool = case_3(3);
    let good = bytes_of(store(64, 0, 9));
    let find = Command::Find { first: 0, last: LAST, filter: 3, budget: 9 };
    let bad_find = Command::Find { first: 1, last: 0, filter: 9, budget: 0 };
    let mut all = vec![
        vec![],
        bytes_of(Command::Load { index: 64 }),
        bytes_of(Command::Load { index: 65 }),
        bytes_of(find),
        bytes_of(bad_find),
        good.repeat(2),
        [bytes_of(Command::Load { index: 0 }), good.clone()].concat(),
        [good.clone(), bytes_of(erase(0))].concat(),
        [good.clone(), vec![0]].concat(),
        [good.clone(), vec![1]].concat(),
        [good.clone(), good[..19].to_vec()].concat(),
        [vec![0], good.clone()].concat(),
        // The longest batch and one byte more.
        bytes_of(Command::Load { index: 0 }).repeat(2979)[..32_768].to_vec(),
        vec![1; 32_769],
    ];
    for command in [store(64, 0, 9), erase(64), mark(64, 0), unmark(64, 0), reserve(65)] {
        let record = bytes_of(command);
        all.extend((0..record.len()).map(|cut| record[..cut].to_vec()));
        for length in [0, record[2] - 1, record[2] + 1, 255] {
            all.push([&[record[0], 0, length], &record[3..]].concat());
        }
        all.push([&[record[0], 1, record[2]], &record[3..]].concat());
        // Long enough for the length that is named, and yet not the tag's.
        all.push([&[record[0], 0, record[2] + 1], &record[3..], &[0]].concat());
        for tag in [0, 8, 129, 131, 255] {
            all.push([&[tag], &record[1..]].concat());
        }
    }
    for bytes in all {
        for room in [0, 1, 50] {
            expect(&pool.words, &bytes, room, 3, 0, &[]);
        }
    }
}

/// 1, then 2, then 3, then the command's own.
#[test]
fn the_order_of_answers() {
    let (good, bad) = (bytes_of(store(0, 0, 3)), bytes_of(store(0, 0, 0)));
    for record in [&good[..], &bad, &[], &[9]] {
        for length in [0, 4, 73, 75, 1_146_954] {
            expect(&vec![0; length], record, 0, 1, 0, &[]);
            expect(&vec![0; length], record, 9, 1, 0, &[]);
        }
        // No pool: the first word is not 1.
        expect(&[0; 74], record, 0, 2, 0, &[]);
        expect(&[0; 74], record, 9, 2, 0, &[]);
    }
    let mut words = case_3(3).words;
    // A filled count that is wrong.
    words[6] = 3;
    assert_eq!(check(&words), outcome(2, 0));
    for record in [&good[..], &bad, &[], &[9]] {
        expect(&words, record, 0, 2, 0, &[]);
        expect(&words, record, 99, 2, 0, &[]);
    }
}

/// On any commands: the own answers are those of the reply, and the script leads to the words of the run.
#[test]
fn it_goes_with_run() {
    let mut done = 0;
    for seed in 0..60 {
        let mut random = Random::new(seed);
        let mut source = Commands::new(Random::new(random.word()));
        let mut pool = Pool::fresh(1 + random.below(25) as usize);
        for _ in 0..30 {
            let record = bytes_of(source.command());
            let mut space = slice(2 * pool.words.len());
            let given = prepare(&pool.words, &record, &mut space);
            let (mut after, mut reply) = (pool.words.clone(), [0; 24]);
            assert_eq!(run(&mut after, &record, &mut reply), outcome(0, 1));
            match record[0] {
                2 | 6 => assert_eq!(given, outcome(3, 0)),
                _ => assert_eq!(given.answer, u64::from(reply[3])),
            }
            let size = given.number as usize;
            assert!(given.answer == 0 || size == 0);
            assert_eq!(space[size..], slice(space.len())[size..]);
            assert_eq!(apply(&mut pool.words, &space[..size]), outcome(0, 0));
            assert_eq!(pool.words, after);
            assert!(space[..size].chunks(2).is_sorted_by(|a, b| a[0] < b[0]));
            done += usize::from(size > 0);
        }
    }
    assert!(done > 600, "{done}");
}
