//! Preparing a script (P11) with figures by hand, on a pool, a record and a slice that end at an unreadable page. Node n
//! begins at word 4 + 70n with shift + 1, owner, filled count and three mark words, its slot j is word 10 + 70n + j, and
//! its own word is 4098 + 4n (R28 to R31).

use crate::cases::{records, store, store_order, Case};
use crate::prepares::by_library;
use reference::pool::{pool_length, MOST_NODES};
use xapool_host::{raw, Command};

/// A pool just initialised, after these commands.
fn pool(nodes: usize, commands: &[Command]) -> Vec<u64> {
    let (mut words, mut reply) = (vec![0; pool_length(nodes)], vec![0; 24 * commands.len()]);
    let _ = raw::init(&mut words);
    let _ = raw::run(&mut words, &records(commands), &mut reply);
    words
}

/// What is wrong, in a slice of so many words: answer and number, and the start of the slice, all else of it staying.
fn gives(
    words: &[u64],
    record: &[u8],
    room: usize,
    answer: u64,
    number: usize,
    start: &[u64],
) -> Option<String> {
    let mut wanted: Vec<u64> = (0..room as u64).map(|place| place ^ 0x5A5A).collect();
    let mut found = wanted.clone();
    wanted[..start.len()].copy_from_slice(start);
    let given = by_library(words, record, &mut found);
    let right = (given.answer, given.number) == (answer, number as u64) && found == wanted;
    (!right).then(|| {
        let given = (given.answer, given.number);
        format!("in {room} words: wanted {answer}, {number}, found {given:?}; slice {found:x?}, not {wanted:x?}")
    })
}

/// Done with this script in every room that is enough, 4 in any other.
fn done(words: &[u64], command: Command, script: &[u64]) -> Option<String> {
    let (record, size) = (records(&[command]), script.len());
    let enough = [size, size + 1, size + 9];
    let enough = enough.iter().find_map(|room| gives(words, &record, *room, 0, size, script));
    enough.or_else(|| (0..size).find_map(|room| gives(words, &record, room, 4, size, &[])))
}

/// Refused with this answer in every room.
fn refused(words: &[u64], record: &[u8], answer: u64) -> Option<String> {
    [0, 1, 2, 500].iter().find_map(|room| gives(words, record, *room, answer, 0, &[]))
}

pub fn prepare_cases() -> Vec<Case> {
    [scripts(), answers(), bytes(), sizes()].concat()
}

fn scripts() -> Vec<Case> {
    let (two, three) = (store(0, 3), [store(0, 3), store(64, 5)]);
    let mark = |index, mark| Command::Mark { index, mark };
    let unmark = |index, mark| Command::Unmark { index, mark };
    let (erase, reserve) = (|index| Command::Erase { index }, |index| Command::Reserve { index });
    let eight = store_order(8, 3, 7);
    let ten = [store(64, 5), store(65, 9), mark(64, 0), mark(65, 1)];
    let case_3 = [
        1, 4098, 4, 7, 6, 2, 10, 4102, 11, 4106, 74, 1, 75, 1, 76, 1, 80, 3, 144, 1, 145, 2, 146,
        1, 150, 5,
    ];
    let case_11 = [
        1, 3, 4, 0, 6, 0, 10, 0, 11, 0, 74, 0, 75, 0, 76, 0, 80, 0, 144, 0, 145, 0, 146, 0, 150, 0,
    ];
    let case_4 = [
        1, 4110, 5, 193, 214, 13, 216, 2, 220, 4098, 221, 4114, 284, 7, 285, 194, 286, 1, 290,
        4118, 354, 1, 355, 257, 356, 1, 360, 7,
    ];
    let case_8 =
        [1, 4098, 4, 1, 6, 8, 18, 7, 19, 34, 20, 34, 21, 34, 22, 34, 23, 34, 24, 34, 25, 34];
    let case_9 = [1, 0, 4, 0, 6, 0, 18, 0, 19, 0, 20, 0, 21, 0, 22, 0, 23, 0, 24, 0, 25, 0];
    let case_10 = [11, 13, 74, 0, 75, 0, 76, 0, 77, 0, 78, 0, 80, 0, 81, 0];
    let wider = [
        2, 1, 9, 0, 79, 0, 146, 8, 149, 0, 150, 7, 151, 2, 152, 2, 153, 2, 154, 2, 155, 2, 156, 2,
        157, 2,
    ];
    let widest =
        [1, 4098, 4, 61, 6, 8, 18, 7, 19, 34, 20, 34, 21, 34, 22, 34, 23, 34, 24, 34, 25, 34];
    let freed = [1, 4102, 4, 0, 6, 0, 11, 0, 74, 7, 76, 1, 80, 7];
    let reused = [4, 1, 5, 66, 6, 1, 10, 9, 76, 2, 81, 4098];
    let matched = [store(4096, 5), mark(4096, 0), mark(4096, 2)];
    let head_matched = [two, mark(0, 0), mark(0, 2)];
    let both = [three[0], three[1], mark(64, 0), mark(0, 0)];
    vec![
        ("prepare: case 2", done(&pool(1, &[]), two, &[1, 3])),
        ("prepare: case 3", done(&pool(3, &[two]), three[1], &case_3)),
        ("prepare: case 11", done(&pool(3, &three), erase(64), &case_11)),
        ("prepare: case 4", done(&pool(6, &three), store(4096, 7), &case_4)),
        ("prepare: case 8", done(&pool(1, &[]), eight, &case_8)),
        ("prepare: case 9, a store", done(&pool(1, &[eight]), store(10, 9), &[18, 9])),
        ("prepare: case 9, an erase", done(&pool(1, &[eight]), erase(11), &case_9)),
        ("prepare: case 10", done(&pool(2, &ten), store_order(64, 6, 13), &case_10)),
        ("prepare: case 10a", done(&pool(3, &matched), store_order(4096, 3, 7), &wider)),
        ("prepare: case 10b", done(&pool(1, &head_matched), two, &[2, 1])),
        ("prepare: case 12", done(&pool(1, &[]), store_order(1 << 63, 63, 7), &widest)),
        ("prepare: a mark", done(&pool(3, &three), mark(64, 0), &[2, 1, 7, 2, 147, 1])),
        ("prepare: a brother's mark", done(&pool(3, &both), unmark(64, 0), &[7, 1, 147, 0])),
        ("prepare: a mark that is there", done(&pool(3, &both), mark(64, 0), &[])),
        ("prepare: a mark that is not", done(&pool(3, &both), unmark(64, 1), &[])),
        ("prepare: the same store", done(&pool(3, &three), three[1], &[])),
        ("prepare: reserve 0", done(&pool(1, &[]), reserve(0), &[1, 1030])),
        ("prepare: reserve 5", done(&pool(1, &[]), reserve(5), &[1, 4098, 4, 1, 6, 1, 15, 1030])),
        ("prepare: over a reservation", done(&pool(1, &[reserve(5)]), store(5, 9), &[15, 9])),
        (
            "prepare: a node freed, one allocated",
            done(&pool(2, &[store(1, 5)]), store_order(0, 6, 7), &freed),
        ),
        (
            "prepare: the freed node next",
            done(&pool(2, &[store(1, 5), store_order(0, 6, 7)]), store(64, 9), &reused),
        ),
    ]
}

/// Each before 4.
fn answers() -> Vec<Case> {
    let (two, eight) = (store(0, 3), store_order(8, 3, 7));
    let mark = |index, mark| Command::Mark { index, mark };
    let (erase, reserve) = (|index| Command::Erase { index }, |index| Command::Reserve { index });
    let says = |nodes: usize, before: &[Command], command: Command, answer: u64| {
        refused(&pool(nodes, before), &records(&[command]), answer)
    };
    let unmark = Command::Unmark { index: 5, mark: 2 };
    vec![
        ("prepare: order 64", says(2, &[two], store_order(13, 64, 0), 5)),
        ("prepare: unaligned", says(2, &[two], store_order(13, 3, 0), 14)),
        ("prepare: entry 0", says(2, &[two], store_order(8, 3, 0), 6)),
        ("prepare: entry 1030", says(2, &[two], store(0, 1030), 6)),
        ("prepare: mark 3", says(2, &[two], mark(9, 3), 7)),
        ("prepare: mark of nothing", says(2, &[two], mark(9, 2), 10)),
        ("prepare: unmark of a reservation", says(2, &[two, reserve(5)], unmark, 10)),
        ("prepare: erase of nothing", says(2, &[two], erase(1), 10)),
        ("prepare: a store of three nodes, two free", says(2, &[two], store(64, 5), 11)),
        ("prepare: a reserve of three nodes, two free", says(2, &[two], reserve(64), 11)),
        ("prepare: what is freed is not free", says(1, &[store(1, 5)], store_order(0, 6, 7), 11)),
        ("prepare: reserve of an entry", says(1, &[two, eight], reserve(15), 15)),
        ("prepare: reserve of a reservation", says(1, &[two, reserve(1)], reserve(1), 15)),
    ]
}

/// What is not the one record of a changing command.
fn bytes() -> Vec<Case> {
    let words = pool(3, &[store(0, 3), store(64, 5)]);
    let good = records(&[store(64, 9)]);
    let load = records(&[Command::Load { index: 64 }]);
    let find = Command::Find { first: 0, last: u64::MAX, filter: 3, budget: 9 };
    let refuses = |bytes: &[u8]| refused(&words, bytes, 3);
    let changed = |at: usize, byte: u8| {
        let mut bytes = good.clone();
        bytes[at] = byte;
        refuses(&bytes)
    };
    vec![
        ("prepare: no bytes", refuses(&[])),
        ("prepare: a load", refuses(&load)),
        ("prepare: a find", refuses(&records(&[find]))),
        ("prepare: two records", refuses(&good.repeat(2))),
        ("prepare: a record and a load", refuses(&[&good[..], &load].concat())),
        ("prepare: a byte behind", refuses(&[&good[..], &[0]].concat())),
        ("prepare: cut", (0..good.len()).find_map(|cut| refuses(&good[..cut]))),
        ("prepare: tag 0", changed(0, 0)),
        ("prepare: tag 8", changed(0, 8)),
        ("prepare: another tag", changed(0, 3)),
        ("prepare: length 16", changed(2, 16)),
        ("prepare: length 18", changed(2, 18)),
        ("prepare: length 273", changed(1, 1)),
        ("prepare: 32,768 bytes", refuses(&load.repeat(2979)[..32_768])),
        ("prepare: 32,769 bytes", refuses(&load.repeat(2979))),
    ]
}

/// 1 before 2 before 3 before the command's own, and the largest pool.
fn sizes() -> Vec<Case> {
    let [good, bad, none] = [records(&[store(0, 3)]), records(&[store(0, 0)]), Vec::new()];
    let each = |words: &[u64], answer| {
        [&good, &bad, &none].into_iter().find_map(|record| refused(words, record, answer))
    };
    let mut miscounted = pool(3, &[store(0, 3), store(64, 5)]);
    miscounted[6] = 3;
    let largest = pool(MOST_NODES, &[store(1, 5)]);
    vec![
        ("prepare: no words", each(&[], 1)),
        ("prepare: 73 words", each(&[0; 73], 1)),
        ("prepare: 75 words", each(&[0; 75], 1)),
        ("prepare: a node more", each(&vec![0; pool_length(MOST_NODES + 1)], 1)),
        ("prepare: words that are no pool", each(&[0; 74], 2)),
        ("prepare: a wrong filled count", each(&miscounted, 2)),
        ("prepare: the largest pool", done(&largest, store(2, 9), &[6, 2, 12, 9])),
    ]
}
