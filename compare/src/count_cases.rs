//! Filled counts (P7) with figures by hand, and command by command against reference.

use crate::cases::{agree, records, store, store_order, Case};
use crate::lend::{Call, Lender};
use crate::list::CallList;
use crate::reserve_cases::{checked, node};
use xapool_host::Command;

/// The words of a pool of 4 nodes, and where each has its filled count: the third of its 70 words.
const FOUR_NODES: usize = 284;
const COUNTS: [usize; 4] = [6, 76, 146, 216];

pub fn count_cases() -> Vec<Case> {
    [figures(), against_reference(), checks()].concat()
}

/// By figures: the filled counts of a pool of 4 nodes after these commands.
fn counts(commands: &[Command], wanted: [u64; 4]) -> Option<String> {
    let run = Call::Run { batch: records(commands), reply: 24 * commands.len() };
    let list = CallList { words: vec![0; FOUR_NODES], calls: vec![Call::Init, run] };
    let mut lender = Lender::new();
    lender.set_pool(&list.words);
    list.calls.iter().for_each(|call| drop(lender.call(call, FOUR_NODES)));
    let found = COUNTS.map(|place| lender.pool(FOUR_NODES)[place]);
    (found != wanted).then(|| format!("{}counts {found:?}, not {wanted:?}", list.show()))
}

/// Case 3: the head, node 0, leads to nodes 1 and 2, which have one entry each.
fn figures() -> Vec<Case> {
    let three = [store(0, 3), store(64, 5)];
    let after = |more: &[Command]| [&three[..], more].concat();
    let (erase, reserve) = (|index| Command::Erase { index }, |index| Command::Reserve { index });
    let filled: Vec<Command> = (0..64).map(|index| store(index, 3)).collect();
    let mark = Command::Mark { index: 64, mark: 0 };
    vec![
        ("count: an entry as head", counts(&three[..1], [0; 4])),
        ("count: case 3", counts(&three, [2, 1, 1, 0])),
        ("count: siblings", counts(&after(&[store_order(8, 3, 7)]), [2, 9, 1, 0])),
        ("count: a reservation", counts(&after(&[reserve(65), reserve(64)]), [2, 1, 2, 0])),
        ("count: over an entry", counts(&after(&[store(64, 9), mark]), [2, 1, 1, 0])),
        ("count: a node more", counts(&after(&[store(4095, 7)]), [3, 1, 1, 1])),
        ("count: a node goes", counts(&after(&[store_order(64, 6, 9)]), [2, 1, 0, 0])),
        ("count: an erase", counts(&after(&[store(66, 7), erase(64)]), [2, 1, 1, 0])),
        ("count: all erased", counts(&after(&[erase(64), erase(0)]), [0; 4])),
        ("count: answer 11", counts(&after(&[store(4096, 7)]), [2, 1, 1, 0])),
        ("count: a full node", counts(&filled, [64, 0, 0, 0])),
        ("count: order 63", counts(&[store_order(1 << 63, 63, 5)], [8, 0, 0, 0])),
    ]
}

/// Stores over several slots, over entries and nodes, and erases that empty nodes again.
fn against_reference() -> Vec<Case> {
    let erase = |index| Command::Erase { index };
    let reserve = |index| Command::Reserve { index };
    let runs = [store(8, 3), store(13, 5), store_order(8, 3, 7), store_order(0, 5, 9), erase(31)];
    let taller = [store(0, 3), reserve(70), store(4096, 7), erase(4096), erase(70)];
    let wider = [store(64, 3), store(127, 5), store_order(64, 6, 7), store(64, 9), erase(64)];
    vec![
        ("count against reference, runs of slots", agree(2, &runs)),
        ("count against reference, a taller head", agree(6, &taller)),
        ("count against reference, nodes that go", agree(3, &wider)),
    ]
}

/// Node 0 has its filled count in word 6 and slot j in word 10 + j; node 1, which is free, its count
/// in word 76.
fn checks() -> Vec<Case> {
    let two = [(15, 3), (16, 5)];
    let with = |count: u64| node(0, &[&two[..], &[(6, count)]].concat());
    let run = |count: u64| node(0, &[(18, 7), (19, 34), (6, count)]);
    let free = |count: u64| node(0, &[&two[..], &[(76, count)]].concat());
    vec![
        ("check: two entries, count 2", checked(&with(2), 0)),
        ("check: two entries, count 3", checked(&with(3), 2)),
        ("check: two entries, count 1", checked(&with(1), 2)),
        ("check: two entries, count 0", checked(&with(0), 2)),
        ("check: two entries, count 2^32 + 2", checked(&with((1 << 32) + 2), 2)),
        ("check: two entries, count 2^63 + 2", checked(&with((1 << 63) + 2), 2)),
        ("check: an entry of two slots, count 2", checked(&run(2), 0)),
        ("check: an entry of two slots, count 1", checked(&run(1), 2)),
        ("check: a free node, count 0", checked(&free(0), 0)),
        ("check: a free node, count 1", checked(&free(1), 2)),
        ("check: an entry as head, a count", checked(&[(1, 3), (76, 1)], 2)),
        ("check: an empty pool, a count", checked(&[(6, 1)], 2)),
    ]
}
