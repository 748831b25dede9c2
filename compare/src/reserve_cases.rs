//! Reservations (P6) with figures by hand, and command by command against reference.

use crate::cases::{agree, replies, store, store_order, Case};
use crate::lend::{Call, Lender};
use crate::pools::recount;
use reference::pool::pool_length;
use xapool_host::Command;

const MAX: u64 = u64::MAX;

fn reserve(index: u64) -> Command {
    Command::Reserve { index }
}

fn erase(index: u64) -> Command {
    Command::Erase { index }
}

fn find(first: u64, filter: u8, budget: u16) -> Command {
    Command::Find { first, last: MAX, filter, budget }
}

/// A reply with this tag and answer, an index below 256 and a count, all else 0.
fn reply(tag: u8, answer: u8, index: u8, count: u8) -> Vec<u8> {
    let head = [tag, 0, 21, answer, 0, 0, 0, 0, 0, 0, 0, index];
    [&head[..], &[0; 11], &[count]].concat()
}

pub fn reserve_cases() -> Vec<Case> {
    [last_replies(), against_reference(), checks()].concat()
}

/// On a pool of 3 nodes; 135 is the tag of a reserve's reply.
fn last_replies() -> Vec<Case> {
    let after = |commands: &[Command], wanted: Vec<u8>| replies(commands, &wanted);
    let (five, zero) = (reserve(5), reserve(0));
    let unmark = Command::Unmark { index: 5, mark: 0 };
    let mark = Command::Mark { index: 5, mark: 2 };
    vec![
        ("reserve: the base", after(&[five], reply(135, 0, 5, 0))),
        ("reserve: again", after(&[five, five], reply(135, 15, 0, 0))),
        ("reserve: an entry's index", after(&[store(5, 3), five], reply(135, 15, 0, 0))),
        ("reserve: inside order 3", after(&[store_order(0, 3, 3), five], reply(135, 15, 0, 0))),
        ("reserve: 4096 after 0 needs 5", after(&[zero, reserve(4096)], reply(135, 11, 0, 0))),
        ("reserve: 64 after 0 needs 3", after(&[zero, reserve(64)], reply(135, 0, 64, 0))),
        ("reserve: a load of it", after(&[five, Command::Load { index: 5 }], reply(130, 10, 0, 1))),
        ("reserve: a mark of it", after(&[five, mark], reply(132, 10, 0, 0))),
        ("reserve: an unmark of it", after(&[five, unmark], reply(133, 10, 0, 0))),
        ("reserve: an erase of it", after(&[five, erase(5)], reply(131, 0, 5, 0))),
        ("reserve: erased twice", after(&[five, erase(5), erase(5)], reply(131, 10, 0, 0))),
        ("reserve: a find ends", after(&[five, find(0, 3, 99)], reply(134, 12, 0, 65))),
        ("reserve: a find passes it", after(&[five, find(5, 3, 1)], reply(134, 13, 6, 1))),
        ("reserve: a head is passed", after(&[zero, find(0, 3, 1)], reply(134, 13, 1, 1))),
        ("reserve: past a head", after(&[zero, find(0, 1, 9)], reply(134, 12, 0, 2))),
        ("reserve: from 1 on", after(&[zero, find(1, 3, 9)], reply(134, 12, 0, 1))),
    ]
}

fn against_reference() -> Vec<Case> {
    let mark = |index, mark| Command::Mark { index, mark };
    let (zero, far) = (reserve(0), reserve(MAX));
    let wide = [reserve(8), store(9, 5), mark(9, 1), reserve(13), store_order(8, 3, 7)];
    let frees = [reserve(70), store_order(64, 6, 9), reserve(70), reserve(128)];
    let shares = [store(0, 3), reserve(64), store(65, 5), mark(65, 0), erase(65), erase(64)];
    vec![
        ("reserve against reference, a head", agree(1, &[zero, zero, store(0, 3), zero])),
        ("reserve against reference, then nodes", agree(3, &[zero, reserve(64), erase(64)])),
        ("reserve against reference, N = 2", agree(2, &[zero, reserve(64), reserve(1)])),
        ("reserve against reference, N = 20", agree(20, &[zero, far, erase(0)])),
        ("reserve against reference, N = 21", agree(21, &[zero, far, erase(0), erase(MAX)])),
        ("reserve against reference, 15 before 11", agree(1, &[store_order(0, 6, 3), reserve(5)])),
        ("reserve against reference, a wider store", agree(1, &wide)),
        ("reserve against reference, a node goes", agree(3, &frees)),
        ("reserve against reference, beside an entry", agree(3, &shares)),
        ("reserve against reference, a larger head", agree(1, &[zero, store_order(0, 3, 7)])),
    ]
}

/// Node 0 has its shift in word 4, mark 0 in word 7, slot j in word 10 + j.
fn checks() -> Vec<Case> {
    let run = [(18, 7), (19, 34), (20, 1030), (21, 34)];
    let marked = [(2, 1), (7, 32), (15, 1030)];
    vec![
        ("check: a reserved slot", checked(&node(0, &[(15, 1030)]), 0)),
        ("check: a reserved head", checked(&[(1, 1030)], 0)),
        ("check: at shift 6", checked(&node(6, &[(10, 3), (15, 1030)]), 2)),
        ("check: at shift 60", checked(&node(60, &[(10, 3), (15, 1030)]), 2)),
        ("check: with a mark", checked(&node(0, &marked), 2)),
        ("check: with the anchor's mark", checked(&[(1, 1030), (2, 1)], 2)),
        ("check: a head with a node", checked(&[(1, 1030), (4, 1), (15, 3)], 2)),
        ("check: index 0 alone in a node", checked(&node(0, &[(10, 1030)]), 2)),
        ("check: in a sibling's place", checked(&node(0, &run), 2)),
        ("check: a sibling of it", checked(&node(0, &[(18, 1030), (19, 34)]), 2)),
        ("check: the word 1026", checked(&node(0, &[(15, 1026)]), 2)),
        ("check: the word 1034", checked(&node(0, &[(15, 1034)]), 2)),
    ]
}

/// The words of a pool whose head is node 0, of this shift with these slots.
pub fn node(shift: u64, slots: &[(usize, u64)]) -> Vec<(usize, u64)> {
    [&[(1, 4098), (4, shift + 1)], slots].concat()
}

/// By figures: what a check of a pool of 2 nodes answers that has these words, the filled counts that
/// go with them unless others are named, and else 0.
pub fn checked(named: &[(usize, u64)], answer: u64) -> Option<String> {
    let mut words = vec![0; pool_length(2)];
    words[0] = 2;
    let put = |words: &mut [u64]| named.iter().for_each(|(place, word)| words[*place] = *word);
    put(&mut words);
    recount(&mut words);
    put(&mut words);
    let mut lender = Lender::new();
    lender.set_pool(&words);
    let found = lender.call(&Call::Check, words.len()).answer;
    (found != answer).then(|| format!("words {named:?}: answer {found}, not {answer}"))
}
