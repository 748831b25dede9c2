//! Cases 13 to 15 (R118 to R120, R231), the empty batch, and batches of 32,768 and 32,769 bytes, with
//! the rules' own figures; unaligned stores (P4), stores over mark 2 (P5), the listings of
//! listing_cases.rs, the reservations of reserve_cases.rs, the filled counts of count_cases.rs, the sheets of
//! sheet_cases.rs, the gates of gate_cases.rs, the plain engine of plain_cases.rs, the scripts of apply_cases.rs and prepare_cases.rs and the largest pool of large_cases.rs; and cases 2 to 13 command by command against reference, all words
//! and replies (their figures are computed by the proved table and tested in host/). A case that fails
//! says which commands it ran and the first word or byte that differs.

use crate::apply_cases::apply_cases;
use crate::batches::{hex, show};
use crate::count_cases::count_cases;
use crate::gate_cases::gate_cases;
use crate::large_cases::large_cases;
use crate::lend::{Call, Given, Lender};
use crate::list::CallList;
use crate::listing_cases::listing_cases;
use crate::plain_cases::plain_cases;
use crate::prepare_cases::prepare_cases;
use crate::program::Input;
use crate::reserve_cases::reserve_cases;
use crate::sheet_cases::sheet_cases;
use reference::pool::pool_length;
use xapool_host::{Command, Word};

/// Its name, and what is wrong.
pub type Case = (&'static str, Option<String>);

pub fn records(commands: &[Command]) -> Vec<u8> {
    let mut batch = Vec::new();
    commands.iter().for_each(|command| command.write(&mut batch));
    batch
}

pub fn store(index: u64, word: u64) -> Command {
    store_order(index, 0, word)
}

pub fn store_order(index: u64, order: u8, word: u64) -> Command {
    Command::Store { index, order, word: Word(word) }
}

/// Records of 11 bytes and of 12.
fn loads_and_marks(loads: usize, marks: usize) -> Vec<u8> {
    let load = records(&[Command::Load { index: 0 }]);
    let mark = records(&[Command::Mark { index: 0, mark: 0 }]);
    [load.repeat(loads), mark.repeat(marks)].concat()
}

/// 32,768 bytes, 2,978 commands.
fn full() -> Vec<u8> {
    loads_and_marks(2968, 10)
}

/// A call on a pool of these words, which is initialised before.
fn after_init(words: usize, call: &Call) -> Given {
    let mut lender = Lender::new();
    lender.set_pool(&vec![0; words]);
    lender.call(&Call::Init, words);
    lender.call(call, words)
}

/// By figures: what a call is to answer on a pool of these words.
pub fn answers(words: usize, call: Call, answer: u64, number: u64) -> Option<String> {
    let given = after_init(words, &call);
    let found = (given.answer, given.number);
    let list = CallList { words: vec![0; words], calls: vec![Call::Init, call] };
    (found != (answer, number)).then(|| {
        let wanted = (answer, number);
        format!("{}answer and number are {found:?}, not {wanted:?}", list.show())
    })
}

/// The words of a pool of 3 nodes.
const THREE_NODES: usize = 214;

/// By figures: what a batch is to answer on a pool of 3 nodes.
fn runs(batch: Vec<u8>, reply: usize, answer: u64, number: u64) -> Option<String> {
    answers(THREE_NODES, Call::Run { batch, reply }, answer, number)
}

/// By figures: the last reply to these commands on a pool of 3 nodes.
pub fn replies(commands: &[Command], wanted: &[u8]) -> Option<String> {
    let (batch, reply) = (records(commands), 24 * commands.len());
    let given = after_init(THREE_NODES, &Call::Run { batch: batch.clone(), reply });
    differs(&batch, &given.bytes[reply - 24..], wanted)
}

fn differs(batch: &[u8], found: &[u8], wanted: &[u8]) -> Option<String> {
    let place = (0..found.len().max(wanted.len())).find(|at| found.get(*at) != wanted.get(*at))?;
    let (found, wanted) = (hex(found), hex(wanted));
    let batch = show(batch);
    Some(format!("{batch}byte {place} differs:\n    wanted {wanted}\n    found  {found}"))
}

/// A find from 1 to the last index, and its reply: 64 is position or base, entry 5 where found.
fn case_13() -> Vec<Case> {
    let find = |filter, budget| Command::Find { first: 1, last: u64::MAX, filter, budget };
    let three = [store(0, 3), store(64, 5)];
    let after = |command| [&three[..], &[command]].concat();
    let marked = [&three[..], &[Command::Mark { index: 64, mark: 0 }, find(0, 100)]].concat();
    let reply = |answer, word, marks, count| {
        let head = [0x86, 0, 21, answer, 0, 0, 0, 0, 0, 0, 0, 64, 0];
        [&head[..], &[0, 0, 0, 0, 0, 0, 0, word, marks, 0, count]].concat()
    };
    vec![
        ("case 13: found in 64 steps", replies(&after(find(3, 64)), &reply(0, 5, 0, 64))),
        ("case 13: a larger budget", replies(&after(find(3, 9000)), &reply(0, 5, 0, 64))),
        ("case 13: budget 63, paused at 64", replies(&after(find(3, 63)), &reply(13, 0, 0, 63))),
        ("case 13: by mark 0 in 2 steps", replies(&marked, &reply(0, 5, 1, 2))),
    ]
}

/// Stores that are refused with 5, 14 and 6 (P4): the answer, and nothing else in the reply.
fn unaligned() -> Vec<Case> {
    let refused = |index, order, word, answer| {
        let reply = [&[0x81, 0, 21, answer][..], &[0; 20]].concat();
        replies(&[store_order(index, order, word)], &reply)
    };
    vec![
        ("order 3 at 13: answer 14", refused(13, 3, 5, 14)),
        ("order 64 at 13, entry 0: answer 5", refused(13, 64, 0, 5)),
        ("order 3 at 13, entry 0: answer 14", refused(13, 3, 0, 14)),
        ("order 3 at 8, entry 0: answer 6", refused(8, 3, 0, 6)),
        ("order 63 at 2^62: answer 14", refused(1 << 62, 63, 5, 14)),
    ]
}

/// Stores over an entry with mark 2 (P5): by a wider one, with the same word, into a larger one.
fn over_mark_2() -> [Vec<Command>; 3] {
    let mark = |index, mark| Command::Mark { index, mark };
    let (two, three, eight) = (store(0, 3), store(64, 5), store_order(8, 3, 5));
    [
        vec![three, mark(64, 0), mark(64, 2), store_order(64, 6, 9)],
        vec![two, three, mark(0, 2), mark(64, 2), three, two],
        vec![eight, mark(8, 1), mark(8, 2), store(10, 5)],
    ]
}

/// The last reply to each of these: the entry without mark 2.
fn without_mark_2() -> Vec<Case> {
    let reply = |base, order, word, marks| {
        let head = [0x81, 0, 21, 0, 0, 0, 0, 0, 0, 0, 0, base, order];
        [&head[..], &[0, 0, 0, 0, 0, 0, 0, word, marks, 0, 0]].concat()
    };
    let [wider, same, larger] = over_mark_2();
    vec![
        ("case 10 with marks 0 and 2", replies(&wider, &reply(64, 6, 9, 1))),
        ("the same word again", replies(&same, &reply(0, 0, 3, 0))),
        ("case 9 with marks 1 and 2", replies(&larger, &reply(8, 3, 5, 2))),
    ]
}

fn case_14() -> Vec<Case> {
    let stored = [1, 0, 17, 0, 0, 0, 0, 0, 0, 0, 64, 0, 0, 0, 0, 0, 0, 0, 0, 5];
    let loaded = [0x82, 0, 21, 0, 0, 0, 0, 0, 0, 0, 0, 64, 0, 0, 0, 0, 0, 0, 0, 0, 5, 0, 0, 2];
    let commands = [store(0, 3), store(64, 5), Command::Load { index: 64 }];
    let batch = records(&commands);
    vec![
        ("case 14: the store record", differs(&batch, &batch[20..40], &stored)),
        ("case 14: answer 0, 3 commands", runs(batch, 72, 0, 3)),
        ("case 14: the reply to load 64", replies(&commands, &loaded)),
    ]
}

fn case_15() -> Vec<Case> {
    let init = |words, answer| answers(words, Call::Init, answer, 0);
    let long = [full(), vec![2]].concat();
    assert_eq!(full().len(), 32_768);
    vec![
        ("case 15: 74 words", init(74, 0)),
        ("case 15: 1,146,884 words, 16,384 nodes", init(1_146_884, 0)),
        ("case 15: 73 words", init(73, 1)),
        ("case 15: 1,146,954 words, 16,385 nodes", init(1_146_954, 1)),
        ("case 15: 1,146,885 words", init(1_146_885, 1)),
        ("case 15: check of 73 words", answers(73, Call::Check, 1, 0)),
        ("case 15: check of 1,146,884 words", answers(1_146_884, Call::Check, 0, 0)),
        ("case 15: check of 1,146,954 words", answers(1_146_954, Call::Check, 1, 0)),
        ("case 15: 8,193 bytes", runs(loads_and_marks(735, 9), 17_856, 0, 744)),
        ("case 15: 32,768 bytes", runs(full(), 71_472, 0, 2978)),
        ("case 15: 32,768 bytes, a byte of reply space less", runs(full(), 71_471, 4, 2978)),
        ("case 15: 32,769 bytes", runs(long, 71_472, 3, 32_768)),
    ]
}

fn empty_batch() -> Vec<Case> {
    let reply = |batch| after_init(THREE_NODES, &Call::Run { batch, reply: 48 }).bytes;
    // A refused batch leaves the reply space as it was.
    let untouched = reply(vec![9]);
    vec![
        ("empty batch: answer 0, 0 commands", runs(Vec::new(), 48, 0, 0)),
        ("empty batch: no reply byte is written", differs(&[], &reply(Vec::new()), &untouched)),
        ("empty batch: no reply space", runs(Vec::new(), 0, 0, 0)),
    ]
}

/// The first difference of library and reference, in every word and reply byte after each of the
/// commands.
pub fn agree(nodes: usize, commands: &[Command]) -> Option<String> {
    let one = |command| Call::Run { batch: records(std::slice::from_ref(command)), reply: 24 };
    let calls = std::iter::once(Call::Init).chain(commands.iter().map(one)).collect();
    let list = CallList { words: vec![0; pool_length(nodes)], calls };
    list.difference(None).map(|text| list.show() + &text)
}

fn starred() -> Vec<Case> {
    let (load, erase) = (|index| Command::Load { index }, |index| Command::Erase { index });
    let mark = |index, mark| Command::Mark { index, mark };
    let find = |filter, budget| Command::Find { first: 1, last: u64::MAX, filter, budget };
    let (two, three) = (store(0, 3), store(64, 5));
    let eight = store_order(8, 3, 5);
    let ten = [store(64, 5), mark(64, 0), store(65, 7), mark(65, 1), store_order(64, 6, 9)];
    let [wider, same, larger] = over_mark_2();
    let thirteen = [two, three, find(3, 64), find(3, 63), mark(64, 0), find(0, 100)];
    vec![
        ("case 2 against reference", agree(1, &[two])),
        ("case 3 against reference, N = 2", agree(2, &[two, three])),
        ("case 3 against reference, N = 3", agree(3, &[two, three])),
        ("case 4 against reference, 4096", agree(6, &[two, three, store(4096, 7)])),
        ("case 4 against reference, 4095", agree(4, &[two, three, store(4095, 7)])),
        ("case 5 against reference", agree(11, &[store(u64::MAX, 5)])),
        ("case 6 against reference, N = 20", agree(20, &[two, store(u64::MAX, 5)])),
        ("case 6 against reference, N = 21", agree(21, &[two, store(u64::MAX, 5)])),
        ("case 7 against reference", agree(1, &[store_order(0, 6, 5), load(63)])),
        ("case 8 against reference", agree(1, &[eight])),
        ("case 8 against reference, 13", agree(1, &[store_order(13, 3, 5)])),
        ("case 8 against reference, then 13", agree(1, &[eight, store_order(13, 3, 7)])),
        ("case 9 against reference", agree(1, &[eight, store(10, 9), load(15), erase(11)])),
        ("case 10 against reference", agree(2, &ten)),
        ("case 10 against reference, marks 0 and 2", agree(2, &wider)),
        ("the same word again against reference", agree(3, &same)),
        ("case 9 against reference, marks 1 and 2", agree(1, &larger)),
        ("case 11 against reference", agree(3, &[two, three, erase(64)])),
        (
            "case 12 against reference",
            agree(1, &[store_order(1 << 63, 63, 5), store_order(1 << 63, 64, 5)]),
        ),
        ("case 13 against reference", agree(3, &thirteen)),
    ]
}

fn programs(with_program: bool) -> Vec<Case> {
    if !with_program {
        return Vec::new();
    }
    let gives = |input: Input| input.difference(None).map(|text| input.show() + &text);
    let same = |batch| gives(Input { batch, pieces: Vec::new() });
    let case_14 = records(&[store(0, 3), store(64, 5), Command::Load { index: 64 }]);
    let pieces = Input { batch: case_14.clone(), pieces: vec![1, 2, 17, 1, 9] };
    vec![
        ("program: case 14 in pieces", gives(pieces)),
        ("program: case 14", same(case_14)),
        ("program: the empty batch", same(Vec::new())),
        ("program: 8,192 bytes", same(loads_and_marks(736, 8))),
        ("program: 8,193 bytes", same([loads_and_marks(736, 8), vec![2]].concat())),
        ("program: 8,193 bytes of whole records", same(loads_and_marks(735, 9))),
        ("program: 32,768 bytes", same(full())),
        ("program: 32,769 bytes", same([full(), vec![2]].concat())),
        ("program: 100,000 bytes", same(vec![0; 100_000])),
    ]
}

/// How many cases there are, and those that failed, with what is wrong.
pub fn run_all(with_program: bool) -> (usize, Vec<(&'static str, String)>) {
    let figures = [
        case_13(),
        case_14(),
        case_15(),
        unaligned(),
        without_mark_2(),
        empty_batch(),
        listing_cases(),
        reserve_cases(),
        count_cases(),
        large_cases(),
        sheet_cases(),
        gate_cases(),
        plain_cases(),
        apply_cases(),
        prepare_cases(),
    ]
    .concat();
    let all = [starred(), figures, programs(with_program)].concat();
    let count = all.len();
    (count, all.into_iter().filter_map(|(name, wrong)| Some((name, wrong?))).collect())
}
