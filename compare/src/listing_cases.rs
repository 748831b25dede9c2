//! Listings (P1) with figures by hand.

use crate::batches::hex;
use crate::cases::{answers, records, store, store_order, Case};
use crate::lend::{space_byte, Call, Given, Lender};
use crate::list::CallList;
use reference::model::Entry;
use reference::pool::{pool_length, State};
use xapool_host::Command;

/// A listing's range and buffer, and by figures what it is to give: answer, number, and as hex the
/// bytes that it is to write; all others are to stay.
struct Listing {
    first: u64,
    last: u64,
    buffer: usize,
    gives: (u64, u64, String),
}

fn lists(first: u64, last: u64, buffer: usize, entries: &[&str]) -> Listing {
    Listing { first, last, buffer, gives: (0, entries.len() as u64, entries.concat()) }
}

fn refuses(first: u64, last: u64, buffer: usize, answer: u64, number: u64) -> Listing {
    Listing { first, last, buffer, gives: (answer, number, String::new()) }
}

/// The first of these listings that is wrong, after these commands on a pool of 12 nodes.
fn listings(commands: &[Command], wanted: &[Listing]) -> Option<String> {
    let words = pool_length(12);
    let run = Call::Run { batch: records(commands), reply: 24 * commands.len() };
    let mut lender = Lender::new();
    lender.set_pool(&vec![0; words]);
    let calls = [Call::Init, run];
    calls.iter().for_each(|call| drop(lender.call(call, words)));
    wanted.iter().find_map(|listing| {
        let Listing { first, last, buffer, .. } = *listing;
        let call = Call::List { first, last, buffer };
        let wrong = wrong_listing(listing, &lender.call(&call, words))?;
        let calls = [&calls[..], &[call]].concat();
        Some(CallList { words: vec![0; words], calls }.show() + &wrong)
    })
}

fn wrong_listing(listing: &Listing, found: &Given) -> Option<String> {
    let (answer, number, bytes) = &listing.gives;
    let stay = |place| format!("{:02x}", space_byte(place));
    let rest: String = (bytes.len() / 2..listing.buffer).map(stay).collect();
    let wanted = (*answer, *number, bytes.to_owned() + &rest);
    let found = (found.answer, found.number, hex(&found.bytes));
    (wanted != found).then(|| format!("wanted {wanted:?}\nfound  {found:?}"))
}

const MAX: u64 = u64::MAX;

/// Tag 32 is 20 in hex, the length 18 is 0012; 21 bytes an entry.
const ZERO: &str = "200012000000000000000000000000000000000300";
const HEAD_MARKED: &str = "200012000000000000000000000000000000000302";
const SIXTY_FOUR: &str = "200012000000000000004000000000000000000505";
const EIGHT: &str = "200012000000000000000803000000000000000700";
const LOW: &str = "20001200000000000000003f000000000000000900";
const HIGH: &str = "20001280000000000000003f000000000000000b00";

pub fn listing_cases() -> Vec<Case> {
    [after_case_3(), wide_entries(), heads(), refused_pools()].concat()
}

/// Entry 3 at 0, and entry 5 at 64 with marks 0 and 2.
fn after_case_3() -> Vec<Case> {
    let mark = |index, mark| Command::Mark { index, mark };
    let three = [store(0, 3), store(64, 5), mark(64, 0), mark(64, 2)];
    let both = [ZERO, SIXTY_FOUR];
    let short = [41, 21, 20, 0].map(|buffer| refuses(0, 64, buffer, 4, 2));
    let above = [0, 42].map(|buffer| refuses(64, 63, buffer, 8, 0));
    vec![
        ("listing: two entries", listings(&three, &[lists(0, MAX, 42, &both)])),
        ("listing: the range's ends count", listings(&three, &[lists(0, 64, 42, &both)])),
        ("listing: a longer buffer", listings(&three, &[lists(0, MAX, 63, &both)])),
        ("listing: between them", listings(&three, &[lists(1, 63, 21, &[])])),
        ("listing: one of them", listings(&three, &[lists(1, 64, 21, &both[1..])])),
        ("listing: too short a buffer", listings(&three, &short)),
        ("listing: first above last", listings(&three, &above)),
    ]
}

/// Order 3 at 8, and order 63 at both its places.
fn wide_entries() -> Vec<Case> {
    let eight = [store_order(8, 3, 7)];
    let widest = [store_order(0, 63, 9), store_order(1 << 63, 63, 11)];
    let cut = [(13, 13), (0, 8), (15, MAX), (8, 15)].map(|(a, b)| lists(a, b, 21, &[EIGHT]));
    let beside = [(0, 7), (16, MAX)].map(|(a, b)| lists(a, b, 21, &[]));
    let middle = lists((1 << 63) - 1, 1 << 63, 42, &[LOW, HIGH]);
    vec![
        ("listing: an entry that is cut", listings(&eight, &cut)),
        ("listing: beside an entry", listings(&eight, &beside)),
        ("listing: order 63", listings(&widest, &[middle])),
        ("listing: the last index", listings(&widest, &[lists(MAX, MAX, 21, &[HIGH])])),
    ]
}

/// An entry as head has the anchor's marks.
fn heads() -> Vec<Case> {
    let head = [store(0, 3)];
    let marked = [store(0, 3), Command::Mark { index: 0, mark: 1 }];
    let empty = [lists(0, MAX, 0, &[]), lists(0, 0, 9, &[])];
    vec![
        ("listing: an entry as head", listings(&head, &[lists(0, 0, 21, &[ZERO])])),
        ("listing: a marked head", listings(&marked, &[lists(0, MAX, 21, &[HEAD_MARKED])])),
        ("listing: after the head", listings(&head, &[lists(1, MAX, 21, &[])])),
        ("listing: an empty pool", listings(&[], &empty)),
        ("listing: 60,480 entries", full_listing()),
    ]
}

fn refused_pools() -> Vec<Case> {
    let above = Call::List { first: 1, last: 0, buffer: 0 };
    vec![
        ("listing: bad pool length", answers(73, above, 1, 0)),
        ("listing: damaged pool", damaged_listing()),
    ]
}

/// Answer 2 goes before 8 and 4: the head is a node that is free.
fn damaged_listing() -> Option<String> {
    let mut words = vec![0; pool_length(1)];
    (words[0], words[1]) = (1, 4098);
    let mut lender = Lender::new();
    lender.set_pool(&words);
    let call = Call::List { first: 1, last: 0, buffer: 0 };
    let given = lender.call(&call, words.len());
    let found = (given.answer, given.number);
    (found != (2, 0)).then(|| format!("answer and number are {found:?}, not (2, 0)"))
}

/// 945 nodes of shift 0 under 15 of shift 6 and one of shift 12, 64 entries in each: as many as
/// there are, and every byte as reference has them.
fn full_listing() -> Option<String> {
    let entry = |base| Entry { base, order: 0, word: 2 * base + 1, marks: (base % 8) as u8 };
    let state = State::empty(1000).change_to((0..60_480).map(entry).collect());
    let words = state.expect("961 nodes").words();
    let list = |first, last, buffer| Call::List { first, last, buffer };
    let all = 21 * 60_480;
    let calls = vec![list(0, 60_479, all), list(0, MAX, all - 1), list(30_000, 30_127, 21 * 128)];
    let mut lender = Lender::new();
    lender.set_pool(&words);
    let given = lender.call(&calls[0], words.len());
    let found = (given.answer, given.number);
    if found != (0, 60_480) {
        return Some(format!("answer and number are {found:?}, not (0, 60480)"));
    }
    CallList { words, calls }.difference(None)
}
