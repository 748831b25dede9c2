//! Lists. What is expected is worked out by hand from the rule: the entries whose run meets first to
//! last, in index order, each once, 21 bytes each.

use super::*;

const MIDDLE: u64 = 1 << 63;

/// Runs the commands on a new pool of 40 nodes.
fn pool_of(commands: &[Command]) -> Pool<'static> {
    run(40, commands).1
}

fn listed(pool: &Pool, range: impl std::ops::RangeBounds<u64>) -> Vec<u64> {
    pool.list(range).expect("a good pool").map(|entry| entry.base).collect()
}

/// A run of eight at 8, a marked entry at 64 and a handle at the last index.
fn three() -> Pool<'static> {
    let entries = [store(8, 3, 3), store(64, 0, 5), store(LAST, 0, 0x1000)];
    pool_of(&[&entries[..], &[mark(64, 0), mark(64, 2)]].concat())
}

/// Tag, length, base, order, word, marks: of mark 0 and mark 2, 1 + 4.
const THREE: [&str; 3] = [
    "200012000000000000000803000000000000000300",
    "200012000000000000004000000000000000000505",
    "200012ffffffffffffffff00000000000000100000",
];

#[test]
fn whole_records_of_a_list() {
    let pool = three();
    let list = pool.list(..).expect("a good pool");
    assert_eq!(hex(list.bytes()), THREE.concat());
    let lines: Vec<String> = list.map(|entry| entry.to_string()).collect();
    let texts = [
        "8 order 3 value 1 marks -",
        "64 order 0 value 2 marks 0,2",
        "max order 0 handle 0x1000 marks -",
    ];
    assert_eq!(lines, texts);
}

#[test]
fn an_entry_is_listed_where_its_run_meets_the_range() {
    let pool = three();
    let cases: [(u64, u64, &[u64]); 12] = [
        (0, LAST, &[8, 64, LAST]),
        (0, 7, &[]),
        (0, 8, &[8]),
        (10, 12, &[8]),
        (15, 15, &[8]),
        (15, 64, &[8, 64]),
        (16, 63, &[]),
        (16, 64, &[64]),
        (64, 64, &[64]),
        (65, LAST - 1, &[]),
        (65, LAST, &[LAST]),
        (LAST, LAST, &[LAST]),
    ];
    for (first, last, bases) in cases {
        assert_eq!(listed(&pool, first..=last), bases, "{first}..={last}");
    }
    assert_eq!(listed(&pool, ..64), [8]);
    assert_eq!(listed(&pool, 64..64), []);
    assert_eq!(listed(&pool, ..0), []);
}

#[test]
fn the_largest_runs_and_the_least_pools_are_listed() {
    let halves = pool_of(&[store(0, 63, 3), store(MIDDLE, 63, 5), mark(LAST, 1)]);
    assert_eq!(listed(&halves, ..), [0, MIDDLE]);
    assert_eq!(listed(&halves, ..MIDDLE), [0]);
    assert_eq!(listed(&halves, MIDDLE + 5..=MIDDLE + 6), [MIDDLE]);
    let last = halves.list(LAST..).expect("a good pool").last().expect("an entry");
    assert_eq!(last, Entry { base: MIDDLE, order: 63, word: Word(5), marks: Marks(2) });
    // The entry is the head itself: the pool has no node in use.
    let head = pool_of(&[CASE_2, mark(0, 1)]);
    assert_eq!(head.nodes_in_use(), 0);
    let only = "200012000000000000000000000000000000000302";
    assert_eq!(hex(head.list(..).expect("a good pool").bytes()), only);
    assert_eq!(listed(&head, 1..), []);
    assert_eq!(listed(&Pool::new(1).expect("one node"), ..), []);
}

/// What 64 bytes hold after a call on them, and what it gave.
fn list_into(pool: &Pool, first: u64, last: u64, bytes: usize) -> (Result<usize, Refusal>, String) {
    let mut buffer = [0xee; 64];
    let given = pool.list_bytes(first, last, &mut buffer[..bytes]);
    (given, hex(&buffer))
}

#[test]
fn a_list_is_whole_or_nothing_is_written() {
    let pool = three();
    let untouched = "ee".repeat(64);
    for bytes in [0, 1, 20, 21, 41, 42, 62] {
        let short = (Err(Refusal::ListSpace { entries: 3 }), untouched.clone());
        assert_eq!(list_into(&pool, 0, LAST, bytes), short, "{bytes} bytes");
    }
    for bytes in [63, 64] {
        assert_eq!(list_into(&pool, 0, LAST, bytes), (Ok(3), THREE.concat() + "ee"));
    }
    let second = THREE[1].to_owned() + &"ee".repeat(43);
    assert_eq!(list_into(&pool, 64, 64, 64), (Ok(1), second));
    assert_eq!(list_into(&pool, 16, 63, 0), (Ok(0), untouched));
}

#[test]
fn refusals_of_a_list_in_their_order() {
    let pool = three();
    let above = (Err(Refusal::FirstAboveLast), "ee".repeat(64));
    assert_eq!(list_into(&pool, 65, 64, 0), above);
    assert_eq!(list_into(&pool, LAST, 0, 64), above);
    let mut damaged = pool.clone();
    damaged.words_mut()[3] = 1;
    let untouched = "ee".repeat(64);
    assert_eq!(list_into(&damaged, 65, 64, 0), (Err(Refusal::NotWellFormed), untouched.clone()));
    assert_eq!(damaged.list(..), Err(Refusal::NotWellFormed));
    assert_eq!(damaged.list(64..64), Err(Refusal::NotWellFormed));
    let cut = Pool::from_words(damaged.words()[..73].to_vec());
    assert_eq!(list_into(&cut, 65, 64, 0), (Err(Refusal::PoolLength), untouched));
    let raw = |first, last| raw::list(pool.words(), first, last, &mut []);
    assert_eq!(raw(65, 64), raw::RawResult { answer: 8, number: 0 });
    assert_eq!(raw(0, LAST), raw::RawResult { answer: 4, number: 3 });
    let texts = [Refusal::FirstAboveLast, Refusal::ListSpace { entries: 3 }].map(|r| r.to_string());
    let space =
        "space under 24 bytes a command, 21 an entry of a list, or a script's words (3 entries)";
    assert_eq!(texts, ["first above last", space]);
}

/// Entries of many orders at random: the list of each range is what loads of its indices give.
#[test]
fn lists_are_what_loads_give() {
    for seed in 0..8 {
        let mut pool = random_pool(seed);
        let loads = pool.run_all((0..1 << 16).map(load)).expect("a good pool");
        let mut all: Vec<Entry> = loads.iter().filter_map(|reply| reply.entry()).collect();
        all.dedup();
        assert!(all.len() > 20);
        let words = pool.words().to_vec();
        assert_eq!(pool.list(..).expect("a good pool").collect::<Vec<_>>(), all, "seed {seed}");
        for part in random_bytes(seed + 100, 400).chunks(4) {
            let first = u64::from(part[0]) * 256 + u64::from(part[1]);
            let last = first + u64::from(part[2]) * u64::from(part[3]);
            let meets = |entry: &&Entry| entry.base <= last && first <= entry.last();
            let expected: Vec<Entry> = all.iter().filter(meets).copied().collect();
            let list = pool.list(first..=last).expect("a good pool");
            assert_eq!(list.collect::<Vec<_>>(), expected, "seed {seed}, {first}..={last}");
        }
        assert_eq!(pool.words(), words);
    }
}

#[test]
fn a_list_that_was_kept_is_read_or_not() {
    let list = three().list(..).expect("a good pool");
    let bytes = list.clone().into_bytes();
    assert_eq!(Listing::read(bytes.clone()), Ok(list.clone()));
    assert!(list.clone().zip(bytes.chunks(21)).all(|(entry, part)| entry.listed() == *part));
    let mut rest = list.clone();
    assert_eq!((rest.next().map(|entry| entry.base), rest.len()), (Some(8), 2));
    assert_eq!(rest.bytes(), list.bytes());
    for cut in (0..63).filter(|cut| cut % 21 != 0) {
        let bad = BadListed { place: cut - cut % 21, fault: ListFault::NoEntry };
        assert_eq!(Listing::read(bytes[..cut].to_vec()), Err(bad), "{cut} bytes");
    }
    for (place, byte) in [(21, 33), (22, 1), (23, 17), (32, 64), (41, 8)] {
        let mut other = bytes.clone();
        other[place] = byte;
        let bad = Listing::read(other).expect_err("a bad byte");
        assert_eq!(bad.place, 21, "byte {place}");
    }
}

fn entry(base: u64, order: u8, word: u64, marks: u8) -> Entry {
    Entry { base, order, word: Word(word), marks: Marks(marks) }
}

/// What is wrong with the list of these entries, if something is.
fn fault(entries: &[Entry]) -> Option<(usize, ListFault)> {
    let bytes = entries.iter().flat_map(|entry| entry.listed()).collect();
    Listing::read(bytes).err().map(|bad| (bad.place, bad.fault))
}

/// R6 to R9, R143 and R202: aligned runs of order 0 to 63 that do not meet, by rising index, none twice, with
/// words that can be stored.
#[test]
fn a_list_that_no_pool_gives_is_refused() {
    let (low, high) = (entry(8, 3, 3, 7), entry(64, 0, 4, 0));
    assert_eq!(fault(&[low, high, entry(LAST, 0, 5, 0)]), None);
    assert_eq!(fault(&[entry(0, 63, 3, 0), entry(MIDDLE, 63, 5, 0)]), None);
    let order = Some((21, ListFault::Order));
    assert_eq!(fault(&[high, low]), order, "unsorted");
    assert_eq!(fault(&[low, low]), order, "doubled");
    assert_eq!(fault(&[Entry::reserved(5), Entry::reserved(5)]), order, "doubled and reserved");
    for base in 8..16 {
        assert_eq!(fault(&[low, entry(base, 0, 5, 0)]), order, "{base} is in 8..=15");
        assert_eq!(fault(&[low, Entry::reserved(base)]), order, "{base} is in 8..=15");
    }
    assert_eq!(fault(&[low, entry(16, 0, 5, 0)]), None);
    // After the last index nothing comes, and 0 is not after it.
    for last in [entry(LAST, 0, 3, 0), entry(MIDDLE, 63, 3, 0)] {
        assert_eq!(fault(&[last, entry(0, 0, 5, 0)]), order);
        assert_eq!(fault(&[last, entry(LAST, 0, 5, 0)]), order);
    }
    for (base, order) in [(1, 1), (12, 3), (LAST, 1), (MIDDLE + 8, 63), (0, 64), (0, 255), (5, 64)]
    {
        let place = Some((21, ListFault::Run));
        assert_eq!(fault(&[entry(0, 0, 3, 0), entry(base.max(1), order, 5, 0)]), place, "{base}");
    }
    for word in [2, 6, 1030, 1026, 4098, LAST - 1] {
        assert_eq!(fault(&[low, entry(64, 0, word, 0)]), Some((21, ListFault::Word)), "{word}");
    }
    for marks in [8, 16, 255] {
        assert_eq!(fault(&[low, entry(64, 0, 3, marks)]), Some((21, ListFault::Marks)));
    }
    for (order, marks) in [(1, 0), (0, 1), (0, 4), (6, 7)] {
        let reserved = fault(&[low, entry(64, order, 0, marks)]);
        assert_eq!(reserved, Some((21, ListFault::Reserved)), "order {order}, marks {marks}");
    }
    let text = BadListed { place: 21, fault: ListFault::Order }.to_string();
    assert_eq!(text, "byte 21: it does not begin after the end of the entry before it");
}
