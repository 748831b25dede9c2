//! `show` ends, without a panic, on whatever words it is given. Tests are built with the checks of a
//! debug build, in which a sum that overflows is one.

mod tool;

use reference::random::Random;
use tool::{batch, tool};
use xabatch::draw::{self, Part, View};
use xabatch::{inspect, text};
use xapool_host::layout::{count_place, node_place, owner_place, slot_place};
use xapool_host::{bytes_of_words, Pool};

/// Words in which something may overflow, and those that mean something.
const EXTREMES: [u64; 24] = [
    0,
    1,
    2,
    3,
    6,
    61,
    62,
    64,
    255,
    1030,
    4 * 1024 + 2,
    4 * (1024 + 2) + 2,
    4 * (1024 + 3) + 2,
    4 * (1024 + 16_384) + 2,
    u32::MAX as u64,
    1 << 32,
    i64::MAX as u64,
    1 << 63,
    (1 << 63) + 2,
    u64::MAX - 64,
    u64::MAX - 5,
    u64::MAX - 3,
    u64::MAX - 1,
    u64::MAX,
];

/// Everything that can be said of these words; gives whether they are well-formed.
fn looked_at(words: &[u64]) -> bool {
    let report = inspect::inspect(words);
    let ranges = [(0, u64::MAX), (0, 0), (u64::MAX, u64::MAX), (63, 4096)];
    let all = [false, true];
    for part in [Part::Tree, Part::Summary, Part::Findings] {
        for (range, all) in ranges.into_iter().flat_map(|range| all.map(|all| (range, all))) {
            assert!(!draw::lines_of(&report, &View { part, range, all }).is_empty());
        }
    }
    assert!(draw::json_of(&report, &View::default()).starts_with("{\"words\":"));
    report.findings.is_empty()
}

/// As it must be by the library's check, which is the one that is proved.
fn agrees(words: &[u64], what: &str) {
    let good = Pool::from_words(words.to_vec()).check().is_ok();
    assert_eq!(looked_at(words), good, "{what}");
}

/// Pools of three nodes: a tree of two levels with a run, marks and a reservation; one entry as head; one
/// node of the highest shift.
fn small_pools() -> [Vec<u64>; 4] {
    let texts = [
        "store 0 order 0 value 1\nstore 64 order 3 value 2\nreserve 63\nmark 64 mark 0\n",
        "store 0 order 0 value 1\nmark 0 mark 2\n",
        "store 0x8000000000000000 order 63 value 1\n",
        "reserve 0\n",
    ];
    texts.map(|text| {
        let mut pool = Pool::new(3).expect("three nodes");
        let replies = pool.run(&text::batch_of(text).expect("good text")).expect("a good batch");
        assert!(replies.iter().all(|reply| reply.done().is_ok()), "{text}");
        pool.into_words()
    })
}

#[test]
fn every_word_may_be_any_number() {
    for (number, pool) in small_pools().into_iter().enumerate() {
        agrees(&pool, "good");
        for place in 0..pool.len() {
            for word in EXTREMES {
                let mut words = pool.clone();
                words[place] = word;
                agrees(&words, &format!("pool {number}: word {place} is {word}"));
            }
        }
    }
}

/// Two and three words that lead somewhere, such as the owner of a node that nothing leads to.
#[test]
fn several_words_may_be_any_numbers() {
    let mut random = Random::new(11);
    let of = |random: &mut Random, words: &[u64]| words[random.below(words.len() as u64) as usize];
    for number in 0..20_000 {
        let pools = small_pools();
        let mut words = pools[random.below(4) as usize].clone();
        for _ in 0..2 + random.below(3) {
            let node = random.below(3) as usize;
            let slot = random.below(64) as usize;
            let places =
                [1, node_place(node), owner_place(node), count_place(node), slot_place(node, slot)];
            let place = places[random.below(5) as usize];
            words[place] =
                if random.one_in(4) { random.word() } else { of(&mut random, &EXTREMES) };
        }
        agrees(&words, &format!("pool {number}"));
    }
}

#[test]
fn all_words_may_be_any_numbers() {
    let mut random = Random::new(12);
    for length in [0, 1, 3, 4, 73, 74, 75, 144, 214, 215] {
        for word in EXTREMES {
            looked_at(&vec![word; length]);
        }
        for _ in 0..50 {
            let words: Vec<u64> = (0..length).map(|_| random.word()).collect();
            looked_at(&words);
        }
    }
}

/// A node that nothing leads to, whose owner word names node 2^58 - 1.
#[test]
fn the_tool_does_not_panic() {
    let mut words = small_pools()[0].clone();
    words[1] = 3;
    words[owner_place(0)] = u64::MAX;
    let (status, out, errors) = tool(&["show", "-"], &bytes_of_words(&words));
    assert_eq!((status, errors.as_str()), (1, ""));
    assert!(String::from_utf8_lossy(&out).contains("node 0 is in no slot"));
    let (status, _, _) = tool(&["run", "/dev/null"], &batch("load 1\n"));
    assert_ne!(status, 101);
}
