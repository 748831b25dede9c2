//! Pools of names (P10) by the wrapper. The words are written here from the rules, R340 to R358 of docs/RULES.md, and no
//! expected number comes from the code.

use xapool_host::{
    block_count, layout, names_words, Block, Key, NameError, Names, Pool, Refusal, Word,
    MOST_BLOCKS, MOST_KEY_BYTES,
};

/// One block as R354 has it: tier + 1, skip, value, then the base as its two highest words (the fourth and the fifth; all
/// keys here are of at most 8 bytes), then the first slots.
fn block(head: [u64; 3], base: [u64; 2], slots: &[u64]) -> Vec<u64> {
    let mut words = [&head[..], &[0, 0, 0], &base, slots].concat();
    words.resize(24, 0);
    words
}

/// Words 0 and 1, and these blocks.
fn pool(root: u64, blocks: &[Vec<u64>]) -> Vec<u64> {
    [vec![blocks.len() as u64, root], blocks.concat()].concat()
}

fn free() -> Vec<u64> {
    vec![0; 24]
}

/// "a" with value 7 (the word 15). Its number is 01 61 00 .. 00, 33 bytes.
fn leaf_a() -> Vec<u64> {
    block([1, 0, 15], [0x6100_0000_0000_0000, 1], &[])
}

/// "ab" with handle 0x1000.
fn leaf_ab() -> Vec<u64> {
    block([1, 0, 0x1000], [0x6162_0000_0000_0000, 2], &[])
}

/// R347: a node of tier 66 in block 0, and the leaf in block 1; block 2 is free.
fn one_key() -> Vec<u64> {
    pool(1, &[block([67, 0, 1], [0, 0], &[2]), leaf_a(), free()])
}

/// R344: ascending from slot 0 on. The root is in block 2 here: any numbering will do (R359).
fn two_keys() -> Vec<u64> {
    pool(3, &[leaf_ab(), free(), block([67, 0, 2], [0, 0], &[4, 1]), leaf_a()])
}

/// The keys of one byte, 0x00 to 0x10, each with itself as value. All 17 begin with the nibbles 0 and 1 of their length;
/// then 16 have a 0 and one has a 1. So the node of tier 64 has two filled slots, with a node of tier 63 of 16 leaves (R344)
/// and a leaf (R345), and the two over it, of tiers 66 and 65, are one shortcut (R346). Numbers as R350 gives them.
fn seventeen_keys() -> Vec<u64> {
    let prefix = [0, 1];
    let sixteen: Vec<u64> = (4..20).collect();
    let mut blocks = vec![
        block([65, 2, 0], prefix, &[2]),
        block([65, 0, 17], prefix, &[3, 20]),
        block([64, 0, 16], prefix, &sixteen),
    ];
    blocks.extend((0..17).map(|byte| block([1, 0, 2 * byte + 1], [byte << 56, 1], &[])));
    pool(1, &blocks)
}

fn key(bytes: &[u8]) -> Key {
    Key::new(bytes).expect("a key")
}

fn absent(bytes: &[u8]) -> Result<Word, NameError> {
    Err(NameError::Absent { key: key(bytes) })
}

#[test]
fn sizes() {
    assert_eq!(names_words(0), None);
    assert_eq!(names_words(1), Some(26));
    assert_eq!(names_words(16_384), Some(393_218));
    assert_eq!(names_words(16_385), None);
    assert_eq!(names_words(usize::MAX), None);
    assert_eq!(block_count(26), Some(1));
    assert_eq!(block_count(393_218), Some(16_384));
    for words in [0, 1, 2, 25, 27, 393_217, 393_242, usize::MAX] {
        assert_eq!(block_count(words), None, "{words}");
    }
    assert_eq!((MOST_BLOCKS, MOST_KEY_BYTES), (16_384, 32));
    assert_eq!((layout::BLOCK_WORDS, layout::block_place(2)), (24, 50));
}

#[test]
fn a_pool_that_was_cleared_has_no_key() {
    for blocks in [1, 40, 16_384] {
        let names = Names::new(blocks).expect("a pool");
        assert_eq!(names.words()[0], blocks as u64);
        assert!(names.words()[1..].iter().all(|word| *word == 0));
        assert_eq!(names.words().len(), 2 + 24 * blocks);
        assert_eq!(names.check(), Ok(()));
        assert_eq!(names.keys(), Ok(Vec::new()));
        assert_eq!(names.lookup(b"a"), absent(b"a"));
        assert_eq!((names.root(), names.blocks_in_use()), (None, 0));
        assert_eq!((names.block_count(), names.blocks().len()), (Some(blocks), blocks));
    }
    for blocks in [0, 16_385, usize::MAX] {
        assert_eq!(Names::new(blocks).map(Names::into_words), Err(Refusal::NamesLength));
    }
}

/// Whatever stood there; and where the length is none, every word stays (R365).
#[test]
fn clear_blanks_or_leaves_all() {
    let mut words = vec![u64::MAX; 26];
    assert_eq!(Names::over(&mut words[..25]).clear(), Err(Refusal::NamesLength));
    assert!(words.iter().all(|word| *word == u64::MAX));
    assert_eq!(Names::over(&mut words).clear(), Ok(()));
    assert_eq!(words[0], 1);
    assert!(words[1..].iter().all(|word| *word == 0));
    let mut names = Names::from_words(two_keys());
    names.clear().expect("cleared");
    assert_eq!(names.into_words(), Names::new(4).expect("a pool").into_words());
}

#[test]
fn one_key_is_a_root_and_a_leaf() {
    let names = Names::from_words(one_key());
    assert_eq!(names.check(), Ok(()));
    assert_eq!(names.lookup(b"a"), Ok(Word(15)));
    for other in [&b"b"[..], b"A", b"a\0", b"aa", &[0x61; 32]] {
        assert_eq!(names.lookup(other), absent(other));
    }
    assert_eq!(names.keys(), Ok(vec![(key(b"a"), Word(15))]));
    assert_eq!((names.root(), names.blocks_in_use()), (Some(0), 2));
    assert_eq!(names.words(), one_key());
}

#[test]
fn two_keys_are_two_leaves() {
    let names = Names::from_words(two_keys());
    assert_eq!(names.check(), Ok(()));
    assert_eq!(names.lookup(b"a"), Ok(Word(15)));
    assert_eq!(names.lookup(b"ab"), Ok(Word(0x1000)));
    assert_eq!(names.lookup(b"b"), absent(b"b"));
    assert_eq!(names.keys(), Ok(vec![(key(b"a"), Word(15)), (key(b"ab"), Word(0x1000))]));
    assert_eq!((names.root(), names.blocks_in_use()), (Some(2), 3));
}

#[test]
fn seventeen_keys_take_a_shortcut() {
    let names = Names::from_words(seventeen_keys());
    assert_eq!(names.check(), Ok(()));
    for byte in 0..=0x10 {
        assert_eq!(names.lookup(&[byte]), Ok(Word(2 * u64::from(byte) + 1)));
    }
    assert_eq!(names.lookup(&[0x11]), absent(&[0x11]));
    assert_eq!(names.lookup(&[0x20]), absent(&[0x20]));
    assert_eq!(names.lookup(&[0, 0]), absent(&[0, 0]));
    let keys: Vec<Key> = names.keys().expect("keys").into_iter().map(|(key, _)| key).collect();
    assert_eq!(keys, (0..=0x10).map(|byte| key(&[byte])).collect::<Vec<Key>>());
}

/// The pool's length, then its words, then the key (R364).
#[test]
fn answers_come_in_their_order() {
    let bad = |bytes| Err(NameError::BadKey { bytes });
    let good = Names::from_words(one_key());
    assert_eq!(good.lookup(&[]), bad(0));
    assert_eq!(good.lookup(&[0x61; 33]), bad(33));
    assert_eq!(good.lookup(&vec![0x61; 289]), bad(289)); // one more than 32 modulo 256
    assert_eq!(good.lookup(&[0x61; 32]), absent(&[0x61; 32]));
    let mut damaged = one_key();
    damaged[0] = 4;
    let (damaged, short) = (Names::from_words(damaged), Names::from_words(vec![0; 25]));
    for key in [&b""[..], &[0x61; 33], b"a", b"b"] {
        assert_eq!(damaged.lookup(key), Err(NameError::Refused(Refusal::NotNames)));
        assert_eq!(short.lookup(key), Err(NameError::Refused(Refusal::NamesLength)));
    }
    for words in [0, 1, 2, 25, 27, 73, 2 + 24 * 16_385] {
        let names = Names::from_words(vec![0; words]);
        assert_eq!(names.check(), Err(Refusal::NamesLength), "{words}");
        assert_eq!(names.keys(), Err(Refusal::NamesLength));
    }
}

/// 4 + 70 and 2 + 24 * 3 are both 74, but word 0 is the number of nodes in one and of blocks in the other.
#[test]
fn no_words_are_pools_of_both_kinds() {
    let (pool, names) = (Pool::new(1).expect("a pool"), Names::new(3).expect("a pool of names"));
    assert_eq!((pool.words().len(), names.words().len()), (74, 74));
    assert_eq!(Names::from_words(pool.into_words()).check(), Err(Refusal::NotNames));
    assert_eq!(Pool::from_words(names.into_words()).check(), Err(Refusal::NotWellFormed));
}

/// A pool in which something was changed is refused, and gives neither a key nor a list of keys.
fn refused(what: &str, words: Vec<u64>) {
    let names = Names::from_words(words.clone());
    assert_eq!(names.check(), Err(Refusal::NotNames), "{what}");
    assert_eq!(names.lookup(b"a"), Err(NameError::Refused(Refusal::NotNames)), "{what}");
    assert_eq!(names.keys(), Err(Refusal::NotNames), "{what}");
    assert_eq!(names.words(), words, "{what}");
}

fn with(mut words: Vec<u64>, place: usize, word: u64) -> Vec<u64> {
    words[place] = word;
    words
}

/// Root at word 2, leaf at 26, a free block at 50.
#[test]
fn damage_of_one_word() {
    for (what, place, word) in [
        ("word 0 is another N", 0, 4),
        ("no root, and blocks in use", 1, 0),
        ("the root is the leaf", 1, 2),
        ("the root is free", 1, 3),
        ("the root is out of the pool", 1, 4),
        ("the root's tier", 2, 66),
        ("a node with a skip", 3, 1),
        ("a wrong count", 4, 2),
        ("a count of 0", 4, 0),
        ("a base of the root", 5, 1),
        ("no leaf", 10, 0),
        ("the root in its own slot", 10, 1),
        ("a free block in a slot", 10, 3),
        ("out of the pool", 10, 4),
        ("the leaf twice", 11, 2),
        ("a leaf that is a node", 26, 2),
        ("a leaf with a skip", 27, 1),
        ("an object of 0", 28, 0),
        ("an object that ends in 10", 28, 6),
        ("bytes past the key", 29, 1),
        ("a byte past the key", 32, 0x6101_0000_0000_0000),
        ("a key of length 0", 33, 0),
        ("a key of length 33", 33, 33),
        ("a key of 67 nibbles", 33, 0x101),
        ("a leaf with a slot", 34, 3),
        ("a free block that is not blank", 50, 1),
        ("its last word", 73, 1),
    ] {
        refused(what, with(one_key(), place, word));
    }
}

#[test]
fn damage_of_the_tree() {
    let root = |keys, slots: &[u64]| block([67, 0, keys], [0, 0], slots);
    refused("a leaf in a wrong slot", pool(1, &[root(1, &[0, 2]), leaf_a(), free()]));
    refused("two leaves of one key", pool(1, &[root(2, &[2, 3]), leaf_a(), leaf_a()]));
    refused("the second counts as none", pool(1, &[root(1, &[2, 3]), leaf_a(), leaf_a()]));
    refused("keys that descend", pool(1, &[root(2, &[3, 2]), leaf_a(), leaf_ab()]));
    refused("a gap", pool(1, &[root(2, &[2, 0, 3]), leaf_a(), leaf_ab()]));
    refused("a leaf in no slot", pool(1, &[root(1, &[2]), leaf_a(), leaf_ab()]));
    refused("a root without keys", pool(1, &[root(0, &[]), free()]));
    refused("a leaf alone", pool(1, &[leaf_a(), free()]));
    refused("a second root", pool(1, &[root(1, &[2]), leaf_a(), root(1, &[2])]));
}

/// Shortcut at word 2, node of tier 64 at 26, of tier 63 at 50, leaves from 74 on.
#[test]
fn damage_below_a_shortcut() {
    for (what, place, word) in [
        ("a skip too short", 3, 1),
        ("a skip too long", 3, 3),
        ("a shortcut with keys", 4, 17),
        ("a shortcut to another base", 9, 0),
        ("a shortcut to the node below", 10, 3),
        ("a second slot of a shortcut", 11, 2),
        ("a wrong count", 28, 16),
        ("a wrong slot", 34, 0),
        ("a leaf under another nibble", 35, 19),
        ("a count below", 52, 15),
        ("two leaves changed", 58, 5),
        ("a key of another block", 74 + 24 * 16 + 6, 0x20 << 56),
    ] {
        refused(what, with(seventeen_keys(), place, word));
    }
    let mut packed = seventeen_keys(); // 16 keys and fewer stand side by side, not by nibble
    packed[34..36].copy_from_slice(&[20, 3]);
    refused("slots swapped", packed);
}

#[test]
fn blocks_are_read_one_by_one() {
    let names = Names::from_words(seventeen_keys());
    let mut base = [0; 33];
    base[0] = 1;
    let blocks: Vec<Option<Block>> = names.blocks().collect();
    assert_eq!(blocks.len(), 20);
    assert_eq!(blocks[0], Some(Block::Shortcut { tier: 64, skip: 2, base, to: 1 }));
    let mut slots = Box::new([None; 16]);
    (slots[0], slots[1]) = (Some(2), Some(19));
    assert_eq!(blocks[1], Some(Block::Node { tier: 64, keys: 17, base, slots }));
    let slots = Box::new([3, 4, 5, 6, 7, 8, 9, 10, 11, 12, 13, 14, 15, 16, 17, 18].map(Some));
    assert_eq!(blocks[2], Some(Block::Node { tier: 63, keys: 16, base, slots }));
    assert_eq!(blocks[19], Some(Block::Leaf { key: key(&[0x10]), object: Word(0x21) }));
    let names = Names::from_words(two_keys());
    let blocks: Vec<Option<Block>> = names.blocks().collect();
    assert_eq!(blocks[0], Some(Block::Leaf { key: key(b"ab"), object: Word(0x1000) }));
    assert_eq!(blocks[1], Some(Block::Free));
}

/// What it cannot read it says; what is whole by itself it shows, though the pool is damaged.
#[test]
fn blocks_that_are_none() {
    let shown = |words: Vec<u64>, at: usize| Names::from_words(words).blocks().nth(at).unwrap();
    for (place, word) in [(2, 0), (2, 68), (3, u64::MAX), (10, 4), (10, u64::MAX), (9, 0x100)] {
        assert_eq!(shown(with(one_key(), place, word), 0), None, "{place} {word}");
    }
    for (place, word) in [(27, 1), (29, 1), (33, 0), (33, 33), (33, 0x101), (34, 1)] {
        assert_eq!(shown(with(one_key(), place, word), 1), None, "{place} {word}");
    }
    for (place, word) in [(2, 1), (3, 3), (4, 1), (10, 0), (11, 2), (10, 21)] {
        assert_eq!(shown(with(seventeen_keys(), place, word), 0), None, "{place} {word}");
    }
    let object = shown(with(one_key(), 28, 6), 1);
    assert_eq!(object, Some(Block::Leaf { key: key(b"a"), object: Word(6) }));
    let cut = Names::from_words(one_key()[..73].to_vec());
    assert_eq!(cut.blocks().collect::<Vec<_>>()[2], None);
    assert_eq!((cut.block_count(), cut.root()), (None, None));
    assert_eq!(Names::from_words(with(one_key(), 1, 4)).root(), None);
    assert_eq!(Names::from_words(Vec::new()).blocks().len(), 0);
}

#[test]
fn keys_are_ordered_by_length_and_bytes() {
    let ascending = [&b"\0"[..], b"b", b"\xff", b"\0\0", b"\0\x01", b"a\xff", b"b\0", &[0xFF; 32]];
    let keys = ascending.map(key);
    assert!(keys.is_sorted() && keys.windows(2).all(|pair| pair[0] != pair[1]));
    assert_eq!(keys.map(|key| key.bytes().to_vec()), ascending.map(<[u8]>::to_vec));
    assert_eq!(key(b"b\0").number()[..4], [2, b'b', 0, 0]);
    for bytes in [0, 33, 256, 257, 288] {
        assert_eq!(Key::new(&vec![7; bytes]), Err(NameError::BadKey { bytes }));
    }
}

#[test]
fn errors_name_what_was_refused() {
    let text = |error: NameError| error.to_string();
    let key = key(b"disk a\0\\\xff");
    assert_eq!(text(NameError::Absent { key }), r"no such key: disk a\x00\\\xff");
    assert_eq!(text(NameError::BadKey { bytes: 33 }), "a key has 1 to 32 bytes, not 33");
    assert_eq!(text(Refusal::NotNames.into()), "pool of names is not well-formed");
    let length = "pool of names: length is not 2 + 24 N words, N from 1 to 16384";
    assert_eq!(text(Refusal::NamesLength.into()), length);
    assert_eq!(Refusal::NamesLength.answer().map(|answer| answer.number()), Some(1));
    assert_eq!(Refusal::NotNames.answer().map(|answer| answer.number()), Some(2));
}

#[test]
fn bytes_are_the_words() {
    let names = Names::from_words(two_keys());
    let bytes = names.to_bytes();
    assert_eq!(
        (bytes.len(), &bytes[..16]),
        (784, &[4, 0, 0, 0, 0, 0, 0, 0, 3, 0, 0, 0, 0, 0, 0, 0][..])
    );
    assert_eq!(Names::from_bytes(&bytes).map(Names::into_words), Ok(two_keys()));
    let refusal = |bytes: &[u8]| Names::from_bytes(bytes).map(Names::into_words).unwrap_err();
    assert_eq!(refusal(&bytes[..783]), Refusal::NamesLength);
    assert_eq!(refusal(&bytes[..776]), Refusal::NamesLength);
    assert_eq!(refusal(&bytes[..592]), Refusal::NotNames); // 3 blocks, and word 0 says 4
    assert_eq!(refusal(&[&bytes[..8], &[9; 8], &bytes[16..]].concat()), Refusal::NotNames);
    let mut words = two_keys();
    assert_eq!(Names::over(&mut words).clone().into_words(), two_keys());
    assert_eq!(Names::over(&mut words).into_words(), two_keys());
}
