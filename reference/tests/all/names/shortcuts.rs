//! Shortcuts: one over the root, short and long ones, a key that parts them at each place, and back; exact shortage.

use super::helpers::*;
use reference::names::calls::{check, delete};

/// `sixteen` and the key 0x01. All begin with the nibbles 0 and 1, so nodes of the tiers 66 and 65 have only one filled slot
/// each, and become shortcut 17. Node 18 of tier 64 has one slot for each byte's first nibble, node 19 has 0x00 and 0x01.
fn seventeen(count: usize) -> Names {
    let mut names = sixteen(count);
    names.put(&[0x01], 33, 4);
    names
}

/// What stands under the shortcut of `seventeen`.
fn under() -> Vec<Stands> {
    let mut blocks = sixteen_leaves();
    let slots = [(0, 19)].into_iter().chain((1..16).map(|nibble| (nibble, nibble + 1)));
    blocks.push(node(18, "01", 17, &slots.collect::<Vec<_>>()));
    blocks.push(node(19, "010", 2, &[(0, 1), (1, 20)]));
    blocks.push(leaf(20, "0101", 33));
    blocks
}

fn with(mut blocks: Vec<Stands>, more: impl IntoIterator<Item = Stands>) -> Vec<Stands> {
    blocks.extend(more);
    blocks
}

fn seventeen_words(count: usize) -> Vec<u64> {
    words(count, Some(17), &with(under(), [shortcut(17, "", "01", 18)]))
}

#[test]
fn the_root_becomes_a_shortcut() {
    sixteen(20).short_insert(&[0x01], 4);
    let names = seventeen(21);
    names.assert_words(&seventeen_words(21));
    // The shortcut in numbers: tier 64 + 1, two nodes, value 0, the length byte 1 in the base's top word, node 18.
    assert_eq!(names.words[1], 18);
    let fields = [65, 2, 0, 0, 0, 0, 0, 1, 19, 0, 0, 0, 0, 0, 0, 0, 0, 0, 0, 0, 0, 0, 0, 0];
    assert_eq!(names.words[at(17, 0)..at(18, 0)], fields);
    // Node 18: tier 64 + 1, 17 keys, the same base.
    let fields =
        [65, 0, 17, 0, 0, 0, 0, 1, 20, 3, 4, 5, 6, 7, 8, 9, 10, 11, 12, 13, 14, 15, 16, 17];
    assert_eq!(names.words[at(18, 0)..at(19, 0)], fields);
    let fields = [64, 0, 2, 0, 0, 0, 0, 1, 2, 21, 0, 0, 0, 0, 0, 0, 0, 0, 0, 0, 0, 0, 0, 0];
    assert_eq!(names.words[at(19, 0)..at(20, 0)], fields);
}

/// With 16 keys the root is a node again; it takes the only free number, 0.
#[test]
fn a_delete_makes_the_root_a_node() {
    let mut names = seventeen(21);
    names.take(&[0x01], 33, 1);
    names.assert_words(&words(
        21,
        Some(0),
        &with(sixteen_leaves(), [node(0, "", 16, &packed(1..17))]),
    ));

    let mut names = seventeen(21);
    names.take(&[0x00], 1, 1);
    let mut blocks = sixteen_leaves();
    blocks.remove(0);
    blocks.push(leaf(20, "0101", 33));
    blocks.push(node(0, "", 16, &packed([20].into_iter().chain(2..17))));
    names.assert_words(&words(21, Some(0), &blocks));
}

/// The same tree under other numbers, in a pool of 20 blocks: none is left for the node that a delete needs.
#[test]
fn a_delete_can_be_short_of_a_node() {
    let full = |count| {
        let mut blocks = sixteen_leaves();
        let slots = [(0, 18)].into_iter().chain((1..16).map(|nibble| (nibble, nibble + 1)));
        blocks.push(shortcut(0, "", "01", 17));
        blocks.push(node(17, "01", 17, &slots.collect::<Vec<_>>()));
        blocks.push(node(18, "010", 2, &[(0, 1), (1, 19)]));
        blocks.push(leaf(19, "0101", 33));
        Names { words: words(count, Some(0), &blocks) }
    };
    let mut names = full(20);
    assert_eq!(check(&names.words), outcome(0, 0));
    for byte in (0..16).map(|n| 16 * n).chain([1]) {
        names.short_delete(&[byte], 1);
    }
    // What is not there is 10 first.
    assert_eq!(delete(&mut names.words, &[2]), outcome(10, 0));
    // One block more is enough.
    let mut names = full(21);
    names.take(&[0x01], 33, 1);
    let blocks = with(sixteen_leaves(), [node(20, "", 16, &packed(1..17))]);
    names.assert_words(&words(21, Some(20), &blocks));
}

/// The same by calls alone: the pool is full, and the node over the keys of one byte is missing.
#[test]
fn a_pool_can_be_filled_so_that_a_delete_is_short() {
    let mut names = sixteen(23);
    names.put(&[0xAA; 16], 24, 2);
    names.put(&[0x01], 33, 4);
    assert_eq!(names.used(), 22);
    names.short_insert(&[0xBB; 16], 2);
    names.put(&[0xBB; 32], 28, 1);
    assert_eq!(names.used(), 23);
    names.short_delete(&[0x01], 1);
    names.take(&[0xAA; 16], 24, 0);
    names.take(&[0x01], 33, 1);
    // Node 17 went when the shortcut came, and the last leaf took its number; 18 was that of the key just deleted.
    let mut blocks = sixteen_leaves();
    blocks.push(node(0, "", 17, &[(0, 18), (2, 17)]));
    blocks.push(node(18, "0", 16, &packed(1..17)));
    blocks.push(leaf(17, &format!("20{}", "bb".repeat(32)), 28));
    names.assert_words(&words(23, Some(0), &blocks));
}

/// A key of 16 bytes parts it at its top: node 0 is new, and a shortcut over tier 65 alone.
fn parted_at_the_top(count: usize) -> Names {
    let mut names = seventeen(count);
    names.put(&[0xAA; 16], 24, 3);
    names
}

fn long_leaf() -> Stands {
    leaf(22, &format!("10{}", "aa".repeat(16)), 24)
}

#[test]
fn a_key_parts_it_at_the_top() {
    seventeen(22).short_insert(&[0xAA; 16], 3);
    assert_eq!(parted_at_the_top(23).used(), 22);
    let mut names = parted_at_the_top(24);
    let top = [node(0, "", 18, &[(0, 21), (1, 22)]), shortcut(21, "0", "01", 18), long_leaf()];
    names.assert_words(&words(24, Some(0), &with(under(), top)));
    // Back: the shortcut takes 17, the lowest free number, which it had before.
    names.take(&[0xAA; 16], 24, 1);
    names.assert_words(&seventeen_words(24));
}

#[test]
fn a_delete_can_be_short_of_a_shortcut() {
    let mut names = parted_at_the_top(23);
    names.put(&[0x02], 35, 1);
    assert_eq!(names.used(), 23);
    names.short_delete(&[0xAA; 16], 1);
    names.take(&[0x02], 35, 0);
    names.take(&[0xAA; 16], 24, 1);
    names.assert_words(&seventeen_words(23));
}

/// A key of two bytes parts it at its lower end: a shortcut over tier 66 alone, then a node of tier 65.
#[test]
fn a_key_parts_it_at_the_end() {
    seventeen(22).short_insert(b"ab", 3);
    let mut names = seventeen(24);
    names.put(b"ab", 48, 3);
    let top =
        [shortcut(0, "", "0", 21), node(21, "0", 18, &[(1, 18), (2, 22)]), leaf(22, "026162", 48)];
    names.assert_words(&words(24, Some(0), &with(under(), top)));
    names.take(b"ab", 48, 1);
    names.assert_words(&seventeen_words(24));
}

/// A shortcut over one node alone is parted to that node. Numbers 17 and 23 are free.
#[test]
fn a_shortcut_over_one_node_is_parted() {
    let both = |count| {
        let mut names = parted_at_the_top(count);
        names.put(b"ab", 48, 2);
        names
    };
    parted_at_the_top(23).short_insert(b"ab", 2);
    let mut names = both(24);
    let ab = || leaf(23, "026162", 48);
    let node_0 = || node(17, "0", 18, &[(1, 18), (2, 23)]);
    let top = [node(0, "", 19, &[(0, 17), (1, 22)]), node_0(), long_leaf(), ab()];
    names.assert_words(&words(24, Some(0), &with(under(), top)));

    // Back over the one key: the shortcut over tier 65 takes its number 21.
    names.take(b"ab", 48, 1);
    let top = [node(0, "", 18, &[(0, 21), (1, 22)]), shortcut(21, "0", "01", 18), long_leaf()];
    names.assert_words(&words(24, Some(0), &with(under(), top)));

    // Back over the other key: a shortcut over tier 66, and node 17 stays.
    let mut names = both(24);
    names.take(&[0xAA; 16], 24, 1);
    let top = [shortcut(21, "", "0", 17), node_0(), ab()];
    names.assert_words(&words(24, Some(21), &with(under(), top)));
}

/// 31 bytes of 0x78 and then this one.
fn long(last: u8) -> Vec<u8> {
    [vec![0x78; 31], vec![last]].concat()
}

/// The 64 nibbles that these keys have in common.
fn common() -> String {
    format!("20{}", "78".repeat(31))
}

/// 17 keys that differ in the last byte alone, 0x00 to 0x10: shortcut 17 over 64 nodes.
fn long_prefix(count: usize) -> Names {
    let mut names = Names::cleared(count);
    for last in 0..16 {
        names.put(&long(last), 4 * u64::from(last) + 4, if last == 0 { 2 } else { 1 });
    }
    names.put(&long(16), 3, 4);
    names
}

fn long_under() -> Vec<Stands> {
    let leaf_of =
        |last: usize| leaf(last + 1, &format!("{}{last:02x}", common()), 4 * last as u64 + 4);
    let mut blocks: Vec<Stands> = (0..16).map(leaf_of).collect();
    blocks.push(node(18, &common(), 17, &[(0, 19), (1, 20)]));
    blocks.push(node(19, &format!("{}0", common()), 16, &packed(1..17)));
    blocks.push(leaf(20, &format!("{}10", common()), 3));
    blocks
}

fn long_words(count: usize) -> Vec<u64> {
    words(count, Some(17), &with(long_under(), [shortcut(17, "", &common(), 18)]))
}

#[test]
fn a_long_common_prefix_is_one_shortcut() {
    let names = long_prefix(21);
    names.assert_words(&long_words(21));
    let x = 0x7878_7878_7878_7878;
    assert_eq!(names.words[at(17, 0)..at(17, 10)], [3, 64, 0, x - 0x78, x, x, x, 32, 19, 0]);
    assert_eq!(names.words[at(18, 0)..at(18, 11)], [3, 0, 17, x - 0x78, x, x, x, 32, 20, 21, 0]);
    assert_eq!(names.words[at(19, 0)..at(19, 9)], [2, 0, 16, x - 0x78, x, x, x, 32, 2]);
    assert_eq!(names.words[at(20, 0)..at(20, 9)], [1, 0, 3, x - 0x68, x, x, x, 32, 0]);
}

#[test]
fn back_to_sixteen_keys_under_one_node() {
    let mut names = long_prefix(21);
    names.take(&long(16), 3, 1);
    let mut blocks: Vec<Stands> = long_under().into_iter().take(16).collect();
    blocks.push(node(0, "", 16, &packed(1..17)));
    names.assert_words(&words(21, Some(0), &blocks));
}

/// The fifth byte is 0x79: nibble 11 is another one. Four blocks are new: a shortcut over tiers 66 to 56, a node of tier 55,
/// a shortcut over tiers 54 to 3, a leaf.
#[test]
fn a_key_parts_it_in_the_middle() {
    let key = [vec![0x78; 4], vec![0x79; 20]].concat();
    assert_eq!(key.len(), 24);
    let mut key = [key, vec![0x78; 8]].concat();
    long_prefix(23).short_insert(&key, 4);
    let mut names = long_prefix(24);
    names.put(&key, 5, 4);
    let nibbles = common();
    let text = format!("20{}{}{}", "78".repeat(4), "79".repeat(20), "78".repeat(8));
    let top = [
        shortcut(0, "", &nibbles[..11], 21),
        node(21, &nibbles[..11], 18, &[(8, 22), (9, 23)]),
        shortcut(22, &nibbles[..12], &nibbles, 18),
        leaf(23, &text, 5),
    ];
    names.assert_words(&words(24, Some(0), &with(long_under(), top)));
    assert_eq!(names.words[at(0, 0)..at(0, 2)], [56, 11]);
    assert_eq!(names.words[at(21, 0)..at(21, 3)], [56, 0, 18]);
    assert_eq!(names.words[at(22, 0)..at(22, 2)], [3, 52]);
    names.take(&key, 5, 1);
    names.assert_words(&long_words(24));

    // Nibble 63, the last under the shortcut: the node of tier 3 leads to node 18 itself.
    key = [vec![0x78; 30], vec![0x79, 0]].concat();
    long_prefix(22).short_insert(&key, 3);
    names.put(&key, 5, 3);
    let top = [
        shortcut(0, "", &nibbles[..63], 21),
        node(21, &nibbles[..63], 18, &[(8, 18), (9, 22)]),
        leaf(22, &format!("{}7900", &nibbles[..62]), 5),
    ];
    names.assert_words(&words(24, Some(0), &with(long_under(), top)));
    assert_eq!(names.words[at(0, 0)..at(0, 2)], [4, 63]);
    names.take(&key, 5, 1);
    names.assert_words(&long_words(24));
}

/// Eight pairs and one key more: a shortcut, the node under it, eight nodes of pairs, the leaf. No insert needs more.
#[test]
fn an_insert_can_need_eleven() {
    let pairs = |count| {
        let mut names = Names::cleared(count);
        for n in 0..8 {
            names.put(&[16 * n], 5, if n == 0 { 2 } else { 1 });
            names.put(&[16 * n + 1], 7, 1);
        }
        names
    };
    pairs(27).short_insert(&[0x80], 11);
    let mut names = pairs(28);
    names.put(&[0x80], 9, 11);
    // Shortcut 17, node 18, the pairs 19 to 26, the leaf 27.
    let mut blocks = vec![shortcut(17, "", "01", 18), leaf(27, "0180", 9)];
    blocks.push(node(18, "01", 17, &packed((19..27).chain([27]))));
    for n in 0..8 {
        let nibbles = format!("01{n:x}");
        blocks.push(node(19 + n, &nibbles, 2, &[(0, 2 * n + 1), (1, 2 * n + 2)]));
        blocks.push(leaf(2 * n + 1, &format!("{nibbles}0"), 5));
        blocks.push(leaf(2 * n + 2, &format!("{nibbles}1"), 7));
    }
    names.assert_words(&words(28, Some(17), &blocks));
    // All back but the numbers: the root takes 0, ten blocks go.
    names.take(&[0x80], 9, 1);
    names.assert_words(&pairs(28).words);
}

/// Of a node below the root: 17 keys of two bytes with the same first one, beside a key of one byte and one of 16 bytes.
#[test]
fn a_shortcut_below_a_node() {
    let mut names = Names::cleared(60);
    names.put(&[0], 1, 2);
    names.put(&[0; 16], 1, 1);
    for n in 0..13 {
        names.put(&[5, 16 * n], 3, 1);
    }
    names.put(&[5, 0xD0], 3, 1);
    assert_eq!(names.used(), 17);
    // The 17th key: the root has slots 0 and 1, and under "0" are 16.
    names.put(&[5, 0xE0], 3, 2);
    // The 17th under "0": its node 17 stays, with slots 1 and 2; the 16 of two bytes are packed in a node of "02".
    names.put(&[5, 0xF0], 3, 2);
    // The 17th of two bytes: "02" goes for a shortcut over "02", "020" to "0205"; that node and one of two keys are new.
    names.put(&[5, 0x01], 3, 4);
    let state = names.state();
    let nodes: Vec<usize> = (0..60).filter(|n| names.words[at(*n, 0)] > 1).collect();
    let fields: Vec<[u64; 3]> =
        nodes.iter().map(|n| [0, 1, 2].map(|field| names.words[at(*n, field)])).collect();
    assert_eq!(nodes, [0, 17, 21, 22, 23]);
    assert_eq!(fields, [[67, 0, 19], [66, 0, 18], [63, 2, 0], [63, 0, 17], [62, 0, 2]]);
    assert_eq!(state.places[19], None);
}
