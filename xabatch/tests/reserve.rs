//! Reserved indices: as text, drawn, listed, and their word where it may not be.

mod tool;

use tool::{batch, run, tool, Folder};
use xapool_host::bytes_of_words;

fn text(out: Vec<u8>) -> String {
    String::from_utf8(out).expect("text")
}

/// A pool file of so many nodes after these commands, and what `show` writes of it.
fn shown(nodes: usize, commands: &str, options: &[&str]) -> String {
    let folder = Folder::new();
    let pool = folder.pool(nodes);
    run(&pool, commands);
    let name = pool.to_str().expect("a plain name");
    let (status, out, errors) = tool(&[&["show"], options, &[name]].concat(), &[]);
    assert_eq!((status, errors.as_str()), (0, ""));
    text(out)
}

/// Tag 7, length 8 and the index; the reply's tag is 135.
#[test]
fn a_reserve_is_encoded_and_decoded() {
    let record = [7, 0, 8, 0, 0, 0, 0, 0, 0, 0, 64];
    assert_eq!(batch("reserve 0x40 # room for a page\n"), record);
    assert_eq!(text(tool(&["decode"], &record).1), "reserve 64\n");
    assert_eq!(tool(&["decode"], &record[..10]).0, 1);
    let folder = Folder::new();
    let pool = folder.pool(2);
    let commands = "reserve 64\nreserve 64\nreserve 0\nload 64\nerase 64\nerase 64\n";
    let (status, replies, _) =
        tool(&["run", pool.to_str().expect("a plain name")], &batch(commands));
    assert_eq!((status, replies[0], replies[27]), (0, 135, 15));
    let lines = "\
reserve: done, 64 reserved
reserve: index is covered by an entry or reserved
reserve: too few free nodes
load: no entry covers the index, count 2
erase: done, 64 reserved
erase: no entry covers the index
";
    assert_eq!(text(tool(&["decode"], &replies).1), lines);
}

const COMMANDS: &str = "reserve 0\nreserve 64\nstore 65 order 0 value 2\nmark 65 mark 1\n";

#[test]
fn a_reserved_slot_is_drawn() {
    let drawn = "\
pool of 3 nodes, 214 words: 3 in use, 0 free
head: node 0, shift 6, indices 0..4095, filled 2, marks 1
├─ slot 0: node 1, shift 0, indices 0..63, filled 1, marks -
│  └─ slot 0: index 0, reserved
└─ slot 1: node 2, shift 0, indices 64..127, filled 2, marks 1
   ├─ slot 0: index 64, reserved
   └─ slot 1: index 65, order 0 value 2, marks 1
well-formed
";
    assert_eq!(shown(3, COMMANDS, &[]), drawn);
    assert!(shown(3, COMMANDS, &["--range", "65..max"]).contains("(1 more slot outside the range)"));
    let summary = "\
pool of 3 nodes, 214 words: 3 in use, 0 free
entries: 1, in 65: 1 of order 0
reserved indices: 2
marks: 0 with mark 0, 1 with mark 1, 0 with mark 2
nodes: 2 of shift 0, 1 of shift 6
well-formed
";
    assert_eq!(shown(3, COMMANDS, &["--summary"]), summary);
}

#[test]
fn a_reserved_head_is_drawn() {
    let header = "pool of 1 nodes, 74 words: 0 in use, 1 free\n";
    let drawn = format!("{header}head: index 0, reserved\nwell-formed\n");
    assert_eq!(shown(1, "reserve 0\n", &[]), drawn);
    let counts = "entries: 0\nreserved indices: 1\n";
    let marks = "marks: 0 with mark 0, 0 with mark 1, 0 with mark 2\n";
    let summary = format!("{header}{counts}{marks}well-formed\n");
    assert_eq!(shown(1, "reserve 0\n", &["--summary"]), summary);
}

#[test]
fn reserved_indices_are_listed() {
    let folder = Folder::new();
    let pool = folder.pool(3);
    run(&pool, COMMANDS);
    let name = pool.to_str().expect("a plain name");
    let lines = "0 reserved\n64 reserved\n65 order 0 value 2 marks 1\n";
    assert_eq!(text(tool(&["list", name], &[]).1), lines);
    let bytes = tool(&["list", "--bytes", name, "1..64"], &[]).1;
    assert_eq!(bytes, [32, 0, 18, 0, 0, 0, 0, 0, 0, 0, 64, 0, 0, 0, 0, 0, 0, 0, 0, 0, 0]);
    assert_eq!(text(tool(&["decode"], &bytes).1), "64 reserved\n");
    // With a mark or an order it is no entry of a list.
    for place in [11, 20] {
        let mut other = bytes.clone();
        other[place] = 1;
        assert_eq!(tool(&["decode"], &other).0, 1);
    }
}

/// Words of a pool of one node, the head, of this shift with these words and the filled count that
/// goes with them.
fn pool(shift: u64, named: &[(usize, u64)]) -> Vec<u64> {
    let mut words = vec![0; 74];
    (words[0], words[1], words[4]) = (1, 4098, shift + 1);
    named.iter().for_each(|(place, word)| words[*place] = *word);
    words[6] = words[10..].iter().filter(|word| **word != 0).count() as u64;
    words
}

/// Slot j of the node is word 10 + j, mark 0 its word 7; 1,030 is 406 in hex.
#[test]
fn a_misplaced_word_is_named() {
    let cases = [
        (
            pool(6, &[(10, 3), (15, 1030)]),
            "word 15: slot 5: reserved (0x406) in a node of shift 6, not 0",
        ),
        (pool(60, &[(10, 3), (27, 1030)]), "word 27: slot 17 lies past 2^64 and is not 0"),
        (
            pool(0, &[(15, 1030), (7, 32), (2, 1)]),
            "word 7: mark 0 of slot 5 is set, expected clear",
        ),
        (
            pool(0, &[(10, 1030)]),
            "word 4: the head is too wide: index 0 alone, reserved, needs no node",
        ),
        (pool(0, &[(1, 1030), (2, 1), (4, 0)]), "word 2: the marks byte is 1, expected 0"),
        (
            pool(0, &[(1, 1030), (15, 3)]),
            "word 1: the head is 0x406, but by its owner word node 0 is there (0x1002)",
        ),
        (
            pool(0, &[(18, 7), (19, 34), (20, 1030), (21, 34)]),
            "word 21: slot 11: a sibling of slot 8 that follows no such entry",
        ),
        (
            pool(0, &[(18, 1030), (19, 34)]),
            "word 19: slot 9: a sibling of slot 8 that follows no such entry",
        ),
    ];
    for (words, finding) in cases {
        let (status, out, _) = tool(&["show", "--findings", "-"], &bytes_of_words(&words));
        let out = text(out);
        assert_eq!(status, 1, "{finding}");
        assert!(out.lines().any(|line| line.trim_start() == finding), "{finding}, not {out}");
    }
    let good = pool(0, &[(10, 1030), (15, 1030)]);
    assert_eq!(tool(&["show", "-"], &bytes_of_words(&good)).0, 0);
}
