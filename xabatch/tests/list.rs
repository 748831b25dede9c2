//! `xabatch list`: the lines and the bytes of a list, ranges, and pools that have none.

mod tool;

use reference::random::Random;
use std::fs;
use tool::{bash, run, tool, Folder};

const ENTRIES: &str = "\
store 0 order 0 value 1
store 64 order 0 value 2
store 4096 order 3 handle 0x1000
store max order 0 value 9223372036854775807
mark 64 mark 0
mark 64 mark 2
";

/// By the rule: the entries above by their first index, each with its marks.
const LINES: [&str; 4] = [
    "0 order 0 value 1 marks -\n",
    "64 order 0 value 2 marks 0,2\n",
    "4096 order 3 handle 0x1000 marks -\n",
    "max order 0 value 9223372036854775807 marks -\n",
];

/// Tag 32, length 18, index, order, word, marks, worked out by hand.
const BYTES: [[u8; 21]; 4] = [
    [32, 0, 18, 0, 0, 0, 0, 0, 0, 0, 0, 0, 0, 0, 0, 0, 0, 0, 0, 3, 0],
    [32, 0, 18, 0, 0, 0, 0, 0, 0, 0, 64, 0, 0, 0, 0, 0, 0, 0, 0, 5, 5],
    [32, 0, 18, 0, 0, 0, 0, 0, 0, 16, 0, 3, 0, 0, 0, 0, 0, 0, 16, 0, 0],
    [
        32, 0, 18, 255, 255, 255, 255, 255, 255, 255, 255, 0, 255, 255, 255, 255, 255, 255, 255,
        255, 0,
    ],
];

/// A folder with the pool file of these entries, and its path.
fn pool() -> (Folder, String) {
    let folder = Folder::new();
    let pool = folder.pool(40);
    run(&pool, ENTRIES);
    (folder, pool.to_str().expect("a plain name").into())
}

#[test]
fn entries_are_listed_by_range() {
    let (_folder, pool) = pool();
    let before = fs::read(&pool).expect("a pool");
    let cases: [(&[&str], &[usize]); 8] = [
        (&[], &[0, 1, 2, 3]),
        (&["0..max"], &[0, 1, 2, 3]),
        (&["0..0"], &[0]),
        (&["1..63"], &[]),
        (&["64..0x1000"], &[1, 2]),
        (&["4103..max"], &[2, 3]),
        (&["4104..18446744073709551614"], &[]),
        (&["max..max"], &[3]),
    ];
    for (range, entries) in cases {
        let arguments = [&["list", &pool], range].concat();
        let lines = entries.iter().map(|at| LINES[*at]).collect::<String>().into_bytes();
        assert_eq!(tool(&arguments, &[]), (0, lines.clone(), String::new()), "{range:?}");
        let (status, bytes, _) = tool(&[&arguments[..], &["--bytes"]].concat(), &[]);
        let expected: Vec<u8> = entries.iter().flat_map(|at| BYTES[*at]).collect();
        assert_eq!((status, &bytes), (0, &expected), "{range:?}");
        assert_eq!(tool(&["decode"], &bytes), (0, lines, String::new()));
    }
    let through_a_pipe = tool(&["list", "-", "64..64"], &before);
    assert_eq!(through_a_pipe, (0, LINES[1].into(), String::new()));
    assert_eq!(fs::read(&pool).expect("a pool"), before);
}

#[test]
fn what_cannot_be_listed_is_told() {
    let (folder, pool) = pool();
    let refused = |bytes: &[u8]| tool(&["list", "-"], bytes);
    let mut words = fs::read(&pool).expect("a pool");
    words[24] = 1;
    let not_well_formed = "xabatch: <stdin>: pool is not well-formed\n";
    assert_eq!(refused(&words), (1, Vec::new(), not_well_formed.into()));
    let length = "xabatch: <stdin>: pool length is not 4 + 70 N words, N from 1 to 16384\n";
    assert_eq!(refused(&words[..16]), (1, Vec::new(), length.into()));
    assert_eq!(refused(&[]), (1, Vec::new(), length.into()));
    assert_eq!(refused(&words[..17]).2, "xabatch: <stdin>: 1 bytes after the last whole word\n");
    let missing = folder.name("none");
    let (status, _, errors) = tool(&["list", &missing], &[]);
    assert_eq!((status, errors.contains("none: No such file")), (1, true), "{errors}");
    let cases: [(&[&str], &str); 5] = [
        (&["5..4"], "5..4: first is above last"),
        (&["5"], "5: expected '..'"),
        (&["1..2", "3..4"], "'3..4': one argument too many"),
        (&["--byte"], "no option"),
        (&["--bytes=1"], "takes no value"),
    ];
    for (more, message) in cases {
        let (status, out, errors) = tool(&[&["list", &pool], more].concat(), &[]);
        assert_eq!((status, out.len(), errors.contains(message)), (2, 0, true), "{errors}");
    }
    assert_eq!(tool(&["list"], &[]).0, 2);
}

/// A list that was kept and cut, or damaged, is told by its place; and it is no output of a batch.
#[test]
fn a_kept_list_is_decoded_or_told() {
    let list = BYTES.concat();
    let (status, lines, errors) = tool(&["decode"], &list[..62]);
    assert_eq!((status, lines), (1, LINES[..2].concat().into_bytes()));
    assert!(errors.contains("<stdin>: byte 42: "), "{errors}");
    let (_folder, pool) = pool();
    let line = format!("\"$X\" list --bytes {pool} | \"$X\" decode --batch <(printf '')");
    let (status, _, errors) = bash(&line, &[]);
    assert_eq!((status, errors.contains("are no replies")), (1, true), "{errors}");
}

/// The list of a pool of random entries is that of its loads, and `show --summary` counts as many.
#[test]
fn a_list_has_as_many_entries_as_show_counts() {
    let mut random = Random::new(3);
    for _ in 0..10 {
        let folder = Folder::new();
        let pool = folder.pool(300);
        let mut store = || {
            let order = random.below(8);
            let index = random.below(1 << 20) >> order << order;
            format!("store {index} order {order} value {index}\n")
        };
        run(&pool, &(0..100).map(|_| store()).collect::<String>());
        let pool = pool.to_str().expect("a plain name");
        let lines = String::from_utf8(tool(&["list", pool], &[]).1).expect("text");
        let summary = String::from_utf8(tool(&["show", "--summary", pool], &[]).1).expect("text");
        let counted = format!("\nentries: {}, in ", lines.lines().count());
        assert!(summary.contains(&counted) && lines.lines().count() > 50, "{summary}");
    }
}
