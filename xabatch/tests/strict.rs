//! What `xabatch run` says of commands that were not done, and what `--strict` then keeps: nothing.

mod tool;

use std::fs;
use std::os::unix::fs::MetadataExt;
use tool::{bash, batch, tool, Folder};

/// What the man page names as the status of a run that `--strict` did not keep.
const NOT_DONE: i32 = 4;

/// Runs the text on a new pool of so many nodes; gives status, output, errors and whether the file
/// is still the one that it was.
fn run(options: &[&str], nodes: usize, text: &str) -> (i32, Vec<u8>, String, bool) {
    let folder = Folder::new();
    let pool = folder.pool(nodes);
    let inode = fs::metadata(&pool).expect("a pool").ino();
    let before = fs::read(&pool).expect("a pool");
    let name = folder.name("p.pool");
    let (status, output, errors) = tool(&[&["run", &name], options].concat(), &batch(text));
    let is_same = fs::read(&pool).expect("a pool") == before;
    assert_eq!(is_same, fs::metadata(&pool).expect("a pool").ino() == inode);
    (status, output, errors.replace(&name, "p.pool"), is_same)
}

/// A pool of one node has room for the indices 0 to 63 (R19).
fn fifty_thousand() -> String {
    (0..50_000).map(|index| format!("store {index} order 0 value {index}\n")).collect()
}

const REFUSED: &str = "49936 of 50000 commands were not done: 49936 too few free nodes\n";

#[test]
fn what_is_not_done_is_said() {
    let (status, replies, errors, is_same) = run(&[], 1, &fifty_thousand());
    assert_eq!((status, replies.len(), is_same), (0, 50_000 * 24, false));
    assert_eq!(errors, format!("xabatch: {REFUSED}"));
}

#[test]
fn strict_keeps_all_or_nothing() {
    let (status, replies, errors, is_same) = run(&["--strict"], 1, &fifty_thousand());
    assert_eq!((status, replies.len(), is_same), (NOT_DONE, 0, true), "{errors}");
    let lines: Vec<&str> = errors.lines().collect();
    assert_eq!(lines.len(), 21, "twenty are named");
    assert_eq!(lines[0], "xabatch: command 65: store 64 order 0 value 64: too few free nodes");
    assert_eq!(lines[19], "xabatch: command 84: store 83 order 0 value 83: too few free nodes");
    assert_eq!(lines[20], format!("xabatch: p.pool: nothing is kept: {}", REFUSED.trim_end()));
    let text = "store 0 order 0 value 1\nstore 1 order 0 value 2\n";
    let (status, replies, errors, is_same) = run(&["--strict"], 1, text);
    assert_eq!((status, replies.len(), &*errors, is_same), (0, 48, "", false));
}

/// A find that ended or paused was done; what is absent was not.
#[test]
fn what_counts_as_done() {
    let stores = "store 0 order 0 value 1\nstore 64 order 0 value 2\n";
    let finds = [
        ("find 0..max any budget 9000\n", 0),
        ("find 65..max any budget 9000\n", 12),
        ("find 65..max any budget 1\n", 13),
    ];
    for (find, answer) in finds {
        let (status, replies, errors, _) = run(&["--strict"], 3, &format!("{stores}{find}"));
        assert_eq!((status, replies.len(), &*errors), (0, 72, ""), "{find}");
        assert_eq!(replies[48 + 3], answer, "{find}");
    }
    let not_done = [
        ("load 5\n", "no entry covers the index"),
        ("erase 5\n", "no entry covers the index"),
        ("mark 5 mark 2\n", "no entry covers the index"),
        ("mark 0 mark 3\n", "mark above 2 or filter above 3"),
        ("find 2..1 any budget 9\n", "first above last"),
        ("find 1..2 any budget 0\n", "budget 0"),
        ("store 1 order 1 value 1\n", "index is not a multiple of 2^order"),
        ("store 0 order 64 value 1\n", "order above 63"),
        ("store 1 order 0 word 2\n", "entry is 0 or ends in binary 10"),
        ("store 4096 order 0 value 1\n", "too few free nodes"),
        ("reserve 64\n", "index is covered by an entry or reserved"),
    ];
    for (command, why) in not_done {
        let text = format!("{stores}{command}");
        let (status, replies, errors, is_same) = run(&["--strict"], 3, &text);
        assert_eq!((status, replies.len(), is_same), (NOT_DONE, 0, true), "{command}{errors}");
        let line = format!("nothing is kept: 1 of 3 commands were not done: 1 {why}\n");
        assert!(errors.ends_with(&line), "{errors}");
        let (status, replies, errors, is_same) = run(&[], 3, &text);
        assert_eq!((status, replies.len(), is_same), (0, 72, false), "{command}{errors}");
        assert_eq!(errors, format!("xabatch: 1 of 3 commands were not done: 1 {why}\n"));
    }
}

#[test]
fn several_causes_are_told_apart() {
    let text = "load 1\nstore 1 order 64 value 1\nload 2\nstore 0 order 0 value 1\n";
    let errors = run(&[], 1, text).2;
    let said = "3 of 4 commands were not done: 1 order above 63, 2 no entry covers the index";
    assert_eq!(errors, format!("xabatch: {said}\n"));
}

/// As it comes from an encode that failed.
#[test]
fn no_command_is_not_all_done() {
    let (status, _, errors, is_same) = run(&["--strict"], 1, "");
    assert_eq!((status, is_same), (NOT_DONE, true));
    assert_eq!(errors, "xabatch: p.pool: nothing is kept: no command: the batch is empty\n");
    let (status, _, errors, _) = run(&[], 1, "");
    assert_eq!((status, &*errors), (0, "xabatch: no command: the batch is empty\n"));
}

/// The status says that nothing is kept, whatever becomes of the output.
#[test]
fn strict_and_no_place_for_the_replies() {
    let folder = Folder::new();
    let pool = folder.pool(1);
    let line = format!("\"$X\" run --strict --json {} > /dev/full", pool.display());
    let (status, _, errors) = bash(&line, &batch("store 0 order 0 value 1\nload 1\n"));
    assert_eq!(status, NOT_DONE);
    assert!(errors.contains("nothing is kept: 1 of 2 commands were not done"), "{errors}");
    assert!(errors.contains("No space left"), "{errors}");
    assert!(fs::read(&pool).expect("a pool") == tool(&["new", "1"], &[]).1);
}

/// Two leaves below a head are three nodes (R19, R20).
#[test]
fn counts_as_json() {
    let text = "store 0 order 0 value 1\nstore 64 order 0 value 2\nload 5\nload 6\n\
                find 65..max any budget 9000\n";
    let counts =
        r#""commands":5,"done":3,"not_done":2,"answers":[{"answer":0,"text":"done","replies":2},"#;
    let others = r#"{"answer":10,"text":"no entry covers the index","replies":2},{"answer":12,"text":"ended","replies":1}]"#;
    let (status, output, errors, is_same) = run(&["--json"], 5, text);
    assert_eq!((status, is_same), (0, false));
    let end = r#""kept":true,"changed":true,"nodes":5,"in_use":3,"free":2"#;
    assert_eq!(String::from_utf8_lossy(&output), format!("{{{counts}{others},{end}}}\n"));
    assert_eq!(errors, "xabatch: 2 of 5 commands were not done: 2 no entry covers the index\n");
    let (status, output, _, is_same) = run(&["--json", "--strict"], 5, text);
    assert_eq!((status, is_same), (NOT_DONE, true));
    let end = r#""kept":false,"changed":false,"nodes":5,"in_use":0,"free":5"#;
    assert_eq!(String::from_utf8_lossy(&output), format!("{{{counts}{others},{end}}}\n"));
}

/// Where standard error is full or closed, the status and the output are what they would be.
#[test]
fn complaints_that_cannot_be_written() {
    let folder = Folder::new();
    let pool = folder.pool(1);
    let run = |options: &str, rest: &str, text: &str| {
        let line = format!("\"$X\" run {options} {} {rest}", pool.display());
        let (status, output, _) = bash(&line, &batch(text));
        (status, output.len())
    };
    for rest in ["2> /dev/full", "2>&-"] {
        assert_eq!(run("", rest, "load 1\n"), (0, 24), "{rest}");
        assert_eq!(run("--strict", rest, "load 1\n"), (NOT_DONE, 0), "{rest}");
        assert_eq!(run("--strange", rest, "load 1\n"), (2, 0), "{rest}");
        assert_eq!(bash(&format!("\"$X\" {rest}"), &[]).0, 2, "{rest}");
        assert_eq!(bash(&format!("\"$X\" new 3 {} {rest}", pool.display()), &[]).0, 1, "{rest}");
    }
}
