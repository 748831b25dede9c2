//! `xabatch prepare` and `apply`: a command in two halves, the exit status of each refusal, cuts, and other pools.

mod tool;

use std::fs;
use std::path::Path;
use tool::{bash, batch, run, tool, Folder};
use xapool_host::{Pool, Script};

const SETUP: &str =
    "store 8 order 3 value 1\nstore 64 order 0 value 2\nmark 64 mark 0\nreserve 300";

/// A pool file with some entries, and the names of it and of a script that is not there yet.
fn filled() -> (Folder, String, String) {
    let folder = Folder::new();
    run(&folder.pool(12), SETUP);
    let (pool, script) = (folder.name("p.pool"), folder.name("s.script"));
    (folder, pool, script)
}

fn prepared(pool: &str, script: &str, command: &str) -> String {
    let (status, out, errors) = tool(&["prepare", "-o", script, "--command", command, pool], &[]);
    assert_eq!((status, errors), (0, String::new()), "{command}");
    String::from_utf8(out).expect("text")
}

fn words_of(path: &str) -> Vec<u64> {
    let bytes = fs::read(path).expect("a file");
    Pool::from_bytes(&bytes).expect("a pool").into_words()
}

#[test]
fn prepared_and_applied_is_the_command() {
    let commands = [
        "store 64 order 0 value 3",
        "store 4096 order 0 handle 0x40",
        "store 64 order 6 value 9",
        "mark 64 mark 2",
        "unmark 64 mark 0",
        "erase 12",
        "erase 300",
        "reserve 500",
        "mark 64 mark 0",
    ];
    for command in commands {
        let (folder, pool, script) = filled();
        let before = fs::read(&pool).expect("a pool");
        let text = prepared(&pool, &script, command);
        assert_eq!(fs::read(&pool).expect("a pool"), before, "{command}");
        let changes = Script::from_bytes(&fs::read(&script).expect("kept")).expect("a script");
        let count = changes.changes().len();
        let (words, are) =
            if count == 1 { ("word changes", "word is") } else { ("words change", "words are") };
        assert_eq!(text, format!("prepared: {count} {words}\n"));

        let uncut = folder.path("uncut.pool");
        fs::copy(&pool, &uncut).expect("copied");
        run(&uncut, command);
        let (status, out, errors) = tool(&["apply", &pool, &script], &[]);
        assert_eq!((status, errors), (0, String::new()));
        assert_eq!(out, format!("applied: {count} {are} written\n").into_bytes());
        assert_eq!(fs::read(&pool).expect("a pool"), fs::read(&uncut).expect("a pool"));
        // Once more changes nothing, and tells it.
        let (status, out, _) = tool(&["apply", &pool, &script], &[]);
        let line = String::from_utf8(out).expect("text");
        let had = if count == 0 { String::new() } else { format!(", {count} had been") };
        assert_eq!((status, line), (0, format!("applied: 0 words are written{had}\n")));
        assert_eq!(fs::read(&pool).expect("a pool"), fs::read(&uncut).expect("a pool"));
    }
}

/// What an in-place apply left, wherever it was cut, is ended; show refuses it until then.
#[test]
fn a_half_applied_pool_is_ended() {
    let (folder, pool, script) = filled();
    prepared(&pool, &script, "store 4096 order 0 value 7");
    let before = words_of(&pool);
    let kept = Script::from_bytes(&fs::read(&script).expect("kept")).expect("a script");
    let uncut = folder.path("uncut.pool");
    fs::copy(&pool, &uncut).expect("copied");
    run(&uncut, "store 4096 order 0 value 7");
    let wanted = fs::read(&uncut).expect("a pool");
    let words = kept.words();
    assert!(words.len() > 20);
    for cut in (0..=words.len()).step_by(2) {
        let mut half = Pool::from_words(before.clone());
        half.apply(&words[..cut]).expect("a good script");
        fs::write(&pool, half.to_bytes()).expect("written");
        if cut > 0 && cut < words.len() {
            assert_eq!(tool(&["show", &pool], &[]).0, 1);
        }
        let (status, _, errors) = tool(&["apply", &pool, &script], &[]);
        assert_eq!((status, errors), (0, String::new()), "cut at {cut}");
        assert_eq!(fs::read(&pool).expect("a pool"), wanted);
    }
}

#[test]
fn a_record_from_a_file_or_standard_input() {
    let (folder, pool, script) = filled();
    prepared(&pool, &script, "mark 64 mark 2");
    let record = batch("mark 64 mark 2");
    let (by_file, by_input) = (folder.name("b.script"), folder.name("c.script"));
    fs::write(folder.path("one.batch"), &record).expect("written");
    let one = folder.name("one.batch");
    assert_eq!(tool(&["prepare", "-o", &by_file, &pool, &one], &[]).0, 0);
    assert_eq!(tool(&["prepare", "-o", &by_input, &pool], &record).0, 0);
    for other in [&by_file, &by_input] {
        assert_eq!(fs::read(other).expect("kept"), fs::read(&script).expect("kept"));
    }
}

/// What the command itself is answered is status 4, and leaves no file.
#[test]
fn a_command_that_is_not_done_is_status_4() {
    let (folder, pool, script) = filled();
    let before = fs::read(&pool).expect("a pool");
    let cases = [
        ("store 1 order 64 word 2", "order above 63"),
        ("store 1 order 1 word 2", "index is not a multiple of 2^order"),
        ("store 2 order 1 word 2", "entry is 0 or ends in binary 10"),
        ("mark 64 mark 3", "mark above 2 or filter above 3"),
        ("mark 65 mark 0", "no entry covers the index"),
        ("erase 65", "no entry covers the index"),
        ("reserve 64", "index is covered by an entry or reserved"),
        ("store max order 0 value 1", "too few free nodes"),
    ];
    for (command, answer) in cases {
        let (status, out, errors) =
            tool(&["prepare", "-o", &script, "--command", command, &pool], &[]);
        assert_eq!((status, out), (4, vec![]), "{command}");
        assert!(errors.ends_with(&format!("{answer}; no script is written\n")), "{errors}");
        assert_eq!(folder.names(), ["p.pool"]);
    }
    assert_eq!(fs::read(&pool).expect("a pool"), before);
}

#[test]
fn what_is_not_one_change_is_refused() {
    let (folder, pool, script) = filled();
    let records = [
        (batch("load 64"), "not one record of a command that changes the pool"),
        (batch("find 0..9 any budget 3"), "not one record of a command that changes the pool"),
        (batch("mark 64 mark 2\nmark 8 mark 2"), "not one record"),
        (batch("mark 64 mark 2")[..11].to_vec(), "not one record"),
        (vec![], "not one record"),
        (b"mark 64 mark 2\n".to_vec(), "it looks like text"),
        (fs::read(&pool).expect("a pool"), "it looks like a pool file"),
    ];
    for (record, message) in records {
        let (status, out, errors) = tool(&["prepare", "-o", &script, &pool], &record);
        assert_eq!((status, out), (1, vec![]), "{errors}");
        assert!(errors.contains(message), "{errors}");
        assert_eq!(folder.names(), ["p.pool"]);
    }
    let commands = ["load 64", "find 0..9 any budget 3"];
    for command in commands {
        assert_eq!(tool(&["prepare", "-o", &script, "--command", command, &pool], &[]).0, 1);
    }
}

#[test]
fn a_pool_that_is_none_is_refused() {
    let (folder, pool, script) = filled();
    let mut words = words_of(&pool);
    words[3] = 1;
    fs::write(&pool, Pool::from_words(words).to_bytes()).expect("written");
    let (status, _, errors) =
        tool(&["prepare", "-o", &script, "--command", "mark 64 mark 2", &pool], &[]);
    assert_eq!(status, 1);
    assert!(errors.contains("pool is not well-formed; no script is written"), "{errors}");
    let (status, _, errors) =
        tool(&["prepare", "-o", &script, "--command", "mark 64 mark 2", "/dev/null"], &[]);
    assert_eq!(status, 1);
    assert!(errors.contains("pool length is not"), "{errors}");
    assert_eq!(folder.names(), ["p.pool"]);
}

/// A script that was not applied yet is not lost.
#[test]
fn a_script_is_not_overwritten() {
    let (_folder, pool, script) = filled();
    prepared(&pool, &script, "mark 64 mark 2");
    let kept = fs::read(&script).expect("kept");
    let (status, out, errors) =
        tool(&["prepare", "-o", &script, "--command", "erase 64", &pool], &[]);
    assert_eq!((status, out), (1, vec![]));
    assert!(errors.contains("File exists"), "{errors}");
    assert_eq!(fs::read(&script).expect("kept"), kept);
}

fn refused(pool: &str, script: &str, message: &str) {
    let before = fs::read(pool).expect("a pool");
    let (status, out, errors) = tool(&["apply", pool, script], &[]);
    assert_eq!((status, out), (1, vec![]), "{errors}");
    assert!(errors.contains(message), "{errors}");
    assert_eq!(fs::read(pool).expect("a pool"), before);
}

/// After another command, also one that writes the same words, it is the script of a pool that is no more.
#[test]
fn another_pool_is_refused() {
    let (folder, pool, script) = filled();
    prepared(&pool, &script, "mark 64 mark 2");
    let base = fs::read(&pool).expect("a pool");
    for command in ["store 400 order 0 value 1", "store 64 order 0 value 3", "mark 8 mark 2"] {
        fs::write(&pool, &base).expect("written");
        run(Path::new(&pool), command);
        refused(&pool, &script, "it is not the pool that the script was prepared from");
    }
    let other = folder.name("other.pool");
    assert_eq!(tool(&["new", "13", &other], &[]).0, 0);
    refused(&other, &script, "it has 914 words, not 844; it is as it was");
}

#[test]
fn a_script_that_was_damaged_is_refused() {
    let (folder, pool, script) = filled();
    prepared(&pool, &script, "mark 64 mark 2");
    let kept = fs::read(&script).expect("kept");
    let bad = folder.name("bad.script");
    for place in (8..kept.len()).step_by(5) {
        let mut damaged = kept.clone();
        damaged[place] ^= 0x10;
        fs::write(&bad, &damaged).expect("written");
        refused(&pool, &bad, "the script is");
        assert_eq!(tool(&["decode", &bad], &[]).0, 1);
        fs::write(&bad, &kept[..place]).expect("written");
        refused(&pool, &bad, "the script is cut");
    }
    fs::write(&bad, b"").expect("written");
    refused(&pool, &bad, "no script");
    refused(&pool, &pool, "no script: it looks like a pool file");
    refused(&script, &script, "no pool file: it looks like a script");
}

#[test]
fn what_a_script_has_as_text() {
    let (_folder, pool, script) = filled();
    prepared(&pool, &script, "mark 64 mark 2");
    let (status, out, errors) = tool(&["decode", &script], &[]);
    assert_eq!((status, errors), (0, String::new()));
    // Node 0 has 8 to 15, node 1 grew over it, node 2 has 64: rules for growth and allocation.
    let lines = [
        "script for a pool of 12 nodes, 844 words: 3 words change",
        "word 2: marks: 0x1, becomes 0x5",
        "word 79: node 1, mark 2: 0x0, becomes 0x2",
        "word 149: node 2, mark 2: 0x0, becomes 0x1",
    ];
    let text = String::from_utf8(out).expect("text");
    assert_eq!(text.lines().collect::<Vec<_>>(), lines);
    let kept = fs::read(&script).expect("kept");
    assert_eq!(tool(&["decode"], &kept).1, text.into_bytes());
    let json = String::from_utf8(tool(&["decode", "--json", &script], &[]).1).expect("text");
    assert!(json.starts_with("{\"nodes\":12,\"words\":844,\"rest_crc32c\":\""), "{json}");
    let change = "{\"place\":149,\"what\":\"node 2, mark 2\",\"before\":0,\"after\":1}";
    assert!(json.contains(change), "{json}");
    for option in [["--strict", &*script], ["--batch=/dev/null", &*script]] {
        assert_eq!(tool(&["decode", option[0], option[1]], &[]).0, 1);
    }
    let names = [(0, "nodes"), (1, "head"), (3, "zero"), (4, "node 0, shift")];
    let more = [(5, "node 0, owner"), (6, "node 0, filled"), (7, "node 0, mark 0")];
    let last = [(10, "node 0, slot 0"), (73, "node 0, slot 63"), (74, "node 1, shift")];
    for (place, name) in [&names[..], &more, &last].concat() {
        assert_eq!(xabatch::script::name_of(place), name);
    }
}

#[test]
fn bad_usage_is_status_2() {
    let (folder, pool, script) = filled();
    let cases: [(&[&str], &str); 9] = [
        (&["prepare", &pool], "-o SCRIPTFILE is missing"),
        (&["prepare", "-o", "-", &pool], "it must have a name"),
        (&["prepare", "-o", &script], "an argument is missing"),
        (&["prepare", "-o", &script, "--command", "lode 7", &pool], "--command:1:1: unknown"),
        (&["prepare", "-o", &script, "--command", "", &pool], "0 commands: a script is of one"),
        (&["prepare", "-o", &script, "--command", "erase 1\nerase 2", &pool], "2 commands"),
        (&["prepare", "-o", &script, "--command", "erase 64", &pool, "x"], "by --command already"),
        (&["apply", &pool], "an argument is missing"),
        (&["apply", "-", &script], "it must have a name"),
    ];
    for (words, message) in cases {
        let (status, out, errors) = tool(words, &[]);
        assert_eq!((status, out), (2, vec![]), "{words:?}");
        assert!(errors.contains(message), "{errors}");
    }
    assert_eq!(folder.names(), ["p.pool"]);
}

/// The pool stays whole where it cannot be written, and who waits for the lock may say so.
#[test]
fn a_failed_write_loses_nothing() {
    let (_folder, pool, script) = filled();
    prepared(&pool, &script, "mark 64 mark 2");
    let before = fs::read(&pool).expect("a pool");
    let line = format!("ulimit -f 1; $X apply {pool} {script}");
    let (status, out, errors) = bash(&line, &[]);
    assert_eq!((status, out), (1, vec![]));
    assert!(errors.contains("the file is as it was"), "{errors}");
    assert_eq!(fs::read(&pool).expect("a pool"), before);
    let line = format!("exec 9< {pool}; flock 9; $X apply --no-wait {pool} {script}");
    let (status, _, errors) = bash(&line, &[]);
    assert_eq!(status, 1);
    assert!(errors.contains("another run has it locked"), "{errors}");
    assert_eq!(fs::read(&pool).expect("a pool"), before);
    assert_eq!(bash(&format!("$X apply {pool} {script} >&-"), &[]).0, 1);
    assert_eq!(fs::read(&pool).expect("a pool"), before);
    assert_eq!(tool(&["apply", &pool, &script], &[]).0, 0);
}
