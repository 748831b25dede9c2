//! `xabatch decode`: which replies were not done, lists that no pool gives, what made a record bad, and
//! memory that does not grow with the file.

mod tool;

use std::fs;
use tool::{bash, batch, tool, Folder};

/// A reply of this kind (its command's tag) with this answer, and 0 in the other fields.
fn reply(tag: u8, answer: u8) -> Vec<u8> {
    [&[128 + tag, 0, 21, answer][..], &[0; 20]].concat()
}

fn replies(of: &[(u8, u8)]) -> Vec<u8> {
    of.iter().flat_map(|(tag, answer)| reply(*tag, *answer)).collect()
}

const LOAD: u8 = 2;
const STORE: u8 = 1;
const FIND: u8 = 6;
const RESERVE: u8 = 7;

/// A store or a find that is done, a find that ended or paused; and two of each that is not done.
#[test]
fn what_was_not_done_is_told() {
    let done = replies(&[(STORE, 0), (FIND, 0), (FIND, 12), (FIND, 13), (LOAD, 0), (RESERVE, 0)]);
    for options in [&[][..], &["--strict"]] {
        let (status, out, errors) = tool(&[&["decode"], options].concat(), &done);
        assert_eq!((status, errors.as_str()), (0, ""));
        assert_eq!(String::from_utf8(out).expect("text").lines().count(), 6);
    }
    let cases: [(&[(u8, u8)], &str); 6] = [
        (&[(LOAD, 10)], "1 of 1 commands were not done: 1 no entry covers the index"),
        (
            &[(STORE, 11), (STORE, 0), (STORE, 11)],
            "2 of 3 commands were not done: 2 too few free nodes",
        ),
        (
            &[(STORE, 11), (LOAD, 10), (STORE, 14), (FIND, 12)],
            "3 of 4 commands were not done: 1 no entry covers the index, 1 too few \
             free nodes, 1 index is not a multiple of 2^order",
        ),
        (&[(FIND, 9)], "1 of 1 commands were not done: 1 budget 0"),
        (
            &[(RESERVE, 15)],
            "1 of 1 commands were not done: 1 index is covered by an entry or reserved",
        ),
        // No load ends or pauses: it is not done.
        (&[(LOAD, 12), (LOAD, 13)], "2 of 2 commands were not done: 1 ended, 1 paused"),
    ];
    for (of, text) in cases {
        let line = format!("xabatch: <stdin>: {text}\n");
        for (options, status) in [(&[][..], 0), (&["--strict"], 1)] {
            let (is, out, errors) = tool(&[&["decode"], options].concat(), &replies(of));
            assert_eq!((is, &errors), (status, &line));
            assert_eq!(String::from_utf8(out).expect("text").lines().count(), of.len());
        }
    }
}

/// A node has 64 slots, so of 5,000 regions in one node 4,936 are refused.
#[test]
fn a_job_that_was_refused_does_not_pass() {
    let folder = Folder::new();
    let pool = folder.pool(1).display().to_string();
    let text: String = (0..5000).map(|at| format!("store {at} order 0 value {at}\n")).collect();
    let replies = tool(&["run", &pool], &batch(&text)).1;
    assert_eq!(replies.len(), 5000 * 24);
    let (status, _, errors) = tool(&["decode", "--strict"], &replies);
    let line = "4936 of 5000 commands were not done: 4936 too few free nodes";
    assert_eq!((status, errors), (1, format!("xabatch: <stdin>: {line}\n")));
    assert_eq!(tool(&["decode"], &replies).0, 0);
}

/// Where there is no reply, nothing was done.
#[test]
fn strict_wants_replies() {
    let list = listed(64, 0, 5, 0);
    for bytes in [&[][..], &list, &batch("load 1\n")] {
        let (status, _, errors) = tool(&["decode", "--strict"], bytes);
        assert_eq!(
            (status, errors.as_str()),
            (1, "xabatch: <stdin>: no reply: nothing was done\n")
        );
        assert_eq!(tool(&["decode"], bytes).0, 0);
    }
    // Replies that are cut between two look whole: only the batch tells.
    let folder = Folder::new();
    let name = folder.name("batch");
    fs::write(&name, batch("store 0 order 0 value 1\nload 0\n")).expect("written");
    let one = replies(&[(STORE, 0)]);
    assert_eq!(tool(&["decode", "--strict"], &one).0, 0);
    let (status, _, errors) = tool(&["decode", "--strict", "--batch", &name], &one);
    assert_eq!((status, errors.contains("1 replies to 2 commands: it was cut")), (1, true));
    let two = replies(&[(STORE, 0), (LOAD, 0)]);
    assert_eq!(tool(&["decode", "--strict", "--batch", &name], &two).0, 0);
    let (status, _, errors) = tool(&["decode", "--batch", &name], &[two, one].concat());
    assert_eq!((status, errors.contains("3 replies to 2 commands")), (1, true), "{errors}");
}

/// An entry of a list in its 21 bytes.
fn listed(base: u64, order: u8, word: u64, marks: u8) -> Vec<u8> {
    let (base, word) = (base.to_be_bytes(), word.to_be_bytes());
    [&[32, 0, 18][..], &base, &[order], &word, &[marks]].concat()
}

/// Base, order, word and marks.
type Listed = (u64, u8, u64, u8);

#[test]
fn a_list_that_no_pool_gives_is_refused() {
    const TOP: u64 = 1 << 63;
    // By R6, R7, R8, R143 and R200.
    let good: [&[Listed]; 5] = [
        &[(0, 0, 3, 7), (1, 0, 4, 0), (2, 1, 5, 1), (4, 0, 0, 0), (64, 6, 7, 2), (128, 0, 0, 0)],
        &[(TOP, 63, 9, 0)],
        &[(0, 63, 9, 0), (TOP, 63, u64::MAX, 0)],
        &[(u64::MAX, 0, 1 << 2, 4)],
        &[(u64::MAX - 1, 0, 0, 0), (u64::MAX, 0, 0, 0)],
    ];
    for entries in good {
        let bytes: Vec<u8> = entries.iter().flat_map(|e| listed(e.0, e.1, e.2, e.3)).collect();
        let (status, out, errors) = tool(&["decode"], &bytes);
        assert_eq!((status, errors.as_str()), (0, ""), "{entries:?}");
        assert_eq!(String::from_utf8(out).expect("text").lines().count(), entries.len());
    }
    // The last entry is the bad one.
    let bad: [(&[Listed], &str); 19] = [
        (&[(64, 0, 3, 0), (0, 0, 3, 0)], "index 0 comes after 64"),
        (&[(0, 0, 3, 0), (64, 0, 3, 0), (63, 0, 3, 0)], "index 63 comes after 64"),
        (&[(64, 0, 0, 0), (0, 0, 0, 0)], "index 0 comes after 64"),
        (&[(64, 0, 3, 0), (64, 0, 3, 0)], "index 64 is there twice"),
        (&[(64, 0, 0, 0), (64, 0, 3, 0)], "index 64 is there twice"),
        (&[(64, 0, 3, 0), (64, 3, 3, 0)], "index 64 is there twice"),
        (&[(64, 3, 3, 0), (71, 0, 3, 0)], "index 71 lies in the entry before it, 64..71"),
        (&[(64, 3, 3, 0), (68, 2, 3, 0)], "index 68 lies in the entry before it, 64..71"),
        (&[(0, 63, 3, 0), (TOP - 1, 0, 0, 0)], "lies in the entry before it"),
        (&[(0, 3, 3, 0), (13, 3, 3, 0)], "index 13 is no multiple of 2^3"),
        (&[(1, 63, 3, 0)], "index 1 is no multiple of 2^63"),
        (&[(u64::MAX, 1, 3, 0)], "is no multiple of 2^1"),
        (&[(TOP + (1 << 62), 63, 3, 0)], "is no multiple of 2^63"),
        (&[(0, 0, 3, 0), (5, 0, 6, 0)], "no entry has the word 6 (0x6)"),
        (&[(5, 0, 1030, 0)], "no entry has the word 1030 (0x406)"),
        (&[(5, 0, u64::MAX - 1, 0)], "no entry has the word 18446744073709551614"),
        (&[(5, 0, 0, 1)], "a reserved index with an order or marks"),
        (&[(8, 3, 0, 0)], "a reserved index with an order or marks"),
        (&[(0, 0, 3, 0), (8, 0, 3, 8)], "marks 8 of an entry"),
    ];
    for (entries, what) in bad {
        let bytes: Vec<u8> = entries.iter().flat_map(|e| listed(e.0, e.1, e.2, e.3)).collect();
        let (status, out, errors) = tool(&["decode"], &bytes);
        let before = entries.len() - 1;
        assert_eq!(status, 1, "{entries:?}");
        assert_eq!(String::from_utf8(out).expect("text").lines().count(), before, "{entries:?}");
        let place = format!("xabatch: <stdin>: byte {}: ", 21 * before);
        assert!(errors.starts_with(&place) && errors.contains(what), "{entries:?}: {errors}");
    }
}

/// One of these is what made it bad, at its place.
#[test]
fn the_cause_of_a_bad_record_is_told() {
    let load = batch("load 1\n");
    let good = reply(LOAD, 0);
    let cases: [(Vec<u8>, &str); 14] = [
        (load[..10].to_vec(), "byte 0: the record is cut: 10 of its 11 bytes are there"),
        (load[..1].to_vec(), "byte 0: the record is cut: 1 of its 11 bytes are there"),
        ([&load[..], &[6, 0]].concat(), "byte 11: the record is cut: 2 of its 22 bytes are there"),
        ([&load[..], &[6, 0, 19]].concat(), "byte 11: the record is cut: 3 of its 22 bytes"),
        ([&load[..], &[0]].concat(), "byte 11: unknown tag 0"),
        ([&load[..], &[8, 0, 8]].concat(), "byte 11: unknown tag 8"),
        (vec![128; 24], "byte 0: unknown tag 128"),
        (vec![136; 24], "byte 0: unknown tag 136"),
        (vec![2, 0, 9, 0, 0, 0, 0, 0, 0, 0, 0, 0], "byte 0: wrong length: 9, of tag 2 it is 8"),
        (vec![1, 1, 17, 0, 0, 0, 0, 0, 0, 0, 0], "byte 0: wrong length: 273, of tag 1 it is 17"),
        ([&good[..], &good[..23]].concat(), "byte 24: the record is cut: 23 of its 24 bytes"),
        (reply(LOAD, 16), "byte 0: answer 16 is that of no command"),
        (vec![255, 0, 3, 5, 0, 0], "byte 0: answer 5 refuses no call"),
        (vec![255, 0, 3, 3, 0], "byte 0: the record is cut: 5 of its 6 bytes are there"),
    ];
    for (bytes, what) in cases {
        let (status, _, errors) = tool(&["decode"], &bytes);
        assert_eq!(status, 1);
        assert!(errors.starts_with(&format!("xabatch: <stdin>: {what}")), "{what}: {errors}");
    }
}

/// The record of a refused call has a place; the batch says what is wrong there.
#[test]
fn the_cause_of_a_refused_call_is_told() {
    let folder = Folder::new();
    let name = folder.name("batch");
    let load = batch("load 1\n");
    let refused = |place: u8| [255, 0, 3, 3, 0, place];
    let cases: [(&[u8], &str); 3] = [
        (&load[..5], "batch: byte 11: the record is cut: 5 of its 11 bytes are there"),
        (&[77, 0], "batch: byte 11: unknown tag 77"),
        (&[2, 0, 7, 0], "batch: byte 11: wrong length: 7, of tag 2 it is 8"),
    ];
    for (more, what) in cases {
        fs::write(&name, [&load, more].concat()).expect("written");
        let (status, out, errors) = tool(&["decode", "--batch", &name], &refused(11));
        assert!(status == 1 && errors.contains(what), "{errors}");
        assert!(out.starts_with(b"refused: "));
    }
    // Replies have tags too, but not in a batch.
    fs::write(&name, [&load[..], &reply(LOAD, 0)].concat()).expect("written");
    let (_, _, errors) = tool(&["decode", "--batch", &name], &refused(11));
    assert!(errors.contains("batch: byte 11: unknown tag 130"), "{errors}");
    fs::write(&name, reply(LOAD, 0)).expect("written");
    let (_, _, errors) = tool(&["decode", "--batch", &name], &reply(LOAD, 0));
    assert!(errors.contains("batch: no batch: it looks like replies"), "{errors}");
    let (status, _, errors) = tool(&["decode"], &refused(11));
    assert_eq!((status, errors.contains("byte 11 of the batch: a record is cut")), (1, true));
    let (status, _, errors) = tool(&["decode"], &[255, 0, 3, 3, 0x20, 0]);
    assert!(status == 1 && errors.contains("too long, above 8192 bytes"), "{errors}");
    let (status, _, errors) = tool(&["decode"], &[255, 0, 3, 2, 0, 0]);
    assert!(status == 1 && errors.contains("refused: pool is not well-formed"), "{errors}");
}

#[test]
fn a_file_of_another_kind_is_named() {
    let folder = Folder::new();
    let pool = fs::read(folder.pool(40)).expect("a pool");
    let one = fs::read({
        let path = folder.name("one");
        assert_eq!(tool(&["new", "1", &path], &[]).0, 0);
        path
    });
    let (commands, list) = (batch("load 1\n"), listed(64, 0, 5, 0));
    let done = replies(&[(LOAD, 0); 40]);
    let cases: [(&str, &[u8], &str); 11] = [
        ("decode", &pool, "no records: it looks like a pool file"),
        ("decode", &one.expect("a pool"), "no records: it looks like a pool file"),
        ("decode", b"load 1\nload 2\n", "no records: it looks like text"),
        ("show", &commands, "no pool file: it looks like a batch"),
        ("show", &list, "no pool file: it looks like a list as bytes"),
        ("show", &done, "no pool file: it looks like replies"),
        ("list", b"load 1\n", "no pool file: it looks like text"),
        ("list", &commands.repeat(64), "no pool file: it looks like a batch"),
        ("list", &list.repeat(8), "no pool file: it looks like a list as bytes"),
        ("encode", &pool, "no text: it looks like a pool file"),
        ("encode", &commands, "no text: it looks like a batch"),
    ];
    for (command, bytes, what) in cases {
        let (status, out, errors) = tool(&[command, "-"], bytes);
        assert_eq!(out.len(), 0, "{command}: {what}");
        assert_eq!(status, if command == "encode" { 2 } else { 1 }, "{command}: {what}");
        assert!(errors.contains(what) && errors.lines().count() == 1, "{command}: {errors}");
    }
}

/// No more is read of a file than a pool can have.
#[test]
fn a_large_file_is_no_pool() {
    let folder = Folder::new();
    for command in ["show", "list"] {
        let line = format!(
            "cd {} && truncate -s 100G large && ulimit -v 100000 && \"$X\" {command} large",
            folder.0.display()
        );
        let (status, out, errors) = bash(&line, &[]);
        assert_eq!((status, out.len()), (1, 0), "{errors}");
        assert!(errors.starts_with("xabatch: large: no pool: too long"), "{errors}");
    }
}

/// A million replies, 24 MB, and their commands, in 32 MiB of memory in all.
#[test]
fn memory_does_not_grow_with_the_file() {
    let folder = Folder::new();
    let count = 1_000_000;
    fs::write(folder.path("replies"), reply(LOAD, 10).repeat(count)).expect("written");
    fs::write(folder.path("batch"), batch("load 1\n").repeat(count)).expect("written");
    let start = format!("cd {} && ulimit -v 32768 && \"$X\" decode", folder.0.display());
    for options in ["", "--batch batch", "--json"] {
        let (status, out, errors) = bash(&format!("{start} {options} replies | tail -1"), &[]);
        let not_done = format!("{count} of {count} commands were not done");
        assert!(status == 0 && errors.contains(&not_done), "{options}: {errors}");
        let last = String::from_utf8(out).expect("text");
        let ends = if options == "--json" { "\"fault\":null}\n" } else { "index, count 0\n" };
        assert!(last.ends_with(ends), "{last}");
    }
}

/// What cannot be written is told though some of it was, and a reader that goes away is no panic.
#[test]
fn long_output_that_cannot_be_written_fails() {
    let folder = Folder::new();
    fs::write(folder.path("replies"), reply(LOAD, 0).repeat(100_000)).expect("written");
    let line = |how: &str| format!("cd {} && {how}", folder.0.display());
    for to in ["> /dev/full", ">&-"] {
        let (status, _, errors) = bash(&line(&format!("\"$X\" decode replies {to}")), &[]);
        assert_eq!((status, errors.lines().count()), (1, 1), "{to}: {errors}");
    }
    let limited = "trap '' XFSZ; ulimit -f 100; \"$X\" decode replies > out";
    let (status, _, errors) = bash(&line(limited), &[]);
    assert_eq!((status, errors.contains("File too large")), (1, true), "{errors}");
    let (_, out, errors) = bash(&line("(\"$X\" decode replies; echo $? >&2) | head -1"), &[]);
    assert_eq!((out.len() > 10, errors.as_str()), (true, "1\n"));
}
