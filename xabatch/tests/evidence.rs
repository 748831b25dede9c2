//! `xabatch evidence`: which text is written, the exit status of each answer, and sheets that are none.

mod tool;

use std::fs;
use tool::{bash, tool, Folder};

/// A record by hand: tag, length of index and text, index, text.
fn record(index: u64, text: &[u8]) -> Vec<u8> {
    let length = (8 + text.len()) as u16;
    [&[48], &length.to_be_bytes()[..], &index.to_be_bytes(), text].concat()
}

fn sheet(records: &[(u64, &[u8])]) -> Vec<u8> {
    records.iter().flat_map(|(index, text)| record(*index, text)).collect()
}

/// A folder with a base sheet and a supplement, and their names.
fn sheets(base: &[u8], supplement: &[u8]) -> (Folder, String, String) {
    let folder = Folder::new();
    let (base_name, supplement_name) = (folder.name("base"), folder.name("supplement"));
    fs::write(&base_name, base).expect("written");
    fs::write(&supplement_name, supplement).expect("written");
    (folder, base_name, supplement_name)
}

fn looked_up(base: &[u8], supplement: &[u8], index: &str) -> (i32, Vec<u8>, String) {
    let (_folder, base, supplement) = sheets(base, supplement);
    let (status, out, errors) = tool(&["evidence", &base, &supplement, index], &[]);
    (status, out, errors.replace(&base, "BASE").replace(&supplement, "SUPPLEMENT"))
}

#[test]
fn a_text_is_written_as_it_is() {
    let base = sheet(&[(7, b"old"), (64, b"two\nlines\0\xff"), (u64::MAX, b"last"), (7, b"base")]);
    let supplement = sheet(&[(7, b"first"), (8, b"x"), (7, b"later")]);
    let cases: [(&str, &[u8]); 5] = [
        ("7", b"later"),
        ("64", b"two\nlines\0\xff"),
        ("0x40", b"two\nlines\0\xff"),
        ("max", b"last"),
        ("8", b"x"),
    ];
    for (index, text) in cases {
        let wanted = (0, text.to_vec(), String::new());
        assert_eq!(looked_up(&base, &supplement, index), wanted, "{index}");
    }
    assert_eq!(looked_up(&base, &[], "7").1, b"base");
}

/// What is not there is never a success, and leaves nothing that could be taken for a text.
#[test]
fn absence_is_status_4_and_writes_nothing() {
    let message = "xabatch: index 9: neither sheet names it; that is no evidence\n";
    for (base, supplement) in [(sheet(&[(7, b"x")]), sheet(&[(8, b"y")])), (vec![], vec![])] {
        assert_eq!(looked_up(&base, &supplement, "9"), (4, vec![], message.into()));
    }
}

#[test]
fn an_empty_text_is_found() {
    let (base, supplement) = (sheet(&[(7, b"base")]), sheet(&[(7, b"")]));
    let message = "xabatch: index 7: it is named, and its text is empty\n";
    assert_eq!(looked_up(&base, &supplement, "7"), (0, vec![], message.into()));
}

/// In either sheet, also behind the text that is wanted, and where the other sheet has it.
#[test]
fn damage_is_status_1_and_writes_nothing() {
    let good = sheet(&[(7, b"seven")]);
    let cut = [&good[..], &record(8, b"eight")[..10]].concat();
    let tag = [&good[..], b"no record"].concat();
    let short = [&good[..], &[48, 0, 7, 0, 0, 0, 0, 0, 0, 0]].concat();
    for bad in [cut, tag, short] {
        let what = "is malformed: no whole record at byte 16; no text is given\n";
        for index in ["7", "8", "9"] {
            let message = format!("xabatch: BASE: the base sheet {what}");
            assert_eq!(looked_up(&bad, &good, index), (1, vec![], message));
            let message = format!("xabatch: SUPPLEMENT: the supplement {what}");
            assert_eq!(looked_up(&good, &bad, index), (1, vec![], message));
        }
    }
}

#[test]
fn a_sheet_may_be_standard_input() {
    let (_folder, base, supplement) = sheets(&sheet(&[(7, b"base")]), &[]);
    let input = sheet(&[(7, b"later")]);
    assert_eq!(tool(&["evidence", &base, "-", "7"], &input), (0, b"later".into(), String::new()));
    let found = tool(&["evidence", "-", &supplement, "7"], &input);
    assert_eq!(found, (0, b"later".into(), String::new()));
}

#[test]
fn bad_usage_is_status_2() {
    let (_folder, base, supplement) = sheets(&sheet(&[(7, b"base")]), &[]);
    let cases: [(&[&str], &str); 6] = [
        (&[&base, &supplement], "an argument is missing"),
        (&[&base, &supplement, "7", "8"], "'8': one argument too many"),
        (&[&base, &supplement, "x"], "x: expected an index, not 'x'"),
        (&[&base, &supplement, "7 8"], "7 8: '8' after the index"),
        (&[&base, &supplement, "18446744073709551616"], "is above 2^64 - 1"),
        (&["-", "-", "7"], "cannot both be standard input"),
    ];
    for (words, message) in cases {
        let (status, out, errors) = tool(&[&["evidence"], words].concat(), &[]);
        assert_eq!((status, out), (2, vec![]), "{words:?}");
        assert!(errors.contains(message), "{errors}");
    }
}

#[test]
fn a_file_or_an_output_at_fault_is_status_1() {
    let (folder, base, supplement) = sheets(&sheet(&[(7, b"base")]), &[]);
    let gone = folder.name("gone");
    let (status, out, errors) = tool(&["evidence", &base, &gone, "7"], &[]);
    assert_eq!((status, out), (1, vec![]));
    assert!(errors.contains(&gone), "{errors}");
    let line = format!("$X evidence {base} {supplement} 7 > /dev/full");
    assert_eq!(bash(&line, &[]).0, 1);
    assert_eq!(bash(&format!("$X evidence {base} {supplement} 7 >&-"), &[]).0, 1);
}
