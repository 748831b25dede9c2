//! `--json`: one value a call, read back by python3, and the same as the text says.

mod tool;

use std::fs;
use std::process::Command;
use tool::{batch, output_of, run, tool, Folder};
use xabatch::json;

/// What a line of python says of the value `d`.
fn python(json: &[u8], line: &str) -> String {
    let program = format!("import json,sys\nd = json.load(sys.stdin)\nprint({line})");
    let output = output_of(Command::new("python3").args(["-c", &program]), json);
    let errors = String::from_utf8_lossy(&output.stderr).into_owned();
    assert!(output.status.success(), "{errors}: {}", String::from_utf8_lossy(json));
    String::from_utf8(output.stdout).expect("text").trim_end().into()
}

#[test]
fn strings_are_escaped() {
    let cases = [
        ("", r#""""#),
        (r#"a "name" \ path"#, r#""a \"name\" \\ path""#),
        ("\n\r\t\u{0}\u{1b}\u{7f}\u{9b}", r#""\n\r\t\u0000\u001b\u007f\u009b""#),
        ("é€𝄞", r#""é€𝄞""#),
    ];
    for (text, expected) in cases {
        assert_eq!(json::string(text), expected);
        let codes = text.chars().map(|c| u32::from(c).to_string()).collect::<Vec<_>>().join(", ");
        assert_eq!(python(expected.as_bytes(), "[ord(c) for c in d]"), format!("[{codes}]"));
    }
    assert_eq!(json::Object::new().end(), "{}");
    assert_eq!(json::array([]), "[]");
}

const TEXT: &str = "\
store 0 order 0 value 1
store 64 order 3 handle 0x1000
reserve 63
store max order 0 value 9223372036854775807
mark 64 mark 0
mark 64 mark 2
";

fn pool() -> (Folder, String) {
    let folder = Folder::new();
    let path = folder.pool(40);
    run(&path, TEXT);
    (folder, path.to_str().expect("a plain name").into())
}

#[test]
fn a_list_as_json() {
    let (_folder, pool) = pool();
    let (status, json, errors) = tool(&["list", "--json", &pool, "1..max"], &[]);
    assert_eq!((status, errors.as_str()), (0, ""));
    let expected =
        "{'first': 1, 'last': 18446744073709551615, 'entries': [{'index': 63, 'reserved': True}, \
        {'index': 64, 'order': 3, 'word': 4096, 'handle': 4096, 'marks': [0, 2]}, \
        {'index': 18446744073709551615, 'order': 0, 'word': 18446744073709551615, \
        'value': 9223372036854775807, 'marks': []}]}";
    assert_eq!(python(&json, "d"), expected);
    let none = tool(&["list", "--json", &pool, "1..62"], &[]).1;
    assert_eq!(python(&none, "d['entries']"), "[]");
    assert_eq!(tool(&["list", "--json", "--bytes", &pool], &[]).0, 2);
    // A pool that is not well-formed has no list, as JSON either.
    let mut bytes = fs::read(&pool).expect("a pool");
    bytes[24] = 1;
    let (status, json, _) = tool(&["list", "--json", "-"], &bytes);
    assert_eq!((status, json.len()), (1, 0));
}

#[test]
fn a_summary_as_json() {
    let (_folder, pool) = pool();
    let (status, json, _) = tool(&["show", "--summary", "--json", &pool], &[]);
    assert_eq!(status, 0);
    // Head node of shift 60; nodes on the way to 0..63, 64..127 and the last 64 indices.
    let line =
        "d['nodes'], d['in_use'] + d['free'], d['entries'], d['first'], d['last'], d['orders'], \
                d['reserved'], d['marks'], d['well_formed'], d['findings'], d['follow']";
    let expected = "40 40 3 0 18446744073709551615 {'0': 2, '3': 1} 1 [1, 0, 1] True [] 0";
    assert_eq!(python(&json, line), expected);
    assert_eq!(python(&json, "sum(d['shifts'].values()) == d['in_use']"), "True");
    let mut bytes = fs::read(&pool).expect("a pool");
    bytes[24] = 5;
    let (status, json, _) = tool(&["show", "--summary", "--json", "-"], &bytes);
    assert_eq!(status, 1);
    let finding = "[{'word': 3, 'message': 'the fourth word is 5, expected 0', 'follows': False}]";
    assert_eq!(python(&json, "d['well_formed'], d['findings']"), format!("False {finding}"));
    for options in [&["--json"][..], &["--json", "--findings"]] {
        assert_eq!(tool(&[&["show"], options, &[&pool]].concat(), &[]).0, 2);
    }
}

#[test]
fn a_comparison_as_json() {
    let folder = Folder::new();
    let file = |name: &str, bytes: &[u8]| {
        fs::write(folder.path(name), bytes).expect("written");
        folder.name(name)
    };
    let (old, same) = (file("old", b"123456789"), file("same", b"123456789"));
    let (other, empty) = (file("other", b"123456780"), file("empty", b""));
    let compared = |new: &str| tool(&["compare", "--json", &old, new], &[]);
    let cases = [
        (&same, 0, "matched None {'bytes': 9, 'crc32c': 'e3069283'} None"),
        (&other, 1, "different None {'bytes': 9, 'crc32c': 'e3069283'} 8"),
        (&empty, 2, "nothing to compare new is empty {'bytes': 9, 'crc32c': 'e3069283'} 0"),
        (&old, 2, "nothing to compare one file None None"),
    ];
    for (new, status, expected) in cases {
        let (is, json, errors) = compared(new);
        assert_eq!((is, errors.as_str()), (status, ""));
        assert_eq!(
            python(&json, "d['verdict'], d['why'], d['old'], d['first_difference']"),
            expected
        );
    }
    // A fault is no verdict: there is no value.
    let (status, json, _) = compared(&folder.name("none"));
    assert_eq!((status, json.len()), (2, 0));
}

#[test]
fn records_as_json() {
    let commands = "store max order 0 value 2\nload 5\nmark 5 mark 1\nfind 1..max any budget 9\n";
    let (status, json, _) = tool(&["decode", "--json"], &batch(commands));
    assert_eq!(status, 0);
    let expected = "[{'command': 'store', 'index': 18446744073709551615, 'order': 0, 'word': 5, 'value': 2}, \
        {'command': 'load', 'index': 5}, {'command': 'mark', 'index': 5, 'mark': 1}, \
        {'command': 'find', 'first': 1, 'last': 18446744073709551615, 'filter': 3, 'budget': 9}] 0 [] None";
    assert_eq!(python(&json, "d['records'], d['replies'], d['not_done'], d['fault']"), expected);

    let folder = Folder::new();
    let pool = folder.pool(3).display().to_string();
    let commands = "store 64 order 0 value 2\nload 5\nreserve 0\nfind 0..9 any budget 1\n";
    let replies = tool(&["run", &pool], &batch(commands)).1;
    let (status, json, _) = tool(&["decode", "--json"], &replies);
    assert_eq!(status, 0);
    let entry = "{'index': 64, 'order': 0, 'word': 5, 'value': 2, 'marks': []}";
    let expected = format!(
        "[{{'reply': 'store', 'answer': 0, 'text': 'done', 'entry': {entry}}}, \
        {{'reply': 'load', 'answer': 10, 'text': 'no entry covers the index', 'count': 1}}, \
        {{'reply': 'reserve', 'answer': 0, 'text': 'done', 'entry': {{'index': 0, 'reserved': True}}}}, \
        {{'reply': 'find', 'answer': 13, 'text': 'paused', 'at': 1, 'count': 1}}]"
    );
    assert_eq!(python(&json, "d['records']"), expected);
    let not_done = "[{'answer': 10, 'text': 'no entry covers the index', 'replies': 1}]";
    assert_eq!(python(&json, "d['replies'], d['not_done']"), format!("4 {not_done}"));
    let (status, json, _) = tool(&["decode", "--json", "--strict"], &replies);
    let fault = python(&json, "d['fault']");
    assert!(
        status == 1 && fault.starts_with("<stdin>: 1 of 4 commands were not done: "),
        "{fault}"
    );
}

/// A file that is cut is a value all the same, which says so.
#[test]
fn a_fault_is_in_the_json() {
    let (_folder, pool) = pool();
    let list = tool(&["list", "--bytes", &pool], &[]).1;
    assert_eq!(list.len(), 4 * 21);
    for length in [1, 20, 22, 80] {
        let (status, json, _) = tool(&["decode", "--json"], &list[..length]);
        let whole = length / 21;
        assert_eq!(python(&json, "len(d['records'])"), whole.to_string());
        let fault = python(&json, "d['fault']");
        let cut = format!("<stdin>: byte {}: the record is cut", 21 * whole);
        assert_eq!((status, fault.starts_with(&cut)), (1, true), "{fault}");
    }
    let (status, json, _) = tool(&["decode", "--json"], &[255, 0, 3, 3, 0x20, 0]);
    assert_eq!(status, 1);
    let line = "d['records'][0]['refused'], d['records'][0]['number'], 'too long' in d['fault']";
    assert_eq!(python(&json, line), "3 8192 True");
    let (_, json, _) = tool(&["decode", "--json"], &[]);
    assert_eq!(python(&json, "d"), "{'records': [], 'replies': 0, 'not_done': [], 'fault': None}");
}
