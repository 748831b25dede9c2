//! `xabatch names`: pools of names made, checked, drawn and looked up in; keys as text; other files told.
//!
//! The words are worked out by hand from the rules (R344 to R358), or by the independent program of reference/.

mod tool;

use reference::names::calls::check as reference_check;
use reference::names::command::execute;
use reference::names::keys::{Key as ReferenceKey, List};
use reference::names::pool::State;
use reference::names::random::Calls;
use reference::random::Random;
use std::ffi::OsStr;
use std::fs;
use std::os::unix::ffi::OsStrExt;
use std::process::Command;
use tool::{batch, output_of, tool, Folder, TOOL};
use xabatch::names::inspect;
use xabatch::{draw_names, key};
use xapool_host::{bytes_of_words, Key, Names};

fn text(bytes: &[u8]) -> String {
    String::from_utf8(bytes.to_vec()).expect("text")
}

/// The entry word of a value.
const fn value(value: u64) -> u64 {
    2 * value + 1
}

/// A block's 24 words: tier + 1, skip, value, base, and then its slots from 0 on.
fn block(fields: [u64; 3], base: [u64; 5], slots: &[u64]) -> Vec<u64> {
    let mut words = [&fields[..], &base, slots].concat();
    words.resize(24, 0);
    words
}

/// Three blocks, of which the last is free: the node of tier 66 and the leaf of key `a` (0x61), which has value 1. The
/// key's number is 01 61 and 31 zero bytes, so its highest word is 1 and the next one begins with 61.
fn one_key() -> Vec<u64> {
    let node = block([67, 0, 1], [0; 5], &[2]);
    let leaf = block([1, 0, value(1)], [0, 0, 0, 0x61 << 56, 1], &[]);
    [vec![3, 1], node, leaf, vec![0; 24]].concat()
}

/// The words that the keys prescribe, value k for the k-th, when all take their blocks at once.
fn words_of(keys: &[&[u8]], blocks: usize) -> Vec<u64> {
    let entry = |(at, bytes): (u64, &&[u8])| (ReferenceKey::new(bytes).expect("a key"), value(at));
    let list: List = (0..).zip(keys).map(entry).collect();
    State::empty(blocks).change_to(list).expect("blocks enough").words()
}

/// `k00` to `k16`: nibbles 03 6b 30 3x and 03 6b 31 3x.
fn seventeen() -> Vec<u64> {
    let keys: Vec<String> = (0..17).map(|number| format!("k{number:02}")).collect();
    words_of(&keys.iter().map(String::as_bytes).collect::<Vec<_>>(), 22)
}

/// Writes the words to a file of this folder; gives its name.
fn file(folder: &Folder, words: &[u64]) -> String {
    fs::write(folder.path("d.names"), bytes_of_words(words)).expect("written");
    folder.name("d.names")
}

#[test]
fn a_new_one_is_cleared() {
    let folder = Folder::new();
    let name = folder.name("n.names");
    assert_eq!(tool(&["names", "new", "2", &name], &[]), (0, vec![], String::new()));
    let mut words = vec![0; 2 + 24 * 2];
    words[0] = 2;
    assert_eq!(fs::read(&name).expect("a pool"), bytes_of_words(&words));
    assert_eq!(tool(&["names", "new", "2"], &[]), (0, bytes_of_words(&words), String::new()));
    // One that is there already is not touched.
    let (status, out, errors) = tool(&["names", "new", "3", &name], &[]);
    assert_eq!((status, out.len(), errors.contains("n.names: File exists")), (1, 0, true));
    assert_eq!(fs::read(&name).expect("a pool"), bytes_of_words(&words));
    assert_eq!(folder.names(), ["n.names"], "something is left over");
    let most = tool(&["names", "new", "16384"], &[]).1;
    assert_eq!(most.len(), 8 * (2 + 24 * 16_384));
    assert_eq!(tool(&["names", "check", "-"], &most), (0, "well-formed\n".into(), String::new()));
}

#[test]
fn bad_usage() {
    let cases: [(&[&str], &str); 9] = [
        (&[], "one of new, check, show and lookup"),
        (&["make", "1"], "'make': one of new, check, show and lookup"),
        (&["new"], "an argument is missing"),
        (&["new", "0"], "0 blocks: a pool of names has 1 to 16384"),
        (&["new", "16385"], "16385 blocks: a pool of names has 1 to 16384"),
        (&["new", "x"], "'x' is no number of blocks"),
        (&["check", "a", "b"], "'b': one argument too many"),
        (&["lookup", "a"], "an argument is missing"),
        (&["show", "--summary", "a"], "no option"),
    ];
    for (words, message) in cases {
        let (status, out, errors) = tool(&[&["names"], words].concat(), &[]);
        assert_eq!((status, out.len(), errors.contains(message)), (2, 0, true), "{errors}");
    }
}

#[test]
fn one_key_by_hand() {
    let folder = Folder::new();
    let name = file(&folder, &one_key());
    assert_eq!(tool(&["names", "check", &name], &[]), (0, "well-formed\n".into(), String::new()));
    let shown = "\
pool of names of 3 blocks, 74 words: 2 in use, 1 free
root: node 0, tier 66, nibbles -, 1 key
└─ slot 0: leaf 1, value 1, key a
well-formed
";
    assert_eq!(tool(&["names", "show", &name], &[]), (0, shown.into(), String::new()));
    let found = (0, "a: value 1\n".into(), String::new());
    assert_eq!(tool(&["names", "lookup", &name, "a"], &[]), found);
    assert_eq!(tool(&["names", "lookup", "-", "0x61"], &bytes_of_words(&one_key())), found);
}

/// By R346 the root is a shortcut to where the keys differ, by R344 the nodes below hold theirs as leaves.
#[test]
fn a_shortcut_has_both_ends() {
    let folder = Folder::new();
    let name = file(&folder, &seventeen());
    let leaf = |number: usize, slot: usize, last: bool, before: &str| {
        let branch = if last { "└─" } else { "├─" };
        let block = 4 + number;
        format!("{before}{branch} slot {slot}: leaf {block}, value {number}, key k{number:02}\n")
    };
    let first: String = (0..10).map(|at| leaf(at, at, at == 9, "   │  ")).collect();
    let second: String = (0..7).map(|at| leaf(10 + at, at, at == 6, "      ")).collect();
    let shown = format!(
        "\
pool of names of 22 blocks, 530 words: 21 in use, 1 free
root: shortcut 0, from tier 66, nibbles -, to tier 61, nibbles 036b3
└─ node 1, tier 61, nibbles 036b3, 17 keys
   ├─ slot 0: node 2, tier 60, nibbles 036b30, 10 keys
{first}   └─ slot 1: node 3, tier 60, nibbles 036b31, 7 keys
{second}well-formed
"
    );
    let (status, out, errors) = tool(&["names", "show", &name], &[]);
    assert_eq!((status, text(&out), errors.as_str()), (0, shown, ""));
}

/// What a line of python says of the value `d`.
fn python(json: &[u8], line: &str) -> String {
    let program = format!("import json,sys\nd = json.load(sys.stdin)\nprint({line})");
    let output = output_of(Command::new("python3").args(["-c", &program]), json);
    assert!(output.status.success(), "{}", text(json));
    text(&output.stdout).trim_end().into()
}

#[test]
fn show_as_json() {
    let folder = Folder::new();
    let name = file(&folder, &seventeen());
    let (status, json, errors) = tool(&["names", "show", "--json", &name], &[]);
    assert_eq!((status, errors.as_str()), (0, ""));
    let counts = "[d[k] for k in ('words', 'blocks', 'in_use', 'free', 'keys', 'well_formed')]";
    assert_eq!(python(&json, counts), "[530, 22, 21, 1, 17, True]");
    let root = "[d['root'][k] for k in ('kind', 'block', 'tier', 'nibbles')]";
    assert_eq!(python(&json, root), "['shortcut', 0, 66, '']");
    let node = "[d['root']['to'][k] for k in ('kind', 'block', 'tier', 'nibbles', 'keys')]";
    assert_eq!(python(&json, node), "['node', 1, 61, '036b3', 17]");
    let leaf = "d['root']['to']['slots'][1]['slots'][6]";
    let expected =
        "{'slot': 6, 'kind': 'leaf', 'block': 20, 'key': 'k16', 'word': 33, 'value': 16}";
    assert_eq!(python(&json, leaf), expected);
    let empty = tool(&["names", "new", "1"], &[]).1;
    let (_, json, _) = tool(&["names", "show", "--json", "-"], &empty);
    assert_eq!(python(&json, "(d['root'], d['keys'], d['findings'])"), "(None, 0, [])");
    let (status, json, _) = tool(&["names", "show", "--json", "-"], &empty[8..]);
    assert_eq!(
        (status, python(&json, "(d['blocks'], d['well_formed'])")),
        (1, "(None, False)".into())
    );
}

#[test]
fn an_absent_key_is_a_failure() {
    let folder = Folder::new();
    let name = file(&folder, &words_of(&[b"a", b"ab", b"0x12"], 8));
    let (status, out, errors) = tool(&["names", "lookup", &name, "ab", "b", "a", "0x00"], &[]);
    assert_eq!((status, text(&out).as_str()), (4, "ab: value 1\na: value 0\n"));
    let lines: Vec<&str> = errors.lines().collect();
    assert_eq!(lines.len(), 2, "{errors}");
    assert!(lines[0].ends_with("d.names: no such key: b"), "{errors}");
    assert!(lines[1].ends_with("d.names: no such key: 0x00"), "{errors}");
    // The same text as hex is another key.
    let (status, out, errors) = tool(&["names", "lookup", &name, "0x12"], &[]);
    assert_eq!((status, out.len(), errors.contains("no such key: 0x12")), (4, 0, true));
    assert_eq!(tool(&["names", "lookup", &name, "text:0x12"], &[]).1, b"text:0x12: value 2\n");
    let (status, json, errors) = tool(&["names", "lookup", "--json", &name, "a", "b"], &[]);
    assert_eq!((status, errors.contains("no such key: b")), (4, true));
    let expected = "{'keys': [{'key': 'a', 'found': True, 'word': 1, 'value': 0}, \
        {'key': 'b', 'found': False}], 'absent': 1}";
    assert_eq!(python(&json, "d"), expected);
}

/// Before anything is looked up, though the other key is there.
#[test]
fn what_is_no_key_is_refused_by_name() {
    let folder = Folder::new();
    let name = file(&folder, &one_key());
    let long = "k".repeat(33);
    let hex = format!("0x{}", "00".repeat(33));
    let digits = "after 0x a key has two hex digits a byte";
    let cases = [
        ("", "a key has 1 to 32 bytes, not 0"),
        ("text:", "a key has 1 to 32 bytes, not 0"),
        ("0x", "a key has 1 to 32 bytes, not 0"),
        (&long, "a key has 1 to 32 bytes, not 33"),
        (&hex, "a key has 1 to 32 bytes, not 33"),
        ("0x6", digits),
        ("0x6g", digits),
        ("0x+6", digits),
    ];
    for (word, message) in cases {
        let (status, out, errors) = tool(&["names", "lookup", &name, "a", word], &[]);
        assert_eq!((status, out.len()), (2, 0), "{word}");
        assert!(errors.contains(&format!("key '{word}': {message}")), "{errors}");
    }
    // 32 bytes are a key.
    let longest = "k".repeat(32);
    let name = file(&folder, &words_of(&[longest.as_bytes()], 2));
    assert_eq!(tool(&["names", "lookup", &name, &longest], &[]).0, 0);
}

/// Keys and what is shown for them: by R340 any bytes are a key.
const SHOWN: [(&[u8], &str); 18] = [
    (b"WD-1234", "WD-1234"),
    (b"a b", "a b"),
    (b"a: b", "a: b"),
    (b"0", "0"),
    (b"0x12", "text:0x12"),
    (b"0X", "text:0X"),
    (b"text:", "text:text:"),
    (b"text:0x12", "text:text:0x12"),
    (b"--json", "text:--json"),
    (b"-", "text:-"),
    (b" a", "0x2061"),
    (b"a ", "0x6120"),
    (b"it's", "0x69742773"),
    (b"\"", "0x22"),
    (b"a\\b", "0x615c62"),
    (b"\x00", "0x00"),
    (b"a\n", "0x610a"),
    ("é\u{7f}".as_bytes(), "0xc3a97f"),
];

#[test]
fn what_is_written_is_read_as_the_same_key() {
    let folder = Folder::new();
    let keys = SHOWN.map(|(key, _)| key);
    let name = file(&folder, &words_of(&keys, 60));
    for (at, (bytes, shown)) in SHOWN.into_iter().enumerate() {
        let line = format!("{shown}: value {at}\n");
        let (status, out, errors) = tool(&["names", "lookup", &name, shown], &[]);
        assert_eq!((status, text(&out), errors.as_str()), (0, line.clone(), ""), "{shown}");
        // The bytes themselves, after text: , are the same key.
        let raw = [b"text:", bytes].concat();
        if !bytes.contains(&0) {
            let words = ["names", "lookup", &name].map(OsStr::new);
            let mut command = Command::new(TOOL);
            command.args(words).arg(OsStr::from_bytes(&raw));
            assert_eq!(text(&output_of(&mut command, &[]).stdout), line);
        }
    }
    let drawn = text(&tool(&["names", "show", &name], &[]).1);
    for (at, (_, shown)) in SHOWN.into_iter().enumerate() {
        assert!(drawn.contains(&format!(", value {at}, key {shown}\n")), "{shown}: {drawn}");
    }
    // Random bytes, mostly of those with which something begins.
    let mut random = Random::new(5);
    for _ in 0..20_000 {
        let length = 1 + random.below(8);
        let byte = |random: &mut Random| match random.below(3) {
            0 => random.word() as u8,
            _ => b"0xXtext:-af '\""[random.below(14) as usize],
        };
        let bytes: Vec<u8> = (0..length).map(|_| byte(&mut random)).collect();
        let key = Key::new(&bytes).expect("a key");
        let shown = key::shown(&key);
        assert!(shown.bytes().all(|byte| (b' '..=b'~').contains(&byte)), "{shown}");
        assert_eq!(key::of(OsStr::new(&shown)), Ok(key), "{shown}");
    }
}

/// What `check`, `show` and `lookup` say of words that are no pool: what is wrong where; the file stays as it is.
#[test]
fn damage_is_refused_and_named() {
    let folder = Folder::new();
    let changed = |words: Vec<u64>, changes: &[(usize, u64)]| {
        let mut words = words;
        changes.iter().for_each(|(place, word)| words[*place] = *word);
        words
    };
    // Block n begins at 2 + 24 n; its base is word 3 on, its slots word 8 on.
    let (one, many) = (one_key(), seventeen());
    let base = |block: usize| 2 + 24 * block + 3;
    let cases: [(Vec<u64>, &str); 16] = [
        (changed(one.clone(), &[(0, 2)]), "word 0: N is 2, expected 3"),
        (
            changed(one.clone(), &[(1, 0)]),
            "word 2: nothing leads to block 0, which is in use, nor to 1 more",
        ),
        (changed(one.clone(), &[(1, 4)]), "word 1: 4 leads to no block of this pool"),
        (changed(one.clone(), &[(1, 3)]), "word 1: block 2, which this leads to, is free"),
        (changed(one.clone(), &[(1, 2)]), "word 1: the root is a leaf"),
        (
            changed(one.clone(), &[(2, 66)]),
            "word 2: node 0 is of tier 65, nibbles 0, expected tier 66, nibbles -",
        ),
        (changed(one.clone(), &[(4, 2)]), "word 4: node 0 has 2 keys, expected 1"),
        (
            changed(one.clone(), &[(10, 0), (11, 2)]),
            "word 11: node 0 has slot 1 otherwise than its keys prescribe",
        ),
        (changed(one.clone(), &[(11, 2)]), "word 11: block 1 is reached a second time"),
        (changed(one.clone(), &[(28, 2)]), "word 28: leaf 1 has word 0x2, which is no object"),
        (
            changed(one.clone(), &[(33, 33)]),
            "word 26: block 1 has not the words of a leaf, node or shortcut",
        ),
        (changed(one.clone(), &[(60, 9)]), "word 50: nothing leads to block 2, which is in use\n"),
        (changed(many.clone(), &[(3, 4)]), "word 2: block 0 does not stand for tier 66, nibbles -"),
        // A base that begins no block, in the shortcut and in all that stands below it.
        (
            changed(many.clone(), &[(base(0), 1), (base(1), 1), (base(2), 1), (base(3), 1)]),
            "word 2: block 0 does not stand for tier 66, nibbles -",
        ),
        // Both nodes below it change places.
        (
            changed(many.clone(), &[(34, 4), (35, 3)]),
            "node 3 is of tier 60, nibbles 036b31, expected tier 60, nibbles 036b30",
        ),
        (
            changed(many.clone(), &[(10, 3)]),
            "word 50: node 2 is of tier 60, nibbles 036b30, expected tier 61, nibbles 036b3",
        ),
    ];
    for (words, finding) in cases {
        let name = file(&folder, &words);
        let before = fs::metadata(&name).and_then(|data| data.modified()).expect("a time");
        let refused = "d.names: pool of names is not well-formed\n";
        for words in [&["names", "check", &name][..], &["names", "lookup", &name, "a"]] {
            let (status, out, errors) = tool(words, &[]);
            assert_eq!(
                (status, out.len(), errors.ends_with(refused)),
                (1, 0, true),
                "{finding}: {errors}{}",
                String::from_utf8_lossy(&out)
            );
        }
        let (status, out, errors) = tool(&["names", "show", &name], &[]);
        assert_eq!((status, errors.as_str()), (1, ""), "{finding}");
        assert!(text(&out).contains(finding), "{finding}: {}", text(&out));
        assert_eq!(fs::read(&name).expect("there"), bytes_of_words(&words));
        assert_eq!(fs::metadata(&name).and_then(|data| data.modified()).expect("a time"), before);
    }
    assert_eq!(folder.names(), ["d.names"], "something is left over");
}

#[test]
fn another_length_is_refused() {
    let bytes = bytes_of_words(&one_key());
    let length = "pool of names: length is not 2 + 24 N words, N from 1 to 16384\n";
    for cut in [&bytes[..bytes.len() - 8], &[&bytes[..], &[0; 8]].concat(), &bytes[..16]] {
        for words in [&["names", "check", "-"][..], &["names", "lookup", "-", "a"]] {
            let (status, out, errors) = tool(words, cut);
            assert_eq!((status, out.len(), errors.ends_with(length)), (1, 0, true), "{errors}");
        }
        let (status, out, _) = tool(&["names", "show", "-"], cut);
        assert_eq!((status, text(&out).starts_with("no pool of names: ")), (1, true));
    }
    let (status, out, errors) = tool(&["names", "check", "-"], &bytes[..bytes.len() - 1]);
    assert_eq!((status, out.len()), (1, 0));
    assert!(errors.contains("7 bytes after the last whole word"), "{errors}");
    let (status, _, errors) = tool(&["names", "check", "/nowhere/d.names"], &[]);
    assert_eq!((status, errors.contains("No such file")), (1, true));
}

/// A good file stays as it is, its time too; nothing stands beside it.
#[test]
fn reading_alters_nothing() {
    let folder = Folder::new();
    let name = file(&folder, &seventeen());
    let data = || fs::metadata(&name).and_then(|data| data.modified()).expect("a time");
    let before = data();
    for words in [&["check", &name][..], &["show", &name], &["lookup", &name, "k00", "zz"]] {
        tool(&[&["names"], words].concat(), &[]);
        assert_eq!(fs::read(&name).expect("there"), bytes_of_words(&seventeen()), "{words:?}");
        assert_eq!((data(), folder.names()), (before, vec!["d.names".into()]), "{words:?}");
    }
}

/// What was read and what the library's check and the second program say of it agree, on pools of random calls, whole and with a word
/// or two changed.
#[test]
fn findings_exactly_where_the_check_refuses() {
    let mut random = Random::new(41);
    let (mut good, mut refused) = (0, 0);
    for round in 0..60 {
        let mut calls = Calls::new(Random::new(1000 + round));
        let mut state = State::empty(90);
        for _ in 0..120 {
            state = execute(&state, &calls.call(&state.list)).state;
            let mut words = state.words();
            for _ in 0..random.below(3) {
                damage(&mut random, &mut words);
            }
            let names = Names::from_words(words);
            let report = inspect(&names);
            let is_good = names.check().is_ok();
            assert_eq!(is_good, reference_check(names.words()).answer == 0);
            assert_eq!(is_good, report.findings.is_empty(), "{:#?}", draw_names::lines_of(&report));
            if is_good {
                good += 1;
                assert_eq!(
                    report.root.map_or(0, |root| root.leaves()),
                    names.keys().expect("keys").len()
                );
            } else {
                refused += 1;
            }
        }
    }
    assert!(good > 2000 && refused > 2000, "{good} good, {refused} refused");
}

/// Changes a word, or two: mostly in blocks that are in use, mostly to what stands near by or elsewhere.
fn damage(random: &mut Random, words: &mut [u64]) {
    let at = |random: &mut Random| random.below(words.len() as u64) as usize;
    let used: Vec<usize> = (0..words.len()).filter(|place| words[*place] != 0).collect();
    if used.is_empty() {
        return;
    }
    let one = match random.below(4) {
        0 => at(random),
        _ => used[random.below(used.len() as u64) as usize],
    };
    let other = used[random.below(used.len() as u64) as usize];
    match random.below(5) {
        0 => words.swap(one, other),
        1 => words[one] = words[other],
        2 => words[one] = words[one].wrapping_add(1),
        3 => words[one] ^= 1 << random.below(64),
        _ => words[one] = 0,
    }
}

/// 74 words are those of 3 blocks, and of a pool of one node.
#[test]
fn neither_kind_of_pool_is_taken_for_the_other() {
    let folder = Folder::new();
    let script = folder.name("s");
    for words in [
        one_key(),
        tool_words(&["names", "new", "3"]),
        tool_words(&["names", "new", "40"]),
        seventeen(),
    ] {
        let name = file(&folder, &words);
        let looks = "no pool file: it looks like a pool of names ('xabatch names show' reads it)";
        for words in [
            &["show", &name][..],
            &["list", &name],
            &["find", &name],
            &["prepare", "-o", &script, "--command", "reserve 1", &name],
        ] {
            let (status, out, errors) = tool(words, &[]);
            assert_eq!((status, out.len(), errors.contains(looks)), (1, 0, true), "{errors}");
        }
        for words in [&["run", &name][..], &["run", "--plain", &name]] {
            let (status, out, errors) = tool(words, &batch("load 1\n"));
            let what = "a pool of names, on which no batch runs";
            assert_eq!((status, out.len(), errors.contains(what)), (1, 0, true), "{errors}");
        }
        for words in [&["decode", &name][..], &["encode", &name]] {
            let (_, out, errors) = tool(words, &[]);
            assert_eq!((out.len(), errors.contains("a pool of names")), (0, true), "{errors}");
        }
        assert_eq!(fs::read(&name).expect("there"), bytes_of_words(&words));
    }
    for nodes in ["1", "3", "13"] {
        let name = folder.name("p.pool");
        fs::write(&name, tool(&["new", nodes], &[]).1).expect("written");
        for words in [
            &["names", "check", &name][..],
            &["names", "show", &name],
            &["names", "lookup", &name, "a"],
        ] {
            let (status, out, errors) = tool(words, &[]);
            let what = "no pool of names: it looks like a pool file ('xabatch show' ";
            assert_eq!((status, out.len(), errors.contains(what)), (1, 0, true), "{errors}");
        }
    }
}

/// The words that the tool writes.
fn tool_words(arguments: &[&str]) -> Vec<u64> {
    xapool_host::words_of_bytes(&tool(arguments, &[]).1).expect("words")
}

#[test]
fn other_files_are_named() {
    let plain = tool(&["new", "--plain", "3"], &[]).1;
    for (bytes, what) in
        [(plain, "a plain list"), (b"load 1\n".to_vec(), "text"), (batch("load 1\n"), "a batch")]
    {
        let (status, out, errors) = tool(&["names", "show", "-"], &bytes);
        let what = format!("no pool of names: it looks like {what} (");
        assert_eq!((status, out.len(), errors.contains(&what)), (1, 0, true), "{errors}");
    }
    let (status, _, errors) = tool(&["names", "check", "-"], &[0; 74 * 8]);
    assert_eq!(
        (status, errors.contains("pool of names is not well-formed")),
        (1, true),
        "{errors}"
    );
}

/// It is an index and no data: that two are equal is no evidence.
#[test]
fn equal_pools_of_names_are_no_match() {
    let folder = Folder::new();
    let name = file(&folder, &one_key());
    fs::copy(&name, folder.path("e.names")).expect("copied");
    let (status, out, _) = tool(&["compare", &name, &folder.name("e.names")], &[]);
    let what = "nothing to compare: both are pools of names, not data";
    assert_eq!((status, text(&out).contains(what)), (2, true), "{}", text(&out));
    assert_eq!(tool(&["compare", "--bytes", &name, &folder.name("e.names")], &[]).0, 0);
    let pool = folder.pool(1).display().to_string();
    let (status, out, _) = tool(&["compare", &pool, &name], &[]);
    let what = "nothing to compare: old is a pool and new a pool of names, not data";
    assert_eq!((status, text(&out).contains(what)), (2, true), "{}", text(&out));
}
