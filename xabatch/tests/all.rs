//! Round trips, the places of errors, `show` on good and damaged pools, and the tool itself.

mod tool;

use reference::awkward::Commands as RandomCommands;
use reference::batch::Command as ReferenceCommand;
use reference::random::Random;
use tool::tool;
use xabatch::{decode, draw, inspect, text};
use xapool_host::layout::{
    count_place, filled_slots, mark_place, node_place, owner_place, slot_place, NODE_OFFSET,
};
use xapool_host::{bytes_of_words, node_count, BatchBuilder, Command, Pool, Word};

fn same_command(command: ReferenceCommand) -> Command {
    match command {
        ReferenceCommand::Store { index, order, word } => {
            Command::Store { index, order, word: Word(word) }
        }
        ReferenceCommand::Load { index } => Command::Load { index },
        ReferenceCommand::Erase { index } => Command::Erase { index },
        ReferenceCommand::Mark { index, mark } => Command::Mark { index, mark },
        ReferenceCommand::Unmark { index, mark } => Command::Unmark { index, mark },
        ReferenceCommand::Find { first, last, filter, budget } => {
            Command::Find { first, last, filter, budget }
        }
        ReferenceCommand::Reserve { index } => Command::Reserve { index },
    }
}

fn random_batch(seed: u64, count: usize) -> BatchBuilder {
    let mut commands = RandomCommands::new(Random::new(seed));
    let mut batch = BatchBuilder::new();
    for _ in 0..count {
        batch.push(same_command(commands.command())).expect("a short batch");
    }
    batch
}

fn random_pool(seed: u64) -> Pool<'static> {
    let mut pool = Pool::new(1 + seed as usize % 30).expect("a good size");
    let _ = pool.run(&random_batch(seed, 20)).expect("a good batch");
    pool
}

#[test]
fn batch_to_text_and_back() {
    for seed in 0..500 {
        let batch = random_batch(seed, 60);
        let (items, bad) = decode::decode(batch.bytes());
        assert_eq!((items.len(), bad), (60, None));
        let lines: Vec<String> = items.iter().map(|item| item.to_string()).collect();
        let again = text::batch_of(&lines.join("\n")).expect("its own text");
        assert_eq!(again, batch, "seed {seed}");
    }
}

#[test]
fn the_ways_to_write_a_command() {
    let text = " store 0x40 order 0 value 2 # comment\r\n\n#\n\tstore 64 order 0 word 5\nfind 1 .. max any budget 100";
    let batch = text::batch_of(text).expect("good text");
    let commands: Vec<String> = batch.commands().map(|c| c.expect("good").to_string()).collect();
    let store = "store 64 order 0 value 2";
    assert_eq!(commands, [store, store, "find 1..max any budget 100"]);
}

#[test]
fn errors_have_their_place() {
    let cases = [
        ("load 1\nlode 2", 2, 1, "unknown command 'lode'"),
        ("load", 1, 5, "expected an index, but the line ends"),
        ("load # 5", 1, 6, "expected an index, but the line ends"),
        ("load 0x", 1, 6, "expected an index, not '0x'"),
        ("load -1", 1, 6, "expected an index, not '-1'"),
        ("load 18446744073709551616", 1, 6, "above 2^64 - 1"),
        ("load 1 2", 1, 8, "'2' after the end"),
        ("reserve", 1, 8, "expected an index, but the line ends"),
        ("reserve 1 order 0", 1, 11, "'order' after the end"),
        ("\n\n  store 64 odrer 0 value 2", 3, 12, "expected 'order', not 'odrer'"),
        ("store 64 order 256 value 2", 1, 16, "from 0 to 255"),
        ("store 64 order 0 2", 1, 18, "'value', 'handle' or 'word'"),
        ("store 64 order 0 value 0x8000000000000000", 1, 24, "above 2^63 - 1"),
        ("store 64 order 0 handle 6", 1, 25, "multiple of 4"),
        ("mark 64 0", 1, 9, "expected 'mark', not '0'"),
        ("find 1-2 any budget 3", 1, 6, "expected an index, not '1-2'"),
        ("find 1 any budget 3", 1, 8, "expected '..', not 'any'"),
        ("find 1..2 mark 3 budget 3", 1, 11, "write 'any'"),
        ("find 1..2 any budget 65536", 1, 22, "from 0 to 65535"),
        ("load 1 é", 1, 8, "'é' after"),
        ("é load", 1, 1, "unknown"),
    ];
    for (input, line, column, message) in cases {
        let errors = text::batch_of(input).expect_err(input);
        assert_eq!((errors.first.len(), errors.more), (1, 0), "{input}: {errors:?}");
        let error = &errors.first[0];
        assert_eq!((error.line, error.column), (line, column), "{input}: {error}");
        assert!(error.message.contains(message), "{input}: {error}");
    }
}

#[test]
fn a_text_too_long_for_a_batch() {
    // What comes after has no room either, and that is one error.
    for lines in [2979, 4000] {
        let errors = text::batch_of(&"load 1\n".repeat(lines)).expect_err("too long");
        let places: Vec<_> = errors.first.iter().map(|error| (error.line, error.column)).collect();
        assert_eq!((places, errors.more), (vec![(2979, 1)], 0));
    }
}

/// Findings there are exactly where the library's check says no.
fn agree(words: &[u64], what: &str) {
    let report = inspect::inspect(words);
    let good = Pool::from_words(words.to_vec()).check().is_ok();
    assert_eq!(report.findings.is_empty(), good, "{what}: {:?}", report.findings);
    assert!(report.findings.iter().all(|finding| finding.place <= words.len()));
    // What follows follows from something.
    assert!(good || report.findings.iter().any(|finding| !finding.follows), "{what}");
    assert!(!draw::lines_of(&report, &draw::View::default()).is_empty());
}

#[test]
fn show_agrees_with_the_check_on_good_and_damaged_pools() {
    let mut random = Random::new(7);
    for seed in 0..120 {
        let pool = random_pool(seed);
        agree(pool.words(), "good");
        for _ in 0..100 {
            let mut words = pool.words().to_vec();
            for _ in 0..1 + random.below(2) {
                damage(&mut words, &mut random);
            }
            agree(&words, &format!("seed {seed}"));
            recount(&mut words);
            agree(&words, &format!("seed {seed}, counts set right"));
        }
    }
    for length in [0, 1, 4, 73, 75, 1_146_954] {
        agree(&vec![0; length], "length");
    }
}

/// The word of a reserved index in every place of pools with reserved indices and without.
#[test]
fn show_agrees_with_the_check_wherever_an_index_may_be_reserved() {
    let texts = [
        "",
        "reserve 0",
        "reserve 0\nreserve 5\nstore 6 order 0 value 1\nmark 6 mark 0",
        "store 8 order 3 value 1\nreserve 70\nreserve 4095\nstore 4096 order 6 value 2",
    ];
    for text in texts {
        let mut pool = Pool::new(8).expect("a good size");
        let replies = pool.run(&text::batch_of(text).expect("good text")).expect("a good batch");
        assert!(replies.iter().all(|reply| reply.done().is_ok()), "{text}");
        for place in 0..pool.words().len() {
            let mut words = pool.words().to_vec();
            words[place] = 1030;
            agree(&words, &format!("{text}: word {place}"));
            recount(&mut words);
            agree(&words, &format!("{text}: word {place}, counts set right"));
        }
    }
}

/// Sets each node's filled count right, so that the pool is refused for something else or not at all.
fn recount(words: &mut [u64]) {
    for node in 0..node_count(words.len()).expect("a pool's length") {
        words[count_place(node)] = filled_slots(words, node);
    }
}

#[test]
fn a_wrong_count_is_named() {
    let mut pool = Pool::new(4).expect("four nodes");
    let text = "store 0 order 0 value 1\nstore 64 order 3 value 2\nreserve 63\n";
    let replies = pool.run(&text::batch_of(text).expect("good text")).expect("a good batch");
    assert!(replies.iter().all(|reply| reply.done().is_ok()));
    // The head with two nodes below, an entry and a reservation, eight slots of one entry; and one free.
    for (node, right) in [(0, 2), (1, 2), (2, 8), (3, 0u64)] {
        let place = count_place(node);
        for count in [right + 1, right.wrapping_sub(1), 64] {
            let mut words = pool.words().to_vec();
            words[place] = count;
            let finding = format!("word {place}: the filled count is {count}, expected {right}");
            let lines = format!("not well-formed: 1 finding\n  {finding}\n");
            assert_eq!(shown(&words, &["--findings"]), (1, lines));
        }
    }
    let (_, drawn) = shown(pool.words(), &[]);
    assert!(drawn.contains("head: node 0, shift 6, indices 0..4095, filled 2, marks -"), "{drawn}");
    assert!(
        drawn.contains("slot 1: node 2, shift 0, indices 64..127, filled 8, marks -"),
        "{drawn}"
    );
    // What is drawn is the word as it stands.
    let mut words = pool.into_words();
    words[count_place(2)] = 7;
    assert!(shown(&words, &[]).1.contains("indices 64..127, filled 7, marks -"));
}

/// Changes one word, mostly one that is not 0, to one of the kinds of word there are; at times a
/// filled count, by one.
fn damage(words: &mut [u64], random: &mut Random) {
    if random.one_in(8) {
        let nodes = node_count(words.len()).expect("a pool's length");
        let count = &mut words[count_place(random.below(nodes as u64) as usize)];
        let less = random.one_in(2);
        *count = if less { count.wrapping_sub(1) } else { count.wrapping_add(1) };
        return;
    }
    let mut place = random.below(words.len() as u64) as usize;
    while words[place] == 0 && !random.one_in(20) {
        place = (place + 1) % words.len();
    }
    words[place] = match random.below(9) {
        0 => 0,
        7 => 1030,
        1 => words[place].wrapping_add(1),
        2 => words[place] ^ 1 << random.below(64),
        3 => 4 * (1024 + random.below(32)) + 2,
        4 => 4 * random.below(64) + 2,
        5 => 2 * random.below(64) + 1,
        6 => words[random.below(words.len() as u64) as usize],
        _ => random.word(),
    };
}

#[test]
fn findings_name_their_words() {
    let mut batch = BatchBuilder::new();
    for (index, word) in [(0, 3), (64, 5)] {
        batch.push(Command::Store { index, order: 0, word: Word(word) }).expect("short");
    }
    let mut pool = Pool::new(4).expect("four nodes");
    let _ = pool.run(&batch).expect("a good batch");
    let anchor = [(0, 3), (1, 2), (2, 1), (3, 9)];
    let head =
        [(node_place(0), 8), (count_place(0), 3), (mark_place(0, 0), 2), (slot_place(0, 0), 6)];
    let others = [(owner_place(1), 9), (slot_place(3, 34), 1)];
    for (place, word) in anchor.into_iter().chain(head).chain(others) {
        let mut words = pool.words().to_vec();
        words[place] = word;
        let findings = inspect::inspect(&words).findings;
        assert!(findings.iter().any(|finding| finding.place == place), "{place}: {findings:?}");
    }
}

#[test]
fn the_tool_encodes_and_decodes_through_pipes() {
    let (status, batch, _) = tool(&["encode"], b"store 64 order 0 value 2\n");
    assert_eq!((status, batch.len(), batch[11]), (0, 20, 0));
    let (status, lines, _) = tool(&["decode", "-"], &[255, 0, 3, 3, 0x20, 0]);
    let refused = "refused: batch too long, or a record is cut, of unknown tag or wrong length, number 8192\n";
    assert_eq!((status, String::from_utf8_lossy(&lines).as_ref()), (1, refused));
}

#[test]
fn the_tool_names_what_is_wrong() {
    let (status, out, errors) = tool(&["encode"], b"load 1\n  lode 2\n");
    assert_eq!((status, out.len()), (2, 0));
    assert!(errors.starts_with("xabatch: <stdin>:2:3: unknown command 'lode'"), "{errors}");
    let (status, _, errors) = tool(&["decode"], &[130, 0, 21, 0]);
    assert_eq!(status, 1);
    assert!(errors.contains("<stdin>: byte 0"), "{errors}");
    assert_eq!(tool(&["show", "/no/such/file"], &[]).0, 1);
    assert_eq!(tool(&["shwo"], &[]).0, 2);
    assert_eq!(tool(&[], &[]).0, 2);
    assert_eq!(tool(&["new", "16385"], &[]).0, 2);
    assert_eq!(tool(&["--help"], &[]).0, 0);
}

#[test]
fn the_tool_shows_pools() {
    let pool = random_pool(20);
    let (status, out, _) = tool(&["show", "-"], &bytes_of_words(pool.words()));
    assert_eq!(status, 0);
    assert!(String::from_utf8_lossy(&out).ends_with("well-formed\n"));
    let mut words = pool.words().to_vec();
    words[3] = 5;
    let (status, out, _) = tool(&["show", "-"], &bytes_of_words(&words));
    assert_eq!(status, 1);
    assert!(String::from_utf8_lossy(&out).contains("word 3: the fourth word is 5, expected 0"));
    assert_eq!(tool(&["show", "-"], &[1, 2, 3]).0, 1);
}

#[test]
fn the_tool_runs_a_batch_on_a_pool_file() {
    let file = std::env::temp_dir().join(format!("xabatch-test-{}", std::process::id()));
    let name = file.to_str().expect("a plain name");
    std::fs::write(&file, tool(&["new", "3"], &[]).1).expect("written");
    let batch = tool(&["encode"], b"store 0 order 0 value 1\nstore 64 order 0 value 2\n").1;
    let (status, replies, _) = tool(&["run", name], &batch);
    assert_eq!((status, replies.len()), (0, 48));
    let shown = tool(&["show", name], &[]);
    std::fs::remove_file(&file).expect("removed");
    let drawn = "\
pool of 3 nodes, 214 words: 3 in use, 0 free
head: node 0, shift 6, indices 0..4095, filled 2, marks -
├─ slot 0: node 1, shift 0, indices 0..63, filled 1, marks -
│  └─ slot 0: index 0, order 0 value 1, marks -
└─ slot 1: node 2, shift 0, indices 64..127, filled 1, marks -
   └─ slot 0: index 64, order 0 value 2, marks -
well-formed
";
    assert_eq!((shown.0, String::from_utf8_lossy(&shown.1).as_ref()), (0, drawn));
}

/// A pool of nearly a thousand nodes in use, and the number of its head node.
fn large_pool() -> (Vec<u64>, usize) {
    let mut pool = Pool::new(1000).expect("a good size");
    let entries = (0..960).map(|at| Command::Store { index: 64 * at, order: 0, word: Word(3) });
    let marks = [Command::Mark { index: 640, mark: 1 }];
    let _ = pool.run_all(entries.chain(marks)).expect("a good pool");
    let words = pool.into_words();
    let head = (words[1] / 4 - NODE_OFFSET) as usize;
    (words, head)
}

#[test]
fn one_cause_is_one_finding() {
    let (pool, head) = large_pool();
    let slot = slot_place(head, 3);
    let (entry, sibling, other) = (7, 4 * 5 + 2, 4 * (1024 + 5) + 2);
    // The word that is changed, to what, and how many findings follow at least.
    let cases = [
        (1, 0, 960),
        (1, entry, 960),
        (1, sibling, 960),
        (1, other, 960),
        (1, 1030, 960),
        (slot, 0, 64),
        (slot, 1030, 64),
        (slot, entry, 64),
        (slot, sibling, 64),
        (node_place(head), 19, 0),
        (node_place(head), 20, 0),
        (owner_place(head), 5, 0),
        (count_place(head), 14, 0),
        (owner_place(7), 9, 0),
        (count_place(7), 0, 0),
        (3, 1, 0),
        // Nodes that are free: 999 and 998.
        (node_place(999), 1, 0),
        (slot_place(998, 2), 5, 0),
        (count_place(999), 1, 0),
    ];
    for (place, word, least) in cases {
        let mut words = pool.clone();
        words[place] = word;
        let findings = inspect::inspect(&words).findings;
        let causes: Vec<_> = findings.iter().filter(|finding| !finding.follows).collect();
        assert_eq!(causes.len(), 1, "word {place}: {causes:?}");
        assert_eq!(causes[0].place, place, "{causes:?}");
        assert!(findings.len() > least && findings.len() < least + 40, "{}", findings.len());
    }
}

fn shown(words: &[u64], options: &[&str]) -> (i32, String) {
    let arguments = [&["show"], options, &["-"]].concat();
    let (status, out, errors) = tool(&arguments, &bytes_of_words(words));
    assert_eq!(errors, "");
    (status, String::from_utf8(out).expect("text"))
}

#[test]
fn show_a_summary_a_range_findings() {
    let (mut words, _) = large_pool();
    let summary = "\
pool of 1000 nodes, 70004 words: 976 in use, 24 free
entries: 960, in 0..61376: 960 of order 0
marks: 0 with mark 0, 1 with mark 1, 0 with mark 2
nodes: 960 of shift 0, 15 of shift 6, 1 of shift 12
well-formed
";
    assert_eq!(shown(&words, &["--summary"]), (0, summary.into()));
    assert_eq!(shown(&words, &["--findings"]), (0, "well-formed\n".into()));
    let (_, range) = shown(&words, &["--range", "640..0x280"]);
    assert!(range.contains("index 640, order 0 value 1, marks 1"), "{range}");
    assert!(range.contains("(63 more slots outside the range)") && range.lines().count() == 8);
    words[1] = 5;
    let (status, few) = shown(&words, &["--findings"]);
    let line = "and 976 that follow from it (--all lists them)";
    assert_eq!((status, few.lines().count(), few.lines().last()), (1, 3, Some(line)));
    let (status, all) = shown(&words, &["--findings", "--all"]);
    assert_eq!((status, all.lines().count()), (1, 3 + 976));
    for bad in [&["--range", "5..4"][..], &["--range", "5"], &["--range=1..2..3"], &["--rnage"]] {
        assert_eq!(tool(&[&["show"], bad, &["-"]].concat(), &[]).0, 2, "{bad:?}");
    }
    assert_eq!(tool(&["show", "--summary", "--range", "1..2", "-"], &[]).0, 2);
    assert_eq!(tool(&["show", "--summary", "--findings", "-"], &[]).0, 2);
}

const COMMANDS: [&str; 11] = [
    "encode", "decode", "show", "list", "find", "new", "run", "crc", "compare", "evidence", "gate",
];

#[test]
fn version_help_and_the_man_page() {
    let version = format!("xabatch {}\n", env!("CARGO_PKG_VERSION"));
    assert_eq!(tool(&["--version"], &[]), (0, version.clone().into(), String::new()));
    let man = include_str!("../xabatch.1").replace("\\-", "-");
    assert!(man.contains(version.trim_end()), "the man page is of another version");
    let (_, all, _) = tool(&["--help"], &[]);
    let all = String::from_utf8(all).expect("text");
    for command in COMMANDS {
        let (status, help, _) = tool(&["help", command], &[]);
        let help = String::from_utf8(help).expect("text");
        assert_eq!((status, help.starts_with(&format!("usage: xabatch {command} "))), (0, true));
        for asks in ["--help", "-h"] {
            assert_eq!(tool(&[command, asks], &[]).1, help.as_bytes());
            assert_eq!(tool(&[command, "file", asks], &[]).1, help.as_bytes());
            // After -- it is a file.
            assert_ne!(tool(&[command, "--", asks], &[]).1, help.as_bytes());
        }
        assert!(all.contains(&format!("xabatch {command} ")));
        for word in help.split_whitespace().filter(|word| word.contains("--")) {
            let option = word.trim_matches(|c: char| !c.is_ascii_alphabetic() && c != '-');
            assert!(man.contains(option), "{option} is not in the man page");
            // It is known: what is wrong then is that a file or a value is missing, or nothing.
            let errors = tool(&[command, option], &[]).2;
            assert!(!errors.contains("no option"), "{errors}");
        }
    }
    assert_eq!(tool(&["help", "shwo"], &[]).0, 2);
    assert_eq!(tool(&["run", "--quickly", "p"], &[]).0, 2);
    assert_eq!(tool(&["new", "1", "a", "b"], &[]).0, 2);
}

/// Each by its line; twenty are enough.
#[test]
fn all_errors_of_a_text_are_told() {
    for (wrong, more) in
        [(1, None), (2, None), (20, None), (21, Some("1 more error")), (25, Some("5 more errors"))]
    {
        let text: String = (0..wrong).map(|at| format!("load {at}\n  lode {at}\n")).collect();
        for options in [&[][..], &["--long"]] {
            let (status, out, errors) = tool(&[&["encode"], options].concat(), text.as_bytes());
            assert_eq!((status, out.len()), (2, 0));
            let lines: Vec<&str> = errors.lines().collect();
            let told = wrong.min(20);
            assert_eq!(lines.len(), told + usize::from(more.is_some()), "{errors}");
            for (at, line) in lines[..told].iter().enumerate() {
                let start = format!("xabatch: <stdin>:{}:3: unknown command 'lode'", 2 * at + 2);
                assert!(line.starts_with(&start), "{line}");
            }
            let last = more.map(|more| format!("xabatch: and {more}"));
            assert!(last.is_none_or(|last| lines[told] == last), "{errors}");
        }
    }
    // A batch that is full is one error, and those after it are told too.
    let text = "load 1\n".repeat(2980) + "lode 1\n";
    let errors = tool(&["encode"], text.as_bytes()).2;
    assert_eq!(errors.lines().count(), 2, "{errors}");
    assert!(errors.contains(":2979:1: batch is full") && errors.contains(":2981:1: unknown"));
}

/// On a terminal much text, or many records, have a bar; where the lines go there themselves, none.
#[test]
fn encode_and_decode_have_a_bar() {
    if !tool::bash("command -v script", &[]).1.starts_with(b"/") {
        eprintln!("no 'script' here: the bar is not tried on a terminal");
        return;
    }
    let folder = tool::Folder::new();
    let large = "load 1\n".repeat(800_000);
    std::fs::write(folder.path("large"), &large).expect("written");
    std::fs::write(folder.path("small"), &large[..7000]).expect("written");
    let said = |command: &str| {
        let line = format!("TERM=dumb script -qec '{command}' /dev/null");
        let line = format!("cd {} && {line}", folder.0.display());
        let (status, out, _) = tool::bash(&line, &[]);
        let text = String::from_utf8_lossy(&out).into_owned();
        // The bar is gone before anything is said.
        let mut parts = text.split(['\r', '\n']);
        assert!(parts.all(|part| part.starts_with("xabatch: ") || !part.contains("xabatch: ")));
        (status, text.contains("%\r"))
    };
    assert_eq!(said("\"$X\" encode --long large > records"), (0, true));
    assert_eq!(said("\"$X\" encode --long small > few"), (0, false));
    assert_eq!(said("\"$X\" decode records > text"), (0, true));
    assert_eq!(said("\"$X\" decode few > text"), (0, false));
    assert_eq!(said("\"$X\" decode records"), (0, false));
    // With something to say at the end.
    let absent = [&[130, 0, 21, 10][..], &[0; 20]].concat();
    std::fs::write(folder.path("replies"), absent.repeat(200_000)).expect("written");
    assert_eq!(said("\"$X\" decode replies > text"), (0, true));
    std::fs::write(folder.path("large"), large + "lode 1\nlode 2\n").expect("written");
    assert_eq!(said("\"$X\" encode --long large > records"), (2, true));
}

#[test]
fn a_long_text_is_split_into_batches() {
    let folder = tool::Folder::new();
    let text: String = (0..8000).map(|at| format!("load {at}\n")).collect();
    let (status, out, errors) = tool(&["encode"], text.as_bytes());
    assert_eq!((status, out.len()), (2, 0));
    assert!(errors.contains("<stdin>:2979:1: batch is full"), "{errors}");
    assert!(errors.contains("--split"), "{errors}");
    let prefix = folder.name("part");
    let (status, out, _) = tool(&["encode", "--split", &prefix], text.as_bytes());
    assert_eq!((status, out), (0, format!("{prefix}1\n{prefix}2\n{prefix}3\n").into_bytes()));
    let parts =
        ["part1", "part2", "part3"].map(|name| std::fs::read(folder.path(name)).expect(name));
    assert_eq!(parts.each_ref().map(Vec::len), [32_758, 32_758, 88_000 - 2 * 32_758]);
    assert_eq!(parts.concat(), tool(&["encode", "--long"], text.as_bytes()).1);
    // No file is overwritten, and none is left where one cannot be written.
    std::fs::remove_file(folder.path("part1")).expect("removed");
    let (status, _, errors) = tool(&["encode", "--split", &prefix], text.as_bytes());
    assert_eq!((status, errors.contains("part2: File exists")), (1, true), "{errors}");
    assert_eq!(folder.names(), ["part2", "part3"]);
    assert_eq!(tool(&["encode", "--split", &prefix, "--long"], &[]).0, 2);
}

#[test]
fn new_overwrites_nothing() {
    let folder = tool::Folder::new();
    let name = folder.name("p.pool");
    assert_eq!(tool(&["new", "3", &name], &[]).0, 0);
    let (status, _, errors) = tool(&["new", "4", &name], &[]);
    assert_eq!((status, errors.contains("p.pool: File exists")), (1, true), "{errors}");
    assert_eq!(std::fs::read(folder.path("p.pool")).expect("a pool").len(), 8 * 214);
}

#[test]
fn control_characters_are_written_out() {
    let (_, _, errors) = tool(&["encode"], b"load \x1b[31m1\x07\n");
    assert!(errors.contains(r"'\u{1b}[31m1\u{7}'"), "{errors:?}");
    let (_, _, errors) = tool(&["show", "no\nfile\u{202e}"], &[]);
    assert!(errors.contains(r"no\nfile\u{202e}: No such file"), "{errors:?}");
    let (_, _, errors) = tool(&["encode", "it's é.txt"], &[]);
    assert!(errors.contains("it's é.txt: "), "{errors:?}");
}

#[test]
fn outputs_that_cannot_be_written_fail() {
    let folder = tool::Folder::new();
    let pool = folder.pool(3).display().to_string();
    let batch = tool::batch("store 0 order 0 value 1\n");
    assert_eq!(tool(&["run", &pool], &batch).0, 0);
    let [show, list] = ["show", "list"].map(|name| format!("{name} {pool}"));
    let bytes = format!("list --bytes {pool}");
    for command in ["new 3", "encode", "decode", &show, &list, &bytes, "--help", "--version"] {
        let input =
            if command == "decode" { &[2, 0, 8, 0, 0, 0, 0, 0, 0, 0, 1][..] } else { b"load 1" };
        let (status, _, errors) = tool::bash(&format!("\"$X\" {command} > /dev/full"), input);
        assert_eq!((status, errors.contains("No space left")), (1, true), "{command}: {errors}");
        let (status, _, errors) = tool::bash(&format!("\"$X\" {command} >&-"), input);
        assert_eq!((status, errors.contains("closed")), (1, true), "{command}: {errors}");
    }
}

/// File names need not be text.
#[test]
fn any_file_name_will_do() {
    let folder = tool::Folder::new();
    let line =
        format!("cd {} && \"$X\" new 3 $'p\\xff' && \"$X\" run $'p\\xff'", folder.0.display());
    let (status, replies, errors) = tool::bash(&line, &tool::batch("load 1\n"));
    assert_eq!((status, replies.len()), (0, 24), "{errors}");
}
