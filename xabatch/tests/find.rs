//! `xabatch find`: the first entry with a mark or all, over pauses, as the list has them.

mod tool;

use reference::random::Random;
use tool::{run, tool, Folder};

const ENTRIES: &str = "\
store 0 order 0 value 1
store 64 order 0 value 2
store 4096 order 3 handle 0x1000
store max order 0 value 3
reserve 65
mark 64 mark 0
mark 4100 mark 2
mark max mark 2
";

const LINES: [&str; 4] = [
    "0 order 0 value 1 marks -\n",
    "64 order 0 value 2 marks 0\n",
    "4096 order 3 handle 0x1000 marks 2\n",
    "max order 0 value 3 marks 2\n",
];

fn pool() -> (Folder, String) {
    let folder = Folder::new();
    let pool = folder.pool(40);
    run(&pool, ENTRIES);
    (folder, pool.to_str().expect("a plain name").into())
}

#[test]
fn the_first_or_all_with_any_budget() {
    let (_folder, pool) = pool();
    let cases: [(&[&str], &[usize]); 9] = [
        (&[], &[0]),
        (&["--all"], &[0, 1, 2, 3]),
        (&["--mark", "2"], &[2]),
        (&["--all", "--mark", "2"], &[2, 3]),
        (&["--all", "--mark=0"], &[1]),
        (&["--all", "--mark", "1"], &[]),
        (&["--all", "1..4103"], &[1, 2]),
        (&["--all", "65..4095"], &[]),
        (&["4103..4103"], &[2]),
    ];
    for (words, entries) in cases {
        let lines: String = entries.iter().map(|at| LINES[*at]).collect();
        for budget in ["1", "2", "9", "65535"] {
            let (options, range): (Vec<&str>, Vec<&str>) =
                words.iter().partition(|word| !word.contains(".."));
            let arguments =
                [&["find", "--budget", budget], &options[..], &[&pool], &range[..]].concat();
            assert_eq!(
                tool(&arguments, &[]),
                (0, lines.clone().into(), String::new()),
                "{words:?}"
            );
        }
    }
    let json = String::from_utf8(tool(&["find", "--json", &pool], &[]).1).expect("text");
    assert!(json.contains("\"entries\"") && json.contains("\"index\":0"), "{json}");
}

#[test]
fn what_cannot_be_found_is_told() {
    let (_folder, pool) = pool();
    for bad in [&["--mark", "3"][..], &["--budget", "0"], &["--budget", "65536"], &["--mark", "x"]]
    {
        let (status, out, errors) = tool(&[&["find"], bad, &[&pool]].concat(), &[]);
        assert_eq!((status, out.len()), (2, 0), "{errors}");
        assert!(errors.contains(&format!("{} {}: not a number from", bad[0], bad[1])), "{errors}");
    }
    assert_eq!(tool(&["find", &pool, "5..4"], &[]).0, 2);
    let mut bytes = std::fs::read(&pool).expect("a pool");
    bytes[24] = 1;
    let refused = "xabatch: <stdin>: pool is not well-formed\n";
    assert_eq!(tool(&["find", "--all", "-"], &bytes), (1, Vec::new(), refused.into()));
}

/// What is found with no mark is the list, without what is reserved.
#[test]
fn all_that_is_found_is_what_the_list_has() {
    let mut random = Random::new(38);
    for _ in 0..8 {
        let (_folder, pool) = pool();
        let text: String = (0..60)
            .map(|_| match random.below(4) {
                0 => format!("erase {}\n", random.below(5000)),
                1 => format!("mark {} mark {}\n", random.below(5000), random.below(3)),
                _ => format!("store {} order 0 value {}\n", random.below(5000), random.below(99)),
            })
            .collect();
        run(std::path::Path::new(&pool), &text);
        let list = String::from_utf8(tool(&["list", &pool], &[]).1).expect("text");
        let entries = list.lines().filter(|line| !line.ends_with("reserved"));
        let wanted: String = entries.map(|line| format!("{line}\n")).collect();
        let found = tool(&["find", "--all", "--budget", "3", &pool], &[]);
        assert_eq!(found, (0, wanted.into(), String::new()));
    }
}
