//! The subcommands `names` and `name-lists`: text in, text out.

use reference::names::lists;
use reference::names::session::run;

fn said(script: &str) -> String {
    let mut out = Vec::new();
    run(script.as_bytes(), &mut out).expect("a script");
    String::from_utf8(out).expect("text")
}

#[test]
fn calls_and_words() {
    let script = "pool 50  # two blocks\ncheck\nclear\n\ninsert 61 5\nlookup 61\nwords\ninsert 6162 3\ninsert - 2\n\
                  insert 61 2\nlookup 62\ndelete 61\nwords\nword 40 1\ncheck\npool 51\nclear\n";
    let expected = "check 2 0\nclear 0 0\ninsert 61 5 0 5 needed 2\nlookup 61 0 5\n\
                    word 0 2\nword 1 1\nword 2 67\nword 4 1\nword 10 2\nword 26 1\nword 28 5\n\
                    word 32 6989586621679009792\nword 33 1\nend\n\
                    insert 6162 3 11 0 needed 1\ninsert - 2 16 0\ninsert 61 2 6 0\nlookup 62 10 0\n\
                    delete 61 0 5 needed 0\nword 0 2\nend\ncheck 2 0\nclear 1 0\n";
    assert_eq!(said(script), expected);
}

#[test]
fn lines_that_are_not_understood() {
    for line in
        ["lookup", "insert 61", "delete 6", "lookup 6g", "word 0 1", "pool x", "look 61", "clear 1"]
    {
        let mut out = Vec::new();
        let error = run(format!("# first\n{line}").as_bytes(), &mut out).expect_err(line);
        assert_eq!(error.to_string(), format!("line 2: {line}"));
        assert!(out.is_empty());
    }
}

/// What a list of `name-lists` says, `names` says of the same calls, with the same words at the end.
#[test]
fn lists_are_what_the_calls_give() {
    let mut out = Vec::new();
    lists::print(&mut out, 7, 60, 200).expect("printed");
    let text = String::from_utf8(out).expect("text");
    let all: Vec<&str> = text.split_inclusive("end\n").collect();
    assert_eq!(all.len(), 60);
    for list in all {
        let (first, rest) = list.split_once('\n').expect("lines");
        let blocks: usize = first.strip_prefix("list ").expect("a list").parse().expect("N");
        let state = |line: &&str| line.starts_with("entry ") || line.starts_with("place ");
        let fields = |line: &str| match line.split(' ').next() {
            Some("insert") => 3,
            Some("lookup" | "delete") => 2,
            Some("check" | "clear") => 1,
            _ => 0,
        };
        let mut script = format!("pool {}\nclear\n", 2 + 24 * blocks);
        for line in rest.lines().filter(|line| fields(line) > 0) {
            let call: Vec<&str> = line.split(' ').take(fields(line)).collect();
            script += &format!("{}\n", call.join(" "));
        }
        let expected: Vec<&str> =
            ["clear 0 0"].into_iter().chain(rest.lines().filter(|line| !state(line))).collect();
        let given = said(&(script + "words\n"));
        assert_eq!(given.lines().collect::<Vec<_>>(), expected);
    }
}
