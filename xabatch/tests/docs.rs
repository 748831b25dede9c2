//! What README.md and docs/HOST.md show is what happens: each `console` block is run line by line,
//! and each C block is the example it says.

mod tool;

use std::fs;
use std::os::unix::fs::symlink;
use std::path::{Path, PathBuf};
use std::process::Command;
use tool::{output_of, tool, Folder, TOOL};
use xapool_host::layout::{ANCHOR_WORDS, NODE_WORDS};
use xapool_host::{MOST_BATCH_BYTES, MOST_NODES, PROGRAM_BATCH_BYTES};

fn root() -> PathBuf {
    Path::new(env!("CARGO_MANIFEST_DIR")).join("..")
}

fn page(name: &str) -> String {
    fs::read_to_string(root().join(name)).expect(name)
}

/// The blocks of this kind in a page.
fn blocks(page: &str, kind: &str) -> Vec<String> {
    let start = format!("\n```{kind}\n");
    let parts = page.split(start.as_str()).skip(1);
    parts.map(|part| part.split_once("```").expect("an end").0.to_owned()).collect()
}

/// A command, lines that continue it taken in, and what it is said to write.
fn steps(block: &str) -> Vec<(String, String)> {
    let mut steps: Vec<(String, String)> = Vec::new();
    for line in block.lines() {
        match (line.strip_prefix("$ "), line.strip_prefix("> "), steps.last_mut()) {
            (Some(command), _, _) => steps.push((command.into(), String::new())),
            (_, Some(more), Some(step)) if step.1.is_empty() => step.0 += &format!("\n{more}"),
            (_, _, Some(step)) => step.1 += &format!("{line}\n"),
            _ => panic!("a block begins with a command: {line}"),
        }
    }
    steps
}

/// A folder in which `xabatch` and `target/bin/tamburish` are what they are for a reader.
fn folder() -> Folder {
    let folder = Folder::new();
    let default = root().join("target/bin/tamburish");
    let program = std::env::var_os("TAMBURISH_BIN").map_or(default, PathBuf::from);
    fs::create_dir_all(folder.path("target/bin")).expect("a folder");
    let program = program.canonicalize().expect("run 'scripts/program'");
    symlink(program, folder.path("target/bin/tamburish")).expect("a link");
    folder
}

fn said(folder: &Folder, command: &str) -> String {
    let tools = Path::new(TOOL).parent().expect("a folder").display().to_string();
    let path = format!("{tools}:{}", std::env::var("PATH").unwrap_or_default());
    let mut bash = Command::new("bash");
    bash.args(["-c", &format!("exec 2>&1\n{command}")]).current_dir(&folder.0).env("PATH", path);
    String::from_utf8(output_of(&mut bash, &[]).stdout).expect("text")
}

/// Runs every `console` block of a page, which has at least so many commands.
fn runs(name: &str, least: usize) {
    let folder = folder();
    let mut count = 0;
    for block in blocks(&page(name), "console") {
        for (command, text) in steps(&block) {
            assert_eq!(said(&folder, &command), text, "$ {command}");
            count += 1;
        }
    }
    assert!(count >= least, "{name}: {count} commands");
}

#[test]
fn what_the_host_page_shows_happens() {
    runs("docs/HOST.md", 15);
}

#[test]
fn what_the_first_page_shows_happens() {
    runs("README.md", 3);
}

#[test]
fn the_c_program_of_the_pages_is_the_example() {
    let minimal = page("examples/c/minimal.c");
    for name in ["README.md", "docs/HOST.md"] {
        // The C of the recipes is held by examples/c/check.
        assert_eq!(blocks(&page(name), "c").first(), Some(&minimal), "{name}");
    }
}

/// The text and the replies that README.md shows are those of its second command.
#[test]
fn the_batch_of_the_first_page() {
    let readme = page("README.md");
    let shown = &blocks(&readme, "text")[0];
    let (text, replies) = shown.split_once("\n\n").expect("the batch, then the replies");
    let folder = folder();
    fs::write(folder.path("pages.txt"), page("examples/pages.txt")).expect("written");
    assert_eq!(said(&folder, "xabatch encode pages.txt | xabatch decode"), format!("{text}\n"));
    // That the last load is not done is said on standard error.
    let run = "xabatch encode pages.txt | target/bin/tamburish | xabatch decode 2> /dev/null";
    assert_eq!(said(&folder, run), replies);
    assert!(readme.contains("bash scripts/try"));
}

/// A number as the pages write it: 1,000.
fn grouped(number: usize) -> String {
    let digits = number.to_string();
    let from_end = |at: usize| digits.len() - at;
    let comma = |at: usize| if at > 0 && from_end(at).is_multiple_of(3) { "," } else { "" };
    (0..).zip(digits.chars()).map(|(at, digit)| format!("{}{digit}", comma(at))).collect()
}

/// Pages cannot take a number from the code, so they are held to it here.
#[test]
fn the_pages_name_the_limits() {
    let (nodes, bytes) = (grouped(MOST_NODES), grouped(MOST_BATCH_BYTES));
    let words = format!("{ANCHOR_WORDS} + {NODE_WORDS} N words");
    let (man, host) = (page("xabatch/xabatch.1"), page("docs/HOST.md"));
    let help = |command| String::from_utf8(tool(&["help", command], &[]).1).expect("text");
    let named = [
        (man.clone(), format!("an empty pool of 1 to {nodes} nodes")),
        (man.clone(), format!("at most {bytes} bytes")),
        (man, words.clone()),
        (help("new"), format!("an empty pool of 1 to {nodes} nodes")),
        (help("encode"), format!("at most {bytes} bytes")),
        (help("run"), format!("longer than a batch ({bytes} bytes)")),
        (host.clone(), format!("lend {words}, N from 1 to {nodes}")),
        (host.clone(), format!("{bytes}: the batch is too long")),
        (host, format!("It takes {} bytes", grouped(PROGRAM_BATCH_BYTES))),
        (page("README.md"), format!("a batch of at most {} bytes", grouped(PROGRAM_BATCH_BYTES))),
    ];
    for (page, text) in named {
        assert!(page.contains(&text), "{text}");
    }
}
