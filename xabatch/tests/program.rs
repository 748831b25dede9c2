//! The program tamburish exits with 0 whatever happened: what it wrote tells, and `decode --batch`
//! reads it. TAMBURISH_BIN names another program than ../target/bin/tamburish.

mod tool;

use std::fs;
use tool::{batch, output_of, tool, Folder, TOOL};

/// A line of bash in a folder, in which `$T` is the program and `$X` the tool.
fn bash(folder: &Folder, line: &str) -> (i32, String) {
    let default = concat!(env!("CARGO_MANIFEST_DIR"), "/../target/bin/tamburish").to_owned();
    let program = std::env::var("TAMBURISH_BIN").unwrap_or(default);
    assert!(fs::exists(&program).is_ok_and(|is| is), "{program}: run 'scripts/program'");
    let mut command = std::process::Command::new("bash");
    command.args(["-c", line]).current_dir(&folder.0).env("T", program).env("X", TOOL);
    let output = output_of(&mut command, &[]);
    (output.status.code().unwrap_or(-1), String::from_utf8_lossy(&output.stderr).into_owned())
}

fn folder_with(text: &str) -> Folder {
    let folder = Folder::new();
    fs::write(folder.path("batch"), batch(text)).expect("written");
    folder
}

fn replies(folder: &Folder) -> usize {
    fs::read(folder.path("replies")).expect("a file").len()
}

#[test]
fn a_whole_run_has_24_bytes_a_command() {
    let folder = folder_with("store 64 order 0 value 2\nload 64\nload 65\n");
    assert_eq!(bash(&folder, "$T < batch > replies").0, 0);
    assert_eq!(replies(&folder), 3 * 24);
    // The load of 65 is answered with 10.
    let (status, errors) = bash(&folder, "$X decode --batch batch replies > text");
    let not_done = "1 of 3 commands were not done: 1 no entry covers the index";
    assert_eq!((status, errors), (0, format!("xabatch: replies: {not_done}\n")));
}

#[test]
fn a_refused_call_has_6_bytes_that_begin_with_ff() {
    let folder = folder_with("load 1\n");
    fs::write(folder.path("batch"), [9, 0, 0]).expect("written");
    assert_eq!(bash(&folder, "$T < batch > replies").0, 0);
    assert_eq!(fs::read(folder.path("replies")).expect("a file"), [255, 0, 3, 3, 0, 0]);
    assert_eq!(bash(&folder, "$X decode replies > text").0, 1);
}

/// 745 loads are 8,195 bytes: a batch, but not one for the program.
#[test]
fn the_program_takes_fewer_bytes_than_a_pool() {
    let folder = folder_with(&"load 1\n".repeat(745));
    assert_eq!(bash(&folder, "$X new 1 pool; $X run pool batch > replies").0, 0);
    assert_eq!(replies(&folder), 745 * 24);
    assert_eq!(bash(&folder, "$T < batch > replies").0, 0);
    assert_eq!(fs::read(folder.path("replies")).expect("a file"), [255, 0, 3, 3, 0x20, 0]);
    assert_eq!(bash(&folder, "$X decode --batch batch replies > text").0, 1);
}

#[test]
fn output_that_was_cut_has_less() {
    let folder = folder_with(&"load 1\n".repeat(744));
    // The file may grow to 3,072 bytes, which is 128 whole replies: by themselves they look fine.
    assert_eq!(bash(&folder, "trap '' XFSZ; ulimit -f 3; $T < batch > replies").0, 0);
    assert_eq!(replies(&folder), 128 * 24);
    let (status, errors) = bash(&folder, "$X decode --batch batch replies > text");
    assert_eq!(status, 1);
    assert!(errors.contains("replies: 128 replies to 744 commands: it was cut"), "{errors}");
    assert_eq!(bash(&folder, "$T < batch > /dev/full; echo $? > status").0, 0);
    assert_eq!(fs::read(folder.path("status")).expect("a file"), b"0\n");
    fs::write(folder.path("replies"), []).expect("written");
    assert_eq!(bash(&folder, "$X decode --batch batch replies").0, 1);
}

#[test]
fn replies_to_another_batch_are_told() {
    let folder = folder_with("load 1\nerase 1\n");
    assert_eq!(bash(&folder, "$T < batch > replies").0, 0);
    fs::write(folder.path("other"), batch("load 1\nload 1\n")).expect("written");
    let (status, errors) = bash(&folder, "$X decode --batch other replies > text");
    assert_eq!(status, 1);
    assert!(errors.contains("reply 2 is to erase, the command is load"), "{errors}");
    assert_eq!(tool(&["decode", "--batch", "-", "-"], &[]).0, 2);
}
