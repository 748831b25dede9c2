//! Completion in bash: what it offers is what there is.

mod tool;

use std::path::Path;
use std::process::Command;
use tool::{bash, output_of, tool, Folder, TOOL};

const SCRIPT: &str = concat!(env!("CARGO_MANIFEST_DIR"), "/xabatch.bash");

/// What is offered for the last of these words, in order.
fn offered(folder: &Folder, words: &[&str]) -> Vec<String> {
    let line = format!(
        "source {SCRIPT}; COMP_WORDS=(xabatch \"$@\"); COMP_CWORD=$#; _xabatch\n\
         [ ${{#COMPREPLY[@]}} -eq 0 ] || printf '%s\\n' \"${{COMPREPLY[@]}}\""
    );
    let tools = Path::new(TOOL).parent().expect("a folder").display().to_string();
    let mut command = Command::new("bash");
    command.args([&["-c", &line, "bash"], words].concat()).current_dir(&folder.0);
    command.env("PATH", format!("{tools}:{}", std::env::var("PATH").unwrap_or_default()));
    let output = output_of(&mut command, &[]);
    assert!(output.status.success(), "{}", String::from_utf8_lossy(&output.stderr));
    let text = String::from_utf8(output.stdout).expect("text");
    let mut names: Vec<String> = text.lines().map(str::to_owned).collect();
    names.sort();
    names
}

#[test]
fn commands_options_and_files_are_offered() {
    assert_eq!(bash(&format!("bash -n {SCRIPT}"), &[]), (0, Vec::new(), String::new()));
    let folder = Folder::new();
    for name in ["a.pool", "a b", "-c"] {
        std::fs::write(folder.path(name), []).expect("written");
    }
    let none: [&str; 0] = [];
    let cases: [(&[&str], &[&str]); 12] = [
        (&["run", "--p"], &["--plain"]),
        (&["new", "--"], &["--help", "--plain"]),
        (&["comp"], &["compare"]),
        (&["e"], &["encode", "evidence"]),
        (&["--v"], &["--version"]),
        (&["help", "sh"], &["show"]),
        (&["xyz"], &none),
        (&["decode", "--b"], &["--batch"]),
        (&["compare", "--"], &["--bytes", "--help", "--json"]),
        (&["show", "--f"], &["--findings"]),
        (&["show", "a"], &["a b", "a.pool"]),
        (&["compare", "a.pool", "a"], &["a b", "a.pool"]),
    ];
    for (words, names) in cases {
        assert_eq!(offered(&folder, words), names, "{words:?}");
    }
}

/// Every option that is offered is known, and every command.
#[test]
fn what_is_offered_is_known() {
    let folder = Folder::new();
    let all = offered(&folder, &[""]);
    let commands = [
        "encode", "decode", "show", "list", "find", "new", "run", "prepare", "apply", "crc",
        "compare", "evidence", "gate", "help",
    ];
    for command in commands {
        assert!(all.iter().any(|name| name == command), "{command}: {all:?}");
    }
    for command in all.iter().filter(|name| !name.starts_with('-') && *name != "help") {
        let options = offered(&folder, &[command, "-"]);
        assert!(options.iter().any(|option| option == "--help"), "{command}: {options:?}");
        for option in options {
            let errors = tool(&[command, &option], &[]).2;
            assert!(!errors.contains("no option"), "{command} {option}: {errors}");
        }
    }
}
