//! The tool as a process, and folders to try it in.

#![allow(dead_code)] // each test file uses its part

use std::fs;
use std::io::Write;
use std::path::{Path, PathBuf};
use std::process::{Command, Output, Stdio};
use std::sync::atomic::{AtomicU32, Ordering};

pub const TOOL: &str = env!("CARGO_BIN_EXE_xabatch");

/// Starts a command with this input and gives what it wrote and its status.
pub fn output_of(command: &mut Command, input: &[u8]) -> Output {
    let mut process = command
        .stdin(Stdio::piped())
        .stdout(Stdio::piped())
        .stderr(Stdio::piped())
        .spawn()
        .expect("the command starts");
    // A tool that ends early, as with bad usage, does not read.
    let _ = process.stdin.take().expect("a pipe").write_all(input);
    process.wait_with_output().expect("the command ends")
}

/// Status, standard output and standard error of the tool.
pub fn tool(arguments: &[&str], input: &[u8]) -> (i32, Vec<u8>, String) {
    let output = output_of(Command::new(TOOL).args(arguments), input);
    let errors = String::from_utf8_lossy(&output.stderr).into_owned();
    (output.status.code().expect("no signal"), output.stdout, errors)
}

/// The same by a line of bash, in which `$X` is the tool.
pub fn bash(line: &str, input: &[u8]) -> (i32, Vec<u8>, String) {
    let output = output_of(Command::new("bash").args(["-c", line]).env("X", TOOL), input);
    let errors = String::from_utf8_lossy(&output.stderr).into_owned();
    // -1: a signal ended it.
    (output.status.code().unwrap_or(-1), output.stdout, errors)
}

/// A batch by its text.
pub fn batch(text: &str) -> Vec<u8> {
    let (status, batch, errors) = tool(&["encode", "--long"], text.as_bytes());
    assert_eq!(status, 0, "{errors}");
    batch
}

/// A folder that is removed at the end.
pub struct Folder(pub PathBuf);

impl Folder {
    pub fn new() -> Folder {
        static NEXT: AtomicU32 = AtomicU32::new(0);
        let number = NEXT.fetch_add(1, Ordering::Relaxed);
        let name = format!("xabatch-test-{}-{number}", std::process::id());
        let folder = std::env::temp_dir().join(name);
        fs::create_dir(&folder).expect("a new folder");
        Folder(folder)
    }

    pub fn path(&self, name: &str) -> PathBuf {
        self.0.join(name)
    }

    /// The path as an argument.
    pub fn name(&self, name: &str) -> String {
        self.path(name).to_str().expect("a plain name").into()
    }

    /// A new pool file of so many nodes; gives its path.
    pub fn pool(&self, nodes: usize) -> PathBuf {
        let path = self.path("p.pool");
        let bytes = tool(&["new", &nodes.to_string()], &[]).1;
        fs::write(&path, bytes).expect("written");
        path
    }

    /// The names of all that is in it, in order.
    pub fn names(&self) -> Vec<String> {
        let items = fs::read_dir(&self.0).expect("a folder");
        let name = |item: std::io::Result<fs::DirEntry>| {
            item.expect("an item").file_name().to_string_lossy().into_owned()
        };
        let mut names: Vec<String> = items.map(name).collect();
        names.sort();
        names
    }
}

impl Drop for Folder {
    fn drop(&mut self) {
        let _ = fs::remove_dir_all(&self.0);
    }
}

/// What a run of these commands replies, as text; it must succeed.
pub fn run(pool: &Path, text: &str) -> String {
    let pool = pool.to_str().expect("a plain name");
    let (status, replies, errors) = tool(&["run", pool], &batch(text));
    assert_eq!(status, 0, "{errors}");
    String::from_utf8(tool(&["decode"], &replies).1).expect("text")
}
