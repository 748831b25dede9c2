//! `xabatch run` loses nothing, however many run at once, and says what it did. (faults.rs has what
//! fails and what is killed.)

mod tool;

use std::ffi::CStr;
use std::fs::{self, File, Permissions};
use std::io::{Read, Write};
use std::os::unix::fs::{chown, symlink, MetadataExt, PermissionsExt};
use std::os::unix::process::CommandExt;
use std::path::Path;
use std::process::{Command, Stdio};
use tool::{bash, batch, run, tool, Folder, TOOL};
use xabatch::system::{attribute, attribute_names, set_attribute};

fn with(text: &str) -> String {
    format!("{text}\n")
}

#[test]
fn a_size_limit_leaves_the_old_pool() {
    let folder = Folder::new();
    let pool = folder.pool(40);
    run(&pool, &with("store 7 order 0 value 1"));
    let before = fs::read(&pool).expect("a pool");
    let line = format!("ulimit -f 4; \"$X\" run {}", pool.display());
    let (status, replies, errors) = bash(&line, &batch(&with("store 64 order 0 value 2")));
    assert_eq!(fs::read(&pool).expect("a pool").len(), before.len(), "a stump is left");
    assert!(fs::read(&pool).expect("a pool") == before, "the pool is another");
    assert_eq!((status, replies.len()), (1, 0), "{errors}");
    assert!(errors.contains("p.pool: File too large"), "{errors}");
    assert!(errors.contains("the file is as it was"), "{errors}");
    assert_eq!(folder.names(), ["p.pool"], "something is left over");
}

#[test]
fn sixteen_at_once_and_every_done_is_in_the_pool() {
    for _ in 0..5 {
        sixteen_at_once();
    }
}

fn sixteen_at_once() {
    let folder = Folder::new();
    let pool = folder.pool(40);
    let file = |number: u64| folder.path(&format!("{number}.batch"));
    for number in 1..=16 {
        let text = format!("store {} order 0 value {number}\n", 64 * number);
        fs::write(file(number), batch(&text)).expect("written");
    }
    let start = |number: u64| {
        let mut command = Command::new(TOOL);
        command.arg("run").arg(&pool).arg(file(number)).stdout(Stdio::piped());
        command.spawn().expect("the tool starts")
    };
    let processes: Vec<_> = (1..=16).map(|number| (number, start(number))).collect();
    let mut done = Vec::new();
    for (number, process) in processes {
        let output = process.wait_with_output().expect("the tool ends");
        let said = String::from_utf8(tool(&["decode"], &output.stdout).1).expect("text");
        if said.starts_with("store: done") {
            done.push(number);
        }
    }
    let loads: String = (1..=16).map(|number| format!("load {}\n", 64 * number)).collect();
    let there = run(&pool, &loads);
    let is_lost = |number: &&u64| !there.contains(&format!(" value {number} "));
    let lost: Vec<&u64> = done.iter().filter(is_lost).collect();
    assert!(lost.is_empty(), "{} were done, but these are lost: {lost:?}", done.len());
    assert_eq!(done.len(), 16, "each waits for its turn");
}

#[test]
fn a_pool_file_has_a_name() {
    let folder = Folder::new();
    fs::write(folder.path("batch"), batch(&with("store 5 order 0 value 9"))).expect("written");
    let line = format!("cd {} && \"$X\" new 3 | \"$X\" run - batch", folder.0.display());
    let (status, replies, errors) = bash(&line, &[]);
    assert_eq!(folder.names(), ["batch"], "a file named -");
    assert_eq!((status, replies.len()), (2, 0), "{errors}");
    assert!(errors.contains("must have a name"), "{errors}");
}

#[test]
fn mode_owner_and_links_stay() {
    let folder = Folder::new();
    let pool = folder.pool(2);
    fs::set_permissions(&pool, Permissions::from_mode(0o640)).expect("a mode");
    // Only root may give a file away; the gate is root.
    let given = chown(&pool, Some(65_534), Some(65_534)).is_ok();
    symlink("p.pool", folder.path("link")).expect("a link");
    fs::create_dir(folder.path("sub")).expect("a folder");
    symlink("../link", folder.path("sub/far")).expect("a link");
    assert!(run(&folder.path("sub/far"), &with("store 5 order 0 value 9")).contains("done"));
    let data = fs::metadata(&pool).expect("a pool");
    assert_eq!(data.mode() & 0o7777, 0o640);
    assert!(!given || (data.uid(), data.gid()) == (65_534, 65_534));
    assert_eq!(fs::read_link(folder.path("link")).expect("a link"), Path::new("p.pool"));
    assert_eq!(folder.names(), ["link", "p.pool", "sub"]);
    assert!(run(&pool, &with("load 5")).contains("value 9 "));
}

/// Who may not write the file, or not keep its owner, changes nothing; loads and finds run all the
/// same. Only root can try this, by becoming somebody else; the gate is root.
#[test]
fn who_may_not_write_changes_nothing() {
    let folder = Folder::new();
    let pool = folder.pool(2);
    if fs::metadata("/proc/self").expect("this process").uid() != 0 {
        return;
    }
    // By another process: a file that a fork of this one has open for writing cannot be started.
    assert_eq!(bash(&format!("cp \"$X\" {}", folder.0.display()), &[]).0, 0);
    let nobody = |text: &str| {
        let mut command = Command::new(folder.path("xabatch"));
        command.arg("run").arg(&pool).uid(65_534).gid(65_534);
        let output = tool::output_of(&mut command, &batch(text));
        (output.status.code(), String::from_utf8_lossy(&output.stderr).into_owned())
    };
    let modes = |folder_mode, file_mode| {
        fs::set_permissions(&folder.0, Permissions::from_mode(folder_mode)).expect("a mode");
        fs::set_permissions(&pool, Permissions::from_mode(file_mode)).expect("a mode");
    };
    let before = fs::read(&pool).expect("a pool");
    let cases = [
        (0o777, 0o444, "Permission denied"),
        (0o755, 0o666, "Permission denied"),
        (0o777, 0o666, "its owner cannot be kept"),
    ];
    for (folder_mode, file_mode, message) in cases {
        modes(folder_mode, file_mode);
        let (status, errors) = nobody("store 5 order 0 value 9\n");
        assert_eq!((status, errors.contains(message)), (Some(1), true), "{errors}");
        assert!(errors.contains("the file is as it was"), "{errors}");
        assert_eq!(nobody("find 5..5 any budget 9\n"), (Some(0), String::new()));
        assert!(fs::read(&pool).expect("a pool") == before);
        assert_eq!(folder.names(), ["p.pool", "xabatch"]);
    }
    // A folder that may not be read cannot be flushed, and what is not flushed is not acknowledged.
    modes(0o711, 0o666);
    let (status, errors) = nobody("find 5..5 any budget 9\n");
    assert_eq!(
        (status, errors.contains("flush to disk: Permission denied")),
        (Some(3), true),
        "{errors}"
    );
}

#[test]
fn a_run_that_changes_nothing_writes_nothing() {
    let folder = Folder::new();
    let pool = folder.pool(2);
    let before = fs::metadata(&pool).expect("a pool").ino();
    run(&pool, "load 5\nstore 1 order 64 value 1\nfind 0..max any budget 9\n");
    assert_eq!(fs::metadata(&pool).expect("a pool").ino(), before);
}

#[test]
fn what_is_locked_is_waited_for_or_refused() {
    let folder = Folder::new();
    let pool = folder.pool(2);
    let lock = File::open(&pool).expect("a pool");
    lock.lock().expect("the lock");
    let name = folder.name("p.pool");
    let store = batch(&with("store 5 order 0 value 9"));
    let (status, _, errors) = tool(&["run", "--no-wait", &name], &store);
    assert_eq!((status, errors.contains("p.pool: another run has it locked")), (1, true));
    let waiting = std::thread::spawn(move || tool(&["run", &name], &store).0);
    std::thread::sleep(std::time::Duration::from_millis(100));
    assert!(!waiting.is_finished(), "it does not wait");
    // Another pool takes its place while it waits: that one counts.
    let other = folder.path("other");
    fs::write(&other, tool(&["new", "3"], &[]).1).expect("written");
    run(&other, &with("store 6 order 0 value 8"));
    fs::rename(&other, &pool).expect("renamed");
    drop(lock);
    assert_eq!(waiting.join().expect("it ends"), 0);
    let said = run(&pool, "load 5\nload 6\n");
    assert!(said.contains("value 9 ") && said.contains("value 8 "), "{said}");
}

/// Who waits for its replies to be read holds up nobody.
#[test]
fn the_lock_is_free_while_replies_are_written() {
    let folder = Folder::new();
    let pool = folder.pool(100);
    for text in ["load 1\n".repeat(6000), "store 1 order 0 value 1\n".repeat(6000)] {
        let mut command = Command::new(TOOL);
        command.arg("run").arg(&pool).stdin(Stdio::piped()).stdout(Stdio::piped());
        let mut slow = command.stderr(Stdio::null()).spawn().expect("the tool starts");
        slow.stdin.take().expect("a pipe").write_all(&batch(&text)).expect("it reads");
        // More replies than a pipe holds: once the first is there, the rest waits for us.
        let mut output = slow.stdout.take().expect("a pipe");
        output.read_exact(&mut [0; 24]).expect("a reply");
        let other = tool(&["run", "--no-wait", &folder.name("p.pool")], &batch("load 1\n"));
        assert_eq!(other.0, 0, "{}", other.2);
        output.read_to_end(&mut Vec::new()).expect("the others");
        assert_eq!(slow.wait().expect("it ends").code(), Some(0));
    }
}

#[test]
fn what_is_no_file_is_refused() {
    let folder = Folder::new();
    let (status, _, errors) = tool(&["run", &folder.name("")], &[]);
    assert_eq!((status, errors.contains("not a regular file")), (1, true), "{errors}");
    let (status, _, errors) = tool(&["run", &folder.name("none")], &[]);
    assert_eq!((status, errors.contains("none: No such file")), (1, true), "{errors}");
    assert_eq!(folder.names().len(), 0);
}

#[test]
fn replies_that_cannot_be_written_fail() {
    let folder = Folder::new();
    let pool = folder.pool(2);
    let go = |rest: &str, text: &str| {
        bash(&format!("\"$X\" run {} {rest}", pool.display()), &batch(text))
    };
    let (status, _, errors) = go("> /dev/full", "store 5 order 0 value 9\n");
    assert_eq!(status, 1);
    assert!(errors.contains("standard output: No space left"), "{errors}");
    assert!(errors.contains("the pool is safe, but its 1 replies are lost"), "{errors}");
    assert!(run(&pool, &with("load 5")).contains("value 9 "));
    // What was closed from the start is told before anything is changed.
    let (status, _, errors) = go(">&-", "erase 5\n");
    assert_eq!((status, errors.contains("standard output: it is closed")), (1, true), "{errors}");
    assert!(run(&pool, &with("load 5")).contains("value 9 "));
    let (status, _, errors) = go("<&-", "erase 5\n");
    assert_eq!((status, errors.contains("<stdin>: it is closed")), (1, true), "{errors}");
    assert!(run(&pool, &with("load 5")).contains("value 9 "));
}

#[test]
fn replies_that_nobody_reads_fail() {
    let folder = Folder::new();
    let pool = folder.pool(2);
    let mut command = Command::new(TOOL);
    command.arg("run").arg(&pool).stdin(Stdio::piped()).stdout(Stdio::piped());
    let mut process = command.stderr(Stdio::null()).spawn().expect("the tool starts");
    drop(process.stdout.take());
    let mut input = process.stdin.take().expect("a pipe");
    input.write_all(&batch(&with("store 5 order 0 value 9"))).expect("it reads");
    drop(input);
    assert_eq!(process.wait().expect("it ends").code(), Some(1));
    assert!(run(&pool, &with("load 5")).contains("value 9 "));
}

#[test]
fn a_long_row_of_records_is_split() {
    let folder = Folder::new();
    let pool = folder.pool(400);
    let text: String = (0..5000).map(|i| format!("store {i} order 0 value {i}\n")).collect();
    let said = run(&pool, &text);
    assert_eq!(said.lines().filter(|line| line.starts_with("store: done")).count(), 5000);
    assert!(run(&pool, &with("load 4999")).contains("value 4999 "));
    // All or none: the last record is bad.
    let before = fs::read(&pool).expect("a pool");
    let mut row = batch(&text.replace("value", "handle 4 # "));
    row.push(9);
    let (status, replies, errors) = tool(&["run", &folder.name("p.pool")], &row);
    assert_eq!((status, replies.len()), (1, 0));
    assert!(errors.contains("<stdin>: ") && errors.contains("byte 100000"), "{errors}");
    assert!(fs::read(&pool).expect("a pool") == before);
}

#[test]
fn the_file_at_fault_is_named() {
    let folder = Folder::new();
    let pool = folder.pool(2);
    let file = folder.path("bad.batch");
    fs::write(&file, [9, 0, 0]).expect("written");
    let (status, _, errors) =
        tool(&["run", &folder.name("p.pool"), &folder.name("bad.batch")], &[]);
    assert_eq!(status, 1);
    assert!(errors.contains("bad.batch: ") && !errors.contains("p.pool"), "{errors}");
    let mut bytes = fs::read(&pool).expect("a pool");
    bytes[24] = 1;
    fs::write(&pool, bytes).expect("written");
    let (_, _, errors) = tool(&["run", &folder.name("p.pool"), &folder.name("bad.batch")], &[]);
    assert!(errors.contains("p.pool: pool is not well-formed"), "{errors}");
}

/// An access control list: a version, and then the tag, rights and number of each line.
fn access(lines: &[(u16, u16, u32)]) -> Vec<u8> {
    let mut bytes = 2u32.to_le_bytes().to_vec();
    for (tag, rights, number) in lines {
        bytes.extend(tag.to_le_bytes());
        bytes.extend(rights.to_le_bytes());
        bytes.extend(number.to_le_bytes());
    }
    bytes
}

const ACCESS: &CStr = c"system.posix_acl_access";
const DEFAULT: &CStr = c"system.posix_acl_default";

/// Owner rw, user 65534 r, group -, mask r, others -.
fn access_of_another() -> Vec<u8> {
    let none = u32::MAX;
    access(&[(1, 6, none), (2, 4, 65_534), (4, 0, none), (16, 4, none), (32, 0, none)])
}

#[test]
fn attributes_and_access_lists_stay() {
    let folder = Folder::new();
    let pool = folder.pool(2);
    let open = || File::open(&pool).expect("a pool");
    let with = "a file system with attributes";
    set_attribute(&open(), c"user.note", b"kept").expect(with);
    set_attribute(&open(), c"user.empty", b"").expect(with);
    set_attribute(&open(), c"user.long", &[7; 3000]).expect(with);
    set_attribute(&open(), ACCESS, &access_of_another()).expect(with);
    let before = attribute_names(&open()).expect("names");
    let mode = fs::metadata(&pool).expect("a pool").mode();
    assert!(run(&pool, &self::with("store 5 order 0 value 9")).contains("done"));
    assert_eq!(attribute_names(&open()).expect("names"), before);
    let value = |name: &CStr| attribute(&open(), name).expect("a value").expect("it is there");
    assert_eq!((value(c"user.note"), value(c"user.empty")), (b"kept".to_vec(), Vec::new()));
    assert_eq!(value(c"user.long"), [7; 3000]);
    assert_eq!(value(ACCESS), access_of_another());
    assert_eq!(fs::metadata(&pool).expect("a pool").mode(), mode);
}

/// What a folder hands down to new files is no right to a pool that did not have it.
#[test]
fn no_access_list_is_added() {
    let folder = Folder::new();
    let pool = folder.pool(2);
    let parent = File::open(&folder.0).expect("a folder");
    set_attribute(&parent, DEFAULT, &access_of_another()).expect("a file system with attributes");
    assert!(run(&pool, &with("store 5 order 0 value 9")).contains("done"));
    let pool = File::open(&pool).expect("a pool");
    assert_eq!(attribute(&pool, ACCESS).expect("a value"), None);
}

/// Sixteen make the pool at once: one has made it, and the others say so.
#[test]
fn one_of_many_makes_the_pool() {
    let folder = Folder::new();
    let start = |_| {
        let mut command = Command::new(TOOL);
        command.args(["new", "3", "p.pool"]).current_dir(&folder.0).stderr(Stdio::null());
        command.spawn().expect("the tool starts")
    };
    let processes: Vec<_> = (0..16).map(start).collect();
    let status = |mut process: std::process::Child| process.wait().expect("it ends").code();
    let made: Vec<_> = processes.into_iter().map(status).collect();
    assert_eq!(made.iter().filter(|status| **status == Some(0)).count(), 1, "{made:?}");
    assert!(made.iter().all(|status| [Some(0), Some(1)].contains(status)), "{made:?}");
    assert!(run(&folder.path("p.pool"), &with("store 5 order 0 value 9")).contains("done"));
    assert_eq!(folder.names(), ["p.pool"]);
}

/// What another process is writing is locked, and stays.
#[test]
fn new_removes_what_is_left_over_and_no_more() {
    let folder = Folder::new();
    let names =
        [".p.pool.xabatch-1", ".p.pool.xabatch-2", ".p.pool.xabatch-x", ".q.pool.xabatch-1"];
    let files = names.map(|name| File::create(folder.path(name)).expect("a file"));
    files[1].lock().expect("the lock");
    assert_eq!(tool(&["new", "3", &folder.name("p.pool")], &[]).0, 0);
    assert_eq!(folder.names(), [names[1], names[2], names[3], "p.pool"]);
}

/// As any new file: what the mask lets through.
#[test]
fn a_new_pool_has_the_mode_of_the_mask() {
    let folder = Folder::new();
    let line = format!("cd {}; umask 027; \"$X\" new 3 p.pool", folder.0.display());
    assert_eq!(bash(&line, &[]).0, 0);
    let mode = fs::metadata(folder.path("p.pool")).expect("a pool").mode();
    assert_eq!(mode & 0o7777, 0o640);
}

#[test]
fn help_is_given_after_a_command() {
    let help = tool(&["help", "run"], &[]);
    assert_eq!((help.0, help.1.starts_with(b"usage: xabatch run")), (0, true));
    assert_eq!(tool(&["run", "-h"], &[]), help);
    assert_eq!(tool(&["run", "p.pool", "--help"], &[]), help);
    // After -- it is a file.
    assert_eq!(tool(&["run", "--", "-h"], &[]).0, 1);
}
