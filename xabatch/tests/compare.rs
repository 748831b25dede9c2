//! What `xabatch compare` must not call a match: one file under two names, a file that changes while it
//! is read, pools and lists of an index.

mod tool;

use std::fs::{self, File, OpenOptions};
use std::io::Write;
use std::os::fd::AsRawFd;
use std::path::Path;
use std::process::{Command, Stdio};
use tool::{bash, batch, tool, Folder, TOOL};

fn file(folder: &Folder, name: &str, bytes: &[u8]) -> String {
    fs::write(folder.path(name), bytes).expect("written");
    folder.name(name)
}

/// A line of bash in a folder with a file `old` of 8,192 bytes: its status, output and errors.
fn in_folder(line: &str) -> (i32, String, String) {
    let folder = Folder::new();
    file(&folder, "old", &[7; 8192]);
    let (status, out, errors) = bash(&format!("cd {} && {line}", folder.0.display()), &[]);
    (status, String::from_utf8(out).expect("text"), errors)
}

const ONE_FILE: &str = "nothing to compare: one file\n";

/// `compare OLD NEW && rm OLD` erases the only copy, if it says that they match.
#[test]
fn one_file_is_nothing_to_compare() {
    let cases = [
        "\"$X\" compare old old",
        "\"$X\" compare old ./old",
        "ln old new; \"$X\" compare old new",
        "ln old new; \"$X\" compare new old",
        "ln -s old new; \"$X\" compare old new",
        "ln -s old new; \"$X\" compare new old",
        "ln -s old one; ln -s one two; \"$X\" compare one two",
        "ln old one; ln -s one two; \"$X\" compare old two",
        "\"$X\" compare old - < old",
        "\"$X\" compare - old < old",
        "\"$X\" compare - old <> old",
        "\"$X\" compare old /dev/stdin < old",
        "\"$X\" compare old /dev/fd/3 3< old",
        "cat old | \"$X\" compare - /dev/stdin",
    ];
    for line in cases {
        assert_eq!(in_folder(line), (2, ONE_FILE.into(), String::new()), "{line}");
    }
    let erased = in_folder("ln old new; \"$X\" compare old new && rm old; ls");
    assert_eq!(erased.1, format!("{ONE_FILE}new\nold\n"));
    // A copy is another file.
    assert_eq!(in_folder("cp old new; \"$X\" compare old new").0, 0);
    assert_eq!(in_folder("cp old new; \"$X\" compare new - < old").0, 0);
    assert_eq!(in_folder("cat old | \"$X\" compare old -").0, 0);
}

/// A device may have several files; here it is the one that everybody may open.
#[test]
fn a_device_under_two_names_is_one_file() {
    let made = in_folder("mknod null c 1 3 && : < null");
    if made.0 != 0 {
        eprintln!("no device can be made here: {}", made.2);
        return;
    }
    let line = "mknod null c 1 3 && \"$X\" compare null /dev/null";
    assert_eq!(in_folder(line), (2, ONE_FILE.into(), String::new()));
}

/// What a comparison says of `old` and a pipe with the same bytes, if this is done to `old` meanwhile.
/// The pipe can be written only once it is open for reading: by then the tool has looked at `old`, and
/// it is not done before the pipe ends.
fn compared_while(before: &str, change: &str) -> (i32, String, String) {
    in_folder(&format!(
        "cp old copy && mkfifo new && touch -d 2001-01-01 old && {before}\n\
         (exec 3> new; {change} > /dev/null 2>&1; cat copy >&3) &\n\
         \"$X\" compare old new; status=$?; wait; exit $status"
    ))
}

#[test]
fn a_file_that_is_not_the_same_afterwards_is_a_fault() {
    // The bytes, the length and the time of the last write are the same after each of these.
    let cases = [
        (":", "cp -p old other && mv other old"),
        (":", "mv old gone"),
        (":", "mv old gone && cp -p gone old"),
        (":", "printf '\\7' | dd of=old conv=notrunc && touch -d 2001-01-01 old"),
        (":", "printf x >> old && truncate -s 8192 old && touch -d 2001-01-01 old"),
        ("cp -p old b && mv old a && ln -s a old", "ln -sfn b old"),
    ];
    for (before, change) in cases {
        let (status, out, errors) = compared_while(before, change);
        assert_eq!((status, out.as_str()), (2, ""), "{change}");
        assert!(errors.contains("old: it changed while it was read"), "{change}: {errors}");
    }
}

#[test]
fn what_does_not_change_a_file_is_no_fault() {
    for (before, meanwhile) in [
        (":", ":"),
        (":", "cat old"),
        ("mkdir other && cp -p old other", "printf x >> other/old"),
        ("mv old a && ln -s a old", "cat a"),
    ] {
        let (status, _, errors) = compared_while(before, meanwhile);
        assert_eq!((status, errors.as_str()), (0, ""), "{meanwhile}");
    }
}

/// Whether a file system tells that a page was written through a mapping: one in memory does not.
fn tells_mappings(folder: &Path) -> bool {
    let kind = Command::new("stat").args(["-f", "-c", "%T"]).arg(folder).output();
    kind.is_ok_and(|kind| kind.status.success() && !kind.stdout.starts_with(b"tmpfs"))
}

/// A change that comes within the same tick of the kernel's clock as the one before has its time, so a file
/// is not read before its last change is older than a tick, 10 ms at most.
#[test]
fn a_file_just_written_is_left_alone_for_a_tick() {
    let folder = Folder::new();
    let old = file(&folder, "old", &[7; 64]);
    for attempt in 0..5 {
        let new = file(&folder, &format!("new{attempt}"), &[7; 64]);
        let written = fs::metadata(&new).and_then(|data| data.modified()).expect("a time");
        assert_eq!(tool(&["compare", &old, &new], &[]).0, 0);
        assert!(written.elapsed().expect("past").as_millis() > 10);
    }
}

extern "C" {
    fn mmap(at: usize, length: usize, may: i32, how: i32, file: i32, from: i64) -> *mut u8;
}

/// The first page of a file, shared, to be read and written. It stays until the process ends.
fn mapped(file: &File) -> *mut u8 {
    // SAFETY: a new mapping of an open file that has this page.
    let page = unsafe { mmap(0, 4096, 3, 1, file.as_raw_fd(), 0) };
    assert_ne!(page as isize, -1, "a mapping");
    page
}

/// The page was written before, too: it is then in memory as one that was, and a further write would be
/// told to nobody.
#[test]
fn a_write_through_a_mapping_is_a_fault() {
    let folder = Folder::new();
    if !tells_mappings(&folder.0) {
        eprintln!("a file system in memory: writes through mappings are not tried");
        return;
    }
    let (old, pipe) = (file(&folder, "old", &[7; 8192]), folder.name("new"));
    assert_eq!(bash(&format!("mkfifo {pipe}"), &[]).0, 0);
    let opened = OpenOptions::new().read(true).write(true).open(&old).expect("opened");
    let page = mapped(&opened);
    // SAFETY: the page is mapped, and this is the only thread that writes it.
    unsafe { page.write_volatile(7) };
    let mut command = Command::new(TOOL);
    command.args(["compare", &old, &pipe]).stdout(Stdio::piped()).stderr(Stdio::piped());
    let process = command.spawn().expect("it starts");
    let mut new = OpenOptions::new().write(true).open(&pipe).expect("opened for reading");
    // SAFETY: as above.
    unsafe { page.write_volatile(7) };
    new.write_all(&[7; 8192]).expect("read");
    drop(new);
    let output = process.wait_with_output().expect("it ends");
    let errors = String::from_utf8_lossy(&output.stderr);
    assert_eq!(output.status.code(), Some(2), "{errors}");
    assert!(errors.contains("old: it changed while it was read"), "{errors}");
}

/// It is stopped when it has read a piece of 1 GiB of zeros, and goes on when the file was replaced.
#[test]
fn a_digest_is_of_the_file_that_has_the_name() {
    let (status, out, errors) = in_folder(
        "truncate -s 1G large && cp --sparse=always large other\n\
         \"$X\" crc large & tool=$!\n\
         place() { find -L /proc/$tool/fd -samefile large 2> /dev/null | sed s:/fd/:/fdinfo/:; }\n\
         until grep -qs '^pos:.*[1-9]' /dev/null $(place); do kill -0 $tool || exit 9; done\n\
         kill -STOP $tool; mv other large; kill -CONT $tool; wait $tool",
    );
    assert_eq!((status, out.as_str()), (1, ""), "{errors}");
    assert!(errors.contains("large: it changed while it was read"), "{errors}");
}

/// The status and the last line of a comparison.
fn compared(arguments: &[&str]) -> (i32, String) {
    let (status, out, errors) = tool(&[&["compare"], arguments].concat(), &[]);
    assert_eq!(errors, "");
    let out = String::from_utf8(out).expect("text");
    assert_eq!(out.lines().count(), 3, "{out}");
    (status, out.lines().last().expect("a line").into())
}

/// A pool of three nodes in which these commands ran.
fn pool(folder: &Folder, name: &str, commands: &str) -> String {
    let path = folder.name(name);
    assert_eq!(tool(&["new", "3", &path], &[]).0, 0);
    assert_eq!(tool(&["run", &path], &batch(commands)).0, 0);
    path
}

#[test]
fn pools_and_lists_are_no_data() {
    let folder = Folder::new();
    let pools = ["one", "two"].map(|name| pool(&folder, name, ""));
    let held = pool(&folder, "held", "reserve 5\nreserve 64\n");
    let bytes = tool(&["list", "--bytes", &held], &[]).1;
    let lists = ["list one", "list two"].map(|name| file(&folder, name, &bytes));
    let cut = file(&folder, "cut", &bytes[..30]);
    let data = file(&folder, "data", &[7; 1712]);
    let (one, two, list) = (pools[0].as_str(), pools[1].as_str(), lists[0].as_str());
    let cases = [
        (one, two, "both are pools"),
        (one, held.as_str(), "both are pools"),
        (list, &lists[1], "both are lists"),
        (list, &cut, "both are lists"),
        (one, list, "old is a pool and new a list"),
        (list, one, "old is a list and new a pool"),
        (one, &data, "old is a pool"),
        (&data, one, "new is a pool"),
        (&data, list, "new is a list"),
    ];
    for (old, new, what) in cases {
        let line = format!(
            "nothing to compare: {what} of an index, not data; --bytes compares them as bytes"
        );
        assert_eq!(compared(&[old, new]), (2, line), "{old} {new}");
    }
    for (old, new) in [(one, two), (list, &lists[1])] {
        assert_eq!(compared(&["--bytes", old, new]), (0, "matched".into()));
        assert_eq!(compared(&[old, new, "--bytes"]).0, 0);
    }
    assert_eq!(compared(&["--bytes", one, &held]).0, 1);
    // An empty list is an empty file.
    let empty = ["empty", "nothing"].map(|name| file(&folder, name, &[]));
    for options in [&["--bytes"][..], &[]] {
        let arguments = [&[empty[0].as_str(), &empty[1]], options].concat();
        assert_eq!(compared(&arguments), (2, "nothing to compare: both are empty".into()));
    }
    // Through a pipe it is told as well.
    let line = format!("cat {one} | \"$X\" compare - {two}");
    assert_eq!(bash(&line, &[]).0, 2);
}

/// Bytes that only begin as a pool or a list do are data.
#[test]
fn what_only_looks_like_a_pool_or_a_list_is_data() {
    let folder = Folder::new();
    let empty = fs::read(pool(&folder, "pool", "")).expect("a pool");
    let list = [32, 0, 18, 0, 0, 0, 0, 0, 0, 0, 64, 0, 0, 0, 0, 0, 0, 0, 0, 0, 0];
    let mut damaged = empty.clone();
    damaged[24] = 1;
    let mut other = list.repeat(3);
    other[21] = 33;
    let longer = [&empty[..], &[0; 8]].concat();
    for bytes in [&damaged, &longer, &empty[..1704].to_vec(), &other, &list[..20].to_vec()] {
        let names = ["old", "new"].map(|name| file(&folder, name, bytes));
        assert_eq!(
            compared(&[&names[0], &names[1]]),
            (0, "matched".into()),
            "{} bytes",
            bytes.len()
        );
    }
}

/// Zeros that nobody wrote are zeros, by the rule; that is said.
#[test]
fn holes_alone_are_told() {
    let note = |name: &str| {
        format!("xabatch: {name}: no block of data, but holes alone, which read as zeros\n")
    };
    let (old, new) = (note("a"), note("b"));
    let cases = [
        ("truncate -s 1M a b", format!("{old}{new}")),
        ("truncate -s 1M a; head -c 1M /dev/zero > b", old),
        ("head -c 1M /dev/zero > a; truncate -s 1M b", new),
        ("head -c 1M /dev/zero > a; cp --sparse=never a b", String::new()),
        ("truncate -s 1M a b; printf x | tee -a a >> b", String::new()),
    ];
    for (how, notes) in cases {
        let (status, out, errors) = in_folder(&format!("{how}; \"$X\" compare a b"));
        assert_eq!((status, errors), (0, notes), "{how}");
        assert!(out.ends_with("\nmatched\n"), "{how}: {out}");
    }
    // They are no match with anything else, and nothing is said then.
    let different = in_folder("truncate -s 1M a; truncate -s 2M b; \"$X\" compare a b");
    assert_eq!((different.0, different.2.as_str()), (1, ""));
}

/// A digest that is there is written, and the status is what it is.
#[test]
fn standard_error_that_cannot_be_written_stops_nothing() {
    for to in ["2> /dev/full", "2>&-"] {
        let (status, out, _) = in_folder(&format!(": > empty; \"$X\" crc empty old {to}"));
        assert_eq!((status, out.lines().count()), (0, 2), "{to}: {out}");
        assert!(out.starts_with("00000000  empty\n"), "{out}");
        let (status, out, _) = in_folder(&format!("\"$X\" crc none old {to}"));
        assert_eq!((status, out.lines().count()), (1, 1), "{to}: {out}");
        let (status, out, _) = in_folder(&format!("truncate -s 9 a b; \"$X\" compare a b {to}"));
        assert_eq!((status, out.lines().count()), (0, 3), "{to}: {out}");
        let load = "echo load 1 | \"$X\" encode > b; \"$X\" new 1 p; \"$X\" run p b 2> /dev/null";
        let (status, out, _) = in_folder(&format!("{load} | \"$X\" decode {to}"));
        assert_eq!((status, out.lines().count()), (0, 1), "{to}: {out}");
    }
}
