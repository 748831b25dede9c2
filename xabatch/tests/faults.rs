//! `xabatch run`, `new`, `prepare` and `apply` with a fault at each of their system calls: what stands at
//! the path is the old pool or the new one, whole, and what was acknowledged is on disk.

mod tool;
mod trace;

use std::fs::{self, File, Permissions};
use std::os::unix::fs::{MetadataExt, PermissionsExt};
use std::path::Path;
use std::process::{Command, Stdio};
use tool::{batch, tool, Folder, TOOL};
use trace::{trace, Call, Fault, Trace};
use xabatch::system::set_attribute;

const READ: u64 = 0;
const WRITE: u64 = 1;
const FLOCK: u64 = 73;
const FSYNC: u64 = 74;
const RENAME: u64 = 82;
const FSETXATTR: u64 = 190;
const RENAMEAT2: u64 = 316;
const EIO: i64 = 5;
const EINVAL: i64 = 22;
const ENOSPC: i64 = 28;

/// What docs/HOST.md and the man page name as the status of a failed flush.
const NOT_FLUSHED: Option<i32> = Some(3);

fn key(path: &Path) -> (u64, u64) {
    let data = fs::metadata(path).expect("it is there");
    (data.dev(), data.ino())
}

fn is_made(call: &Call, number: u64) -> bool {
    call.number == number && call.result == Some(0)
}

/// Device and inode of what was flushed before this call, after the last write to it and, of what is
/// never written, which is the folder, after the last rename.
fn flushed_before(calls: &[Call], end: usize) -> Vec<(u64, u64)> {
    let calls = &calls[..end];
    let last = |is: &dyn Fn(&Call) -> bool| calls.iter().rposition(is).unwrap_or(0);
    let rename = last(&|call| is_made(call, RENAME) || is_made(call, RENAMEAT2));
    let is_late = |(at, call): &(usize, &Call)| {
        let is_use =
            |other: &Call| [WRITE, FLOCK].contains(&other.number) && other.file == call.file;
        let is_folder = !calls.iter().any(is_use);
        is_made(call, FSYNC) && *at > if is_folder { rename } else { last(&is_use) }
    };
    let flushed = calls.iter().enumerate().filter(is_late);
    flushed.filter_map(|(_, call)| call.file).collect()
}

/// One run in a folder, its batch in a file and its replies to a file.
struct Place(Folder);

impl Place {
    /// With a pool of these bytes that has an extended attribute.
    fn of(pool: &[u8], batch: &[u8]) -> Place {
        let place = Place(Folder::new());
        fs::write(place.0.path("p.pool"), pool).expect("written");
        fs::write(place.0.path("batch"), batch).expect("written");
        let file = File::open(place.0.path("p.pool")).expect("a pool");
        set_attribute(&file, c"user.note", b"kept").expect("a file system with attributes");
        place
    }

    fn run(&self, fault: Fault) -> Trace {
        self.run_with(&[], fault)
    }

    fn run_with(&self, options: &[&str], fault: Fault) -> Trace {
        let mut command = Command::new(TOOL);
        // Without an environment the loader makes fewer calls.
        command.env_clear().arg("run").args(options);
        command.arg(self.0.path("p.pool")).arg(self.0.path("batch"));
        command.stdin(Stdio::null());
        command.stderr(File::create(self.0.path("errors")).expect("a file"));
        command.stdout(File::create(self.0.path("replies")).expect("a file"));
        trace(&mut command, fault)
    }

    fn pool(&self) -> Vec<u8> {
        fs::read(self.0.path("p.pool")).expect("a pool is there")
    }

    fn replied(&self) -> usize {
        fs::read(self.0.path("replies")).expect("a file").len()
    }

    fn errors(&self) -> String {
        fs::read_to_string(self.0.path("errors")).expect("a file")
    }

    /// Whoever read a reply has a pool on disk.
    fn acknowledged_is_flushed(&self, trace: &Trace, what: &str) {
        let replies = Some(key(&self.0.path("replies")));
        let is_reply = |call: &Call| call.number == WRITE && call.file == replies;
        if self.replied() == 0 {
            return;
        }
        let write = trace.calls.iter().position(is_reply).expect("they were written");
        let flushed = flushed_before(&trace.calls, write);
        for file in [self.0.path("p.pool"), self.0 .0.clone()] {
            assert!(
                flushed.contains(&key(&file)),
                "{what}: replies, {} not flushed",
                file.display()
            );
        }
    }
}

/// The old pool, a batch that changes it, the pool after that, and a batch to go on with.
struct Job {
    /// Of each run.
    options: &'static [&'static str],
    old: Vec<u8>,
    new: Vec<u8>,
    batch: Vec<u8>,
    next: Vec<u8>,
}

impl Job {
    fn new() -> Job {
        Job::of(&[])
    }

    /// On a plain list.
    fn plain() -> Job {
        Job::of(&["--plain"])
    }

    fn of(options: &'static [&'static str]) -> Job {
        let folder = Folder::new();
        let (pool, name) = (folder.path("p.pool"), folder.name("p.pool"));
        assert_eq!(tool(&[&["new"], options, &["3", &name]].concat(), &[]).0, 0);
        let run = |batch: &[u8]| tool(&[&["run"], options, &[&name]].concat(), batch).0;
        assert_eq!(run(&batch("store 7 order 0 value 1\n")), 0);
        let old = fs::read(&pool).expect("a pool");
        let batch = batch("store 64 order 0 value 2\nload 7\n");
        assert_eq!(run(&batch), 0);
        let new = fs::read(&pool).expect("a pool");
        assert!(old != new);
        let next = tool::batch("store 9 order 0 value 3\nload 7\n");
        Job { options, old, new, batch, next }
    }

    /// Runs the batch with a fault, on the old pool or once more on the new one; gives the trace, and
    /// holds what is left to the promise.
    fn with_fault(&self, before: &[u8], fault: Fault) -> Trace {
        let place = Place::of(before, &self.batch);
        let trace = place.run_with(self.options, fault);
        self.hold(&place, before, &trace, &format!("{fault:?}"));
        trace
    }

    fn hold(&self, place: &Place, before: &[u8], trace: &Trace, what: &str) {
        let (left, replied) = (place.pool(), place.replied());
        assert!(left == before || left == self.new, "{what}: {} bytes", left.len());
        assert!(replied == 0 || left == self.new, "{what}: replies, but the old pool");
        if trace.status == Some(0) {
            assert!((replied, left == self.new) == (48, true), "{what}: status 0");
        }
        place.acknowledged_is_flushed(trace, what);
        self.goes_on(place, what);
    }

    /// What comes next works, and leaves nothing beside the pool.
    fn goes_on(&self, place: &Place, what: &str) {
        let name = place.0.name("p.pool");
        let words = [&["run"], self.options, &[&name]].concat();
        let (status, replies, errors) = tool(&words, &self.next);
        assert_eq!((status, replies.len()), (0, 48), "{what}: {errors}");
        // Byte 44 is the last of the loaded word, and value 1 the word 3.
        assert_eq!((replies[27], replies[44]), (0, 3), "{what}: the old entry is lost");
        assert_eq!(place.0.names(), ["batch", "errors", "p.pool", "replies"], "{what}");
        let pool = File::open(place.0.path("p.pool")).expect("a pool");
        let note = xabatch::system::attribute(&pool, c"user.note").expect("attributes");
        assert_eq!(note.as_deref(), Some(&b"kept"[..]), "{what}: an attribute is lost");
    }

    /// Each system call is the last, is followed by the end, or fails.
    fn at_each_call(&self, before: &[u8]) {
        let calls = self.with_fault(before, Fault::Never).calls;
        assert!(calls.len() > 20, "{}", calls.len());
        for (at, call) in calls.iter().enumerate() {
            assert_eq!(self.with_fault(before, Fault::KillBefore(at)).status, None, "call {at}");
            self.with_fault(before, Fault::KillAfter(at));
            self.with_fault(before, Fault::Fail(at, EIO));
            if [WRITE, FSYNC, RENAME, FSETXATTR].contains(&call.number) {
                self.with_fault(before, Fault::Fail(at, ENOSPC));
            }
        }
    }
}

fn position(trace: &Trace, number: u64, from: usize) -> usize {
    let found = trace.calls.iter().skip(from).position(|call| call.number == number);
    from + found.unwrap_or_else(|| panic!("no call {number} from {from}: {:?}", trace.calls))
}

fn places(trace: &Trace, number: u64) -> Vec<usize> {
    (0..trace.calls.len()).filter(|at| trace.calls[*at].number == number).collect()
}

#[test]
fn lock_read_flush_rename_flush_reply() {
    let job = Job::new();
    let trace = job.with_fault(&job.old, Fault::Never);
    let mut at = position(&trace, FLOCK, 0);
    for call in [READ, WRITE, FSETXATTR, FSYNC, RENAME, FSYNC] {
        at = position(&trace, call, at + 1);
    }
    // The replies are the last thing that is written, and to standard output or a copy of it.
    let last = trace.calls.iter().rposition(|call| call.number == WRITE).expect("a write");
    assert!(last > at, "replies before the pool is safe: {:?}", trace.calls);
    let writes = trace.calls.iter().skip(at).filter(|call| call.number == WRITE).count();
    assert_eq!(writes, 1, "{:?}", trace.calls);
}

#[test]
fn a_fault_at_each_system_call() {
    let job = Job::new();
    job.at_each_call(&job.old);
}

/// The list is replaced as a pool is.
#[test]
fn a_fault_at_each_system_call_on_a_plain_list() {
    let job = Job::plain();
    job.at_each_call(&job.old);
}

/// The same batch again, where the first run put the new pool in place and ended before its flush.
#[test]
fn a_fault_at_each_system_call_of_a_second_run() {
    let job = Job::new();
    job.at_each_call(&job.new);
}

/// However the first run ended, the second one acknowledges what is on disk.
#[test]
fn a_second_run_after_each_fault() {
    let job = Job::new();
    let calls = job.with_fault(&job.old, Fault::Never).calls.len();
    let faults = (0..calls).flat_map(|at| [Fault::KillAfter(at), Fault::Fail(at, EIO)]);
    let mut unchanged = 0;
    for fault in faults {
        let place = Place::of(&job.old, &job.batch);
        place.run(fault);
        let left = place.pool();
        unchanged += usize::from(left == job.new);
        let second = place.run(Fault::Never);
        assert_eq!((second.status, place.replied()), (Some(0), 48), "{fault:?}");
        job.hold(&place, &left, &second, &format!("second after {fault:?}"));
    }
    assert!(unchanged > 4, "{unchanged} of the second runs had nothing to change");
}

#[test]
fn a_run_that_only_reads_flushes_too() {
    let job = Job::new();
    for mode in [0o644, 0o444] {
        let place = Place::of(&job.new, &batch("load 7\nfind 0..max any budget 9\n"));
        let pool = place.0.path("p.pool");
        fs::set_permissions(&pool, Permissions::from_mode(mode)).expect("a mode");
        let (before, trace) = (key(&pool), place.run(Fault::Never));
        assert_eq!((trace.status, place.replied(), key(&pool)), (Some(0), 48, before));
        place.acknowledged_is_flushed(&trace, "loads");
    }
}

/// A `done` would be of nothing that is kept.
#[test]
fn a_strict_run_that_keeps_nothing_acknowledges_nothing() {
    let job = Job::new();
    let place = Place::of(&job.old, &batch("store 64 order 0 value 2\nload 8\n"));
    let trace = place.run_with(&["--strict"], Fault::Never);
    assert_eq!((trace.status, place.replied(), place.pool() == job.old), (Some(4), 0, true));
}

/// It has a status of its own, is said, and no reply is written; what stands is said as well.
#[test]
fn a_flush_that_fails() {
    let job = Job::new();
    let said = [
        (&job.old, 0, "the file is as it was"),
        (&job.old, 1, "the file is replaced, but a power cut may undo that"),
        (&job.new, 0, "the file is as it was, but a power cut may take what was stored before"),
        (&job.new, 1, "the file is as it was, but a power cut may take what was stored before"),
    ];
    for (before, which, message) in said {
        let flushes = places(&job.with_fault(before, Fault::Never), FSYNC);
        assert_eq!(flushes.len(), 2, "the file and the folder");
        let place = Place::of(before, &job.batch);
        let trace = place.run(Fault::Fail(flushes[which], EIO));
        assert_eq!((trace.status, place.replied()), (NOT_FLUSHED, 0), "{message}");
        let line = format!("p.pool: flush to disk: Input/output error (os error 5); {message}\n");
        assert!(place.errors().ends_with(&line), "{}", place.errors());
    }
}

fn new_with_fault(folder: &Folder, fault: Fault) -> Trace {
    let mut command = Command::new(TOOL);
    command.env_clear().current_dir(&folder.0).args(["new", "3", "p.pool"]);
    command.stdin(Stdio::null()).stdout(Stdio::null()).stderr(Stdio::null());
    trace(&mut command, fault)
}

/// An empty pool, whole, or nothing; and it is on disk if the status says so. Then a new one can be
/// made or a batch be run, and nothing is left beside it.
fn new_holds(empty: &[u8], fault: Fault) -> Trace {
    let folder = Folder::new();
    let trace = new_with_fault(&folder, fault);
    let pool = folder.path("p.pool");
    let left = fs::read(&pool).ok();
    assert!(left.is_none() || left.as_deref() == Some(empty), "{fault:?}: a stump");
    if trace.status == Some(0) {
        let flushed = flushed_before(&trace.calls, trace.calls.len());
        assert!(flushed.contains(&key(&pool)), "{fault:?}: the file is not flushed");
        assert!(flushed.contains(&key(&folder.0)), "{fault:?}: the folder is not flushed");
    }
    if left.is_none() {
        assert_eq!(tool(&["new", "3", &folder.name("p.pool")], &[]).0, 0, "{fault:?}");
        assert_eq!(folder.names(), ["p.pool"], "{fault:?}");
    }
    assert!(tool::run(&pool, "store 5 order 0 value 9\n").contains("done"), "{fault:?}");
    assert_eq!(folder.names(), ["p.pool"], "{fault:?}");
    trace
}

#[test]
fn a_fault_at_each_system_call_of_new() {
    let empty = tool(&["new", "3"], &[]).1;
    let trace = new_holds(&empty, Fault::Never);
    assert_eq!(trace.status, Some(0));
    for at in 0..trace.calls.len() {
        new_holds(&empty, Fault::KillBefore(at));
        new_holds(&empty, Fault::KillAfter(at));
        new_holds(&empty, Fault::Fail(at, EIO));
    }
    for flush in places(&trace, FSYNC) {
        assert_eq!(new_holds(&empty, Fault::Fail(flush, EIO)).status, NOT_FLUSHED);
    }
    // A file system that cannot rename so takes a second name in its place.
    let rename = position(&trace, RENAMEAT2, 0);
    assert_eq!(new_holds(&empty, Fault::Fail(rename, EINVAL)).status, Some(0));
}

const MARK: [&str; 2] = ["--command", "mark 7 mark 2"];

/// A folder with a pool of one entry, its bytes before and after a mark, and the script of that.
fn with_script() -> (Folder, Vec<u8>, Vec<u8>, Vec<u8>) {
    let folder = Folder::new();
    let pool = folder.pool(3);
    tool::run(&pool, "store 7 order 0 value 1\nstore 64 order 0 value 2\n");
    let (pool, script) = (folder.name("p.pool"), folder.name("s.script"));
    let old = fs::read(&pool).expect("a pool");
    assert_eq!(tool(&[&["prepare", "-o", &script], &MARK[..], &[&pool]].concat(), &[]).0, 0);
    assert_eq!(tool(&["apply", &pool, &script], &[]).0, 0);
    let new = fs::read(&pool).expect("a pool");
    assert!(old != new);
    let script = fs::read(&script).expect("a script");
    (folder, old, new, script)
}

/// The tool in the folder, with a fault; what it acknowledged with status 0 is on disk.
fn traced(folder: &Folder, words: &[&str], kept: &str, fault: Fault) -> Trace {
    let mut command = Command::new(TOOL);
    command.env_clear().current_dir(&folder.0).args(words);
    command.stdin(Stdio::null()).stdout(Stdio::null()).stderr(Stdio::null());
    let trace = trace(&mut command, fault);
    if trace.status == Some(0) {
        let flushed = flushed_before(&trace.calls, trace.calls.len());
        assert!(flushed.contains(&key(&folder.path(kept))), "{fault:?}: the file is not flushed");
        assert!(flushed.contains(&key(&folder.0)), "{fault:?}: the folder is not flushed");
    }
    trace
}

/// Each fault at each call that there is without one; gives that trace.
fn at_each_call(holds: impl Fn(Fault) -> Trace) -> Trace {
    let trace = holds(Fault::Never);
    assert_eq!(trace.status, Some(0));
    for at in 0..trace.calls.len() {
        holds(Fault::KillBefore(at));
        holds(Fault::KillAfter(at));
        holds(Fault::Fail(at, EIO));
    }
    trace
}

/// The whole script or none, and the pool as it was; then it can be prepared, and nothing is left beside it.
#[test]
fn a_fault_at_each_system_call_of_prepare() {
    let (folder, old, _, script) = with_script();
    fs::write(folder.path("p.pool"), &old).expect("written");
    let words = [&["prepare", "-o", "s.script"], &MARK[..], &["p.pool"]].concat();
    let holds = |fault| {
        let _ = fs::remove_file(folder.path("s.script"));
        let trace = traced(&folder, &words, "s.script", fault);
        let left = fs::read(folder.path("s.script")).ok();
        assert!(left.is_none() || left.as_ref() == Some(&script), "{fault:?}: a stump");
        assert_eq!(fs::read(folder.path("p.pool")).expect("a pool"), old, "{fault:?}");
        if left.is_none() {
            assert_eq!(traced(&folder, &words, "s.script", Fault::Never).status, Some(0));
        }
        // What ended after its rename left nothing else; what did before was cleared by the next.
        assert_eq!(folder.names(), ["p.pool", "s.script"], "{fault:?}");
        trace
    };
    let trace = at_each_call(holds);
    for flush in places(&trace, FSYNC) {
        assert_eq!(holds(Fault::Fail(flush, EIO)).status, NOT_FLUSHED);
    }
}

/// The old pool or the new one, whole; and the same script ends it.
#[test]
fn a_fault_at_each_system_call_of_apply() {
    let (folder, old, new, script) = with_script();
    let words = ["apply", "p.pool", "s.script"];
    let holds = |fault| {
        fs::write(folder.path("p.pool"), &old).expect("written");
        let trace = traced(&folder, &words, "p.pool", fault);
        let left = fs::read(folder.path("p.pool")).expect("a pool");
        assert!(left == old || left == new, "{fault:?}: {} bytes", left.len());
        assert!(trace.status != Some(0) || left == new, "{fault:?}: status 0");
        assert_eq!(traced(&folder, &words, "p.pool", Fault::Never).status, Some(0), "{fault:?}");
        assert_eq!(fs::read(folder.path("p.pool")).expect("a pool"), new, "{fault:?}");
        assert_eq!(fs::read(folder.path("s.script")).expect("a script"), script, "{fault:?}");
        trace
    };
    let trace = at_each_call(holds);
    for flush in places(&trace, FSYNC) {
        assert_eq!(holds(Fault::Fail(flush, EIO)).status, NOT_FLUSHED);
    }
    let mut at = position(&trace, FLOCK, 0);
    for call in [READ, WRITE, FSYNC, RENAME, FSYNC] {
        at = position(&trace, call, at + 1);
    }
}

/// Attributes that cannot be kept leave the old pool.
#[test]
fn an_attribute_that_cannot_be_kept() {
    let job = Job::new();
    let at = position(&job.with_fault(&job.old, Fault::Never), FSETXATTR, 0);
    let place = Place::of(&job.old, &job.batch);
    let trace = place.run(Fault::Fail(at, ENOSPC));
    assert_eq!((trace.status, place.replied(), place.pool() == job.old), (Some(1), 0, true));
    let errors = place.errors();
    assert!(errors.contains("its attribute user.note cannot be kept: No space left"), "{errors}");
    assert!(errors.contains("the file is as it was"), "{errors}");
}
