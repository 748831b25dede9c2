//! The commands that write a pool file or a plain list: a new one, and a batch run on one.

use crate::args::{Arguments, Known};
use crate::commands::decode::bad_record;
use crate::failure::{malformed, usage, Failure, NOT_DONE, NOT_FLUSHED};
use crate::files::{self, of_file, MOST_POOL_BYTES};
use crate::kept::Kept;
use std::ffi::{OsStr, OsString};
use std::path::Path;
use xabatch::decode::{command_at, Bad};
use xabatch::json::Object;
use xabatch::kind::FileKind;
use xabatch::locked::{self, KeepError, LockedFile, Locking};
use xabatch::progress::Progress;
use xabatch::tally::{is_done, Tally};
use xapool_host::{split_batches, Commands, Engine, Refusal, Reply, REPLY_BYTES};

pub const RUN_OPTIONS: [Known; 4] =
    [("--plain", false), ("--no-wait", false), ("--strict", false), ("--json", false)];

/// So many commands that were not done are named one by one.
const MOST_NAMED: usize = 20;

/// `new`: an empty pool, or an empty plain list.
pub fn create(arguments: Arguments) -> Result<(), Failure> {
    let words = arguments.between(1, 2)?;
    let kept = Kept::new(&words[0].to_string_lossy(), arguments.has("--plain"))?;
    write_new(words.get(1), &kept.to_bytes())
}

/// Writes a new file, whole and on disk, or to standard output; one that is there already is not touched.
pub fn write_new(file: Option<&OsString>, bytes: &[u8]) -> Result<(), Failure> {
    match file {
        None => files::write(bytes),
        Some(file) if file == "-" => files::write(bytes),
        Some(file) => {
            locked::create(Path::new(file), bytes).map_err(|error| not_kept(file, &error))
        }
    }
}

/// A flush that failed has a status of its own.
pub fn not_kept(file: &OsStr, error: &KeepError) -> Failure {
    let failure = of_file(file, error);
    if error.is_of_flush() {
        return Failure { status: NOT_FLUSHED, ..failure };
    }
    failure
}

/// `run`: a batch on a pool file, or on a plain list.
pub fn run(arguments: Arguments) -> Result<(), Failure> {
    let job = Job::of(&arguments)?;
    let file = &job.file;
    let failed = |error| of_file(file, error);
    let mut locked = LockedFile::open(Path::new(file), job.locking).map_err(failed)?;
    let bytes = files::no_longer(file, locked.read(MOST_POOL_BYTES).map_err(failed)?)?;
    let mut kept = Kept::of(file, &bytes, job.plain)?;
    let outcome = job.run(&mut kept, &bytes)?;
    // After this the lock is free: who reads what is written may be slow.
    outcome.keep(locked, &kept).map_err(|error| not_kept(file, &error))?;
    job.complain_of(&outcome);
    let written = match (job.json, outcome.kept) {
        (true, _) => outcome.write(outcome.json(&kept).as_bytes()),
        (false, true) => outcome.write(&outcome.replies),
        // A 'done' would be of nothing that is in the pool.
        (false, false) => Ok(()),
    };
    match outcome.kept {
        true => written,
        // What else went wrong is told, but this is what the status is for.
        false => Err(Failure {
            status: NOT_DONE,
            message: written.map_or_else(|failure| failure.message, |()| String::new()),
        }),
    }
}

/// What a run is asked to do.
struct Job {
    file: OsString,
    batch_file: OsString,
    batch: Vec<u8>,
    locking: Locking,
    plain: bool,
    strict: bool,
    json: bool,
}

impl Job {
    /// The batch is read before the lock is taken: what comes through a pipe may be long in coming.
    fn of(arguments: &Arguments) -> Result<Job, Failure> {
        let named = arguments.between(1, 2)?;
        let file = named[0].clone();
        if file == "-" {
            return Err(usage("run changes a pool file: it must have a name"));
        }
        files::output_is_open()?;
        let batch_file = named.get(1).cloned().unwrap_or_else(files::standard_input);
        let batch = files::read(&batch_file)?;
        let no_wait = arguments.has("--no-wait");
        let locking = if no_wait { Locking::Refuse } else { Locking::Wait };
        let [plain, strict, json] =
            ["--plain", "--strict", "--json"].map(|name| arguments.has(name));
        Ok(Job { file, batch_file, batch, locking, plain, strict, json })
    }

    /// Runs the batch in memory, on what the file's bytes are; it is that again if nothing is to be kept.
    fn run(&self, kept: &mut Kept, before: &[u8]) -> Result<Outcome, Failure> {
        let replies = run_batches(kept.engine(), before.len(), &self.batch);
        let replies = replies.map_err(|refusal| match refusal {
            Refusal::BadBatch { place } => bad_batch(&self.batch_file, &self.batch, place),
            _ => of_file(&self.file, refusal),
        })?;
        let read: Option<Vec<Reply>> = replies.chunks(REPLY_BYTES).map(Reply::read).collect();
        // Cannot be: the library is proved to write replies. Is it the right one?
        let read = read.ok_or_else(|| of_file(&self.file, "the library gave what is no reply"))?;
        let tally: Tally = read.iter().collect();
        let is_kept = !self.strict || tally.is_all_done();
        let changed = is_kept && kept.to_bytes() != before;
        if !is_kept {
            *kept = Kept::of(&self.file, before, self.plain)?;
        }
        Ok(Outcome { replies, tally, kept: is_kept, changed })
    }

    /// Says how many commands were not done and, where nothing is kept for that, which.
    fn complain_of(&self, outcome: &Outcome) {
        let tally = &outcome.tally;
        match (tally.is_all_done(), outcome.kept) {
            (true, _) => {}
            (false, true) => files::complain(&tally.to_string()),
            (false, false) => {
                name_not_done(&self.batch, &outcome.replies);
                let file = files::name(&self.file);
                files::complain(&format!("{file}: nothing is kept: {tally}"));
            }
        }
    }
}

/// Runs a batch, or a longer row of records as several, on what has so many bytes; gives all replies.
fn run_batches(
    engine: &mut dyn Engine,
    kept_bytes: usize,
    records: &[u8],
) -> Result<Vec<u8>, Refusal> {
    // A pool that cannot be used is told before a batch that cannot.
    engine.check()?;
    let batches = split_batches(records)?;
    // With each batch the library reads the whole pool.
    let work = records.len() + batches.len() * kept_bytes;
    let mut progress = Progress::of(Some(work as u64));
    let mut replies = Vec::new();
    for batch in batches {
        let start = replies.len();
        // The shortest record has 11 bytes, so this is space enough for any batch.
        replies.resize(start + REPLY_BYTES * (batch.len() / 11 + 1), 0);
        let commands = engine.run_bytes(batch, &mut replies[start..])?;
        replies.truncate(start + REPLY_BYTES * commands);
        progress.add(batch.len() + kept_bytes);
    }
    Ok(replies)
}

/// Which of its causes it is, and what else the file may be.
fn bad_batch(file: &OsStr, batch: &[u8], place: u64) -> Failure {
    let rest = usize::try_from(place).ok().and_then(|at| batch.get(at..));
    match rest.and_then(|rest| command_at(rest).err()) {
        None => of_file(file, Refusal::BadBatch { place }),
        Some(cause) => {
            bad_record(file, &Bad { place, cause }, FileKind::guess(batch), &[FileKind::Batch])
        }
    }
}

/// What a batch did in memory.
struct Outcome {
    replies: Vec<u8>,
    tally: Tally,
    /// Whether it is to be kept.
    kept: bool,
    /// Whether it is, and there is something to keep.
    changed: bool,
}

impl Outcome {
    /// The file and its folder are on disk after this, changed or not; the lock is free.
    fn keep(&self, locked: LockedFile, kept: &Kept) -> Result<(), KeepError> {
        match self.changed {
            true => locked.replace(&kept.to_bytes()),
            false => locked.flush(),
        }
    }

    /// Writes the replies, or what is written in their place.
    fn write(&self, bytes: &[u8]) -> Result<(), Failure> {
        let replies = self.tally.replies();
        let ran = if self.kept { "the batch ran" } else { "nothing is kept" };
        files::try_write(bytes).map_err(|error| {
            malformed(format!(
                "standard output: {error}; {ran} and the pool is safe, but its {replies} replies \
                 are lost"
            ))
        })
    }

    /// One line; what is kept is what the file has now.
    fn json(&self, kept: &Kept) -> String {
        let (replies, not_done) = (self.tally.replies(), self.tally.not_done());
        let object = Object::new()
            .with("commands", replies)
            .with("done", replies - not_done)
            .with("not_done", not_done)
            .with("answers", self.tally.answers_json())
            .with("kept", self.kept)
            .with("changed", self.changed);
        format!("{}\n", kept.json(object).end())
    }
}

/// A line for each command that was not done, up to twenty.
fn name_not_done(batch: &[u8], replies: &[u8]) {
    let replies = replies.chunks(REPLY_BYTES).map_while(Reply::read);
    let pairs = (1..).zip(Commands::of(batch).flatten().zip(replies));
    let not_done = pairs.filter(|(_, (_, reply))| !is_done(reply));
    for (number, (command, reply)) in not_done.take(MOST_NAMED) {
        files::complain(&format!("command {number}: {command}: {}", reply.answer));
    }
}
