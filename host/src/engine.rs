//! What both engines share: batches run, with the replies of each.

use crate::answer::{Refusal, RefusedBatch};
use crate::batch::{BatchBuilder, Batches};
use crate::command::Command;
use crate::reply::{Replies, REPLY_BYTES};

/// What runs batches: a [`Pool`](crate::Pool), the tree, or a [`Plain`](crate::Plain), the sorted run. Both have these as methods
/// of their own; this is for code that takes either.
///
/// ```
/// use xapool_host::{Command, Engine, Error, Plain, Pool, Word};
///
/// fn stored(engine: &mut impl Engine) -> Result<u64, Error> {
///     let word = Word(5);
///     let replies = engine.run_all([Command::Store { index: 64, order: 3, word }, Command::Load { index: 70 }])?;
///     Ok(replies[1].done()?.base)
/// }
///
/// assert_eq!(stored(&mut Pool::new(40)?)?, 64);
/// assert_eq!(stored(&mut Plain::new(40)?)?, 64);
/// # Ok::<(), Error>(())
/// ```
pub trait Engine {
    /// Makes it empty, whatever stood there.
    fn init(&mut self) -> Result<(), Refusal>;

    /// Whether what it was given is well-formed; a refusal says why it is not.
    fn check(&self) -> Result<(), Refusal>;

    /// Runs the bytes of a batch, whatever they are, into this reply space; gives how many
    /// commands ran, each with 24 bytes of replies.
    fn run_bytes(&mut self, batch: &[u8], reply: &mut [u8]) -> Result<usize, Refusal>;

    /// Runs a batch and gives its replies, one for each command.
    fn run(&mut self, batch: &BatchBuilder) -> Result<Replies, Refusal> {
        let mut space = vec![0; REPLY_BYTES * batch.len()];
        let commands = self.run_bytes(batch.bytes(), &mut space)?;
        // The library answers every command, and with good replies; anything else would be told here.
        let unexpected = |number: usize| Refusal::Unexpected { answer: 0, number: number as u64 };
        if commands != batch.len() {
            return Err(unexpected(commands));
        }
        Replies::read(&space).map_err(|bad| unexpected(bad.place))
    }

    /// Runs any number of commands, as many batches as they need, and gives all replies.
    fn run_all<T>(&mut self, commands: T) -> Result<Replies, RefusedBatch>
    where
        T: IntoIterator<Item = Command>,
        Self: Sized,
    {
        let batches: Batches = commands.into_iter().collect();
        if batches.is_empty() {
            let refused = |refusal| RefusedBatch { refusal, batch: 0, replies: Replies::default() };
            return self.check().map_err(refused).map(|()| Replies::default());
        }
        run_each(&batches, |batch| self.run(batch))
    }
}

/// Runs the batches one after another, up to the first that is refused.
pub(crate) fn run_each(
    batches: &Batches,
    mut run: impl FnMut(&BatchBuilder) -> Result<Replies, Refusal>,
) -> Result<Replies, RefusedBatch> {
    let mut replies = Replies::default();
    for (number, batch) in batches.iter().enumerate() {
        match run(batch) {
            Ok(more) => replies.append(more),
            Err(refusal) => return Err(RefusedBatch { refusal, batch: number, replies }),
        }
    }
    Ok(replies)
}

/// The commands of a run, if the reply space holds a reply to each.
pub(crate) fn ran(commands: u64, reply: &[u8]) -> Result<usize, Refusal> {
    let fits = usize::try_from(commands).ok().filter(|count| *count <= reply.len() / REPLY_BYTES);
    fits.ok_or(Refusal::Unexpected { answer: 0, number: commands })
}
