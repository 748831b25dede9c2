//! A walk by finds that does not hold the pool in between: it may be changed there.

use crate::answer::{Answer, Error};
use crate::batch::BatchBuilder;
use crate::command::Command;
use crate::engine::Engine;
use crate::find::ends;
use crate::reply::{Entry, Reply};
use std::ops::RangeBounds;

/// A walk through a range by one find after the other, with a pool that may change between the finds.
///
/// It goes on behind the run of the entry that it reports, or where its find paused, and is over once a
/// find ended or a run came to the last index. By the theorem `no_index_missed` (crates/walks; of a host's
/// calls `host_misses_none`) no index is missed that at each of its finds is covered by an entry that the
/// filter accepts, the same or another, until the walk is past it (`none_missed_until`); one may be
/// reported twice. Where nothing changes, all budgets
/// above 0 give the same entries (`budgets_agree`), the finds up to one take 64U + 2 steps or fewer, U the
/// nodes in use (`few_steps`), and the walk ends (`walk_ends`).
///
/// ```
/// # use xapool_host::{Command, Pool, Walk, Word, FIND_ANY};
/// # let mut pool = Pool::new(40)?;
/// # pool.run_all([8, 9].map(|index| Command::Store { index, order: 0, word: Word(3) }))?.all_done()?;
/// let mut walk = Walk::over(.., FIND_ANY);
/// while let Some(entry) = walk.next_in(&mut pool)? {
///     // The pool is free here: each entry is taken out as it is met.
///     pool.run_all([Command::Erase { index: entry.base }])?.all_done()?;
/// }
/// assert!(walk.is_over());
/// assert_eq!(pool.list(..)?.len(), 0);
/// # Ok::<(), Box<dyn std::error::Error>>(())
/// ```
///
/// For a find in a batch of one's own, with other commands before it and after it, put [`Walk::find`]
/// there and give its reply to [`Walk::read`]. [`Pool::find`](crate::Pool::find) holds the pool and needs fewer batches.
#[derive(Clone, Debug)]
pub struct Walk {
    rest: Option<(u64, u64)>,
    filter: u8,
    budget: u16,
}

impl Walk {
    /// The walk through the entries that meet the range and have this mark, or any with
    /// [`FIND_ANY`](crate::FIND_ANY).
    pub fn over(range: impl RangeBounds<u64>, filter: u8) -> Walk {
        Walk { rest: ends(range), filter, budget: u16::MAX }
    }

    /// Each find goes at most so many steps; 65,535 if not said. It may change from find to find.
    #[must_use]
    pub fn with_budget(self, budget: u16) -> Walk {
        Walk { budget, ..self }
    }

    /// Whether it has come to its end.
    #[must_use]
    pub fn is_over(&self) -> bool {
        self.rest.is_none()
    }

    /// The find that comes next, for any batch; none if the walk is over.
    #[must_use]
    pub fn find(&self) -> Option<Command> {
        let (filter, budget) = (self.filter, self.budget);
        self.rest.map(|(first, last)| Command::Find { first, last, filter, budget })
    }

    /// Goes on by the reply to that find (`host_next`): the entry that it reports, none where it paused
    /// or ended. Any other answer is the error, and the walk stays where it was.
    pub fn read(&mut self, reply: Reply) -> Result<Option<Entry>, Answer> {
        if let Some((_, last)) = self.rest {
            self.rest = reply.next_first(last)?.map(|first| (first, last));
        }
        Ok(reply.entry())
    }

    /// The next entry, over as many pauses as there are; none if the walk is over.
    pub fn next_in(&mut self, pool: &mut impl Engine) -> Result<Option<Entry>, Error> {
        while let Some(find) = self.find() {
            let mut batch = BatchBuilder::new();
            // There is room for one.
            let _ = batch.push(find);
            for reply in &pool.run(&batch)? {
                if let Some(entry) = self.read(*reply)? {
                    return Ok(Some(entry));
                }
            }
        }
        Ok(None)
    }
}
