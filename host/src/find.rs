//! All entries of a range, found in few batches.
//!
//! A find gives one entry, and the next one must begin after that entry's run. But each batch costs a
//! check of the whole pool, so one find a batch is dear. Here a batch has many finds: the next indices
//! are cut into lanes of equal width, the last lane is all that comes after them, and each goes on
//! after what it found. The width follows how dense the entries are.
//!
//! Each lane is a walk over a pool that is held and does not change: it goes on behind the run that it found
//! or where its find paused, and is over once a find ended or a run came to the lane's last index. So by the theorems
//! `budgets_agree` and `no_index_missed` of crates/walks it finds the same with any budget, and misses nothing.

use crate::answer::Error;
use crate::batch::{BatchBuilder, MOST_BATCH_BYTES};
use crate::command::Command;
use crate::pool::Pool;
use crate::reply::Entry;
use std::collections::VecDeque;
use std::iter::FusedIterator;
use std::ops::{Bound, RangeBounds};

/// So many finds fit into one batch.
pub const MOST_FINDS: usize = MOST_BATCH_BYTES / 22;

/// After so many batches what is complete is given, and the lanes are laid anew.
const ROUNDS: usize = 4;

/// A part of the range and what was found in it.
#[derive(Debug)]
struct Lane {
    /// Where the next find begins; none if nothing is left.
    next: Option<u64>,
    last: u64,
    found: Vec<Entry>,
}

/// The entries of a range in index order, each once: see [`Pool::find`]. A pause is never its end, and no
/// budget changes what it gives (`budgets_agree` of crates/walks; [`Walk`](crate::Walk) says more). What
/// cannot be searched is an error, after which it ends: that is no end of the entries, so take the errors
/// out with `?`, or ask for [`Finds::all`].
#[derive(Debug)]
#[must_use = "an iterator does nothing until it is asked"]
pub struct Finds<'p, 'w> {
    pool: &'p mut Pool<'w>,
    filter: u8,
    budget: u16,
    most: usize,
    /// The indices of a lane.
    width: u64,
    /// Found and not given yet.
    found: VecDeque<Entry>,
    /// The base of the entry given last: where its run goes on into the next lane, that lane finds it
    /// again.
    given: Option<u64>,
    /// First and last index of what is not searched yet.
    rest: Option<(u64, u64)>,
    batches: usize,
}

impl<'p, 'w> Finds<'p, 'w> {
    pub(crate) fn new(
        pool: &'p mut Pool<'w>,
        range: impl RangeBounds<u64>,
        filter: u8,
    ) -> Finds<'p, 'w> {
        let (found, rest) = (VecDeque::new(), ends(range));
        let (budget, most) = (u16::MAX, MOST_FINDS);
        Finds { pool, filter, budget, most, width: 1, found, given: None, rest, batches: 0 }
    }

    /// Each find goes at most so many steps at a time; 65,535 if not said. A find that pauses goes on
    /// in the next batch.
    pub fn with_budget(self, budget: u16) -> Self {
        Finds { budget, ..self }
    }

    /// At most so many finds a batch, 1 to [`MOST_FINDS`], which it is if not said. With the budget
    /// it bounds how long one call takes.
    pub fn with_batch(self, finds: usize) -> Self {
        Finds { most: finds.clamp(1, MOST_FINDS), ..self }
    }

    /// All entries that are left, or the error: never a part of them.
    ///
    /// ```
    /// # use xapool_host::{Answer, Error, Pool};
    /// let mut pool = Pool::new(1)?;
    /// assert_eq!(pool.find(.., 2).all(), Ok(vec![]));
    /// assert_eq!(pool.find(.., 2).with_budget(0).all(), Err(Error::Answered(Answer::NoBudget)));
    /// # Ok::<(), Box<dyn std::error::Error>>(())
    /// ```
    pub fn all(self) -> Result<Vec<Entry>, Error> {
        self.collect()
    }

    /// How many batches were run so far, each with a check of the whole pool.
    #[must_use]
    pub fn batches(&self) -> usize {
        self.batches
    }

    /// Finds what comes next, in a few batches.
    fn search(&mut self, first: u64, last: u64) -> Result<(), Error> {
        let mut lanes = self.lanes(first, last);
        for _ in 0..ROUNDS {
            self.search_once(&mut lanes)?;
            if !is_open(&lanes) {
                break;
            }
        }
        self.adapt(&lanes);
        // What was found after a lane that is not complete is found again.
        for lane in lanes {
            self.found.extend(lane.found);
            if let Some(next) = lane.next {
                self.rest = Some((next, last));
                break;
            }
        }
        Ok(())
    }

    fn lanes(&self, first: u64, last: u64) -> Vec<Lane> {
        let mut lanes = Vec::with_capacity(self.most);
        let mut next = Some(first).filter(|first| *first <= last);
        while let Some(start) = next {
            let narrow = lanes.len() + 1 < self.most;
            let end = if narrow { last.min(start.saturating_add(self.width - 1)) } else { last };
            lanes.push(Lane { next, last: end, found: Vec::new() });
            next = end.checked_add(1).filter(|start| *start <= last);
        }
        lanes
    }

    /// One batch: a find in each lane in which something may be left.
    fn search_once(&mut self, lanes: &mut [Lane]) -> Result<(), Error> {
        let (filter, budget) = (self.filter, self.budget);
        let mut batch = BatchBuilder::new();
        for Lane { next, last, .. } in lanes.iter() {
            if let Some(first) = *next {
                // There is room: no more lanes than finds fit.
                let _ = batch.push(Command::Find { first, last: *last, filter, budget });
            }
        }
        self.batches += 1;
        let replies = self.pool.run(&batch)?;
        let open = lanes.iter_mut().filter(|lane| lane.next.is_some());
        for (lane, reply) in open.zip(&replies) {
            lane.next = reply.next_first(lane.last)?;
            lane.found.extend(reply.entry());
        }
        Ok(())
    }

    /// Wider lanes where most found nothing, narrower ones where some are not done yet.
    fn adapt(&mut self, lanes: &[Lane]) {
        let hits = lanes.iter().filter(|lane| !lane.found.is_empty()).count();
        if is_open(lanes) {
            self.width = (self.width / 4).max(1);
        } else if 2 * hits < lanes.len() {
            self.width = self.width.saturating_mul(4);
        }
    }
}

/// Whether something may be left in a lane other than the last, which goes to the end of the range.
fn is_open(lanes: &[Lane]) -> bool {
    lanes.iter().rev().skip(1).any(|lane| lane.next.is_some())
}

/// First and last index of a range; none if it has no index.
pub(crate) fn ends(range: impl RangeBounds<u64>) -> Option<(u64, u64)> {
    let first = match range.start_bound() {
        Bound::Included(first) => *first,
        Bound::Excluded(before) => before.checked_add(1)?,
        Bound::Unbounded => 0,
    };
    let last = match range.end_bound() {
        Bound::Included(last) => *last,
        Bound::Excluded(after) => after.checked_sub(1)?,
        Bound::Unbounded => u64::MAX,
    };
    (first <= last).then_some((first, last))
}

impl Iterator for Finds<'_, '_> {
    type Item = Result<Entry, Error>;

    fn next(&mut self) -> Option<Self::Item> {
        loop {
            while let Some(entry) = self.found.pop_front() {
                if self.given.replace(entry.base) != Some(entry.base) {
                    return Some(Ok(entry));
                }
            }
            let (first, last) = self.rest.take()?;
            if let Err(error) = self.search(first, last) {
                return Some(Err(error));
            }
        }
    }
}

impl FusedIterator for Finds<'_, '_> {}
