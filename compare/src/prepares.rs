//! Preparing scripts (P11), by reference and by the library: on a pool and a record that cannot be written, into slices of
//! every room that matters, all of them ending at an unreadable page. A script that is prepared is then applied by the
//! library, whole, cut anywhere and after any of the writes, and must give the words that the library's own run of the
//! record leaves; a refusal must be the one in the reply of that run.

use crate::applies::Applying;
use crate::batches::show;
use crate::figures::{Figures, Of};
use crate::lend::{split, EDGE_WORD};
use crate::os::Guarded;
use crate::prepare_kinds::{height, kinds, room_kinds};
use crate::prepare_pools::random_pair;
use reference::answers::{DONE, REPLY_SPACE, TOO_FEW_NODES};
use reference::batch::{MOST_BATCH_BYTES, REPLY_BYTES};
use reference::calls::Outcome;
use reference::pool::{pool_length, State, MOST_NODES};
use reference::random::Random;
use reference::recover::recover;
use reference::scripts::prepare;
use xapool_host::raw;

/// A pool, and the bytes that are to be prepared on it.
#[derive(Clone, Debug, PartialEq, Eq)]
pub struct Preparing {
    pub words: Vec<u64>,
    pub record: Vec<u8>,
    /// For the rooms, the cuts and the writes that are done.
    pub seed: u64,
}

const MOST_WORDS: usize = pool_length(MOST_NODES + 1);
/// Room for a place and a value for each word of the largest pool, and some more.
const MOST_SCRIPT: usize = 2 * MOST_WORDS + 1000;
const MOST_RECORD: usize = MOST_BATCH_BYTES + 4000;

/// What stands in a slice before it is lent.
fn slice(room: usize) -> Vec<u64> {
    (0..room as u64).map(|place| place.wrapping_mul(0x9E37_79B9_7F4A_7C15) | 1 << 63).collect()
}

/// A program that prepares: a pool, a record and a slice.
pub type Program<'a> = &'a dyn Fn(&[u64], &[u8], &mut [u64]) -> Outcome;

impl Preparing {
    pub fn random(seed: u64) -> Preparing {
        let (words, record) = random_pair(&mut Random::new(seed));
        Preparing { words, record, seed }
    }

    /// What reference gives where there is room for any script, and that script.
    pub fn by_reference(&self) -> (Outcome, Vec<u64>) {
        let mut script = vec![0; 2 * self.words.len()];
        let outcome = prepare(&self.words, &self.record, &mut script);
        script.truncate(outcome.number as usize);
        (outcome, script)
    }

    /// The lengths of the slices: none, one word less than the script has, one pair less, any that is too small, exactly
    /// so many, and more.
    pub fn rooms(&self, script: usize) -> Vec<usize> {
        let mut random = Random::new(self.seed ^ 2);
        let few = random.below(script as u64 + 1) as usize;
        let more = script + 1 + random.below(60) as usize;
        let mut rooms = vec![0, script, more];
        // Reference takes long on the largest pools.
        if self.words.len() < pool_length(1000) {
            rooms.extend([script.saturating_sub(1), script.saturating_sub(2), few]);
        }
        rooms.sort_unstable();
        rooms.dedup();
        rooms
    }

    pub fn difference(&self, figures: Option<Figures>) -> Option<String> {
        self.difference_by(&by_library, figures)
    }

    /// The first difference of another program from reference, and of its script from what a run does.
    pub fn difference_by(&self, other: Program, figures: Option<Figures>) -> Option<String> {
        let (outcome, script) = self.by_reference();
        let rooms = self.rooms(script.len());
        if let Some(figures) = figures {
            figures.add(Of::PreparedPools, 1);
            figures.count_preparing(&kinds(self, outcome));
            recover(&self.words).iter().for_each(|state| figures.count_height(height(state)));
        }
        for room in rooms {
            let (mut wanted, mut found) = (slice(room), slice(room));
            let asked = prepare(&self.words, &self.record, &mut wanted);
            if let Some(figures) = figures {
                figures.add(Of::PreparedWords, self.words.len() + room);
                figures.count_prepare_answer(asked.answer);
                figures.count_preparing(&room_kinds(room, asked));
            }
            let given = other(&self.words, &self.record, &mut found);
            let place = (0..room).find(|at| wanted[*at] != found[*at]);
            if asked != given || place.is_some() {
                let numbers = |outcome: Outcome| (outcome.answer, outcome.number);
                return Some(format!(
                    "in {room} words: reference gives {:?}, the other {:?}; the first word of the slice that differs is {:?}",
                    numbers(asked),
                    numbers(given),
                    place.map(|at| (at, wanted[at], found[at]))
                ));
            }
        }
        match outcome.answer as u8 {
            DONE => self.applied(other, figures, script.len()),
            answer if answer > REPLY_SPACE => self.refused_alike(outcome),
            _ => None,
        }
    }

    /// The words that the library's run of the record leaves, and the answer in its reply.
    fn run(&self) -> (Vec<u64>, u64) {
        let (mut after, mut reply) = (self.words.clone(), [0; REPLY_BYTES]);
        let result = raw::run(&mut after, &self.record, &mut reply);
        let answer = if result.answer == 0 { reply[3].into() } else { u64::MAX };
        (after, answer)
    }

    /// The script once more, into a slice of its own size, applied by the library in every state that a cut may leave.
    fn applied(&self, other: Program, figures: Option<Figures>, size: usize) -> Option<String> {
        let (after, answer) = self.run();
        if answer != 0 {
            return Some(format!("done, and in the run's reply stands {answer}"));
        }
        let mut script = slice(size);
        let _ = other(&self.words, &self.record, &mut script);
        if !script.chunks(2).is_sorted_by(|a, b| a[0] < b[0]) {
            return Some("its places do not rise".into());
        }
        let (words, seed) = (self.words.clone(), self.seed);
        let applying = Applying { words, script, after: Some(after), seed };
        if let Some(figures) = figures {
            figures.add(Of::PreparedCuts, applying.states().len());
        }
        applying.difference(None).map(|text| format!("applied: {text}"))
    }

    /// A refusal of the command: the run's reply has the same answer, and the run leaves the pool.
    fn refused_alike(&self, outcome: Outcome) -> Option<String> {
        let (after, answer) = self.run();
        let same = answer == outcome.answer && after == self.words;
        (!same)
            .then(|| format!("refused with {}, in the run's reply stands {answer}", outcome.answer))
    }

    /// With fewer nodes, without one of the entries, or with a smaller index in the record.
    pub fn smaller(&self) -> Box<dyn Iterator<Item = Preparing> + '_> {
        let with = |words| Preparing { words, ..self.clone() };
        let Some(state) = recover(&self.words) else { return Box::new(std::iter::empty()) };
        let count = state.places.len();
        let most = (self.by_reference().0.answer == u64::from(TOO_FEW_NODES)).then_some(count - 1);
        let counts = [1, 2, 5, 12, 24, count / 2, most.unwrap_or(1)];
        let list = state.list.clone();
        let fewer = counts.into_iter().filter(move |fewer| *fewer < count && *fewer > 0);
        let fewer = fewer
            .filter_map(move |count| Some(State::empty(count).change_to(list.clone())?.words()));
        let without = (0..state.list.len()).filter_map(move |entry| {
            let mut list = state.list.clone();
            list.remove(entry);
            Some(State::empty(count).change_to(list)?.words())
        });
        let index = (3..11).filter(|at| self.record.get(*at).is_some_and(|byte| *byte > 0));
        let lower = index.map(|at| {
            let mut lower = self.clone();
            lower.record[at] = 0;
            lower
        });
        Box::new(fewer.chain(without).map(with).chain(lower))
    }

    pub fn show(&self) -> String {
        let (outcome, script) = self.by_reference();
        let list = recover(&self.words).map(|state| state.list);
        format!(
            "{} words, list {list:x?}\n{}reference: {outcome:?}, script {script:x?}\n",
            self.words.len(),
            show(&self.record)
        )
    }
}

/// An answer that reference never gives: something before the slice was written.
const BEFORE_THE_SLICE: u64 = u64::MAX;

/// Pool, record and slice end at an unreadable page each. Pool and record cannot be written meanwhile.
pub fn by_library(pool: &[u64], record: &[u8], script: &mut [u64]) -> Outcome {
    thread_local!(static LENT: std::cell::RefCell<[Guarded; 3]> =
        [8 * MOST_WORDS, MOST_RECORD, 8 * MOST_SCRIPT].map(Guarded::new).into());
    LENT.with_borrow_mut(|[pool_lent, record_lent, script_lent]| {
        split(pool_lent.words(), pool.len()).1.copy_from_slice(pool);
        split(record_lent.bytes(), record.len()).1.copy_from_slice(record);
        let (edge, space) = split(script_lent.words(), script.len());
        edge.fill(EDGE_WORD);
        space.copy_from_slice(script);
        pool_lent.read_only(true);
        record_lent.read_only(true);
        let result = raw::prepare(
            split(pool_lent.words(), pool.len()).1,
            split(record_lent.bytes(), record.len()).1,
            space,
        );
        pool_lent.read_only(false);
        record_lent.read_only(false);
        let kept = edge.iter().all(|word| *word == EDGE_WORD);
        script.copy_from_slice(space);
        let answer = if kept { result.answer } else { BEFORE_THE_SLICE };
        Outcome { answer, number: result.number }
    })
}
