//! Applying scripts (P11): random ones, good and bad, and those that lie between the words before and after a command of the
//! library, whole, cut anywhere, and after any of the writes; by reference and by the library, on a pool and a script that
//! end at an unreadable page. What kinds they are of, by reference alone.

use crate::batches::record;
use crate::figures::{Figures, Of};
use crate::os::Guarded;
use crate::pools::{random_words, well_formed};
use reference::answers::{BAD_SCRIPT, DONE, POOL_LENGTH};
use reference::awkward::Commands as Source;
use reference::calls::Outcome;
use reference::pool::{pool_length, MOST_NODES};
use reference::random::Random;
use reference::scripts::{apply, script};
use xapool_host::raw;

/// A script and the words that it is applied to; where it lies between two states, the second.
#[derive(Clone, Debug, PartialEq, Eq)]
pub struct Applying {
    pub words: Vec<u64>,
    pub script: Vec<u64>,
    pub after: Option<Vec<u64>>,
    /// For the cuts and the writes that are done.
    pub seed: u64,
}

/// Room for a place and a value for each word of the largest pool, and half a pair.
const MOST_WORDS: usize = pool_length(MOST_NODES + 1);
const MOST_SCRIPT: usize = 2 * MOST_WORDS + 1;
/// How many words before the pool are watched, and what stands there.
const EDGE: usize = 64;
const EDGE_WORD: u64 = 0xA5A5_A5A5_A5A5_A5A5;

fn random_place(random: &mut Random, words: usize) -> u64 {
    let words = words as u64;
    match random.below(64) {
        0 => words.saturating_sub(1),
        1 => 0,
        _ => random.below(words.max(1)),
    }
}

/// A place that the pool does not have.
fn beyond(random: &mut Random, words: usize) -> u64 {
    let words = words as u64;
    match random.below(5) {
        0 => words + random.below(3),
        1 => u64::MAX - random.below(2),
        2 => (1 << 61) + random.below(words.max(1)),
        3 => (1 << 32) + random.below(words.max(1)),
        _ => words,
    }
}

fn random_script(random: &mut Random, words: usize) -> Vec<u64> {
    let most = if random.one_in(8) { 300 } else { 6 };
    let pairs = random.below(most);
    let mut script: Vec<u64> =
        (0..pairs).flat_map(|_| [random_place(random, words), random.word()]).collect();
    if pairs > 1 && random.one_in(3) {
        script[2] = script[0];
    }
    if pairs > 0 && random.one_in(3) {
        let pair = match random.below(3) {
            0 => pairs - 1,
            _ => random.below(pairs),
        };
        script[2 * pair as usize] = beyond(random, words);
    }
    if random.one_in(4) {
        script.push(random_place(random, words));
    }
    script
}

/// The words before and after one batch of a few commands by the library, mostly of one. What changes nothing is tried
/// again, a few times.
fn real(random: &mut Random, source: &mut Source) -> (Vec<u64>, Vec<u64>) {
    let nodes = if random.one_in(40) { 300 } else { 1 + random.below(30) as usize };
    let before = well_formed(random, source, nodes);
    let mut after = before.clone();
    for _ in 0..4 {
        let commands = if random.one_in(8) { 1 + random.below(40) } else { 1 };
        let batch: Vec<u8> = (0..commands).flat_map(|_| record(source.command())).collect();
        let _ = raw::run(&mut after, &batch, &mut vec![0; 24 * commands as usize]);
        if after != before {
            break;
        }
    }
    (before, after)
}

impl Applying {
    pub fn random(seed: u64) -> Applying {
        let mut random = Random::new(seed);
        let mut source = Source::new(Random::new(random.word()));
        if random.one_in(2) {
            let words = random_words(&mut random, &mut source);
            let script = random_script(&mut random, words.len());
            return Applying { words, script, after: None, seed };
        }
        let (words, after) = real(&mut random, &mut source);
        let script = script(&words, &after);
        Applying { words, script, after: Some(after), seed }
    }

    /// The words that each apply begins from: those before, and, where the script lies between two states, what some of
    /// its writes made of them: every cut of a short one, some of a longer one, a second cut after it, any writes in any
    /// order, and garbage in words of the script.
    pub fn states(&self) -> Vec<Vec<u64>> {
        let mut states = vec![self.words.clone()];
        if self.after.is_none() {
            return states;
        }
        let mut random = Random::new(self.seed ^ 1);
        let pairs = self.script.len() / 2;
        let cuts: Vec<usize> = match pairs {
            0..=24 => (1..=pairs).collect(),
            _ => (0..12).map(|_| random.below(pairs as u64 + 1) as usize).collect(),
        };
        for cut in cuts {
            let mut words = self.words.clone();
            self.write(&mut words, 0..cut);
            states.push(words.clone());
            self.write(&mut words, 0..random.below(pairs as u64 + 1) as usize);
            states.push(words);
        }
        for garbage in [false, true].repeat(usize::from(pairs > 0) * 4) {
            let mut words = self.words.clone();
            let some = random.below(2 * pairs as u64 + 1);
            let places: Vec<usize> =
                (0..some).map(|_| random.below(pairs as u64) as usize).collect();
            self.write(&mut words, places.iter().copied());
            let at = self.script[2 * random.below(pairs as u64) as usize] as usize;
            words[at] ^= u64::from(garbage) * random.word();
            states.push(words);
        }
        states
    }

    /// These pairs written, in this order.
    fn write(&self, words: &mut [u64], pairs: impl Iterator<Item = usize>) {
        for pair in pairs {
            words[self.script[2 * pair] as usize] = self.script[2 * pair + 1];
        }
    }

    pub fn difference(&self, figures: Option<Figures>) -> Option<String> {
        self.difference_by(&by_library, figures)
    }

    /// The first difference of another program from reference and from the words after.
    pub fn difference_by(
        &self,
        other: &dyn Fn(&mut [u64], &[u64]) -> Outcome,
        figures: Option<Figures>,
    ) -> Option<String> {
        let states = self.states();
        if let Some(figures) = figures {
            figures.add(Of::Applies, states.len());
            figures.add(Of::AppliedWords, states.len() * self.words.len());
            figures.add(Of::Cuts, states.len() - 1);
            figures.count_applying(&kinds(self));
        }
        states.iter().enumerate().find_map(|(number, before)| {
            let (mut wanted, mut found) = (before.clone(), before.clone());
            let answers = [apply(&mut wanted, &self.script), other(&mut found, &self.script)];
            let place = (0..wanted.len()).find(|at| wanted[*at] != found[*at]);
            let right = self.after.as_ref().is_none_or(|after| *after == wanted);
            let same = answers[0] == answers[1] && place.is_none() && right;
            (!same).then(|| format!("state {number}: {answers:?}, first word that differs {place:?}, is the uncut one {right}"))
        })
    }

    /// Without one of its pairs, or the half at the end.
    pub fn smaller(&self) -> impl Iterator<Item = Applying> + '_ {
        (0..self.script.len().div_ceil(2)).map(|pair| {
            let mut smaller = self.clone();
            smaller.script.drain(2 * pair..(2 * pair + 2).min(self.script.len()));
            smaller.after = self.after.as_ref().map(|_| {
                let mut words = self.words.clone();
                let _ = apply(&mut words, &smaller.script);
                words
            });
            smaller
        })
    }

    pub fn show(&self) -> String {
        format!("{} words, script {:x?}\n", self.words.len(), self.script)
    }
}

/// The pool ends at an unreadable page, and so does the script, which cannot be written meanwhile.
pub fn by_library(pool: &mut [u64], script: &[u64]) -> Outcome {
    thread_local!(static LENT: std::cell::RefCell<[Guarded; 2]> =
        [Guarded::new(8 * MOST_WORDS), Guarded::new(8 * MOST_SCRIPT)].into());
    LENT.with_borrow_mut(|[pool_lent, script_lent]| {
        let start = script_lent.words().len() - script.len();
        script_lent.words()[start..].copy_from_slice(script);
        script_lent.read_only(true);
        let (before, lent) = {
            let all = pool_lent.words();
            let start = all.len() - pool.len();
            all.split_at_mut(start)
        };
        let edge = before.len() - EDGE;
        before[edge..].fill(EDGE_WORD);
        lent.copy_from_slice(pool);
        let result = raw::apply(lent, &script_lent.words()[start..]);
        script_lent.read_only(false);
        pool.copy_from_slice(lent);
        let kept = before[edge..].iter().all(|word| *word == EDGE_WORD);
        // An answer that reference never gives, if a word before the pool was written.
        Outcome { answer: if kept { result.answer } else { u64::MAX }, number: result.number }
    })
}

/// What an applying is, by reference; it may be several.
#[derive(Clone, Copy, Debug, PartialEq, Eq, PartialOrd, Ord)]
pub enum Kind {
    Done,
    WrongSize,
    HalfPair,
    Outside,
    BothAmiss,
    JustBeyond,
    LastPlace,
    OutsideLast,
    Empty,
    Falling,
    Twice,
    NotWellFormed,
    OfCommand,
    OfLong,
    OfNoChange,
}

pub const KINDS: [(Kind, &str); 15] = [
    (Kind::Done, "0"),
    (Kind::WrongSize, "1"),
    (Kind::HalfPair, "17, half a pair alone"),
    (Kind::Outside, "17, a place alone"),
    (Kind::BothAmiss, "17, both"),
    (Kind::JustBeyond, "the place behind the pool"),
    (Kind::LastPlace, "the last place"),
    (Kind::OutsideLast, "all but the last pair good"),
    (Kind::Empty, "no pair"),
    (Kind::Falling, "places that do not rise"),
    (Kind::Twice, "a place twice"),
    (Kind::NotWellFormed, "a pool that is not well-formed"),
    (Kind::OfCommand, "of commands"),
    (Kind::OfLong, "of commands, over 24 pairs"),
    (Kind::OfNoChange, "of commands, no word changes"),
];

pub fn kinds(applying: &Applying) -> Vec<Kind> {
    let Applying { words, script, after, .. } = applying;
    let (pairs, half) = script.as_chunks::<2>();
    let places: Vec<u64> = pairs.iter().map(|[place, _]| *place).collect();
    let length = words.len() as u64;
    let answer = apply(&mut words.clone(), script).answer;
    let out = places.iter().filter(|place| **place >= length).count();
    let amiss = answer == u64::from(BAD_SCRIPT);
    let mut kinds = Vec::new();
    let mut add = |kind, is: bool| kinds.extend(is.then_some(kind));
    add(Kind::Done, answer == u64::from(DONE));
    add(Kind::WrongSize, answer == u64::from(POOL_LENGTH));
    add(Kind::HalfPair, amiss && out == 0);
    add(Kind::Outside, amiss && half.is_empty());
    add(Kind::BothAmiss, amiss && out > 0 && !half.is_empty());
    add(Kind::JustBeyond, amiss && places.contains(&length));
    let last = length.checked_sub(1);
    add(Kind::LastPlace, answer == 0 && last.is_some_and(|last| places.contains(&last)));
    let bad_last = places.last().is_some_and(|place| *place >= length);
    add(Kind::OutsideLast, amiss && out == 1 && bad_last && places.len() > 1);
    add(Kind::Empty, script.is_empty());
    add(Kind::Falling, answer == 0 && !places.is_sorted());
    let twice = (1..places.len()).any(|at| places[..at].contains(&places[at]));
    add(Kind::Twice, answer == 0 && twice);
    add(Kind::NotWellFormed, answer == 0 && raw::check(words).answer == 2);
    add(Kind::OfCommand, after.is_some());
    add(Kind::OfLong, after.is_some() && pairs.len() > 24);
    add(Kind::OfNoChange, after.is_some() && pairs.is_empty());
    kinds
}
