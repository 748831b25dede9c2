//! A list of calls on one pool.

use crate::batches::{cuts, parts, random_batch, show};
use crate::figures::{Figures, Of};
use crate::lend::{by_reference, Call, Given, Lender};
use crate::listings::random_listing;
use crate::pools::{random_words, recount};
use reference::awkward::Commands as Source;
use reference::batch::{read, MOST_BATCH_BYTES};
use reference::pool::{node_count, pool_length, State};
use reference::random::Random;
use std::iter;

/// Reference's pool, which lags behind the calls until a listing asks where its entries are.
struct Followed {
    words: Vec<u64>,
    made: usize,
}

impl Followed {
    fn after(&mut self, calls: &[Call]) -> &[u64] {
        for call in &calls[self.made..] {
            by_reference(call, &mut self.words);
        }
        self.made = calls.len();
        &self.words
    }
}

/// The words it starts from, and the calls.
#[derive(Clone, Debug, PartialEq, Eq)]
pub struct CallList {
    pub words: Vec<u64>,
    pub calls: Vec<Call>,
}

impl CallList {
    pub fn random(seed: u64) -> CallList {
        let mut random = Random::new(seed);
        let mut source = Source::new(Random::new(random.word()));
        let words = random_words(&mut random, &mut source);
        let mut pool = Followed { words: words.clone(), made: 0 };
        let mut calls = Vec::new();
        for _ in 0..=random.below(6) {
            let call = if random.one_in(4) {
                random_listing(&mut random, pool.after(&calls))
            } else {
                random_call(&mut random, &mut source)
            };
            calls.push(call);
        }
        CallList { words, calls }
    }

    /// The first difference, with the number of the call.
    pub fn difference(&self, figures: Option<Figures>) -> Option<String> {
        let count = |call: &Call, before: &[u64], pool: &[u64], given: &Given| {
            figures.iter().for_each(|figures| figures.count(call, before, pool, given));
        };
        let difference = self.first_difference(count);
        if let (None, Some(figures)) = (&difference, figures) {
            figures.add(Of::Lists, 1);
        }
        difference
    }

    /// The same for a list that is made for finds, which are counted by their kinds.
    pub fn difference_in_finds(&self, figures: Option<Figures>) -> Option<String> {
        let count = |call: &Call, before: &[u64], pool: &[u64], given: &Given| {
            figures.iter().for_each(|figures| figures.count_finds(call, before, pool, given));
        };
        let difference = self.first_difference(count);
        if let (None, Some(figures)) = (&difference, figures) {
            figures.add(Of::FindLists, 1);
        }
        difference
    }

    /// Calls that do not differ are handed on, with the pool before and after them and what reference
    /// gave.
    fn first_difference(
        &self,
        mut count: impl FnMut(&Call, &[u64], &[u64], &Given),
    ) -> Option<String> {
        // One lender for all lists: a new one would map its memory each time.
        thread_local!(static LENDER: std::cell::RefCell<Lender> = Lender::new().into());
        LENDER.with_borrow_mut(|lender| {
            let mut pool = self.words.clone();
            lender.set_pool(&pool);
            for (number, call) in self.calls.iter().enumerate() {
                let before = pool.clone();
                let (given, difference) = lender.difference(call, &mut pool);
                if let Some(text) = difference {
                    return Some(format!("call {}: {text}", number + 1));
                }
                count(call, &before, &pool, &given);
            }
            None
        })
    }

    /// Smaller lists, the much smaller ones first. Each is made when it is asked for: all those of a
    /// large pool would not fit into memory.
    pub fn smaller(&self) -> impl Iterator<Item = CallList> + '_ {
        let commands = (0..self.calls.len())
            .flat_map(|number| self.fewer_commands(number).chain(self.narrower(number)));
        self.fewer_calls().chain(self.smaller_pools()).chain(commands).chain(self.fewer_words())
    }

    fn fewer_calls(&self) -> impl Iterator<Item = CallList> + '_ {
        let without = |number: usize| {
            let mut list = self.clone();
            list.calls.remove(number);
            list
        };
        (0..self.calls.len()).rev().map(without)
    }

    fn with_words(&self, words: Vec<u64>) -> CallList {
        CallList { words, calls: self.calls.clone() }
    }

    fn with_call(&self, number: usize, call: Call) -> CallList {
        let mut list = self.clone();
        list.calls[number] = call;
        list
    }

    /// An initialised pool, or fewer nodes.
    fn smaller_pools(&self) -> impl Iterator<Item = CallList> + '_ {
        let nodes = node_count(self.words.len()).unwrap_or(0);
        let empty = iter::once_with(move || State::empty(nodes).words());
        let empty = empty.filter(move |words| nodes > 0 && *words != self.words);
        let fewer = [1, nodes / 2, nodes.saturating_sub(1)].into_iter();
        let fewer = fewer.filter(move |fewer| (1..nodes).contains(fewer)).map(move |fewer| {
            let mut words = self.words[..pool_length(fewer)].to_vec();
            words[0] = if words[0] == nodes as u64 { fewer as u64 } else { words[0] };
            words
        });
        empty.chain(fewer).map(|words| self.with_words(words))
    }

    /// One call with as much reply space as it needs, if it has more; then its batch without some of
    /// its records, its reply space as long or short as before.
    fn fewer_commands(&self, number: usize) -> impl Iterator<Item = CallList> + '_ {
        let (parts, reply) = match &self.calls[number] {
            Call::Run { batch, reply } => (parts(batch), *reply),
            _ => (Vec::new(), 0),
        };
        let (count, batch) = (parts.len(), parts.concat());
        let exact = (24 * count < reply).then(|| Call::Run { batch, reply: 24 * count });
        let fewer = move |(from, to): (usize, usize)| {
            let batch = [&parts[..from], &parts[to..]].concat().concat();
            Call::Run { batch, reply: reply.saturating_sub(24 * (to - from)) }
        };
        let cuts = cuts(count).map(fewer);
        exact.into_iter().chain(cuts).map(move |call| self.with_call(number, call))
    }

    /// One listing with a smaller range or buffer.
    fn narrower(&self, number: usize) -> impl Iterator<Item = CallList> + '_ {
        let calls = match self.calls[number] {
            Call::List { first, last, buffer } => narrower_calls(first, last, buffer),
            _ => Vec::new(),
        };
        let other = calls.into_iter().filter(move |call| *call != self.calls[number]);
        other.map(move |call| self.with_call(number, call))
    }

    /// One word 0 that was not, also with the filled counts set right after it, but for small pools
    /// only.
    fn fewer_words(&self) -> impl Iterator<Item = CallList> + '_ {
        let filled = (1..self.words.len()).filter(|place| self.words[*place] != 0);
        let without = |place: usize| {
            let mut words = self.words.clone();
            words[place] = 0;
            let mut counted = words.clone();
            recount(&mut counted);
            [words, counted].map(|words| self.with_words(words))
        };
        filled.take(150).flat_map(without).filter(|list| list.words != self.words)
    }

    pub fn show(&self) -> String {
        let mut text = format!("a pool of {} words", self.words.len());
        let nodes = node_count(self.words.len());
        if nodes.is_some_and(|nodes| self.words == State::empty(nodes).words()) {
            text += &format!(", initialised: {} nodes\n", self.words[0]);
        } else {
            text += "; those that are not 0:\n";
            for (place, word) in self.words.iter().enumerate().filter(|(_, word)| **word != 0) {
                text += &format!("  word {place}: {word:#x}\n");
            }
        }
        for (number, call) in self.calls.iter().enumerate() {
            text += &format!("call {}: ", number + 1);
            text += &match call {
                Call::Init => "init\n".into(),
                Call::Check => "check\n".into(),
                Call::Run { batch, reply } => {
                    format!("run, reply space {reply}\n{}", show(batch))
                }
                Call::List { first, last, buffer } => {
                    format!("list from {first} to {last}, buffer {buffer}\n")
                }
            };
        }
        text
    }
}

/// The listing with a smaller range or buffer.
fn narrower_calls(first: u64, last: u64, buffer: usize) -> Vec<Call> {
    let middle = first + last.saturating_sub(first) / 2;
    let ranges = [(first, first), (last, last), (first, middle), (middle.saturating_add(1), last)];
    let ranges = ranges.into_iter().filter(|(a, b)| first <= *a && a <= b && *b <= last);
    let mut all: Vec<Call> =
        ranges.map(|(first, last)| Call::List { first, last, buffer }).collect();
    if first > last {
        all.push(Call::List { first: 1, last: 0, buffer });
    }
    let buffers = [0, buffer / 2, buffer.saturating_sub(21), buffer.saturating_sub(1)];
    all.extend(buffers.map(|buffer| Call::List { first, last, buffer }));
    all
}

fn random_call(random: &mut Random, source: &mut Source) -> Call {
    match random.below(12) {
        0 => Call::Init,
        1 | 2 => Call::Check,
        _ => {
            let batch = random_batch(random, source, MOST_BATCH_BYTES);
            let reply = reply_space(random, &batch);
            Call::Run { batch, reply }
        }
    }
}

/// Mostly as much as the replies need; at times a byte or more too little or too much.
fn reply_space(random: &mut Random, batch: &[u8]) -> usize {
    let exact = read(batch).map_or(24 * random.below(5) as usize, |commands| 24 * commands.len());
    match random.below(16) {
        0 => exact.saturating_sub(1),
        1 => random.below(exact as u64 + 1) as usize,
        2 => exact + 1,
        3 | 4 => exact + random.below(200) as usize,
        _ => exact,
    }
}
