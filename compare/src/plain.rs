//! The plain engine (P12): lists of calls on four slices, by reference and by the library, and from empty slices also
//! beside the library's tree.

use crate::batches::{cuts, parts, random_batch, record, show};
use crate::figures::{Figures, Of};
use crate::lend::{given, given_differs, space_byte, split, Call, Given, EDGE_BYTE, EDGE_WORD};
use crate::os::Guarded;
use crate::plain_slices::{random_slices, Slices};
use crate::{indices, plain_kinds};
use reference::awkward::Commands as Source;
use reference::batch::{read, Command, MOST_BATCH_BYTES, REPLY_BYTES};
use reference::model::Entry;
use reference::plain::{self, MOST_ENTRIES};
use reference::random::Random;
use xapool_host::{pool_words, raw};

/// The slices that it starts from, and the calls. From slices that are empty the tree runs the same batches on a new pool of
/// so many nodes.
#[derive(Clone, Debug, PartialEq, Eq)]
pub struct PlainList {
    pub slices: Slices,
    pub calls: Vec<Call>,
    pub nodes: Option<usize>,
}

/// Enough for the tree not to run short, in most lists.
const MANY_NODES: usize = 400;

impl PlainList {
    pub fn random(seed: u64) -> PlainList {
        let mut random = Random::new(seed);
        let mut source = Source::new(Random::new(random.word()));
        let slices = random_slices(&mut random, &mut source);
        let is_empty = plain::held(shared(&slices)).is_some_and(|list| list.is_empty());
        let nodes = match random.below(16) {
            _ if !is_empty => None,
            0 => Some(1 + random.below(20) as usize),
            _ => Some(MANY_NODES),
        };
        let (mut after, mut calls) = (slices.clone(), Vec::new());
        for _ in 0..=random.below(6) {
            let call = random_call(&mut random, &mut source, &after);
            by_reference(&call, &mut after);
            calls.push(call);
        }
        PlainList { slices, calls, nodes }
    }

    /// The first difference of reference and library, or of the library's two engines, with the number of the call.
    pub fn difference(&self, figures: Option<Figures>) -> Option<String> {
        self.difference_by(figures, library)
    }

    /// The same with another than the library, which gives what it was asked for or says what else it did.
    pub fn difference_by(
        &self,
        figures: Option<Figures>,
        mut by: impl FnMut(&Call, &mut Slices) -> Result<Given, String>,
    ) -> Option<String> {
        let (mut slices, mut lent) = (self.slices.clone(), self.slices.clone());
        let mut tree = self.nodes.and_then(Tree::of);
        for (number, call) in self.calls.iter().enumerate() {
            let before = slices.clone();
            let wanted = by_reference(call, &mut slices);
            let found = match by(call, &mut lent) {
                Ok(found) => found,
                Err(text) => return Some(format!("call {}: {text}", number + 1)),
            };
            let difference = given_differs(call, &wanted, &found, "library");
            let difference = difference.or_else(|| slices_differ(&slices, &lent));
            let compared = tree.as_mut().is_some_and(|tree| tree.runs_beside(call, &found));
            let beside = || tree.as_ref().and_then(|tree| tree.differs(call, &found));
            if let Some(text) = difference.or_else(beside) {
                return Some(format!("call {}: {text}", number + 1));
            }
            if let Some(figures) = figures {
                figures.count_plain(
                    call,
                    &slices,
                    &wanted,
                    &plain_kinds::of(&before, call, &wanted),
                );
                figures.add(Of::PlainBeside, usize::from(compared));
            }
        }
        figures.iter().for_each(|figures| figures.add(Of::PlainLists, 1));
        None
    }

    /// Fewer calls, fewer commands, less room.
    pub fn smaller(&self) -> impl Iterator<Item = PlainList> + '_ {
        let fewer = (0..self.calls.len()).rev().map(|number| {
            let mut list = self.clone();
            list.calls.remove(number);
            list
        });
        let commands = (0..self.calls.len()).flat_map(|number| self.fewer_commands(number));
        let longest = self.slices.iter().map(Vec::len).max().unwrap_or(0);
        let shorter = [longest / 2, longest.saturating_sub(1)].map(|most| {
            let mut list = self.clone();
            list.slices.iter_mut().for_each(|slice| slice.truncate(most));
            list
        });
        let alone = PlainList { nodes: None, ..self.clone() };
        let places = (0..longest.min(150)).map(|at| {
            let mut list = self.clone();
            for slice in list.slices.iter_mut().filter(|slice| at < slice.len()) {
                slice.remove(at);
            }
            list
        });
        fewer.chain([alone]).chain(shorter).chain(commands).chain(places)
    }

    fn fewer_commands(&self, number: usize) -> impl Iterator<Item = PlainList> + '_ {
        let (parts, reply) = match &self.calls[number] {
            Call::Run { batch, reply } => (parts(batch), *reply),
            _ => (Vec::new(), 0),
        };
        cuts(parts.len()).map(move |(from, to)| {
            let batch = [&parts[..from], &parts[to..]].concat().concat();
            let mut list = self.clone();
            let less = REPLY_BYTES * (to - from);
            list.calls[number] = Call::Run { batch, reply: reply.saturating_sub(less) };
            list
        })
    }

    pub fn show(&self) -> String {
        let [index, order, word, marks] = &self.slices;
        let mut text = format!("slices of {:?} words", self.slices.each_ref().map(Vec::len));
        text += &self.nodes.map_or(String::new(), |nodes| format!(", beside {nodes} nodes"));
        text += "; index, order, word and marks where they are not 0:\n";
        for at in 0..self.slices.iter().map(Vec::len).max().unwrap_or(0) {
            let fields = [index, order, word, marks].map(|slice| slice.get(at).copied());
            if fields.iter().flatten().any(|word| *word != 0) {
                text += &format!("  {at}: {fields:?}\n");
            }
        }
        for (number, call) in self.calls.iter().enumerate() {
            text += &format!("call {}: ", number + 1);
            text += &match call {
                Call::Init => "init\n".into(),
                Call::Run { batch, reply } => format!("run, reply space {reply}\n{}", show(batch)),
                _ => "check\n".into(),
            };
        }
        text
    }
}

/// The call by the library, on slices that are lent for it. One lender for all: a new one would map its memory each time.
pub fn library(call: &Call, slices: &mut Slices) -> Result<Given, String> {
    thread_local!(static LENDER: std::cell::RefCell<Lender> = Lender::new().into());
    LENDER.with_borrow_mut(|lender| lender.call(call, slices))
}

pub fn shared(slices: &Slices) -> [&[u64]; 4] {
    slices.each_ref().map(Vec::as_slice)
}

pub fn by_reference(call: &Call, slices: &mut Slices) -> Given {
    let mut bytes = space_of(call);
    let lent = slices.each_mut().map(Vec::as_mut_slice);
    let outcome = match call {
        Call::Init => plain::init(lent),
        Call::Run { batch, .. } => plain::run(lent, batch, &mut bytes),
        _ => plain::check(shared(slices)),
    };
    Given { answer: outcome.answer, number: outcome.number, bytes }
}

/// What is in the reply space before a call.
fn space_of(call: &Call) -> Vec<u8> {
    match call {
        Call::Run { reply, .. } => (0..*reply).map(space_byte).collect(),
        _ => Vec::new(),
    }
}

const NAMES: [&str; 4] = ["index", "order", "word", "marks"];

fn slices_differ(wanted: &Slices, found: &Slices) -> Option<String> {
    (0..4).find_map(|field| {
        let (wanted, found) = (&wanted[field], &found[field]);
        let at = (0..wanted.len()).find(|at| wanted[*at] != found[*at])?;
        let (name, wanted, found) = (NAMES[field], wanted[at], found[at]);
        Some(format!(
            "{name} of place {at} differs: reference has {wanted:#x}, the library {found:#x}"
        ))
    })
}

/// The buffers that the library is lent, each up to an unreadable page.
struct Lender {
    slices: [Guarded; 4],
    batch: Guarded,
    space: Guarded,
}

impl Lender {
    fn new() -> Lender {
        Lender {
            slices: [(); 4].map(|()| Guarded::new(8 * (MOST_ENTRIES + 200))),
            batch: Guarded::new(MOST_BATCH_BYTES + 4000),
            space: Guarded::new(REPLY_BYTES * (MOST_BATCH_BYTES / 11) + 9000),
        }
    }

    /// The call on slices that are lent for it; what is before them, and before the reply space, must stay.
    fn call(&mut self, call: &Call, slices: &mut Slices) -> Result<Given, String> {
        for (lent, slice) in self.slices.iter_mut().zip(slices.iter()) {
            let (edge, lent) = split(lent.words(), slice.len());
            edge.fill(EDGE_WORD);
            lent.copy_from_slice(slice);
        }
        let (batch, bytes) = match call {
            Call::Run { batch, .. } => (&batch[..], space_of(call)),
            _ => (&[][..], Vec::new()),
        };
        split(self.batch.bytes(), batch.len()).1.copy_from_slice(batch);
        let (edge, space) = split(self.space.bytes(), bytes.len());
        edge.fill(EDGE_BYTE);
        space.copy_from_slice(&bytes);
        let given = self.made(call, slices.each_ref().map(Vec::len), batch.len(), bytes.len());
        let mut stay = split(self.space.bytes(), bytes.len()).0.iter().all(|x| *x == EDGE_BYTE);
        for (lent, slice) in self.slices.iter_mut().zip(slices) {
            let (edge, lent) = split(lent.words(), slice.len());
            stay &= edge.iter().all(|word| *word == EDGE_WORD);
            slice.copy_from_slice(lent);
        }
        stay.then_some(given).ok_or("something before a lent buffer was written".into())
    }

    fn made(&mut self, call: &Call, words: [usize; 4], batch: usize, space: usize) -> Given {
        let is_run = matches!(call, Call::Run { .. });
        let only_reads = !is_run && *call != Call::Init;
        self.slices.iter_mut().for_each(|slice| slice.read_only(only_reads));
        self.batch.read_only(true);
        let mut places = words.iter();
        let mut next = || places.next().copied().unwrap_or(0);
        let lent = self.slices.each_mut().map(|slice| split(slice.words(), next()).1);
        let bytes = split(self.space.bytes(), space).1;
        let result = match call {
            Call::Init => raw::plain_init(lent),
            Call::Run { .. } => raw::plain_run(lent, split(self.batch.bytes(), batch).1, bytes),
            _ => raw::plain_check(lent.map(|slice| &*slice)),
        };
        self.batch.read_only(false);
        self.slices.iter_mut().for_each(|slice| slice.read_only(false));
        given(result, split(self.space.bytes(), space).1)
    }
}

/// The library's tree beside the plain engine, while neither runs short and no find of the tree pauses.
struct Tree {
    pool: Vec<u64>,
    gave: Option<Given>,
    goes_on: bool,
}

impl Tree {
    fn of(nodes: usize) -> Option<Tree> {
        let mut pool = vec![0; pool_words(nodes)?];
        (raw::init(&mut pool).answer == 0).then_some(Tree { pool, gave: None, goes_on: true })
    }

    /// Makes the call; whether its replies are to be those that the plain engine gave.
    fn runs_beside(&mut self, call: &Call, plain: &Given) -> bool {
        self.gave = None;
        match call {
            Call::Run { batch, .. } if self.goes_on => {
                let mut bytes = space_of(call);
                let result = raw::run(&mut self.pool, batch, &mut bytes);
                let gave = given(result, &bytes);
                self.goes_on = ![plain, &gave].into_iter().any(is_short_or_paused);
                self.gave = self.goes_on.then_some(gave);
            }
            Call::Init => self.goes_on &= raw::init(&mut self.pool).answer == 0,
            _ => {}
        }
        self.gave.is_some()
    }

    fn differs(&self, call: &Call, plain: &Given) -> Option<String> {
        let tree = uncounted(self.gave.as_ref()?);
        given_differs(call, &tree, &uncounted(plain), "plain engine")
            .map(|text| format!("beside the library's tree (named reference here): {text}"))
    }
}

/// The replies that a run wrote.
fn replies(given: &Given) -> impl Iterator<Item = &[u8]> {
    let count = if given.answer == 0 { given.number as usize } else { 0 };
    given.bytes.chunks(REPLY_BYTES).take(count)
}

fn is_short_or_paused(given: &Given) -> bool {
    replies(given).any(|reply| [11, 13].contains(&reply[3]))
}

/// The replies without the counts of load and find.
fn uncounted(given: &Given) -> Given {
    let (count, mut given) = (replies(given).count(), given.clone());
    for reply in given.bytes.chunks_mut(REPLY_BYTES).take(count) {
        if [130, 134].contains(&reply[0]) {
            reply[22..].fill(0);
        }
    }
    given
}

fn random_call(random: &mut Random, source: &mut Source, slices: &Slices) -> Call {
    match random.below(16) {
        0 => Call::Init,
        1 | 2 => Call::Check,
        _ => {
            let list = plain::held(shared(slices)).unwrap_or_default();
            let batch = if random.one_in(3) && !list.is_empty() {
                near_batch(random, &list)
            } else {
                let batch = random_batch(random, source, MOST_BATCH_BYTES);
                unhurried(random, batch)
            };
            let reply = reply_space(random, &batch);
            Call::Run { batch, reply }
        }
    }
}

fn reply_space(random: &mut Random, batch: &[u8]) -> usize {
    let exact = read(batch).map_or(24, |commands| REPLY_BYTES * commands.len());
    match random.below(16) {
        0 => exact.saturating_sub(1 + random.below(2) as usize),
        1 => exact + random.below(60) as usize,
        _ => exact,
    }
}

/// Mostly with the largest budget in each find, so that the tree beside does not pause.
fn unhurried(random: &mut Random, batch: Vec<u8>) -> Vec<u8> {
    let Ok(commands) = read(&batch) else { return batch };
    let mut patient = |command| match command {
        Command::Find { first, last, filter, budget: 1.. } if !random.one_in(16) => {
            Command::Find { first, last, filter, budget: u16::MAX }
        }
        other => other,
    };
    commands.into_iter().flat_map(|command| record(patient(command))).collect()
}

/// Commands about the entries of a list: at their edges, in them, over them, between them.
fn near_batch(random: &mut Random, list: &[Entry]) -> Vec<u8> {
    (0..=random.below(12)).flat_map(|_| record(near_command(random, list))).collect()
}

fn near_command(random: &mut Random, list: &[Entry]) -> Command {
    let entry = list[random.below(list.len() as u64) as usize];
    let index = match random.below(4) {
        0 => indices::in_gap(random, list),
        _ => indices::about(random, entry),
    };
    let mark = random.below(4) as u8;
    match random.below(16) {
        0..=6 => near_store(random, entry, index),
        7 | 8 => Command::Erase { index },
        9 => Command::Load { index },
        10 => Command::Mark { index, mark },
        11 => Command::Unmark { index, mark },
        12 | 13 => Command::Reserve { index },
        _ => {
            let first = indices::first(random, list);
            let last = indices::last(random, list, first);
            Command::Find { first, last, filter: random.below(4) as u8, budget: u16::MAX }
        }
    }
}

/// Of the entry's order or near it, or any; mostly at a multiple of 2^order.
fn near_store(random: &mut Random, entry: Entry, index: u64) -> Command {
    let order = match random.below(8) {
        0..=2 => 0,
        3 => entry.order,
        4 => entry.order + 1 + random.below(3) as u8,
        5 => entry.order.saturating_sub(1),
        6 => entry.order + random.below(8) as u8,
        _ => random.below(65) as u8,
    };
    let block = 1u64.checked_shl(order.into()).unwrap_or(1);
    let index = if random.one_in(16) { index } else { index - index % block };
    let word = if random.one_in(24) { 4 * random.below(3) + 2 } else { 2 * random.below(900) + 1 };
    Command::Store { index, order, word }
}
