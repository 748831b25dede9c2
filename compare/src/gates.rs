//! Gates (P14): random kinds, limits as bit patterns and counts, by reference and by the library; what kinds
//! they are of, by reference alone.

use crate::figures::{Figures, Of};
use reference::gates::{verdict, Gate, Verdict};
use reference::random::Random;
use xapool_host::raw;

/// One call: the limits by their bits.
#[derive(Clone, Copy, Debug, PartialEq, Eq)]
pub struct Ask {
    pub kind: u64,
    pub a: u64,
    pub b: u64,
    pub part: u32,
    pub total: u32,
}

/// So many in a row, each by itself.
#[derive(Clone, Debug, PartialEq, Eq)]
pub struct Asks(pub Vec<Ask>);

/// A row is so long; and so many rows are compared whatever the time, 12 million calls with two limits each.
pub const IN_A_ROW: usize = 10_000;
pub const LEAST_ROWS: u64 = 1_200;

const ONE: u64 = 0x3FF0_0000_0000_0000;
const MINUS: u64 = 1 << 63;
const INFINITE: u64 = 0x7FF0_0000_0000_0000;

/// Zeros, the subnormals' ends, just below 0, around 1/3, 1/2, 1 and what is just outside; infinite; not a number,
/// quiet and signalling, of either sign.
const EDGES: [u64; 24] = [
    0,
    MINUS,
    1,
    MINUS + 1,
    0x000F_FFFF_FFFF_FFFF,
    0x0010_0000_0000_0000,
    0x3DF0_0000_0010_0000,
    0x3FD5_5555_5555_5554,
    0x3FD5_5555_5555_5555,
    0x3FD5_5555_5555_5556,
    0x3FE0_0000_0000_0000,
    0x3FEF_FFFF_FFE0_0000,
    ONE - 1,
    ONE,
    ONE + 1,
    MINUS + ONE,
    0x7FEF_FFFF_FFFF_FFFF,
    INFINITE,
    MINUS + INFINITE,
    INFINITE + 1,
    0x7FF4_0000_0000_0000,
    0x7FF8_0000_0000_0000,
    0x7FFF_FFFF_FFFF_FFFF,
    u64::MAX,
];

fn random_count(random: &mut Random) -> u32 {
    match random.below(16) {
        0 => u32::MAX - random.below(3) as u32,
        1 => random.below(4) as u32,
        _ => (random.word() >> (32 + random.below(32))) as u32,
    }
}

fn random_part(random: &mut Random, total: u32) -> u32 {
    match random.below(8) {
        0 => total,
        1 => total.wrapping_sub(1),
        2 => total.wrapping_add(1 + random.below(3) as u32),
        3 => random_count(random),
        _ => random.below(u64::from(total) + 1) as u32,
    }
}

fn random_limit(random: &mut Random) -> u64 {
    match random.below(4) {
        0 => random.word(),
        1 => EDGES[random.below(EDGES.len() as u64) as usize],
        // A float from 0 to 1, and one from 1/2 to 1 with any last bits.
        2 => (random.below(1 << 53) as f64 / (1_u64 << 53) as f64).to_bits(),
        _ => ONE - 1 - random.below(1 << 52),
    }
}

impl Ask {
    fn random(random: &mut Random) -> Ask {
        let kind = match random.below(64) {
            0 => [0, 4, 257, (1 << 32) + 1][random.below(4) as usize],
            1 => random.word(),
            _ => 1 + random.below(3),
        };
        let total = random_count(random);
        let part = random_part(random, total);
        let mut ask = Ask { kind, a: random_limit(random), b: random_limit(random), part, total };
        if random.below(8) < 5 {
            ask.beside(random);
        }
        ask
    }

    /// With limits at the exact quotient, rounded, and its neighbours.
    fn beside(&mut self, random: &mut Random) {
        self.total = self.total.max(1);
        self.part = self.part.min(self.total);
        let share = self.share().to_bits();
        let mut near = || (share + random.below(3)).saturating_sub(1);
        (self.a, self.b) = (near(), near());
        if random.one_in(2) {
            (self.a, self.b) = (self.a.min(self.b), self.a.max(self.b));
        }
    }

    fn share(self) -> f64 {
        f64::from(self.part) / f64::from(self.total)
    }

    fn floats(self) -> [f64; 2] {
        [self.a, self.b].map(f64::from_bits)
    }

    pub fn by_reference(self) -> [u64; 2] {
        let [a, b] = self.floats();
        let Verdict { answer, pass } = verdict(self.kind, a, b, self.part, self.total);
        [answer.into(), pass.into()]
    }

    pub fn by_library(self) -> [u64; 2] {
        let [a, b] = self.floats();
        let given = raw::gate(self.kind, a, b, self.part, self.total);
        [given.answer, given.number]
    }

    /// The limits that the kind looks at.
    fn own(self) -> Vec<f64> {
        let [a, b] = self.floats();
        match Gate::of_kind(self.kind, a, b) {
            Some(Gate::AtLeast(limit) | Gate::AtMost(limit)) => vec![limit],
            Some(Gate::Between(a, b)) => vec![a, b],
            None => vec![],
        }
    }

    fn show(self) -> String {
        let Ask { kind, a, b, part, total } = self;
        let [x, y] = self.floats();
        format!(
            "kind {kind}, a {a:#018x} ({x:e}), b {b:#018x} ({y:e}), part {part}, total {total}\n"
        )
    }
}

impl Asks {
    pub fn random(seed: u64) -> Asks {
        let mut random = Random::new(seed);
        Asks((0..IN_A_ROW).map(|_| Ask::random(&mut random)).collect())
    }

    pub fn difference(&self, figures: Option<Figures>) -> Option<String> {
        if let Some(figures) = figures {
            figures.add(Of::Gates, self.0.len());
            self.0.iter().for_each(|ask| figures.count_gate(&kinds(*ask)));
        }
        self.0.iter().find_map(|ask| {
            let (wanted, found) = (ask.by_reference(), ask.by_library());
            (wanted != found).then(|| format!("{}wanted {wanted:?}\nfound  {found:?}", ask.show()))
        })
    }

    /// One half of them, or one alone.
    pub fn smaller(&self) -> impl Iterator<Item = Asks> + '_ {
        let (first, second) = self.0.split_at(self.0.len() / 2);
        let halves = [first, second].map(|half| Asks(half.to_vec()));
        let each = self.0.iter().take(64).map(|ask| Asks(vec![*ask]));
        halves.into_iter().chain(each)
    }

    pub fn show(&self) -> String {
        self.0.iter().map(|ask| ask.show()).collect()
    }
}

/// What a gate is, by reference; it may be several.
#[derive(Clone, Copy, Debug, PartialEq, Eq, PartialOrd, Ord)]
pub enum Kind {
    Pass,
    Fail,
    Bad,
    NoTotal,
    PartAbove,
    AtLimit,
    BesideLimit,
    NotANumber,
    Infinite,
    Subnormal,
    MinusNought,
    Unlooked,
    NothingAbove,
    Other,
    Between,
    AAboveB,
}

pub const KINDS: [(Kind, &str); 16] = [
    (Kind::Pass, "pass"),
    (Kind::Fail, "fail"),
    (Kind::Bad, "18"),
    (Kind::NoTotal, "19"),
    (Kind::PartAbove, "20"),
    (Kind::AtLimit, "a limit at the share"),
    (Kind::BesideLimit, "a limit next to it"),
    (Kind::NotANumber, "not a number"),
    (Kind::Infinite, "infinite"),
    (Kind::Subnormal, "subnormal"),
    (Kind::MinusNought, "-0.0"),
    (Kind::Unlooked, "a bad limit not looked at"),
    (Kind::NothingAbove, "a part of nothing"),
    (Kind::Other, "no kind"),
    (Kind::Between, "between two floats or at one"),
    (Kind::AAboveB, "a just above b"),
];

pub fn kinds(ask: Ask) -> Vec<Kind> {
    let (given, own) = (ask.by_reference(), ask.own());
    let bad = |limit: &f64| !(0.0..=1.0).contains(limit);
    let mut kinds = Vec::new();
    let mut add = |kind, is: bool| kinds.extend(is.then_some(kind));
    add(Kind::Pass, given == [0, 1]);
    add(Kind::Fail, given == [0, 0]);
    add(Kind::Bad, given[0] == 18);
    add(Kind::NoTotal, given[0] == 19);
    add(Kind::PartAbove, given[0] == 20);
    let share = ask.share().to_bits();
    let apart = |limit: &f64| limit.to_bits().abs_diff(share);
    add(Kind::AtLimit, given[0] == 0 && own.iter().any(|limit| apart(limit) == 0));
    add(Kind::BesideLimit, given[0] == 0 && own.iter().any(|limit| apart(limit) == 1));
    add(Kind::NotANumber, own.iter().any(|limit| limit.is_nan()));
    add(Kind::Infinite, own.iter().any(|limit| limit.is_infinite()));
    add(Kind::Subnormal, own.iter().any(|limit| limit.is_subnormal()));
    add(Kind::MinusNought, own.iter().any(|limit| limit.to_bits() == MINUS));
    add(Kind::Unlooked, given[0] == 0 && ask.floats().iter().any(bad));
    add(Kind::NothingAbove, given[0] == 19 && ask.part > 0);
    add(Kind::Other, own.is_empty());
    let two = own.len() == 2;
    add(Kind::Between, two && given == [0, 1] && ask.b.wrapping_sub(ask.a) < 2);
    add(Kind::AAboveB, two && given[0] == 18 && ask.a.wrapping_sub(ask.b) == 1);
    kinds
}
