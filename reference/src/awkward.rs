//! Random commands at awkward indices, gathered so that they often meet each other's entries.

use crate::batch::Command;
use crate::random::Random;

const AWKWARD: [u64; 12] =
    [0, 8, 64, 128, 4096, 4096 + 64, 1 << 18, 1 << 24, 1 << 60, 1 << 63, 3 << 62, u64::MAX];

/// A store that was made before.
#[derive(Clone, Copy)]
struct Stored {
    index: u64,
    order: u8,
    word: u64,
}

impl Stored {
    fn again(self) -> Command {
        Command::Store { index: self.index, order: self.order, word: self.word }
    }
}

/// A source of commands; most of their indices lie about a few centres or were stored at or reserved
/// before.
pub struct Commands {
    random: Random,
    centres: Vec<u64>,
    stored: Vec<Stored>,
    /// Indices that were to be reserved.
    reserved: Vec<u64>,
    /// Commands to come: stores over what was given mark 2, and what meets a reservation.
    to_come: Vec<Command>,
    /// What it begins with, the last first.
    opening: Vec<Command>,
}

impl Commands {
    pub fn new(mut random: Random) -> Commands {
        let centres = (0..1 + random.below(3)).map(|_| AWKWARD[random.below(12) as usize]);
        let centres = centres.collect();
        let opening = opening(&mut random);
        let (stored, reserved, to_come) = (Vec::new(), Vec::new(), Vec::new());
        Commands { random, centres, stored, reserved, to_come, opening }
    }

    fn index(&mut self) -> u64 {
        match self.random.below(16) {
            0 => self.random.word() >> self.random.below(64),
            1 => 1 << self.random.below(64),
            2 => self.random.below(256),
            3 | 4 => self.near(6),
            5 => self.near(12),
            _ => self.near(0),
        }
    }

    /// An index at which something was stored or that was reserved, one near it, or any index.
    fn likely(&mut self) -> u64 {
        if self.random.one_in(3) {
            return self.index();
        }
        let near = match (self.stored.is_empty(), self.reserved.is_empty()) {
            (true, true) => return self.index(),
            (true, false) => self.reserved_before(),
            (false, false) if self.random.one_in(3) => self.reserved_before(),
            (false, _) => self.before().index,
        };
        if self.random.one_in(4) {
            near ^ self.random.below(8)
        } else {
            near
        }
    }

    /// A store that was made before; there must be one.
    fn before(&mut self) -> Stored {
        self.stored[self.random.below(self.stored.len() as u64) as usize]
    }

    /// An index that was to be reserved; there must be one.
    fn reserved_before(&mut self) -> u64 {
        self.reserved[self.random.below(self.reserved.len() as u64) as usize]
    }

    /// An index a few blocks of 2^order indices from one of the centres.
    fn near(&mut self, order: u8) -> u64 {
        let centre = self.centres[self.random.below(self.centres.len() as u64) as usize];
        let up = self.random.below(6) << order;
        centre.wrapping_add(up).wrapping_sub(3 << order)
    }

    fn order(&mut self) -> u8 {
        match self.random.below(32) {
            0 => 64 + self.random.below(192) as u8,
            1..=3 => self.random.below(64) as u8,
            4..=6 => self.random.below(24) as u8,
            7..=16 => self.random.below(8) as u8,
            _ => 0,
        }
    }

    fn entry_word(&mut self) -> u64 {
        match self.random.below(32) {
            0 => self.random.below(3) * 2,
            1 => self.random.word(),
            2..=16 => 4 * (1 + self.random.below(500)),
            _ => 2 * self.random.below(500) + 1,
        }
    }

    /// Mark 2 most often: a store does not hand it on.
    fn mark(&mut self) -> u8 {
        if self.random.one_in(16) {
            3 + self.random.below(6) as u8
        } else {
            self.random.below(4).min(2) as u8
        }
    }

    fn filter(&mut self) -> u8 {
        match self.random.below(16) {
            0 => self.random.below(256) as u8,
            1..=7 => 3,
            _ => self.random.below(3) as u8,
        }
    }

    fn budget(&mut self) -> u16 {
        if self.random.one_in(4) {
            self.random.below(300) as u16
        } else {
            self.random.below(9) as u16
        }
    }

    /// First and last of a find: mostly in order, often up to the very last index.
    fn bounds(&mut self) -> (u64, u64) {
        let (one, other) = (self.likely(), self.likely());
        match self.random.below(16) {
            0 => (one, other),
            1..=8 => (one, u64::MAX),
            _ => (one.min(other), one.max(other)),
        }
    }

    /// Mostly at a multiple of 2^order; at times one made before.
    fn store(&mut self) -> Command {
        if !self.stored.is_empty() && self.random.one_in(12) {
            return self.before().again();
        }
        let index = if self.random.one_in(4) { self.likely() } else { self.index() };
        let order = self.order();
        if order > 63 || self.random.one_in(5) {
            return self.doubtful_store(index, order);
        }
        let (index, word) = (aligned(index, order), self.entry_word());
        self.stored.push(Stored { index, order, word });
        Command::Store { index, order, word }
    }

    /// Over an entry at this index: the word alone, the same store again, or a wider entry.
    fn store_over(&mut self, index: u64) -> Command {
        let same = self.stored.iter().rev().find(|stored| stored.index == index).copied();
        let word = self.entry_word();
        match (self.random.below(4), same) {
            (0, Some(stored)) => stored.again(),
            (1, _) => {
                let order = 1 + self.random.below(8) as u8;
                Command::Store { index: aligned(index, order), order, word }
            }
            _ => Command::Store { index, order: 0, word },
        }
    }

    /// A mark; after mark 2 a store over that entry is to come.
    fn marking(&mut self) -> Command {
        let (index, mark) = (self.likely(), self.mark());
        if mark == 2 {
            let store = self.store_over(index);
            self.to_come.push(store);
        }
        Command::Mark { index, mark }
    }

    /// A reserve, often of what is covered or in the node of something; what meets it is to come.
    fn reserve(&mut self) -> Command {
        let index = match self.random.below(8) {
            0 | 1 => self.index(),
            2..=4 => self.likely(),
            _ => self.likely() ^ self.random.below(16),
        };
        for _ in 0..self.random.below(3) {
            let next = self.meeting(index);
            self.to_come.push(next);
        }
        self.reserved.push(index);
        Command::Reserve { index }
    }

    /// A command that meets a reservation of this index, if it is there.
    fn meeting(&mut self, index: u64) -> Command {
        match self.random.below(14) {
            0..=2 => Command::Erase { index },
            3 => Command::Load { index },
            4 => Command::Mark { index, mark: self.mark() },
            5 => Command::Unmark { index, mark: self.mark() },
            6 | 7 => Command::Reserve { index },
            8..=10 => self.find_over(index),
            _ => self.store_over(index),
        }
    }

    /// A find that begins at the index or a few before it.
    fn find_over(&mut self, index: u64) -> Command {
        let first = index.saturating_sub(self.random.below(3));
        let last = if self.random.one_in(2) { u64::MAX } else { index };
        Command::Find { first, last, filter: self.filter(), budget: self.budget() }
    }

    /// At the index as it is or, often, one bit away from a multiple of 2^order. The word is often
    /// none of an entry, so that two answers could be meant.
    fn doubtful_store(&mut self, index: u64, order: u8) -> Command {
        let index = match order {
            1..=63 if !self.random.one_in(4) => {
                aligned(index, order) | 1 << self.random.below(u64::from(order))
            }
            _ => index,
        };
        let word = if self.random.one_in(3) { 0 } else { self.entry_word() };
        Command::Store { index, order, word }
    }

    /// A command of any kind; mostly a store while nothing was stored.
    pub fn command(&mut self) -> Command {
        if let Some(command) = self.opening.pop() {
            return command;
        }
        if self.stored.is_empty() && !self.random.one_in(4) {
            return if self.random.one_in(6) { self.reserve() } else { self.store() };
        }
        if !self.to_come.is_empty() && self.random.one_in(3) {
            return self.to_come.remove(0);
        }
        match self.random.below(20) {
            0..=6 => self.store(),
            7 => Command::Load { index: self.likely() },
            8 | 9 => Command::Erase { index: self.likely() },
            10..=12 => self.marking(),
            13 => Command::Unmark { index: self.likely(), mark: self.mark() },
            14..=16 => self.reserve(),
            _ => {
                let (first, last) = self.bounds();
                Command::Find { first, last, filter: self.filter(), budget: self.budget() }
            }
        }
    }
}

/// At times one of the openings; the last command comes first.
fn opening(random: &mut Random) -> Vec<Command> {
    let mut all = match random.below(12) {
        0 | 1 => over_mark_2(random),
        2..=4 => about_a_reservation(random),
        _ => Vec::new(),
    };
    all.reverse();
    all
}

/// One index, and at times others in its node, in another one, or both. Alone it may be the head.
fn few_bases(random: &mut Random) -> Vec<u64> {
    let base = [0, 0, 64, 1 << 18][random.below(4) as usize];
    let others: [&[u64]; 6] = [&[], &[], &[1], &[1], &[64], &[1, 64]];
    let mut bases = vec![base];
    bases.extend(others[random.below(6) as usize].iter().map(|other| base + other));
    bases
}

fn store_one(index: u64, word: u64) -> Command {
    Command::Store { index, order: 0, word }
}

/// Entries that are all given mark 2, then a store over the first of them.
fn over_mark_2(random: &mut Random) -> Vec<Command> {
    let bases = few_bases(random);
    let mut all: Vec<Command> = bases.iter().map(|base| store_one(*base, 7)).collect();
    all.extend(bases.iter().map(|base| Command::Mark { index: *base, mark: 2 }));
    all.push(store_one(bases[0], 5 + 2 * random.below(2)));
    all
}

/// A reservation, with others or marked entries about it, then a few commands that meet it.
fn about_a_reservation(random: &mut Random) -> Vec<Command> {
    let bases = few_bases(random);
    let (index, mark) = (bases[0], random.below(3) as u8);
    let mut all = vec![Command::Reserve { index }];
    for base in &bases[1..] {
        if random.one_in(3) {
            all.push(Command::Reserve { index: *base });
        } else {
            all.extend([store_one(*base, 9), Command::Mark { index: *base, mark }]);
        }
    }
    let find = |first, filter, budget| Command::Find { first, last: u64::MAX, filter, budget };
    for _ in 0..2 + random.below(3) {
        all.push(match random.below(12) {
            0 => Command::Load { index },
            1 => Command::Mark { index, mark },
            2 | 3 => Command::Erase { index },
            4 => store_one(index, 5),
            5 => Command::Reserve { index },
            6 | 7 => Command::Erase { index: bases[bases.len() - 1] },
            _ => {
                let filter = if random.one_in(2) { 3 } else { mark };
                find(index, filter, 1 + random.below(4) as u16)
            }
        });
    }
    all
}

/// The last multiple of 2^order up to the index; the index where no entry has that order.
fn aligned(index: u64, order: u8) -> u64 {
    index - index % 1u64.checked_shl(order.into()).unwrap_or(1)
}
