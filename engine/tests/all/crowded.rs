//! Random commands that stand close together: many entries in a few nodes of one or two shifts.

use reference::batch::Command;
use reference::random::Random;

/// A few nodes: those over `base` of this shift and the next.
pub struct Crowd {
    base: u64,
    shift: u64,
    /// Of all indices to choose from: so many slots.
    slots: u64,
    /// Stores in a hundred commands; fewer once the nodes are full.
    stores: u64,
}

impl Crowd {
    pub fn new(random: &mut Random) -> Crowd {
        let shift = [0, 0, 0, 6, 12, 54, 60][random.below(7) as usize];
        let slots = match shift {
            60 => 16,
            _ => [20, 64, 150, 64 * 64][random.below(4) as usize],
        };
        // At the start, anywhere, or at the very end.
        let width = u64::from(shift < 60) * (slots << shift);
        let base = match random.below(3) {
            0 => 0,
            1 if shift < 54 => random.word() >> random.below(40) >> shift >> 12 << 12 << shift,
            _ => 0u64.wrapping_sub(width),
        };
        Crowd { base, shift, slots, stores: 20 + random.below(50) }
    }

    fn index(&self, random: &mut Random) -> u64 {
        let slot = random.below(self.slots);
        let inside = if random.one_in(3) { random.word() & ((1 << self.shift) - 1) } else { 0 };
        self.base.wrapping_add(slot << self.shift).wrapping_add(inside)
    }

    /// Mostly of a few slots of a node of the shift.
    fn order(&self, random: &mut Random) -> u64 {
        let more = match random.below(8) {
            0..=2 => 0,
            3..=5 => random.below(4),
            6 => random.below(7),
            _ => return random.below(self.shift + 7).min(63),
        };
        (self.shift + more).min(63)
    }

    fn store(&self, random: &mut Random) -> Command {
        let order = self.order(random);
        let index = self.index(random) >> order << order;
        Command::Store { index, order: order as u8, word: 2 * random.below(1000) + 1 }
    }

    fn find(&self, random: &mut Random) -> Command {
        let first = self.index(random);
        let near = first.saturating_add(random.below(40) << self.shift.min(58));
        let last = match random.below(4) {
            0 => u64::MAX,
            1 => near,
            2 => first,
            _ => self.index(random).max(first),
        };
        let budget = if random.one_in(2) { u16::MAX } else { 1 + random.below(70) as u16 };
        Command::Find { first, last, filter: random.below(4) as u8, budget }
    }

    /// A command with fields that are refused.
    fn refused(&self, random: &mut Random) -> Command {
        let index = self.index(random);
        match random.below(6) {
            0 => Command::Store { index, order: 64 + random.below(9) as u8, word: 3 },
            1 => Command::Store { index: index | 1, order: 1 + random.below(9) as u8, word: 0 },
            2 => Command::Store { index, order: 0, word: 4 * random.below(300) + 2 },
            3 => Command::Mark { index, mark: 3 + random.below(9) as u8 },
            4 => Command::Find {
                first: index,
                last: index,
                filter: random.below(5) as u8,
                budget: 0,
            },
            _ => {
                let last = index.saturating_sub(random.below(3));
                Command::Find { first: index, last, filter: 3, budget: 9 }
            }
        }
    }

    pub fn command(&mut self, random: &mut Random) -> Command {
        let (index, mark) = (self.index(random), random.below(3) as u8);
        if random.below(100) < self.stores {
            self.stores = self.stores.max(11) - u64::from(random.one_in(4));
            return self.store(random);
        }
        match random.below(20) {
            0 => Command::Reserve { index },
            1 => Command::Load { index },
            2..=4 => Command::Erase { index },
            5..=7 => Command::Mark { index, mark },
            8 => Command::Unmark { index, mark },
            9 => self.refused(random),
            _ => self.find(random),
        }
    }
}
