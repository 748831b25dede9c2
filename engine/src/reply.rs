//! What a command answers, and the 24 bytes of it.

use crate::word::RESERVED;

pub const REPLY_BYTES: usize = 24;

/// The answers of calls and of replies, by number.
pub mod answers {
    pub const DONE: u8 = 0;
    pub const BAD_BATCH: u8 = 3;
    pub const REPLY_SPACE: u8 = 4;
    pub const BAD_ORDER: u8 = 5;
    pub const BAD_ENTRY: u8 = 6;
    pub const BAD_MARK: u8 = 7;
    pub const FIRST_ABOVE_LAST: u8 = 8;
    pub const NO_BUDGET: u8 = 9;
    pub const ABSENT: u8 = 10;
    pub const TOO_FEW_NODES: u8 = 11;
    pub const ENDED: u8 = 12;
    pub const PAUSED: u8 = 13;
    pub const UNALIGNED: u8 = 14;
    pub const COVERED: u8 = 15;
}

/// An entry, or what is reserved, with the run it covers.
#[derive(Clone, Copy, Debug, PartialEq, Eq)]
pub struct Entry {
    pub base: u64,
    pub order: u32,
    pub word: u64,
    pub marks: u8,
}

/// A reply; what a command does not give is 0.
#[derive(Clone, Copy, Debug, Default, PartialEq, Eq)]
pub struct Reply {
    pub answer: u8,
    pub index: u64,
    pub order: u8,
    pub word: u64,
    pub marks: u8,
    pub count: u16,
}

impl Reply {
    /// This answer and nothing else.
    #[inline]
    pub fn only(answer: u8) -> Reply {
        Reply { answer, ..Reply::default() }
    }

    /// An entry; of a reserved index the base alone.
    #[inline(always)]
    pub fn giving(entry: Entry) -> Reply {
        let Entry { base: index, order, word, marks } = entry;
        if word == RESERVED {
            return Reply { index, ..Reply::default() };
        }
        Reply { index, order: order as u8, word, marks, ..Reply::default() }
    }

    #[inline]
    pub fn with_count(self, count: u32) -> Reply {
        // No find takes more steps than its budget of 16 bits.
        Reply { count: count as u16, ..self }
    }

    /// Its bytes, for a command of this tag.
    #[inline(always)]
    pub fn write(self, tag: u8, out: &mut [u8; REPLY_BYTES]) {
        out[..4].copy_from_slice(&[tag + 128, 0, 21, self.answer]);
        out[4..12].copy_from_slice(&self.index.to_be_bytes());
        out[12] = self.order;
        out[13..21].copy_from_slice(&self.word.to_be_bytes());
        out[21] = self.marks;
        out[22..].copy_from_slice(&self.count.to_be_bytes());
    }
}
