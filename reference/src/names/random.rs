//! Random calls on a pool of names: keys that lie close together, so that nodes split and shortcuts come and go.

use crate::names::command::Call;
use crate::names::keys::{List, MOST_KEY_BYTES};
use crate::random::Random;

/// How the keys of one run of calls are made.
#[derive(Clone, Copy, Debug)]
enum Kind {
    /// One or two bytes.
    Short,
    /// One length, a common start; the rest differs in few nibbles.
    Close,
    /// The starts of one long key, and such with another last byte.
    Starts,
    /// Any bytes, any length.
    Any,
}

pub struct Calls {
    random: Random,
    kind: Kind,
    /// What the keys of kind `Close` and `Starts` are made from.
    model: Vec<u8>,
    /// Whether there are more inserts than deletes for now.
    growing: bool,
}

impl Calls {
    pub fn new(mut random: Random) -> Calls {
        let kind = [Kind::Short, Kind::Close, Kind::Close, Kind::Starts, Kind::Any];
        let kind = kind[random.below(5) as usize];
        let length = match random.below(4) {
            0 => MOST_KEY_BYTES,
            1 => 2,
            _ => 1 + random.below(MOST_KEY_BYTES as u64) as usize,
        };
        let fill = [0, 255, random.word() as u8][random.below(3) as usize];
        Calls { random, kind, model: vec![fill; length], growing: true }
    }

    /// A call on a pool with this list.
    pub fn call(&mut self, list: &List) -> Call {
        if self.random.one_in(40) {
            self.growing = !self.growing;
        }
        self.growing |= list.is_empty();
        if self.random.one_in(300) {
            return Call::Clear;
        }
        if self.random.one_in(60) {
            return Call::Check;
        }
        if self.random.one_in(10) {
            return Call::Lookup { key: self.any_key(list) };
        }
        let inserts = if self.growing { 5 } else { 1 };
        if self.random.below(6) < inserts {
            return Call::Insert { key: self.any_key(list), object: self.object() };
        }
        Call::Delete { key: self.stored_key(list) }
    }

    fn object(&mut self) -> u64 {
        let word = self.random.word() >> self.random.below(64);
        if self.random.one_in(20) {
            return word;
        }
        if self.random.one_in(2) {
            return word | 1;
        }
        (word & !3).max(4)
    }

    /// Mostly a key that may be in the list or not; now and then too short or too long, or one of the list.
    fn any_key(&mut self, list: &List) -> Vec<u8> {
        if self.random.one_in(40) {
            let length = [0, 33, 34, 64][self.random.below(4) as usize];
            return vec![self.random.word() as u8; length];
        }
        if self.random.one_in(12) {
            return self.stored_key(list);
        }
        self.key()
    }

    /// Mostly a key of the list.
    fn stored_key(&mut self, list: &List) -> Vec<u8> {
        if list.is_empty() || self.random.one_in(15) {
            return self.key();
        }
        let at = self.random.below(list.len() as u64) as usize;
        list.keys().nth(at).expect("one of the keys").bytes()
    }

    fn key(&mut self) -> Vec<u8> {
        // Now and then a key of another kind, far from the others.
        let kind = if self.random.one_in(16) { Kind::Any } else { self.kind };
        match kind {
            Kind::Short => {
                let length = 1 + self.random.below(2) as usize;
                (0..length).map(|_| self.byte()).collect()
            }
            Kind::Close => self.close_key(),
            Kind::Starts => {
                let length = 1 + self.random.below(self.model.len() as u64) as usize;
                let mut key = self.model[..length].to_vec();
                key[length - 1] = key[length - 1].wrapping_add(self.random.below(3) as u8);
                key
            }
            Kind::Any => {
                let length = 1 + self.random.below(MOST_KEY_BYTES as u64);
                (0..length).map(|_| self.random.word() as u8).collect()
            }
        }
    }

    /// The model with another last byte, and now and then another nibble somewhere.
    fn close_key(&mut self) -> Vec<u8> {
        let mut key = self.model.clone();
        let last = key.len() - 1;
        key[last] = self.byte();
        if self.random.one_in(6) {
            let at = self.random.below(2 * key.len() as u64) as usize;
            key[at / 2] ^= (1 + self.random.below(2) as u8) << (4 * (at % 2));
        }
        key
    }

    /// Nibbles that are mostly small.
    fn byte(&mut self) -> u8 {
        let mut nibble = || {
            let limit = if self.random.one_in(3) { 16 } else { 5 };
            self.random.below(limit) as u8
        };
        16 * nibble() + nibble()
    }
}
