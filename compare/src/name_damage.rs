//! Pools of names (P10) with something wrong: each field of each sort of block, links, counts, a leaf more or elsewhere, a
//! tree by another rule. A few of them are well-formed all the same.

use crate::name_keys::{keys, object, set_nibble, Family};
use crate::name_shapes::{words_by, Rule};
use reference::names::keys::{Block, Key, NIBBLES};
use reference::names::pool::{
    base_words, block_place, State, BASE_FIELDS, BASE_WORDS, BLOCK_WORDS, LENGTH_FIELD,
    SLOT_FIELDS, TIER_FIELD, VALUE_FIELD,
};
use reference::names::tree::{Item, SLOTS};
use reference::random::Random;

/// What a block is for.
#[derive(Clone, Copy, Debug, PartialEq, Eq, PartialOrd, Ord)]
pub enum Sort {
    Packed,
    Spread,
    Shortcut,
    Leaf,
    Free,
}

#[derive(Clone, Copy, Debug, PartialEq, Eq, PartialOrd, Ord)]
pub enum Field {
    Tier,
    Length,
    Value,
    Base,
    Slot,
}

#[derive(Clone, Copy, Debug, PartialEq, Eq, PartialOrd, Ord)]
pub enum Wrong {
    /// One word of such a block.
    Word(Sort, Field),
    /// How many blocks there are.
    Count,
    Root,
    SlotsSwapped,
    SlotTwice,
    /// In a node that tells keys apart by their nibble.
    LeafElsewhere,
    /// A packed node with an empty slot before a leaf.
    Gap,
    /// Two blocks, and no link to them follows.
    Exchanged,
    /// Over a free block: of a leaf a second one of its key.
    Copied,
    Overwritten,
    /// A second leaf of a key in the slot after it, counted.
    SecondLeaf,
    /// In every node over one key, by one.
    KeysCounted,
    /// A leaf that nothing leads to, of a key that is not there.
    LooseLeaf,
    /// A leaf that nothing leads to any longer; all else is right without it.
    LeafLeft,
    /// The block of something is free, and the links to it stay.
    Gone,
    /// A leaf whose key would have another length, 33 among them, or bytes behind its end.
    KeyLength,
    Object,
    Shape(Rule),
    Several,
}

const SORTS: [(Sort, &str); 5] = [
    (Sort::Packed, "packed node"),
    (Sort::Spread, "node by nibble"),
    (Sort::Shortcut, "shortcut"),
    (Sort::Leaf, "leaf"),
    (Sort::Free, "free block"),
];
const FIELDS: [(Field, &str); 5] = [
    (Field::Tier, "tier"),
    (Field::Length, "skip"),
    (Field::Value, "value"),
    (Field::Base, "base"),
    (Field::Slot, "slot"),
];
const OTHERS: [(Wrong, &str); 28] = [
    (Wrong::Count, "word 0"),
    (Wrong::Root, "word 1"),
    (Wrong::SlotsSwapped, "slots swapped"),
    (Wrong::SlotTwice, "a slot twice"),
    (Wrong::LeafElsewhere, "a leaf in another slot"),
    (Wrong::Gap, "a gap in a packed node"),
    (Wrong::Exchanged, "blocks exchanged"),
    (Wrong::Copied, "a block copied over a free one"),
    (Wrong::Overwritten, "a block over another"),
    (Wrong::SecondLeaf, "a second leaf of a key, linked"),
    (Wrong::KeysCounted, "counts over one key off by one"),
    (Wrong::LooseLeaf, "a leaf of a new key, not linked"),
    (Wrong::LeafLeft, "a leaf left over"),
    (Wrong::Gone, "a block gone"),
    (Wrong::KeyLength, "a key's length"),
    (Wrong::Object, "an object that is none"),
    (Wrong::Shape(Rule::Right), "numbered anew"),
    (Wrong::Shape(Rule::Packed(0)), "nothing packed"),
    (Wrong::Shape(Rule::Packed(1)), "one key packed"),
    (Wrong::Shape(Rule::Packed(15)), "15 packed"),
    (Wrong::Shape(Rule::Packed(17)), "17 packed"),
    (Wrong::Shape(Rule::Unjoined), "runs not joined"),
    (Wrong::Shape(Rule::OneApart), "runs of one not joined"),
    (Wrong::Shape(Rule::RootApart), "the root in no run"),
    (Wrong::Shape(Rule::FirstApart), "a run's first apart"),
    (Wrong::Shape(Rule::LastApart), "a run's last apart"),
    (Wrong::Shape(Rule::Halves), "a run as two"),
    (Wrong::Several, "several words"),
];

/// How many kinds there are.
pub const KINDS: usize = SORTS.len() * FIELDS.len() + OTHERS.len();

/// A kind with its name, by number.
pub fn kind(number: usize) -> (Wrong, String) {
    let words = SORTS.len() * FIELDS.len();
    if number >= words {
        let (wrong, name) = OTHERS[number - words];
        return (wrong, name.into());
    }
    let (sort, name) = SORTS[number / FIELDS.len()];
    let (field, of) = FIELDS[number % FIELDS.len()];
    (Wrong::Word(sort, field), format!("{name}, {of}"))
}

/// A kind by its number, and a seed for where and how.
#[derive(Clone, Copy, Debug, PartialEq, Eq)]
pub struct Damage {
    pub kind: usize,
    pub seed: u64,
}

/// A pool while it is damaged.
struct Broken<'a> {
    state: &'a State,
    words: Vec<u64>,
    random: Random,
}

impl Damage {
    pub fn random(random: &mut Random) -> Damage {
        Damage { kind: random.below(KINDS as u64) as usize, seed: random.word() }
    }

    /// The words of this state with the damage; none where there is nothing that it could be done to.
    pub fn done_to(self, state: &State) -> Option<Vec<u64>> {
        let random = Random::new(self.seed);
        let mut broken = Broken { state, words: state.words(), random };
        broken.damage(kind(self.kind).0)?;
        Some(broken.words)
    }
}

impl Broken<'_> {
    fn damage(&mut self, wrong: Wrong) -> Option<()> {
        match wrong {
            Wrong::Word(sort, field) => self.one_word(sort, field),
            Wrong::Count => self.change(0),
            Wrong::Root => self.change(1),
            Wrong::SlotsSwapped => self.swap_slots(),
            Wrong::SlotTwice => self.slot_twice(),
            Wrong::LeafElsewhere => self.leaf_elsewhere(),
            Wrong::Gap => self.gap(),
            Wrong::Exchanged => self.exchange(),
            Wrong::Copied => self.copy(true),
            Wrong::Overwritten => self.copy(false),
            Wrong::SecondLeaf => self.second_leaf(),
            Wrong::KeysCounted => {
                let key = self.key()?;
                let off = [1, u64::MAX][self.random.below(2) as usize];
                self.count(&key, off)
            }
            Wrong::LooseLeaf => self.loose_leaf(),
            Wrong::LeafLeft => self.leaf_left(),
            Wrong::Gone => {
                let number = self.in_use()?;
                self.block(number).fill(0);
                Some(())
            }
            Wrong::KeyLength => self.key_length(),
            Wrong::Object => {
                let number = self.of_sort(Sort::Leaf)?;
                let none = [0, 2, 6, 1030, u64::MAX - 1][self.random.below(5) as usize];
                self.block(number)[VALUE_FIELD] = none;
                Some(())
            }
            Wrong::Shape(rule) => {
                let spare = self.state.free_numbers().len();
                self.words = words_by(rule, &self.state.list, spare, &mut self.random)?;
                Some(())
            }
            Wrong::Several => (0..2 + self.random.below(4)).try_for_each(|_| {
                let place = self.random.below(self.words.len() as u64);
                self.change(place as usize)
            }),
        }
    }

    fn block(&mut self, number: usize) -> &mut [u64] {
        &mut self.words[block_place(number)..][..BLOCK_WORDS]
    }

    fn sort(&self, number: usize) -> Sort {
        match &self.state.places[number] {
            None => Sort::Free,
            Some(Item::Leaf(_)) => Sort::Leaf,
            Some(Item::Shortcut { .. }) => Sort::Shortcut,
            Some(Item::Node(_)) => match self.words[block_place(number) + VALUE_FIELD] {
                0..=16 => Sort::Packed,
                _ => Sort::Spread,
            },
        }
    }

    /// One of these, if there is any.
    fn any(&mut self, numbers: &[usize]) -> Option<usize> {
        let at = self.random.below(numbers.len().max(1) as u64);
        numbers.get(at as usize).copied()
    }

    fn of_sort(&mut self, sort: Sort) -> Option<usize> {
        let all = 0..self.state.places.len();
        let numbers: Vec<usize> = all.filter(|number| self.sort(*number) == sort).collect();
        self.any(&numbers)
    }

    fn in_use(&mut self) -> Option<usize> {
        let all = 0..self.state.places.len();
        let numbers: Vec<usize> = all.filter(|number| self.sort(*number) != Sort::Free).collect();
        self.any(&numbers)
    }

    fn key(&mut self) -> Option<Key> {
        let at = self.random.below(self.state.list.len().max(1) as u64);
        self.state.list.keys().nth(at as usize).copied()
    }

    /// Another word at this place.
    fn change(&mut self, place: usize) -> Option<()> {
        let (count, word) = (self.state.places.len() as u64, self.words[place]);
        let other = match self.random.below(10) {
            0..=2 => word ^ 1 << self.random.below(64),
            3 => word.wrapping_add(1),
            4 => word.wrapping_sub(1),
            5 => 0,
            6 => self.random.below(70),
            7 => self.random.below(count + 3),
            8 => word ^ 1 << (4 * self.random.below(16)),
            _ => [self.random.word(), u64::MAX, 1 << 63][self.random.below(3) as usize],
        };
        self.words[place] = if other == word { word ^ 1 } else { other };
        Some(())
    }

    fn one_word(&mut self, sort: Sort, field: Field) -> Option<()> {
        let number = self.of_sort(sort)?;
        let field = match field {
            Field::Tier => TIER_FIELD,
            Field::Length => LENGTH_FIELD,
            Field::Value => VALUE_FIELD,
            Field::Base => BASE_FIELDS + self.random.below(BASE_WORDS as u64) as usize,
            Field::Slot => SLOT_FIELDS + self.random.below(SLOTS as u64) as usize,
        };
        self.change(block_place(number) + field)
    }

    /// A node, and the place of one of its slots that this holds for.
    fn slots_where(&mut self, sort: Sort, fits: impl Fn(u64) -> bool) -> Option<(usize, usize)> {
        let number = self.of_sort(sort)?;
        let filled: Vec<usize> = (SLOT_FIELDS..BLOCK_WORDS)
            .filter(|field| fits(self.words[block_place(number) + field]))
            .map(|field| block_place(number) + field)
            .collect();
        Some((number, self.any(&filled)?))
    }

    fn node(&mut self) -> Sort {
        [Sort::Packed, Sort::Spread][self.random.below(2) as usize]
    }

    fn swap_slots(&mut self) -> Option<()> {
        let sort = self.node();
        let (number, filled) = self.slots_where(sort, |slot| slot > 0)?;
        let other = block_place(number) + SLOT_FIELDS + self.random.below(SLOTS as u64) as usize;
        self.words.swap(filled, other);
        (filled != other).then_some(())
    }

    fn slot_twice(&mut self) -> Option<()> {
        let (from, to) = (self.node(), self.node());
        let (_, filled) = self.slots_where(from, |slot| slot > 0)?;
        let (_, other) = self.slots_where(to, |_| true)?;
        self.words[other] = self.words[filled];
        (filled != other).then_some(())
    }

    fn leaf_elsewhere(&mut self) -> Option<()> {
        let numbers: Vec<usize> = (0..self.state.places.len()).collect();
        let leaves: Vec<u64> = numbers
            .into_iter()
            .filter(|number| self.sort(*number) == Sort::Leaf)
            .map(|number| number as u64 + 1)
            .collect();
        let (number, filled) = self.slots_where(Sort::Spread, |slot| leaves.contains(&slot))?;
        let from = block_place(number) + SLOT_FIELDS;
        let empty: Vec<usize> =
            (from..from + SLOTS).filter(|place| self.words[*place] == 0).collect();
        let other = self.any(&empty)?;
        self.words.swap(filled, other);
        Some(())
    }

    fn gap(&mut self) -> Option<()> {
        let (number, filled) = self.slots_where(Sort::Packed, |slot| slot > 0)?;
        let slots = &mut self.words[filled..block_place(number) + BLOCK_WORDS];
        (slots[slots.len() - 1] == 0).then(|| slots.rotate_right(1))
    }

    fn exchange(&mut self) -> Option<()> {
        let (one, count) = (self.in_use()?, self.state.places.len() as u64);
        let other = self.random.below(count) as usize;
        let words = self.block(one).to_vec();
        let others = self.block(other).to_vec();
        self.block(one).copy_from_slice(&others);
        self.block(other).copy_from_slice(&words);
        (words != others).then_some(())
    }

    /// Over a free block, or over one in use.
    fn copy(&mut self, over_free: bool) -> Option<()> {
        // Mostly a leaf: then it is its key that stands there twice.
        let one = if self.random.one_in(3) { self.in_use()? } else { self.of_sort(Sort::Leaf)? };
        let other = if over_free { self.of_sort(Sort::Free)? } else { self.in_use()? };
        let words = self.block(one).to_vec();
        self.block(other).copy_from_slice(&words);
        (one != other).then_some(())
    }

    /// Adds to the count of every node over this key.
    fn count(&mut self, key: &Key, more: u64) -> Option<()> {
        for (number, item) in self.state.places.iter().enumerate() {
            if matches!(item, Some(Item::Node(block)) if block.holds(key)) {
                let value = &mut self.words[block_place(number) + VALUE_FIELD];
                *value = value.wrapping_add(more);
            }
        }
        Some(())
    }

    fn second_leaf(&mut self) -> Option<()> {
        let free = self.of_sort(Sort::Free)?;
        let (node, filled) = self.slots_where(Sort::Packed, |slot| slot > 0)?;
        let leaf = self.words[filled] as usize - 1;
        let Some(Item::Leaf(key)) = self.state.places[leaf].clone() else { return None };
        let copy = self.block(leaf).to_vec();
        let slots = &mut self.words[filled + 1..block_place(node) + BLOCK_WORDS];
        // A node that is full has no slot for it.
        if slots.last().is_none_or(|slot| *slot > 0) {
            return None;
        }
        slots.rotate_right(1);
        slots[0] = free as u64 + 1;
        self.block(free).copy_from_slice(&copy);
        if self.random.one_in(3) {
            self.block(free)[VALUE_FIELD] = 4;
        }
        self.count(&key, 1)
    }

    fn put_leaf(&mut self, number: usize, nibbles: &[u8; NIBBLES], object: u64) {
        let block = self.block(number);
        block.fill(0);
        (block[TIER_FIELD], block[VALUE_FIELD]) = (1, object);
        block[BASE_FIELDS..SLOT_FIELDS].copy_from_slice(&base_words(nibbles));
    }

    fn loose_leaf(&mut self) -> Option<()> {
        let free = self.of_sort(Sort::Free)?;
        let mut bytes = match self.key() {
            Some(key) => key.bytes(),
            None => keys(&mut self.random, Family::Any, 1).pop()?,
        };
        let at = self.random.below(2 * bytes.len() as u64) as usize;
        set_nibble(&mut bytes, at, self.random.below(16) as u8);
        let key = Key::new(&bytes).filter(|key| !self.state.list.contains_key(key))?;
        let object = object(&mut self.random);
        self.put_leaf(free, key.nibbles(), object);
        Some(())
    }

    fn leaf_left(&mut self) -> Option<()> {
        let key = self.key()?;
        let mut list = self.state.list.clone();
        let object = list.remove(&key)?;
        let leaf = Some(Item::Leaf(key));
        let number = self.state.places.iter().position(|place| *place == leaf)?;
        let after = self.state.change_to(list).filter(|after| after.places[number].is_none())?;
        self.words = after.words();
        self.put_leaf(number, key.nibbles(), object);
        Some(())
    }

    fn key_length(&mut self) -> Option<()> {
        let key = self.key()?;
        let leaf = Some(Item::Leaf(key));
        let number = self.state.places.iter().position(|place| *place == leaf)?;
        let (mut nibbles, length) = (*key.nibbles(), key.bytes().len() as u8);
        let other = match self.random.below(6) {
            0 => 0,
            1 | 2 => 33,
            3 => length + 1,
            4 => length - 1,
            _ => self.random.word() as u8,
        };
        (nibbles[0], nibbles[1]) = (other / 16, other % 16);
        // Its block, and often nothing over it, knows of the other length.
        let base = base_words(&nibbles);
        self.block(number)[BASE_FIELDS..SLOT_FIELDS].copy_from_slice(&base);
        if self.random.one_in(2) {
            self.bases_follow(&key, &nibbles);
        }
        (other != length).then_some(())
    }

    /// Gives everything over a key the base that it would have over these nibbles.
    fn bases_follow(&mut self, key: &Key, nibbles: &[u8; NIBBLES]) {
        for (number, item) in self.state.places.iter().enumerate() {
            if let Some(Item::Node(block) | Item::Shortcut { lower: block, .. }) = item {
                if block.holds(key) {
                    let base = base_words(&Block::around(block.tier(), nibbles).first());
                    let place = block_place(number) + BASE_FIELDS;
                    self.words[place..place + BASE_WORDS].copy_from_slice(&base);
                }
            }
        }
    }
}
