//! Reads the words of a pool into a tree, and lists what is wrong with them.
//!
//! There are no findings exactly if the pool is well-formed; the library's own check is the
//! judge, and the tests hold this one to it. A finding that another one brings with it, as a lost
//! head brings a thousand nodes that nothing leads to, is told apart from it.

use std::collections::HashSet;
use std::fmt;
use xapool_host::layout::{
    count_place, filled_slots, mark_place, node_place, node_word, owner_place, sibling_word,
    slot_place, ANCHOR_WORDS, COUNT_FIELD, NODE_OFFSET, NODE_WORDS, RESERVED_WORD, SLOTS,
};
use xapool_host::{node_count, Marks, Word, MOST_NODES};

const WIDEST_SHIFT: u64 = 60;

/// Something wrong, with the place of the word.
#[derive(Clone, Debug, PartialEq, Eq)]
pub struct Finding {
    pub place: usize,
    pub message: String,
    /// Whether it follows from another finding.
    pub follows: bool,
}

impl fmt::Display for Finding {
    fn fmt(&self, f: &mut fmt::Formatter) -> fmt::Result {
        write!(f, "word {}: {}", self.place, self.message)
    }
}

/// A node as the walk from the head met it.
#[derive(Clone, Debug, PartialEq, Eq)]
pub struct Node {
    pub number: usize,
    pub shift: u64,
    /// The first index of its block.
    pub start: u128,
    pub slots: Vec<Slot>,
    /// Its filled count as it stands.
    pub filled: u64,
    /// Mark m is worth 2^m if its mark word is not 0.
    pub marks: Marks,
}

/// The slots that are not empty.
#[derive(Clone, Debug, PartialEq, Eq)]
pub enum Slot {
    Entry {
        slot: usize,
        run: usize,
        word: Word,
        marks: Marks,
    },
    Node {
        slot: usize,
        marks: Marks,
        child: Node,
    },
    Reserved {
        slot: usize,
    },
    /// A word that no slot may hold here.
    Bad {
        slot: usize,
        word: u64,
    },
}

#[derive(Clone, Debug, PartialEq, Eq)]
pub enum Head {
    Empty,
    Reserved,
    Entry(Word),
    Node(Node),
    Bad(u64),
}

/// All that was read. `nodes` is none if no pool has so many words.
#[derive(Clone, Debug, PartialEq, Eq)]
pub struct Report {
    pub words: usize,
    pub nodes: Option<usize>,
    pub head: Head,
    pub marks: u64,
    pub in_use: usize,
    pub findings: Vec<Finding>,
}

pub fn inspect(words: &[u64]) -> Report {
    let nodes = node_count(words.len());
    let seen = vec![false; nodes.unwrap_or(0)];
    let mut walk = Walk { words, seen, wrong: HashSet::new(), notes: Vec::new() };
    let mut head = Head::Empty;
    match nodes {
        Some(count) => {
            head = walk.head();
            walk.anchor(count, &head);
            walk.unreached();
        }
        None => {
            let pool = format!("{ANCHOR_WORDS} + {NODE_WORDS} N with N from 1 to {MOST_NODES}");
            walk.find(0, format!("{} words, not {pool}", words.len()));
        }
    }
    let findings = walk.findings();
    let in_use = walk.seen.iter().filter(|seen| **seen).count();
    Report { words: words.len(), nodes, head, marks: walk.word(2), in_use, findings }
}

/// A word that leads to nodes: the head, or a slot by node and number.
#[derive(Clone, Copy, Debug, PartialEq, Eq, Hash)]
enum Link {
    Head,
    Slot(usize, usize),
}

/// What a finding would follow from.
#[derive(Clone, Copy, Debug, PartialEq, Eq)]
enum Follows {
    /// Nothing: it is wrong by itself.
    Nothing,
    /// This link, if it is wrong.
    Link(Link),
    /// Any link in this node, or the head, if it is wrong.
    Node(usize),
    /// Something found before.
    Surely,
}

/// A finding as the walk noted it, with what it would follow from.
struct Note {
    place: usize,
    message: String,
    follows: Follows,
}

struct Walk<'a> {
    words: &'a [u64],
    seen: Vec<bool>,
    /// Links with a wrong word, each with a finding of its own.
    wrong: HashSet<Link>,
    notes: Vec<Note>,
}

/// The owner word of the node that this link leads to.
fn owner_of(link: Link) -> u64 {
    match link {
        Link::Head => 0,
        Link::Slot(node, slot) => 1 + (SLOTS * node + slot) as u64,
    }
}

/// The shift in the first word of a node, if it is one.
fn shift_of(word: u64) -> Option<u64> {
    word.checked_sub(1).filter(|shift| *shift <= WIDEST_SHIFT && shift.is_multiple_of(6))
}

impl Walk<'_> {
    fn word(&self, place: usize) -> u64 {
        self.words.get(place).copied().unwrap_or(0)
    }

    fn find(&mut self, place: usize, message: String) {
        self.note(place, Follows::Nothing, message);
    }

    fn note(&mut self, place: usize, follows: Follows, message: String) {
        self.notes.push(Note { place, message, follows });
    }

    fn expect(&mut self, place: usize, name: &str, expected: u64, follows: Follows) {
        let found = self.word(place);
        if found != expected {
            self.note(place, follows, format!("{name} is {found}, expected {expected}"));
        }
    }

    /// What was noted, in the order of places, now that every wrong link is known.
    fn findings(&mut self) -> Vec<Finding> {
        let mut notes = std::mem::take(&mut self.notes);
        notes.sort_by_key(|note| note.place);
        let finding = |note: Note| Finding {
            place: note.place,
            follows: self.follows(note.follows),
            message: note.message,
        };
        notes.into_iter().map(finding).collect()
    }

    fn follows(&self, follows: Follows) -> bool {
        match follows {
            Follows::Nothing => false,
            Follows::Surely => true,
            Follows::Link(link) => self.wrong.contains(&link),
            Follows::Node(node) => {
                let slots = (0..SLOTS).any(|slot| self.wrong.contains(&Link::Slot(node, slot)));
                slots || self.wrong.contains(&Link::Head)
            }
        }
    }

    /// The number in a node's word, if the pool has that node.
    fn node_number(&self, word: u64) -> Option<usize> {
        let number = (word / 4).checked_sub(NODE_OFFSET)?;
        let number = usize::try_from(number).ok()?;
        (word % 4 == 2 && number < self.seen.len()).then_some(number)
    }

    fn head(&mut self) -> Head {
        let head = self.word(1);
        if head == 0 {
            return Head::Empty;
        }
        if Word(head).is_entry() {
            return Head::Entry(Word(head));
        }
        if head == RESERVED_WORD {
            return Head::Reserved;
        }
        let Some(number) = self.node_number(head) else {
            self.find(1, format!("the head {head:#x} is neither an entry nor a node of this pool"));
            self.wrong.insert(Link::Head);
            return Head::Bad(head);
        };
        let place = node_place(number);
        let found = self.word(place);
        let shift = match (shift_of(found), self.shift_from_below(number)) {
            (Some(shift), None) => shift,
            (Some(shift), Some(below)) if shift == below => shift,
            (_, Some(below)) => {
                let message = "shift + 1 of the head is";
                self.find(place, format!("{message} {found}, expected {}", below + 1));
                below
            }
            (None, None) => {
                self.find(place, format!("shift + 1 of the head is {found}: no shift of a node"));
                self.wrong.insert(Link::Head);
                return Head::Bad(head);
            }
        };
        let node = self.node(number, shift, 0, Link::Head);
        self.least_head(&node);
        Head::Node(node)
    }

    /// The shift that the nodes below call for, if they agree and are not one alone: then it is the
    /// head that is wrong and not all of them.
    fn shift_from_below(&self, number: usize) -> Option<u64> {
        let below = self.children(number);
        let shift = shift_of(self.word(node_place(*below.first()?)))?;
        let agree = |nodes: &[usize], shift| {
            nodes.iter().all(|node| shift_of(self.word(node_place(*node))) == Some(shift))
        };
        let backed = below.len() > 1 || {
            let next = self.children(below[0]);
            shift >= 6 && !next.is_empty() && agree(&next, shift - 6)
        };
        (shift < WIDEST_SHIFT && backed && agree(&below, shift)).then_some(shift + 6)
    }

    /// The nodes that the slots of a node lead to.
    fn children(&self, number: usize) -> Vec<usize> {
        (0..SLOTS)
            .filter_map(|slot| self.node_number(self.word(slot_place(number, slot))))
            .collect()
    }

    /// A head is no wider than it must be.
    fn least_head(&mut self, head: &Node) {
        let place = node_place(head.number);
        match head.slots[..] {
            [Slot::Node { slot: 0, .. }] => {
                let message = "the head is too wide: all lies below its slot 0".into();
                self.note(place, Follows::Node(head.number), message);
            }
            [Slot::Entry { slot: 0, run: 1, .. }] if head.shift == 0 => {
                let message = "the head is too wide: one entry at index 0 needs no node".into();
                self.note(place, Follows::Node(head.number), message);
            }
            [Slot::Reserved { slot: 0 }] => {
                let message = "the head is too wide: index 0 alone, reserved, needs no node".into();
                self.note(place, Follows::Node(head.number), message);
            }
            _ => {}
        }
    }

    fn anchor(&mut self, count: usize, head: &Head) {
        self.expect(0, "N", count as u64, Follows::Nothing);
        self.expect(3, "the fourth word", 0, Follows::Nothing);
        let head_link = Follows::Link(Link::Head);
        match head {
            Head::Empty | Head::Reserved => self.expect(2, "the marks byte", 0, head_link),
            Head::Node(node) => {
                self.expect(2, "the marks byte", u64::from(node.marks.0), head_link);
            }
            Head::Entry(_) if self.word(2) > 7 => {
                let found = self.word(2);
                self.find(2, format!("the marks byte is {found}, expected 0 to 7"));
            }
            _ => {}
        }
    }

    /// Reads a node and all below. No node is read twice and the shift falls, so this ends.
    fn node(&mut self, number: usize, shift: u64, start: u128, link: Link) -> Node {
        self.seen[number] = true;
        let place = node_place(number);
        if link != Link::Head {
            self.expect(place, "shift + 1", shift + 1, Follows::Nothing);
        }
        self.expect(owner_place(number), "the owner", owner_of(link), Follows::Link(link));
        let mut slots = Vec::new();
        let mut slot = 0;
        while slot < SLOTS {
            let run = self.run(number, slot);
            slots.extend(self.slot(number, shift, start, slot, run));
            slot += run;
        }
        if slots.is_empty() {
            self.note(place, Follows::Node(number), format!("node {number} is empty"));
        }
        let filled = self.filled_count(number);
        let marks = self.mark_words(number, &slots);
        Node { number, shift, start, slots, filled, marks }
    }

    /// Compares the filled count with the slots; gives it. Where a slot's word is wrong, a count that
    /// differs follows from that.
    fn filled_count(&mut self, number: usize) -> u64 {
        let place = count_place(number);
        let expected = filled_slots(self.words, number);
        self.expect(place, "the filled count", expected, Follows::Node(number));
        self.word(place)
    }

    /// How many slots the entry at this slot takes: itself and the siblings that follow.
    fn run(&self, number: usize, slot: usize) -> usize {
        let word = |slot| self.word(slot_place(number, slot));
        if !Word(word(slot)).is_entry() {
            return 1;
        }
        1 + (slot + 1..SLOTS).take_while(|next| word(*next) == sibling_word(slot)).count()
    }

    fn slot(
        &mut self,
        number: usize,
        shift: u64,
        start: u128,
        slot: usize,
        run: usize,
    ) -> Option<Slot> {
        let place = slot_place(number, slot);
        let word = self.word(place);
        if word == 0 {
            return None;
        }
        let bad = Some(Slot::Bad { slot, word });
        let link = Link::Slot(number, slot);
        if shift == WIDEST_SHIFT && slot >= 16 {
            self.find(place, format!("slot {slot} lies past 2^64 and is not 0"));
            self.wrong.insert(link);
            return bad;
        }
        if Word(word).is_entry() {
            self.entry_run(place, shift, slot, run);
            let marks = self.slot_marks(number, slot);
            return Some(Slot::Entry { slot, run, word: Word(word), marks });
        }
        if word == RESERVED_WORD && shift == 0 {
            return Some(Slot::Reserved { slot });
        }
        match self.child(word, shift) {
            Ok(child) => {
                let child = self.node(child, shift - 6, start + ((slot as u128) << shift), link);
                Some(Slot::Node { slot, marks: self.slot_marks(number, slot), child })
            }
            Err(message) => {
                self.find(place, format!("slot {slot}: {message}"));
                self.wrong.insert(link);
                bad
            }
        }
    }

    fn entry_run(&mut self, place: usize, shift: u64, slot: usize, run: usize) {
        let aligned = run.is_power_of_two() && slot.is_multiple_of(run);
        let order = shift + u64::from(run.ilog2());
        if !aligned || run == SLOTS || order > 63 {
            self.find(
                place,
                format!("the entry takes {run} slots from {slot}: no order has these"),
            );
        }
    }

    /// The number of the node that a slot's word leads to, or what is wrong with that word.
    fn child(&self, word: u64, shift: u64) -> Result<usize, String> {
        if word / 4 < SLOTS as u64 {
            return Err(format!("a sibling of slot {} that follows no such entry", word / 4));
        }
        if word == RESERVED_WORD {
            return Err(format!("reserved ({word:#x}) in a node of shift {shift}, not 0"));
        }
        let Some(number) = self.node_number(word) else {
            return Err(format!("{word:#x} is no word of a slot in this pool"));
        };
        if shift == 0 {
            return Err(format!("node {number} below a node of shift 0"));
        }
        if self.seen[number] {
            return Err(format!("node {number} is reached a second time"));
        }
        Ok(number)
    }

    fn slot_marks(&self, number: usize, slot: usize) -> Marks {
        let bit = |mark| (self.word(mark_place(number, mark)) >> slot & 1) as u8;
        Marks((0..3).map(|mark| bit(mark) << mark).sum())
    }

    /// Compares the three mark words with what the slots call for; gives the marks of the node.
    fn mark_words(&mut self, number: usize, slots: &[Slot]) -> Marks {
        let mut marks = 0;
        for mark in 0..3 {
            let place = mark_place(number, mark);
            let found = self.word(place);
            marks |= u8::from(found != 0) << mark;
            let expected = slots.iter().fold(0, |bits, slot| bits | expected_bit(slot, mark as u8));
            for slot in (0..SLOTS).filter(|slot| (found ^ expected) >> slot & 1 == 1) {
                let is = if found >> slot & 1 == 1 { "set" } else { "clear" };
                let other = if is == "set" { "clear" } else { "set" };
                let message = format!("mark {mark} of slot {slot} is {is}, expected {other}");
                self.note(place, Follows::Link(Link::Slot(number, slot)), message);
            }
        }
        Marks(marks)
    }

    /// Every node that the tree does not reach is all zeros.
    fn unreached(&mut self) {
        for number in 0..self.seen.len() {
            let place = node_place(number);
            let words = &self.words[place..place + NODE_WORDS];
            let wrong = words.iter().filter(|word| **word != 0).count();
            let first = words.iter().position(|word| *word != 0);
            if let (false, Some(first)) = (self.seen[number], first) {
                if (first, wrong) == (COUNT_FIELD, 1) {
                    self.expect(place + first, "the filled count", 0, Follows::Nothing);
                    continue;
                }
                let message =
                    format!("node {number} is in no slot, but {wrong} of its words are not 0");
                let follows = if self.is_lost(number) { Follows::Surely } else { Follows::Nothing };
                self.note(place + first, follows, message);
            }
        }
    }

    /// Whether a node that nothing leads to is missing where its owner word says: there then is the
    /// finding, and the node's own follows from it.
    fn is_lost(&mut self, number: usize) -> bool {
        let Some(link) = self.link_of(number) else {
            return false;
        };
        if self.wrong.contains(&link) {
            return true;
        }
        if link == Link::Head && self.head_is_itself() {
            return false;
        }
        let place = match link {
            Link::Head => 1,
            Link::Slot(node, slot) => slot_place(node, slot),
        };
        let (found, node) = (self.word(place), node_word(number));
        if found == node {
            // It is below a node that is lost itself.
            return true;
        }
        // Another node in its place may be there by right.
        let lost = link == Link::Head || self.node_number(found).is_none();
        if lost {
            let what = if link == Link::Head { "the head" } else { "the slot" };
            self.find(place, format!("{what} is {found:#x}, but by its owner word node {number} is there ({node:#x})"));
            self.wrong.insert(link);
        }
        lost
    }

    /// Whether the head leads to a node that is the head by its own owner word.
    fn head_is_itself(&self) -> bool {
        let head = self.node_number(self.word(1));
        head.is_some_and(|number| self.word(owner_place(number)) == 0)
    }

    /// Where a node belongs by its own words, if they are those of a node in use.
    fn link_of(&self, number: usize) -> Option<Link> {
        let shift = shift_of(self.word(node_place(number)))?;
        (0..SLOTS).find(|slot| self.word(slot_place(number, *slot)) != 0)?;
        let Some(owner) = self.word(owner_place(number)).checked_sub(1) else {
            return Some(Link::Head);
        };
        let owner = usize::try_from(owner).ok()?;
        let (node, slot) = (owner / SLOTS, owner % SLOTS);
        // An owner word may name any node: its place is asked for only if the pool has it.
        if node >= self.seen.len() {
            return None;
        }
        let above = shift_of(self.word(node_place(node)))?;
        (above == shift + 6).then_some(Link::Slot(node, slot))
    }
}

/// The bit of this slot in the word of a mark: an entry's own, whatever it is, or what lies below. What
/// is reserved has none.
fn expected_bit(slot: &Slot, mark: u8) -> u64 {
    match slot {
        Slot::Entry { slot, marks, .. } => u64::from(marks.has(mark)) << slot,
        Slot::Node { slot, child, .. } => u64::from(child.marks.has(mark)) << slot,
        Slot::Reserved { .. } | Slot::Bad { .. } => 0,
    }
}
