//! Helpers: records and replies by the rules' tables, pools under test, expected words.

use reference::batch::Command;
use reference::calls::{check, init, run, Outcome};
use reference::command::needed;
use reference::pool::State;
use reference::recover::recover;

pub const LAST: u64 = u64::MAX;
pub const JUNK: u64 = 0xDEAD_BEEF_DEAD_BEEF;
pub const UNTOUCHED: u8 = 0xAA;

/// Node words by R31.
pub fn node_word(number: usize) -> u64 {
    4 * (1024 + number as u64) + 2
}

/// The words of a node, by R29.
const NODE_WORDS: usize = 70;

/// The words of a pool of so many nodes, by R27.
pub fn length_of(count: usize) -> usize {
    4 + NODE_WORDS * count
}

/// The place of a field of a node, by R29: shift + 1 is field 0, the owner 1, the filled count 2, the
/// marks 3 to 5, the slots from 6 on.
pub fn at(number: usize, field: usize) -> usize {
    length_of(number) + field
}

pub fn count_at(number: usize) -> usize {
    at(number, 2)
}

pub fn mark_at(number: usize, mark: usize) -> usize {
    at(number, 3 + mark)
}

pub fn slot_at(number: usize, slot: usize) -> usize {
    at(number, 6 + slot)
}

/// How many slots of a node are not 0 (R220).
pub fn filled(words: &[u64], number: usize) -> u64 {
    words[slot_at(number, 0)..slot_at(number, 64)].iter().filter(|word| **word != 0).count() as u64
}

/// Sets every node's filled count right, so that no test is passed for the sake of a wrong one.
pub fn recount(words: &mut [u64]) {
    for number in 0..words.len() / NODE_WORDS {
        words[count_at(number)] = filled(words, number);
    }
}

pub fn outcome(answer: u64, number: u64) -> Outcome {
    Outcome { answer, number }
}

/// The words of a pool of N nodes that are zero but for word 0, those named and the filled counts
/// that go with them.
pub fn words_with(count: usize, named: &[(usize, u64)]) -> Vec<u64> {
    let mut words = vec![0; length_of(count)];
    words[0] = count as u64;
    for (place, word) in named {
        words[*place] = *word;
    }
    recount(&mut words);
    words
}

/// The words with one of them changed; where that is a slot, with its node's filled count.
pub fn with_word(words: &[u64], place: usize, word: u64) -> Vec<u64> {
    let mut changed = words.to_vec();
    changed[place] = word;
    let number = place.saturating_sub(at(0, 0)) / NODE_WORDS;
    if (slot_at(number, 0)..slot_at(number, 64)).contains(&place) {
        changed[count_at(number)] = filled(&changed, number);
    }
    changed
}

/// The words of a node: its place and value pairs for shift, owner and the named slots.
pub fn node(number: usize, shift: u64, owner: u64, slots: &[(usize, u64)]) -> Vec<(usize, u64)> {
    let mut named = vec![(at(number, 0), shift + 1), (at(number, 1), owner)];
    named.extend(slots.iter().map(|(slot, word)| (slot_at(number, *slot), *word)));
    named
}

/// The bytes of a text of hex digits and spaces.
pub fn hex(text: &str) -> Vec<u8> {
    let digits: Vec<u8> =
        text.chars().filter_map(|c| c.to_digit(16)).map(|digit| digit as u8).collect();
    digits.chunks(2).map(|pair| 16 * pair[0] + pair[1]).collect()
}

/// Tagged fields whose length fits one byte.
pub fn record(tag: u8, length: u8, fields: &[&[u8]]) -> Vec<u8> {
    let mut bytes = vec![tag, 0, length];
    bytes.extend(fields.concat());
    bytes
}

/// A command's record, by the table of commands.
pub fn bytes_of(command: Command) -> Vec<u8> {
    match command {
        Command::Store { index, order, word } => {
            record(1, 17, &[&index.to_be_bytes(), &[order], &word.to_be_bytes()])
        }
        Command::Load { index } => record(2, 8, &[&index.to_be_bytes()]),
        Command::Erase { index } => record(3, 8, &[&index.to_be_bytes()]),
        Command::Mark { index, mark } => record(4, 9, &[&index.to_be_bytes(), &[mark]]),
        Command::Unmark { index, mark } => record(5, 9, &[&index.to_be_bytes(), &[mark]]),
        Command::Find { first, last, filter, budget } => {
            let (first, last, budget) =
                (first.to_be_bytes(), last.to_be_bytes(), budget.to_be_bytes());
            record(6, 19, &[&first, &last, &[filter], &budget])
        }
        Command::Reserve { index } => record(7, 8, &[&index.to_be_bytes()]),
    }
}

/// Records of 11 and of 12 bytes, whatever they find.
pub fn loads_and_marks(loads: usize, marks: usize) -> Vec<u8> {
    let (load, mark) = (Command::Load { index: 0 }, Command::Mark { index: 0, mark: 0 });
    [bytes_of(load).repeat(loads), bytes_of(mark).repeat(marks)].concat()
}

pub fn batch_of(commands: &[Command]) -> Vec<u8> {
    commands.iter().flat_map(|command| bytes_of(*command)).collect()
}

/// What a reply to one command says.
#[derive(Clone, Copy, Debug, Default, PartialEq, Eq)]
pub struct Said {
    pub answer: u8,
    pub index: u64,
    pub order: u8,
    pub word: u64,
    pub marks: u8,
    pub count: u16,
}

impl Said {
    /// The 24 bytes of the reply to a command of this tag.
    pub fn bytes(self, tag: u8) -> Vec<u8> {
        let (index, word, count) =
            (self.index.to_be_bytes(), self.word.to_be_bytes(), self.count.to_be_bytes());
        let fields: [&[u8]; 6] =
            [&[self.answer], &index, &[self.order], &word, &[self.marks], &count];
        record(tag + 128, 21, &fields)
    }
}

/// A reply that gives only an answer.
pub fn only(answer: u8) -> Said {
    Said { answer, ..Said::default() }
}

/// A reply that gives an entry.
pub fn gives(index: u64, order: u8, word: u64, marks: u8) -> Said {
    Said { index, order, word, marks, ..only(0) }
}

/// A reply that counts nodes or steps.
pub fn counting(said: Said, count: u16) -> Said {
    Said { count, ..said }
}

/// A pool under test; each call on it must leave it well-formed.
pub struct Pool {
    pub words: Vec<u64>,
}

impl Pool {
    pub fn fresh(count: usize) -> Pool {
        let mut words = vec![JUNK; length_of(count)];
        assert_eq!(init(&mut words), outcome(0, 0));
        Pool { words }
    }

    /// Runs a batch of good records and gives its reply bytes; bytes past the last reply stay.
    pub fn run(&mut self, batch: &[u8], commands: usize) -> Vec<u8> {
        let mut reply = vec![UNTOUCHED; 24 * commands + 30];
        assert_eq!(run(&mut self.words, batch, &mut reply), outcome(0, commands as u64));
        assert_eq!(check(&self.words), outcome(0, 0));
        assert!(reply[24 * commands..].iter().all(|byte| *byte == UNTOUCHED));
        reply.truncate(24 * commands);
        reply
    }

    /// Runs one command and demands its whole reply.
    pub fn expect(&mut self, command: Command, said: Said) {
        let record = bytes_of(command);
        let reply = self.run(&record, 1);
        assert_eq!(reply, said.bytes(record[0]), "{command:?} in order to be {said:?}");
    }

    pub fn expect_store(&mut self, index: u64, order: u8, word: u64, said: Said) {
        self.expect(Command::Store { index, order, word }, said);
    }

    /// Stores a new entry of order 0.
    pub fn put(&mut self, index: u64, word: u64) {
        self.expect_store(index, 0, word, gives(index, 0, word, 0));
    }

    pub fn expect_load(&mut self, index: u64, said: Said) {
        self.expect(Command::Load { index }, said);
    }

    pub fn expect_erase(&mut self, index: u64, said: Said) {
        self.expect(Command::Erase { index }, said);
    }

    pub fn expect_mark(&mut self, index: u64, mark: u8, said: Said) {
        self.expect(Command::Mark { index, mark }, said);
    }

    pub fn expect_unmark(&mut self, index: u64, mark: u8, said: Said) {
        self.expect(Command::Unmark { index, mark }, said);
    }

    /// A find up to the last index.
    pub fn expect_find(&mut self, first: u64, filter: u8, budget: u16, said: Said) {
        self.expect(Command::Find { first, last: LAST, filter, budget }, said);
    }

    pub fn state(&self) -> State {
        recover(&self.words).expect("a well-formed pool")
    }

    pub fn needed(&self, index: u64, order: u8) -> usize {
        needed(&self.state(), index, order, 7).expect("good fields")
    }

    pub fn assert_words(&self, named: &[(usize, u64)]) {
        assert_eq!(self.words, words_with(self.words[0] as usize, named));
    }
}

/// A pool as case 2 leaves it.
pub fn case_2(count: usize) -> Pool {
    let mut pool = Pool::fresh(count);
    pool.put(0, 3);
    pool
}

/// A pool as case 3 leaves it.
pub fn case_3(count: usize) -> Pool {
    let mut pool = case_2(count);
    pool.put(64, 5);
    pool
}
