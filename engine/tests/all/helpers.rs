//! Both engines side by side, and the same beside reference/.

use engine::{Calls, HeadView, NodeView, Outcome, RawEngine, SafeEngine, NODE_BELOW, REPLY_BYTES};
use reference::batch::{read, Command, Reply};
use reference::command::execute_each;
use reference::model::{Entry, RESERVED};
use reference::pool::{sibling_word, State};
use reference::tree::{Head, Node, Slot, Tree, SLOTS};

/// What is in the reply space before a call.
const UNTOUCHED: u8 = 0xAA;

pub const LAST: u64 = u64::MAX;

pub fn outcome(answer: u64, number: u64) -> Outcome {
    Outcome { answer, number }
}

/// Tagged fields whose length fits one byte.
fn record(tag: u8, fields: &[&[u8]]) -> Vec<u8> {
    let fields = fields.concat();
    [vec![tag, 0, fields.len() as u8], fields].concat()
}

/// A command's record, by the table of commands (R44 to R48, and tag 7).
pub fn bytes_of(command: Command) -> Vec<u8> {
    match command {
        Command::Store { index, order, word } => {
            record(1, &[&index.to_be_bytes(), &[order], &word.to_be_bytes()])
        }
        Command::Load { index } => record(2, &[&index.to_be_bytes()]),
        Command::Erase { index } => record(3, &[&index.to_be_bytes()]),
        Command::Mark { index, mark } => record(4, &[&index.to_be_bytes(), &[mark]]),
        Command::Unmark { index, mark } => record(5, &[&index.to_be_bytes(), &[mark]]),
        Command::Find { first, last, filter, budget } => record(
            6,
            &[&first.to_be_bytes(), &last.to_be_bytes(), &[filter], &budget.to_be_bytes()],
        ),
        Command::Reserve { index } => record(7, &[&index.to_be_bytes()]),
    }
}

pub fn batch_of(commands: &[Command]) -> Vec<u8> {
    commands.iter().flat_map(|command| bytes_of(*command)).collect()
}

/// Both engines with the same nodes; what one gives, the other must give.
pub struct Both {
    safe: SafeEngine,
    raw: RawEngine,
}

impl Both {
    pub fn new(nodes: usize) -> Both {
        let (safe, raw) = (SafeEngine::new(nodes), RawEngine::new(nodes));
        Both { safe: safe.expect("so many nodes"), raw: raw.expect("so many nodes") }
    }

    pub fn init(&mut self) {
        self.safe.init();
        self.raw.init();
    }

    /// The outcome, and the reply space of so many bytes after it.
    pub fn run(&mut self, batch: &[u8], space: usize) -> (Outcome, Vec<u8>) {
        let (mut safe, mut raw) = (vec![UNTOUCHED; space], vec![UNTOUCHED; space]);
        let outcome = self.safe.run(batch, &mut safe);
        assert_eq!(self.raw.run(batch, &mut raw), outcome);
        assert_eq!(raw, safe);
        (outcome, safe)
    }

    /// The reply to one command, as reference has it.
    pub fn reply(&mut self, command: Command) -> Reply {
        let (outcome, bytes) = self.run(&bytes_of(command), REPLY_BYTES);
        assert_eq!((outcome.answer, outcome.number), (0, 1));
        let word = |from: usize| u64::from_be_bytes(bytes[from..from + 8].try_into().expect("8"));
        let reply = Reply {
            tag: bytes[0],
            answer: bytes[3],
            index: word(4),
            order: bytes[12],
            word: word(13),
            marks: bytes[21],
            count: u16::from_be_bytes([bytes[22], bytes[23]]),
        };
        assert_eq!(reply.bytes().to_vec(), bytes);
        reply
    }

    pub fn used(&self) -> usize {
        assert_eq!(self.raw.used(), self.safe.used());
        self.safe.used()
    }

    /// The head and the nodes, which contradict nothing.
    pub fn tree(&self) -> (HeadView, Vec<NodeView>) {
        let nodes = self.safe.nodes().expect("nodes that agree with each other");
        assert_eq!(self.raw.nodes().as_ref(), Some(&nodes));
        assert_eq!(self.raw.head(), self.safe.head());
        (self.safe.head(), nodes)
    }
}

/// Both engines beside reference's list.
pub struct Beside {
    pub state: State,
    pub both: Both,
    /// Batches that ran, and commands, by their answers.
    pub batches: usize,
    pub answers: [usize; 16],
    pub refused: [usize; 5],
}

impl Beside {
    pub fn new(nodes: usize) -> Beside {
        let (state, both) = (State::empty(nodes), Both::new(nodes));
        Beside { state, both, batches: 0, answers: [0; 16], refused: [0; 5] }
    }

    pub fn init(&mut self) {
        self.state = State::empty(self.state.places.len());
        self.both.init();
    }

    /// What reference's rules give: the outcome and all bytes of the reply space.
    fn expected(&mut self, batch: &[u8], space: usize) -> (Outcome, Vec<u8>) {
        let mut bytes = vec![UNTOUCHED; space];
        let commands = match read(batch) {
            Ok(commands) => commands,
            Err(place) => return (outcome(3, place as u64), bytes),
        };
        if space < REPLY_BYTES * commands.len() {
            return (outcome(4, commands.len() as u64), bytes);
        }
        for (done, out) in
            execute_each(&self.state, &commands).into_iter().zip(bytes.chunks_mut(REPLY_BYTES))
        {
            out.copy_from_slice(&done.reply.bytes());
            self.answers[usize::from(done.reply.answer)] += 1;
            self.state = done.state;
        }
        (outcome(0, commands.len() as u64), bytes)
    }

    pub fn run(&mut self, batch: &[u8], space: usize) {
        let before = self.state.clone();
        let expected = self.expected(batch, space);
        self.batches += 1;
        self.refused[expected.0.answer as usize] += 1;
        let found = self.both.run(batch, space);
        assert_eq!(found, expected, "{:?} on {:?}", read(batch), before.list);
    }

    /// The engines' tree is the one that reference's list prescribes.
    pub fn compare_trees(&self) {
        let tree = Tree::of(&self.state.list);
        let (head, nodes) = self.both.tree();
        assert_eq!(head, head_view(tree.head));
        let mut all: Vec<NodeView> = tree.nodes.iter().map(|node| view(&tree, *node)).collect();
        all.sort_by_key(|node| (node.base, std::cmp::Reverse(node.shift)));
        assert_eq!(nodes, all, "{:?}", self.state.list);
    }

    pub fn commands(&self) -> usize {
        self.answers.iter().sum()
    }
}

fn head_view(head: Head) -> HeadView {
    match head {
        Head::Empty => HeadView::Empty,
        Head::Reserved => HeadView::Bare { word: RESERVED, marks: 0 },
        Head::Entry(Entry { word, marks, .. }) => HeadView::Bare { word, marks },
        Head::Node(node) => HeadView::Node { shift: node.shift.into() },
    }
}

/// A node of reference's tree as an engine shows it.
fn view(tree: &Tree, node: Node) -> NodeView {
    let base = node.range().start as u64;
    let (mut marks, mut slots) = ([0; 3], [0; SLOTS]);
    for (slot, word) in slots.iter_mut().enumerate() {
        *word = match tree.slot(node, slot) {
            Slot::Empty => 0,
            Slot::Reserved => RESERVED,
            Slot::Entry(entry) => entry.word,
            Slot::Sibling(entry) => sibling_word(node.slot_of(entry.base)),
            Slot::Node(_) => NODE_BELOW,
        };
        let set = tree.slot_marks(node, slot);
        for (mark, bits) in marks.iter_mut().enumerate() {
            *bits |= u64::from(set >> mark & 1) << slot;
        }
    }
    let count = slots.iter().filter(|word| **word != 0).count() as u32;
    NodeView { shift: node.shift.into(), base, marks, count, slots }
}
