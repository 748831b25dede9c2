//! The engine that the speed of libxapool.a is measured by: the same batches in, the same replies out
//! and the same tree (docs/RULES.md), in ordinary Rust as one would write it for speed.
//!
//! It differs from the library in what that is for: nothing is proved, nodes are structs of its own
//! and not the words of a lent pool, and so there is no check of a pool before a batch runs. Batches
//! and replies, and the tree itself, are written once, over the slab in which the nodes are kept:
//! [`SafeEngine`] keeps them in a `Vec` and links them by number, [`RawEngine`] by raw pointers.

#![deny(unsafe_code)]

mod batch;
mod erase;
mod find;
mod inspect;
mod limits;
mod marks;
mod node;
mod numbered;
#[allow(unsafe_code)]
mod pointed;
mod reply;
mod slab;
mod store;
mod tree;
mod word;

use batch::{count, Command, Commands};
use find::Find;
use numbered::Numbered;
use pointed::Pointed;
use reply::answers;
use slab::Slab;
use tree::Tree;

pub use inspect::{HeadView, NodeView, NODE_BELOW};
pub use limits::{MOST_BATCH_BYTES, MOST_NODES};
pub use reply::REPLY_BYTES;

/// In safe Rust.
pub type SafeEngine = Engine<Numbered>;
/// With raw pointers.
pub type RawEngine = Engine<Pointed>;

/// What a call gives: the answer, and a number that depends on it.
#[derive(Clone, Copy, Debug, PartialEq, Eq)]
pub struct Outcome {
    pub answer: u64,
    pub number: u64,
}

impl Outcome {
    fn new(answer: u8, number: usize) -> Outcome {
        Outcome { answer: answer.into(), number: number as u64 }
    }
}

/// What both engines do.
pub trait Calls {
    /// No entries and all nodes free, as after `new`.
    fn init(&mut self);

    /// Runs a batch. One that is refused alters neither tree nor reply: answer 3 gives the place of
    /// its first bad record, 4 the number of its commands.
    fn run(&mut self, batch: &[u8], reply: &mut [u8]) -> Outcome;

    /// How many nodes are in use.
    fn used(&self) -> usize;
}

pub struct Engine<S: Slab> {
    tree: Tree<S>,
    nodes: usize,
}

impl<S: Slab> Engine<S> {
    /// With no entries and so many nodes; none for a number that no pool has.
    pub fn new(nodes: usize) -> Option<Engine<S>> {
        (1..=MOST_NODES).contains(&nodes).then(|| Engine { tree: Tree::new(nodes), nodes })
    }

    /// Each command writes its own reply, so that it need not pass through memory twice.
    #[inline(always)]
    fn execute(&mut self, command: Command, out: &mut [u8; REPLY_BYTES]) {
        let tree = &mut self.tree;
        match command {
            Command::Store { index, order, word } => tree.store(index, order, word).write(1, out),
            Command::Load { index } => tree.load(index).write(2, out),
            Command::Erase { index } => tree.erase(index).write(3, out),
            Command::Mark { index, mark } => tree.remark(index, mark, true).write(4, out),
            Command::Unmark { index, mark } => tree.remark(index, mark, false).write(5, out),
            Command::Find { first, last, filter, budget } => {
                tree.find(Find { first, last, filter, budget }).write(6, out)
            }
            Command::Reserve { index } => tree.reserve(index).write(7, out),
        }
    }
}

impl<S: Slab> Calls for Engine<S> {
    fn init(&mut self) {
        self.tree.reset();
    }

    fn run(&mut self, batch: &[u8], reply: &mut [u8]) -> Outcome {
        let commands = match count(batch) {
            Ok(commands) => commands,
            Err(place) => return Outcome::new(answers::BAD_BATCH, place),
        };
        let Some(space) = reply.get_mut(..REPLY_BYTES * commands) else {
            return Outcome::new(answers::REPLY_SPACE, commands);
        };
        let (spaces, _) = space.as_chunks_mut::<REPLY_BYTES>();
        for (command, out) in Commands::of(batch).zip(spaces) {
            self.execute(command, out);
        }
        Outcome::new(answers::DONE, commands)
    }

    fn used(&self) -> usize {
        self.nodes - self.tree.slab.free()
    }
}
