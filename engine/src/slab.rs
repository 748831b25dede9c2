//! Where nodes are kept and how they are linked: by numbers in a `Vec`, or by pointers.

use crate::node::Node;

/// A fixed number of nodes. All of the crate but for the two modules that keep nodes is written over
/// this. A link is handed out by `take` and is used on the same slab alone.
pub trait Slab {
    type Link: Copy;

    /// So many nodes, all free.
    fn new(nodes: usize) -> Self;

    /// All nodes are free again, whatever stood in them.
    fn reset(&mut self);

    /// How many nodes are free.
    fn free(&self) -> usize;

    /// A node with nothing in it. One must be free.
    fn take(&mut self) -> Self::Link;

    /// The node is free from here on. Nothing may be in its slots, so that `take` need not write them.
    fn give_back(&mut self, link: Self::Link);

    fn node(&self, link: Self::Link) -> &Node<Self::Link>;

    fn node_mut(&mut self, link: Self::Link) -> &mut Node<Self::Link>;

    /// The word of a slot above this node.
    fn word(link: Self::Link) -> u64;

    /// The node below a slot with this word, which `word` gave.
    fn link(word: u64) -> Self::Link;
}
