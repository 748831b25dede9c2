//! Nodes in a `Vec`, linked by their numbers: safe Rust.

use crate::node::Node;
use crate::slab::Slab;
use crate::word;

#[derive(Clone, Copy, Debug, PartialEq, Eq)]
pub struct Number(u32);

pub struct Numbered {
    nodes: Vec<Node<Number>>,
    free: Vec<Number>,
}

impl Numbered {
    /// The lowest number is taken first, so that nodes made together lie together.
    fn free_all(&mut self) {
        self.free.clear();
        self.free.extend((0..self.nodes.len() as u32).rev().map(Number));
    }
}

impl Slab for Numbered {
    type Link = Number;

    fn new(nodes: usize) -> Numbered {
        let mut slab =
            Numbered { nodes: vec![Node::empty(); nodes], free: Vec::with_capacity(nodes) };
        slab.free_all();
        slab
    }

    fn reset(&mut self) {
        self.nodes.fill(Node::empty());
        self.free_all();
    }

    #[inline]
    fn free(&self) -> usize {
        self.free.len()
    }

    #[inline]
    fn take(&mut self) -> Number {
        self.free.pop().expect("a node is free")
    }

    #[inline]
    fn give_back(&mut self, link: Number) {
        self.free.push(link);
    }

    #[inline]
    fn node(&self, link: Number) -> &Node<Number> {
        &self.nodes[link.0 as usize]
    }

    #[inline]
    fn node_mut(&mut self, link: Number) -> &mut Node<Number> {
        &mut self.nodes[link.0 as usize]
    }

    #[inline]
    fn word(link: Number) -> u64 {
        word::node(link.0)
    }

    #[inline]
    fn link(word: u64) -> Number {
        Number(word::node_number(word))
    }
}
