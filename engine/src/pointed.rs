//! Nodes linked by raw pointers, with the pointer in the slot as in the kernel's XArray. All `unsafe`
//! code of this crate is here.
//!
//! Links and slot words are made here alone, from pointers into the one allocation of the slab, and
//! the tree that owns a slab hands its links to no other; the allocation lives as long as the slab.

use crate::node::Node;
use crate::slab::Slab;
use std::ptr::{self, NonNull};

#[derive(Clone, Copy, Debug, PartialEq, Eq)]
pub struct Pointer(NonNull<Node<Pointer>>);

pub struct Pointed {
    nodes: NonNull<Node<Pointer>>,
    count: usize,
    /// A stack: a list through the nodes themselves would wait for each node's memory in turn.
    free: Vec<Pointer>,
}

/// As in XArray: a node's word is its address, which is a multiple of 64, plus 2.
const INTERNAL: usize = 2;

impl Pointed {
    fn all(&mut self) -> &mut [Node<Pointer>] {
        // SAFETY: the allocation has so many nodes, all initialised, and `self` is borrowed alone.
        unsafe { std::slice::from_raw_parts_mut(self.nodes.as_ptr(), self.count) }
    }

    /// The lowest address is taken first.
    fn free_all(&mut self) {
        self.free.clear();
        // SAFETY: inside the allocation.
        self.free
            .extend((0..self.count).rev().map(|number| Pointer(unsafe { self.nodes.add(number) })));
    }
}

impl Slab for Pointed {
    type Link = Pointer;

    fn new(nodes: usize) -> Pointed {
        let all: Box<[Node<Pointer>]> = vec![Node::empty(); nodes].into_boxed_slice();
        let first = NonNull::from(Box::leak(all)).cast();
        let mut slab = Pointed { nodes: first, count: nodes, free: Vec::with_capacity(nodes) };
        slab.free_all();
        slab
    }

    fn reset(&mut self) {
        self.all().fill(Node::empty());
        self.free_all();
    }

    #[inline]
    fn free(&self) -> usize {
        self.free.len()
    }

    #[inline]
    fn take(&mut self) -> Pointer {
        self.free.pop().expect("a node is free")
    }

    #[inline]
    fn give_back(&mut self, link: Pointer) {
        self.free.push(link);
    }

    #[inline]
    fn node(&self, link: Pointer) -> &Node<Pointer> {
        // SAFETY: links point to nodes of the slab, which is borrowed as long as the node is.
        unsafe { link.0.as_ref() }
    }

    #[inline]
    fn node_mut(&mut self, mut link: Pointer) -> &mut Node<Pointer> {
        // SAFETY: as in `node`; the slab is borrowed alone.
        unsafe { link.0.as_mut() }
    }

    #[inline]
    fn word(link: Pointer) -> u64 {
        (link.0.as_ptr().expose_provenance() + INTERNAL) as u64
    }

    #[inline]
    fn link(word: u64) -> Pointer {
        let address = word as usize - INTERNAL;
        // SAFETY: the word was made from a pointer that was not null.
        Pointer(unsafe { NonNull::new_unchecked(ptr::with_exposed_provenance_mut(address)) })
    }
}

impl Drop for Pointed {
    fn drop(&mut self) {
        let all = ptr::slice_from_raw_parts_mut(self.nodes.as_ptr(), self.count);
        // SAFETY: the box that `new` leaked; no link is used after this.
        drop(unsafe { Box::from_raw(all) });
    }
}
