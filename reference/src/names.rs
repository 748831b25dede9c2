//! Pools of names (request P10): objects by keys of 1 to 32 bytes, in the tree of 16 slots that their list prescribes.
//!
//! As for the first tree nothing is updated in place: tree, numbers and words are worked out afresh from the list.

pub mod calls;
pub mod command;
pub mod keys;
pub mod lists;
pub mod part;
pub mod pool;
pub mod random;
pub mod recover;
pub mod session;
pub mod tree;
