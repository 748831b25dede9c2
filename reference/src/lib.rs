//! The independent second program: the rules (docs/RULES.md) as plainly as possible, by one list of entries.
//!
//! Nothing is updated in place. After each command the canonical tree, the numbering of its nodes
//! and all words of the pool are worked out afresh from the list.

pub mod answers;
pub mod awkward;
pub mod batch;
pub mod calls;
pub mod command;
pub mod evidence;
pub mod find;
pub mod gates;
pub mod listing;
pub mod lists;
pub mod model;
pub mod names;
pub mod part;
pub mod plain;
pub mod pool;
pub mod random;
pub mod recover;
pub mod scripts;
pub mod tree;
