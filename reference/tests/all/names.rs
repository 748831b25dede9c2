//! Pools of names (request P10). Expected numbers and words are worked out by hand from the rules.

mod damaged;
mod helpers;
mod parts;
mod random;
mod refusals;
mod session;
mod shortcuts;
mod small;
