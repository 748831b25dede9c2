//! All tests of the reference program. Expected values come from the rules (docs/RULES.md).

mod cases;
mod cells;
mod counts;
mod damaged;
mod evidence;
mod finds;
mod gates;
mod helpers;
mod invariants;
mod listing;
mod lists;
mod matched;
mod mistakes;
mod names;
mod parts;
mod plain;
mod prepares;
mod program;
mod random;
mod refusals;
mod reserved;
mod scripts;
