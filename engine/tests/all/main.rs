//! All tests of the engine. Expected values come from the rules (docs/RULES.md) or from reference/.

mod batches;
mod cases;
mod crowded;
mod helpers;
mod limits;
mod random;
