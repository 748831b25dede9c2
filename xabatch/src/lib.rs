//! What the tool xabatch does: text to batches, records to text, pool files and their inside.

pub mod attributes;
pub mod beside;
pub mod decode;
pub mod draw;
pub mod draw_names;
pub mod escape;
pub mod inspect;
pub mod json;
pub mod key;
pub mod kind;
pub mod locked;
pub mod names;
pub mod progress;
pub mod script;
pub mod system;
pub mod tally;
pub mod text;
pub mod window;
