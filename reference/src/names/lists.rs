//! The subcommand `name-lists SEED COUNT MAXLEN`: random lists of calls on a pool of names, with all that comes of them.
//!
//! Each list runs from a pool just cleared. Numbers are decimal, one space between fields; KEY and BLOCK are hex digits: KEY
//! the key's bytes (`-` for none), BLOCK the nibbles that a block's numbers begin with (`-` for none). One list is:
//!
//! ```text
//! list N                                         the pool has N blocks (1 to 60)
//! insert KEY OBJECT ANSWER NUMBER needed COUNT   (.. needed COUNT: nothing but shortage refuses it, so answer 0 or 11)
//! delete KEY ANSWER NUMBER needed COUNT          (the same)
//! lookup KEY ANSWER NUMBER
//! check ANSWER NUMBER
//! clear ANSWER NUMBER                            (one such line a call, 1 to MAXLEN of them)
//! entry KEY OBJECT                               the plain list after the calls, ascending
//! place NUMBER node BLOCK                        what stands in block NUMBER
//! place NUMBER shortcut BLOCK BLOCK              (upper end, lower end)
//! place NUMBER leaf KEY
//! place NUMBER free                              (one place line for each of 0 to N - 1)
//! word PLACE VALUE                               every nonzero word of the pool, places ascending
//! end
//! ```

use crate::names::command::execute;
use crate::names::keys::Block;
use crate::names::pool::State;
use crate::names::random::Calls;
use crate::names::session::{hex, line, print_words};
use crate::names::tree::Item;
use crate::random::Random;
use std::io::{Result, Write};

const MOST_BLOCKS: u64 = 60;

pub fn print(out: &mut impl Write, seed: u64, count: u64, most: u64) -> Result<()> {
    let mut random = Random::new(seed);
    for _ in 0..count {
        let blocks = 1 + random.below(MOST_BLOCKS) as usize;
        let length = 1 + random.below(most.max(1));
        let mut calls = Calls::new(Random::new(random.word()));
        writeln!(out, "list {blocks}")?;
        let mut state = State::empty(blocks);
        for _ in 0..length {
            let call = calls.call(&state.list);
            let done = execute(&state, &call);
            writeln!(out, "{}", line(&call, done.outcome, done.needed))?;
            state = done.state;
        }
        print_state(out, &state)?;
        writeln!(out, "end")?;
    }
    Ok(())
}

fn print_state(out: &mut impl Write, state: &State) -> Result<()> {
    for (key, object) in &state.list {
        writeln!(out, "entry {} {object}", hex(&key.bytes()))?;
    }
    for (number, place) in state.places.iter().enumerate() {
        let what = match place {
            None => "free".into(),
            Some(Item::Node(block)) => format!("node {}", nibbles(block)),
            Some(Item::Shortcut { upper, lower }) => {
                format!("shortcut {} {}", nibbles(upper), nibbles(lower))
            }
            Some(Item::Leaf(key)) => format!("leaf {}", hex(&key.bytes())),
        };
        writeln!(out, "place {number} {what}")?;
    }
    print_words(&state.words(), out)
}

fn nibbles(block: &Block) -> String {
    if block.nibbles().is_empty() {
        return "-".into();
    }
    block.nibbles().iter().map(|nibble| format!("{nibble:x}")).collect()
}
