//! The subcommand `lists SEED COUNT MAXLEN`: random command lists with all that comes of them.
//!
//! Each list runs from a fresh pool. Numbers are decimal, one space between fields; REPLY is the
//! 24 reply bytes as 48 lower-case hex digits. One list is these lines, in this order:
//!
//! ```text
//! list N                                       the pool has N nodes (1 to 24)
//! store INDEX ORDER WORD REPLY needed COUNT    the fields are good: nodes needed (answer 0 or 11)
//! store INDEX ORDER WORD REPLY                 the fields are refused (answer 5, 14 or 6)
//! load INDEX REPLY
//! erase INDEX REPLY
//! mark INDEX MARK REPLY
//! unmark INDEX MARK REPLY
//! find FIRST LAST FILTER BUDGET REPLY
//! reserve INDEX REPLY needed COUNT             nothing covers it: nodes needed (answer 0 or 11)
//! reserve INDEX REPLY                          it is covered (answer 15)
//!                                              (one such line a command, 1 to MAXLEN of them)
//! entry BASE ORDER WORD MARKS                  the list after the commands, in index order; a
//!                                              reservation has order 0, word 1030 and marks 0
//! place NUMBER SHIFT BLOCK                     node NUMBER is in use for this shift and block
//! place NUMBER free                            (one place line for each of 0 to N - 1)
//! word PLACE VALUE                             every nonzero word of the pool, places ascending
//! listing FIRST LAST BYTES                     the bytes listed, as hex digits; FIRST <= LAST
//! listing FIRST LAST                           nothing is listed (three to five such lines)
//! end
//! ```

use crate::awkward::Commands;
use crate::batch::Command;
use crate::command::{execute, needed, needed_to_reserve, Done};
use crate::listing::listing;
use crate::model::Entry;
use crate::pool::State;
use crate::random::Random;
use std::io::{Result, Write};

const MOST_NODES: u64 = 24;

pub fn print(out: &mut impl Write, seed: u64, count: u64, most: u64) -> Result<()> {
    let mut random = Random::new(seed);
    for _ in 0..count {
        let nodes = 1 + random.below(MOST_NODES) as usize;
        let length = 1 + random.below(most.max(1));
        let seed = random.word();
        let mut commands = Commands::new(Random::new(seed));
        let state = print_list(out, &mut commands, nodes, length)?;
        // Of their own numbers, so that they leave the lists of a seed as they are.
        print_listings(out, &mut Random::new(!seed), &state.list)?;
        writeln!(out, "end")?;
    }
    Ok(())
}

fn print_list(
    out: &mut impl Write,
    commands: &mut Commands,
    nodes: usize,
    length: u64,
) -> Result<State> {
    writeln!(out, "list {nodes}")?;
    let mut state = State::empty(nodes);
    for _ in 0..length {
        let command = commands.command();
        let done = execute(&state, command);
        print_command(out, &state, command, &done)?;
        state = done.state;
    }
    print_state(out, &state)?;
    Ok(state)
}

fn print_command(out: &mut impl Write, state: &State, command: Command, done: &Done) -> Result<()> {
    write!(out, "{} {}", fields(command), hex(&done.reply.bytes()))?;
    let needed = match command {
        Command::Store { index, order, word } => needed(state, index, order, word),
        Command::Reserve { index } => needed_to_reserve(state, index),
        _ => None,
    };
    if let Some(count) = needed {
        write!(out, " needed {count}")?;
    }
    writeln!(out)
}

fn fields(command: Command) -> String {
    match command {
        Command::Store { index, order, word } => format!("store {index} {order} {word}"),
        Command::Load { index } => format!("load {index}"),
        Command::Erase { index } => format!("erase {index}"),
        Command::Mark { index, mark } => format!("mark {index} {mark}"),
        Command::Unmark { index, mark } => format!("unmark {index} {mark}"),
        Command::Find { first, last, filter, budget } => {
            format!("find {first} {last} {filter} {budget}")
        }
        Command::Reserve { index } => format!("reserve {index}"),
    }
}

fn print_state(out: &mut impl Write, state: &State) -> Result<()> {
    for entry in &state.list {
        writeln!(out, "entry {} {} {} {}", entry.base, entry.order, entry.word, entry.marks)?;
    }
    for (number, place) in state.places.iter().enumerate() {
        match place {
            Some(node) => writeln!(out, "place {number} {} {}", node.shift, node.block)?,
            None => writeln!(out, "place {number} free")?,
        }
    }
    for (place, word) in state.words().iter().enumerate().filter(|(_, word)| **word != 0) {
        writeln!(out, "word {place} {word}")?;
    }
    Ok(())
}

fn hex(bytes: &[u8]) -> String {
    bytes.iter().map(|byte| format!("{byte:02x}")).collect()
}

fn print_listings(out: &mut impl Write, random: &mut Random, list: &[Entry]) -> Result<()> {
    for (first, last) in ranges(random, list) {
        let bytes = hex(&listing(list, first, last));
        let space = if bytes.is_empty() { "" } else { " " };
        writeln!(out, "listing {first} {last}{space}{bytes}")?;
    }
    Ok(())
}

/// Everything; where there are entries, from inside one to inside one, from just after one to just
/// before one, and an index inside one; and any ranges.
fn ranges(random: &mut Random, list: &[Entry]) -> Vec<(u64, u64)> {
    let mut all = vec![(0, u64::MAX)];
    if !list.is_empty() {
        let mut any = || list[random.below(list.len() as u64) as usize];
        let (one, other) = (any(), any());
        let (from, to) = (inside(random, one), inside(random, other));
        all.push(in_order(from, to));
        all.push(in_order(end(one).saturating_add(1), other.base.saturating_sub(1)));
        all.push((from, from));
    }
    let mut any = || random.word() >> random.below(64);
    all.push(in_order(any(), any()));
    if list.is_empty() {
        all.push(in_order(any(), any()));
    }
    all
}

fn in_order(one: u64, other: u64) -> (u64, u64) {
    (one.min(other), one.max(other))
}

/// The last index that the entry covers.
fn end(entry: Entry) -> u64 {
    (entry.range().end - 1) as u64
}

/// An index that the entry covers.
fn inside(random: &mut Random, entry: Entry) -> u64 {
    entry.base + random.below(end(entry) - entry.base + 1)
}
