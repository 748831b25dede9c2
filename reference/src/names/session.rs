//! The subcommand `names`: calls on pools of names from a script, and what comes of them.
//!
//! Standard input has one of these on each line. Numbers are decimal; KEY is the key's bytes as hex digits, `-` if it has
//! none; what follows a `#` is not read.
//!
//! ```text
//! pool WORDS           from here on a pool of so many words, all 0
//! word PLACE VALUE     this word is written
//! clear
//! check
//! lookup KEY
//! insert KEY OBJECT
//! delete KEY
//! words                asks for the words as they stand
//! ```
//!
//! Of a call its line is written, with one space between fields, and then:
//!
//! ```text
//! .. ANSWER NUMBER
//! .. ANSWER NUMBER needed COUNT    an insert or delete: answer 0 or 11, with the blocks needed
//! word PLACE VALUE                 after `words`: every nonzero word of the pool, places ascending
//! end                              (and this line after them)
//! ```

use crate::calls::Outcome;
use crate::names::calls::perform;
use crate::names::command::Call;
use std::io::{BufRead, Error, Result, Write};

pub fn run(input: impl BufRead, out: &mut impl Write) -> Result<()> {
    let mut pool = Vec::new();
    for (at, line) in input.lines().enumerate() {
        let line = line?;
        let fields: Vec<&str> = line.split('#').take(1).flat_map(str::split_whitespace).collect();
        if !fields.is_empty() {
            let understood = obey(&mut pool, &fields, out)?;
            understood.ok_or_else(|| Error::other(format!("line {}: {line}", at + 1)))?;
        }
    }
    Ok(())
}

/// Does what one line says; nothing if it is not understood.
fn obey(pool: &mut Vec<u64>, fields: &[&str], out: &mut impl Write) -> Result<Option<()>> {
    match fields {
        ["pool", words] => return Ok(words.parse().ok().map(|words| *pool = vec![0; words])),
        ["word", place, value] => return Ok(set(pool, place, value)),
        ["words"] => {
            print_words(pool, out)?;
            writeln!(out, "end")?;
        }
        _ => {
            let Some(call) = call(fields) else {
                return Ok(None);
            };
            let (outcome, needed) = perform(pool, &call);
            writeln!(out, "{}", line(&call, outcome, needed))?;
        }
    }
    Ok(Some(()))
}

fn set(pool: &mut [u64], place: &str, value: &str) -> Option<()> {
    *pool.get_mut(place.parse::<usize>().ok()?)? = value.parse().ok()?;
    Some(())
}

fn call(fields: &[&str]) -> Option<Call> {
    Some(match fields {
        ["clear"] => Call::Clear,
        ["check"] => Call::Check,
        ["lookup", key] => Call::Lookup { key: bytes(key)? },
        ["insert", key, object] => Call::Insert { key: bytes(key)?, object: object.parse().ok()? },
        ["delete", key] => Call::Delete { key: bytes(key)? },
        _ => return None,
    })
}

/// The line of a call with what came of it.
pub fn line(call: &Call, outcome: Outcome, needed: Option<usize>) -> String {
    let needed = needed.map_or(String::new(), |count| format!(" needed {count}"));
    format!("{} {} {}{needed}", text(call), outcome.answer, outcome.number)
}

fn text(call: &Call) -> String {
    match call {
        Call::Clear => "clear".into(),
        Call::Check => "check".into(),
        Call::Lookup { key } => format!("lookup {}", hex(key)),
        Call::Insert { key, object } => format!("insert {} {object}", hex(key)),
        Call::Delete { key } => format!("delete {}", hex(key)),
    }
}

pub fn print_words(words: &[u64], out: &mut impl Write) -> Result<()> {
    for (place, word) in words.iter().enumerate().filter(|(_, word)| **word != 0) {
        writeln!(out, "word {place} {word}")?;
    }
    Ok(())
}

pub fn hex(bytes: &[u8]) -> String {
    if bytes.is_empty() {
        return "-".into();
    }
    bytes.iter().map(|byte| format!("{byte:02x}")).collect()
}

fn bytes(text: &str) -> Option<Vec<u8>> {
    if text == "-" {
        return Some(Vec::new());
    }
    let digits: Option<Vec<u8>> =
        text.chars().map(|digit| Some(digit.to_digit(16)? as u8)).collect();
    let pairs = digits.filter(|digits| digits.len().is_multiple_of(2))?;
    Some(pairs.chunks(2).map(|pair| 16 * pair[0] + pair[1]).collect())
}
