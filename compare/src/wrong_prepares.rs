//! Preparing (P11) by the library's own run on a copy, and what differs then; with a fault, if one is named. By this the
//! tests show that wrong programs are told apart.

use reference::batch::{read, Command, REPLY_BYTES};
use reference::calls::Outcome;
use reference::pool::{node_count, pool_length, SLOT_FIELDS};
use xapool_host::layout::{node_place, NODE_WORDS};
use xapool_host::raw;

/// The faults of which every one must show.
pub const FAULTS: [&str; 30] = [
    "any size",
    "any words",
    "2 after 3",
    "3 before the size",
    "load and find prepared",
    "several records prepared",
    "a byte behind let through",
    "the place with 3",
    "4 before the command's answer",
    "11 as 4",
    "a refusal is done",
    "a number with a refusal",
    "the slice cleared on a refusal",
    "the slice begun on 4",
    "4 with no number",
    "4 with the room",
    "4 in exact room",
    "no 4 where one word is missing",
    "pairs counted",
    "the rest cleared",
    "the last pair left out",
    "a freed node's words left out",
    "a freed node's owner left out",
    "a filled count left out",
    "mark words left out",
    "the anchor left out",
    "a word that stays",
    "all words",
    "places fall",
    "old values",
];

/// The words of the script, or the answer in the reply.
fn scripted(fault: &str, pool: &[u64], record: &[u8], commands: usize) -> Result<Vec<u64>, u64> {
    let (mut after, mut reply) = (pool.to_vec(), vec![0; REPLY_BYTES * commands]);
    let _ = raw::run(&mut after, record, &mut reply);
    let refused = reply.chunks(REPLY_BYTES).map(|reply| reply[3]).find(|answer| *answer != 0);
    if let Some(answer) = refused {
        return if fault == "a refusal is done" { Ok(Vec::new()) } else { Err(answer.into()) };
    }
    let mut pairs: Vec<[u64; 2]> = Vec::new();
    for (place, (old, new)) in pool.iter().zip(&after).enumerate() {
        let stays = fault == "a word that stays" && place == 1 || fault == "all words";
        if old != new || stays {
            pairs.push([place as u64, if fault == "old values" { *old } else { *new }]);
        }
    }
    // The place in a node, and whether the node is free afterwards.
    let field = |place: u64| (place as usize).checked_sub(node_place(0)).map(|at| at % NODE_WORDS);
    let freed = |place: u64| {
        let node = (place as usize - node_place(0)) / NODE_WORDS;
        after[node_place(node)] == 0 && pool[node_place(node)] != 0
    };
    pairs.retain(|[place, _]| match (fault, field(*place)) {
        ("a freed node's words left out", Some(at)) => at < SLOT_FIELDS || !freed(*place),
        ("a freed node's owner left out", Some(1)) => !freed(*place),
        ("a filled count left out", Some(2)) => false,
        ("mark words left out", Some(3..6)) => false,
        ("the anchor left out", None) => false,
        _ => true,
    });
    if fault == "the last pair left out" {
        pairs.pop();
    }
    if fault == "places fall" {
        pairs.reverse();
    }
    Ok(pairs.concat())
}

/// Without a fault the right one.
pub fn prepare(fault: &str, pool: &[u64], record: &[u8], slice: &mut [u64]) -> Outcome {
    let refused = |answer| Outcome { answer, number: 0 };
    if fault == "3 before the size" && read(record).is_err() {
        return refused(3);
    }
    if node_count(pool.len()).is_none() && !(fault == "any size" && pool.len() >= pool_length(1)) {
        return refused(1);
    }
    let good = raw::check(pool).answer == 0 || fault == "any words";
    if !good && fault != "2 after 3" {
        return refused(2);
    }
    let whole = match fault {
        "a byte behind let through" => match read(record) {
            Err(place) if place > 0 && place < record.len() => &record[..place],
            _ => record,
        },
        _ => record,
    };
    let looks = |command: &Command| matches!(command, Command::Load { .. } | Command::Find { .. });
    let commands = match read(whole) {
        Err(place) if fault == "the place with 3" => {
            return Outcome { answer: 3, number: place as u64 };
        }
        Err(_) => return refused(3),
        Ok(commands) => commands,
    };
    let several = commands.len() > 1 && fault == "several records prepared";
    if commands.is_empty() || commands.len() > 1 && !several {
        return refused(3);
    }
    if commands.iter().any(looks) && fault != "load and find prepared" {
        return refused(3);
    }
    if !good {
        return refused(2);
    }
    if fault == "4 before the command's answer" && slice.is_empty() {
        let size = scripted("", pool, whole, commands.len()).map_or(0, |script| script.len());
        let wrong = size == 0 && scripted("", pool, whole, commands.len()).is_err();
        if size > 0 || wrong {
            return Outcome { answer: 4, number: size as u64 };
        }
    }
    let script = match scripted(fault, pool, whole, commands.len()) {
        Ok(script) => script,
        Err(11) if fault == "11 as 4" => return refused(4),
        Err(answer) => {
            if fault == "the slice cleared on a refusal" {
                slice.fill(0);
            }
            return Outcome { answer, number: (fault == "a number with a refusal").into() };
        }
    };
    let (size, room) = (script.len(), slice.len());
    let fits = match fault {
        "4 in exact room" => room > size || size == 0,
        "no 4 where one word is missing" => room + 1 >= size,
        _ => room >= size,
    };
    let written = if fits || fault == "the slice begun on 4" { size.min(room) } else { 0 };
    slice[..written].copy_from_slice(&script[..written]);
    if fits && fault == "the rest cleared" {
        slice[written..].fill(0);
    }
    let number = match fault {
        "pairs counted" => size / 2,
        "4 with no number" if !fits => 0,
        "4 with the room" if !fits => room,
        _ => size,
    };
    Outcome { answer: if fits { 0 } else { 4 }, number: number as u64 }
}
