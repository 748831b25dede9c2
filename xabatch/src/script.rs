//! A script as text: what each of its words is in the pool.

use crate::json::{self, Object};
use xapool_host::layout::{ANCHOR_WORDS, MARK_FIELD, NODE_WORDS, SLOT_FIELD};
use xapool_host::{node_count, Change, Script};

/// A line for the pool, and one for each word that changes.
#[must_use]
pub fn lines_of(script: &Script) -> Vec<String> {
    let (nodes, words) = (nodes_of(script), script.pool_words());
    let changes = script.changes();
    let mut lines = vec![format!(
        "script for a pool of {nodes} nodes, {words} words: {}",
        counted(changes.len(), "changes", "change")
    )];
    lines.extend(changes.iter().map(line_of));
    lines
}

fn line_of(change: &Change) -> String {
    let Change { place, before, after } = *change;
    format!("word {place}: {}: {before:#x}, becomes {after:#x}", name_of(place))
}

/// `1 word changes`, `2 words change`.
#[must_use]
pub fn counted(words: usize, one: &str, more: &str) -> String {
    match words {
        1 => format!("1 word {one}"),
        _ => format!("{words} words {more}"),
    }
}

/// What the word at this place is.
#[must_use]
pub fn name_of(place: usize) -> String {
    match place.checked_sub(ANCHOR_WORDS) {
        None => ["nodes", "head", "marks", "zero"][place].into(),
        Some(from) => {
            let field = match from % NODE_WORDS {
                0 => "shift".into(),
                1 => "owner".into(),
                2 => "filled".into(),
                field if field < SLOT_FIELD => format!("mark {}", field - MARK_FIELD),
                field => format!("slot {}", field - SLOT_FIELD),
            };
            format!("node {}, {field}", from / NODE_WORDS)
        }
    }
}

/// The same as one object.
#[must_use]
pub fn json_of(script: &Script) -> String {
    let changes = script.changes().iter().map(|change| {
        let object = Object::new().with("place", change.place).text("what", &name_of(change.place));
        format!("\n{}", object.with("before", change.before).with("after", change.after).end())
    });
    Object::new()
        .with("nodes", nodes_of(script))
        .with("words", script.pool_words())
        .text("rest_crc32c", &script.rest().to_string())
        .with("changes", json::array(changes))
        .end()
}

fn nodes_of(script: &Script) -> usize {
    node_count(script.pool_words()).unwrap_or(0)
}
