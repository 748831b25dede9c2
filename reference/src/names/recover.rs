//! From words back to the list and the numbering; the words are well-formed if these give them.

use crate::model::is_entry_word;
use crate::names::keys::{Block, Key, NIBBLES};
use crate::names::pool::{
    base_nibbles, block_count, block_place, State, BASE_FIELDS, BLOCK_WORDS, LENGTH_FIELD,
    SLOT_FIELDS, TIER_FIELD, VALUE_FIELD,
};
use crate::names::tree::{Item, Tree};
use std::collections::BTreeSet;

/// The one list and numbering that prescribe all these words, if the pool is well-formed. Any words at all may be given.
///
/// No link is followed. What stands in a block is told by its own words alone, and the leaves tell the list. So if some list
/// and numbering give the words, they are those read here; whether these give the words is then compared word by word.
pub fn recover(words: &[u64]) -> Option<State> {
    let mut state = State::empty(block_count(words.len())?);
    for number in 0..state.places.len() {
        let fields = &words[block_place(number)..block_place(number) + BLOCK_WORDS];
        if fields.iter().all(|word| *word == 0) {
            continue;
        }
        let item = item(fields)?;
        if let Item::Leaf(key) = item {
            let object = Some(fields[VALUE_FIELD]).filter(|word| is_entry_word(*word))?;
            state.list.insert(key, object);
        }
        state.places[number] = Some(item);
    }
    (stands_once(&state) && state.words() == words).then_some(state)
}

/// Whether each item of the list's tree has one number, and nothing else has any.
fn stands_once(state: &State) -> bool {
    let placed: Vec<&Item> = state.places.iter().flatten().collect();
    let different: BTreeSet<&Item> = placed.iter().copied().collect();
    let tree = Tree::of(&state.list);
    placed.len() == different.len() && different.into_iter().eq(tree.items.keys())
}

/// What the words of a block say it is for.
fn item(fields: &[u64]) -> Option<Item> {
    let tier = usize::try_from(fields[TIER_FIELD]).ok()?.checked_sub(1)?;
    let length = usize::try_from(fields[LENGTH_FIELD]).ok()?;
    let base = base_nibbles(&fields[BASE_FIELDS..SLOT_FIELDS]);
    let top = tier.checked_add(length).filter(|top| *top <= NIBBLES)?;
    Some(match (tier, length) {
        (0, _) => Item::Leaf(Key::from_number(base)?),
        (_, 0) => Item::Node(Block::around(tier, &base)),
        _ => Item::Shortcut { upper: Block::around(top, &base), lower: Block::around(tier, &base) },
    })
}
