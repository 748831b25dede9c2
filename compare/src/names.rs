//! Pools of names (P10): clear, check and look-up by reference and by the library, on well-formed pools, damaged ones and
//! other words. Pool and key are lent twice, each time against an unreadable page: behind them, and before them. Neither can
//! be written in a check and a look-up, and a key of a bad length cannot even be read.

use crate::figures::Figures;
use crate::lend::{split, split_front, EDGE_WORD};
use crate::name_damage::Damage;
use crate::name_keys::asked;
use crate::name_pools::{blocks, random_state};
use crate::os::Guarded;
use reference::answers::{NOT_WELL_FORMED, POOL_LENGTH};
use reference::calls::Outcome;
use reference::names::calls::clear;
use reference::names::command::{execute, Call};
use reference::names::keys::{Key, MOST_KEY_BYTES};
use reference::names::pool::{block_count, pool_length, State, MOST_BLOCKS};
use reference::names::recover::recover;
use reference::names::session::{hex, print_words};
use reference::random::Random;
use xapool_host::raw;

/// So many rows are compared whatever the time.
pub const LEAST_NAME_ROWS: u64 = 60;

/// Some pools, most of them made from one.
#[derive(Clone, Debug, PartialEq, Eq)]
pub struct NameRow {
    pub pools: Vec<Asked>,
}

/// The words of a pool, and the calls that are each made on them as they stand here.
#[derive(Clone, Debug, PartialEq, Eq)]
pub struct Asked {
    pub words: Vec<u64>,
    pub calls: Vec<Call>,
    pub origin: Option<Origin>,
}

/// What the words were made from.
#[derive(Clone, Debug, PartialEq, Eq)]
pub struct Origin {
    pub state: State,
    pub damage: Option<Damage>,
}

impl Origin {
    fn words(&self) -> Option<Vec<u64>> {
        match self.damage {
            None => Some(self.state.words()),
            Some(damage) => damage.done_to(&self.state),
        }
    }
}

/// A program that makes a call on a pool.
pub type Program<'a> = &'a dyn Fn(&Call, &mut [u64]) -> Outcome;

fn keys_of(state: &State) -> Vec<Vec<u8>> {
    state.list.keys().map(Key::bytes).collect()
}

fn lookups(random: &mut Random, keys: &[Vec<u8>], count: usize) -> Vec<Call> {
    (0..count).map(|_| Call::Lookup { key: asked(random, keys) }).collect()
}

impl NameRow {
    pub fn random(seed: u64) -> NameRow {
        let mut random = Random::new(seed);
        let pools = match random.below(24) {
            0 => lengths(&mut random),
            1 => any_words(&mut random),
            _ => damaged(&mut random),
        };
        NameRow { pools }
    }

    pub fn difference(&self, figures: Option<Figures>) -> Option<String> {
        self.difference_by(&by_library, figures)
    }

    /// The first difference of another program from reference.
    pub fn difference_by(&self, other: Program, figures: Option<Figures>) -> Option<String> {
        self.pools.iter().find_map(|pool| pool.difference_by(other, figures))
    }

    /// One of the pools, one of the calls, without one of the keys or the free blocks.
    pub fn smaller(&self) -> Box<dyn Iterator<Item = NameRow> + '_> {
        let alone = |pool: Asked| NameRow { pools: vec![pool] };
        match &self.pools[..] {
            [pool] => Box::new(pool.smaller().into_iter().map(alone)),
            pools => Box::new(pools.iter().cloned().map(alone)),
        }
    }

    pub fn show(&self) -> String {
        self.pools.iter().map(Asked::show).collect()
    }
}

/// A well-formed pool, and what many kinds of damage make of it.
fn damaged(random: &mut Random) -> Vec<Asked> {
    let state = random_state(random);
    let (keys, count) = (keys_of(&state), state.places.len());
    let (looks, others) = match count {
        MOST_BLOCKS => (4, 2),
        100.. => (6, 5),
        _ => (8, 16),
    };
    let mut calls = lookups(random, &keys, looks);
    calls.extend([Call::Check, Call::Clear]);
    let sound = Origin { state, damage: None };
    let mut pools = Vec::new();
    for _ in 0..others {
        let origin = Origin { damage: Some(Damage::random(random)), ..sound.clone() };
        let Some(words) = origin.words() else { continue };
        let mut calls = lookups(random, &keys, 1);
        calls.push(Call::Check);
        calls.extend(Some(Call::Clear).filter(|_| random.one_in(16)));
        pools.push(Asked { words, calls, origin: Some(origin) });
    }
    pools.push(Asked { words: sound.state.words(), calls, origin: Some(sound) });
    pools
}

/// A pool with words cut off or added, every length near its own and some others.
fn lengths(random: &mut Random) -> Vec<Asked> {
    let state = random_state(random);
    let (words, keys) = (state.words(), keys_of(&state));
    let near = 0..if words.len() > 5000 { 4 } else { 60 };
    let first = words.len().saturating_sub(near.len() / 2);
    let others = [0, 1, 2, 3, 25, 26, 27, 49, 50];
    let rare = random.one_in(20);
    let largest = [pool_length(MOST_BLOCKS) + 1, pool_length(MOST_BLOCKS + 1)];
    let largest = largest.into_iter().filter(|_| rare);
    let all = near.map(|more| first + more).chain(others).chain(largest);
    let each = all.map(|length| {
        let mut words = words.clone();
        words.resize(length, 0);
        // As the length has it, though the rest is that of another.
        if let (Some(word), true) = (words.first_mut(), random.one_in(2)) {
            *word = (length as u64).saturating_sub(2) / 24;
        }
        let mut calls = lookups(random, &keys, 1);
        calls.extend([Call::Check, Call::Clear]);
        Asked { words, calls, origin: None }
    });
    each.collect()
}

/// Words that are no pool's: any, small ones, all alike.
fn any_words(random: &mut Random) -> Vec<Asked> {
    let each = (0..12).map(|_| {
        let count = 1 + random.below(6) as usize;
        let limit = [3, 70, u64::MAX][random.below(3) as usize];
        let sparse = 1 + random.below(20);
        let mut words: Vec<u64> = (0..pool_length(count))
            .map(|_| if random.one_in(sparse) { random.below(limit) } else { 0 })
            .collect();
        words[0] = count as u64;
        let mut calls = lookups(random, &[], 1);
        calls.extend([Call::Check, Call::Clear]);
        Asked { words, calls, origin: None }
    });
    each.collect()
}

/// The state of words that are well-formed, or the answer of what only reads. Once for all calls: it takes long.
fn known(words: &[u64]) -> Result<State, u8> {
    block_count(words.len()).ok_or(POOL_LENGTH)?;
    recover(words).ok_or(NOT_WELL_FORMED)
}

fn by_reference(known: &Result<State, u8>, call: &Call, words: &mut [u64]) -> Outcome {
    match (call, known) {
        (Call::Clear, _) => clear(words),
        (_, Ok(state)) => execute(state, call).outcome,
        (_, Err(answer)) => Outcome { answer: (*answer).into(), number: 0 },
    }
}

impl Asked {
    fn difference_by(&self, other: Program, figures: Option<Figures>) -> Option<String> {
        let known = known(&self.words);
        let (state, length) = (known.as_ref().ok(), self.words.len());
        if let Some(figures) = figures {
            let damage = self.origin.as_ref().and_then(|origin| origin.damage);
            figures.count_names(length, state, damage.map(|damage| damage.kind));
        }
        self.calls.iter().find_map(|call| {
            let (mut wanted, mut found) = (self.words.clone(), self.words.clone());
            let asked = by_reference(&known, call, &mut wanted);
            if let Some(figures) = figures {
                figures.count_name_call(call, length, state, asked);
            }
            let given = other(call, &mut found);
            let place = (0..length).find(|at| wanted[*at] != found[*at]);
            (asked != given || place.is_some()).then(|| {
                let word = place.map(|at| (at, wanted[at], found[at]));
                format!(
                    "{call:x?}: reference gives {asked:?}, the other {given:?}; the first word that differs: {word:?}"
                )
            })
        })
    }

    fn smaller(&self) -> Vec<Asked> {
        let mut smaller = Vec::new();
        if self.calls.len() > 1 {
            let alone = |call: &Call| Asked { calls: vec![call.clone()], ..self.clone() };
            smaller.extend(self.calls.iter().map(alone));
        }
        let Some(Origin { state, damage }) = &self.origin else { return smaller };
        let (spare, used) = (state.free_numbers().len(), blocks(&state.list));
        // Many at once first, if there are many.
        let many = state.list.len() / 2;
        let halves =
            [state.list.keys().skip(many).collect(), state.list.keys().take(many).collect()];
        let without = state.list.keys().map(|key| vec![key]);
        for keys in halves.into_iter().filter(|_| many > 4).chain(without) {
            let mut list = state.list.clone();
            for key in keys {
                list.remove(key);
            }
            let count = (blocks(&list) + spare).max(1);
            let state = State::empty(count).change_to(list).expect("blocks enough");
            smaller.extend(self.with(state, *damage));
        }
        for fewer in [0, 1, 2].into_iter().filter(|fewer| *fewer < spare && used > 0) {
            let state = State::empty(used + fewer).change_to(state.list.clone());
            smaller.extend(state.into_iter().flat_map(|state| self.with(state, *damage)));
        }
        smaller
    }

    /// The same calls on another state with the same damage, here or elsewhere in it.
    fn with(&self, state: State, damage: Option<Damage>) -> Vec<Asked> {
        let damages: Vec<Option<Damage>> = match damage {
            None => vec![None],
            Some(Damage { kind, seed }) => {
                (0..6).map(|more| Some(Damage { kind, seed: seed + more })).collect()
            }
        };
        let origins = damages.into_iter().map(|damage| Origin { state: state.clone(), damage });
        let each = origins.filter_map(|origin| {
            let words = origin.words()?;
            Some(Asked { words, calls: self.calls.clone(), origin: Some(origin) })
        });
        each.collect()
    }

    /// As `reference names` reads it.
    fn show(&self) -> String {
        let mut text = Vec::new();
        print_words(&self.words, &mut text).expect("memory");
        let mut text =
            format!("pool {}\n{}", self.words.len(), String::from_utf8(text).expect("digits"));
        for call in &self.calls {
            text += &match call {
                Call::Lookup { key } => format!("lookup {}\n", hex(key)),
                Call::Check => "check\n".into(),
                _ => "clear\n".into(),
            };
        }
        if let Some(Origin { state, damage }) = &self.origin {
            let keys: Vec<String> = keys_of(state).iter().map(|key| hex(key)).collect();
            let name = damage.map(|damage| crate::name_damage::kind(damage.kind).1);
            text += &format!("# keys {}; damage {name:?}\n", keys.join(" "));
        }
        text
    }
}

const MOST_WORDS: usize = pool_length(MOST_BLOCKS + 1);
const MOST_BYTES: usize = MOST_KEY_BYTES + 100;

/// Answers that reference never gives: something beside the pool was written; the two lendings differ.
const BESIDE: u64 = u64::MAX;
const UNLIKE: u64 = u64::MAX - 1;

/// On which side of what is lent the unreadable page is.
#[derive(Clone, Copy)]
enum Side {
    Behind,
    Before,
}

impl Side {
    /// What is watched, and what is lent.
    fn of<T>(self, all: &mut [T], count: usize) -> (&mut [T], &mut [T]) {
        match self {
            Side::Behind => split(all, count),
            Side::Before => split_front(all, count),
        }
    }
}

/// On either side of an unreadable page, which must not matter.
pub fn by_library(call: &Call, pool: &mut [u64]) -> Outcome {
    let mut again = pool.to_vec();
    let first = lent(Side::Behind, call, pool);
    let second = lent(Side::Before, call, &mut again);
    if first == second && *pool == *again {
        first
    } else {
        Outcome { answer: UNLIKE, number: 0 }
    }
}

fn lent(side: Side, call: &Call, pool: &mut [u64]) -> Outcome {
    thread_local!(static LENT: std::cell::RefCell<[Guarded; 2]> =
        [8 * MOST_WORDS, MOST_BYTES].map(Guarded::new).into());
    LENT.with_borrow_mut(|[words, bytes]| {
        let (edge, space) = side.of(words.words(), pool.len());
        edge.fill(EDGE_WORD);
        space.copy_from_slice(pool);
        let result = called(side, call, words, bytes, pool.len());
        let (edge, space) = side.of(words.words(), pool.len());
        let kept = edge.iter().all(|word| *word == EDGE_WORD);
        pool.copy_from_slice(space);
        Outcome { answer: if kept { result.answer } else { BESIDE }, number: result.number }
    })
}

fn called(
    side: Side,
    call: &Call,
    words: &mut Guarded,
    bytes: &mut Guarded,
    length: usize,
) -> raw::RawResult {
    let only_read = !matches!(call, Call::Clear);
    words.read_only(only_read);
    let pool = side.of(words.words(), length).1;
    let result = match call {
        Call::Clear => raw::names_clear(pool),
        Call::Check => raw::names_check(pool),
        Call::Lookup { key } => {
            side.of(bytes.bytes(), key.len()).1.copy_from_slice(key);
            let good = (1..=MOST_KEY_BYTES).contains(&key.len());
            if good {
                bytes.read_only(true);
            } else {
                bytes.hidden(true);
            }
            let result = raw::names_lookup(pool, side.of(bytes.bytes(), key.len()).1);
            bytes.read_only(false);
            result
        }
        Call::Insert { .. } | Call::Delete { .. } => {
            unreachable!("only calls that read, and clear")
        }
    };
    words.read_only(false);
    result
}
