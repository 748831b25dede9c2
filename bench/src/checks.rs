//! Pools for the check: well-formed ones of many kinds, and each with one wrong word near its end.

use crate::kinds::{kinds, pool, Kind};
use crate::library::Library;
use crate::measure::{empty_pool, nanoseconds};
use std::hint::black_box;
use std::time::Instant;
use xapool_host::layout::{
    count_place, filled_slots, mark_place, node_place, node_word, owner_place,
};
use xapool_host::node_count;

const NODES: [usize; 3] = [40, 1000, 16_384];
/// Checks of one pool by one build in a turn, and turns in a round: more where each takes less.
const IN_A_TURN: u32 = 5;
const TURNS_OF_SMALL: u32 = 8;

/// A pool, good or with one wrong word, the answer that each build must give, and nanoseconds of
/// the check by each build, the shortest so far.
struct Checked {
    words: Vec<u64>,
    answer: u64,
    best: Vec<f64>,
}

/// A kind of pool with so many nodes.
pub struct Trial {
    pub name: &'static str,
    pub nodes: usize,
    good: Checked,
    /// With one wrong word, by the names in `WRONG`; none where no node is in use.
    bad: [Option<Checked>; WRONG.len()],
    /// The shortest time of an OR over the same words.
    pub or: f64,
}

pub const WRONG: [&str; 4] = [
    "last word",
    "owner of the last node in use",
    "third mark word of the last node in use",
    "filled count of the last node in use",
];

/// All kinds at all sizes that every build takes.
pub fn trials(libraries: &[&dyn Library]) -> Result<Vec<Trial>, String> {
    let kinds = kinds();
    let taken = |nodes: &&usize| libraries.iter().all(|by| empty_pool(*by, **nodes).is_ok());
    let sizes = NODES.iter().filter(taken);
    let all = sizes.flat_map(|nodes| kinds.iter().map(move |kind| (*nodes, kind)));
    all.map(|(nodes, kind)| Trial::new(libraries, kind, nodes)).collect()
}

impl Trial {
    fn new(libraries: &[&dyn Library], kind: &Kind, nodes: usize) -> Result<Trial, String> {
        let words = pool(libraries[0], kind, nodes)?;
        let checked = |words, answer| {
            let best = vec![f64::MAX; libraries.len()];
            Checked { words, answer, best }
        };
        let with = |place: usize, word: u64| {
            let mut words = words.clone();
            words[place] = word;
            checked(words, 2)
        };
        let used = last_node(&words);
        let change = |place: fn(usize) -> usize, change: fn(u64) -> u64| {
            used.map(|node| with(place(node), change(words[place(node)])))
        };
        // The word of a node that there is not, and the count that goes with it; another parent; marks
        // unlike those of the slot above; one slot more.
        let mut last_word = with(words.len() - 1, node_word(nodes));
        last_word.words[count_place(nodes - 1)] = filled_slots(&last_word.words, nodes - 1);
        let owner = change(owner_place, |owner| owner ^ 64);
        let marks = change(|node| mark_place(node, 2), |marks| u64::from(marks == 0));
        let count = change(count_place, |count| count + 1);
        let bad = [Some(last_word), owner, marks, count];
        Ok(Trial { name: kind.name, nodes, good: checked(words, 0), bad, or: f64::MAX })
    }

    pub fn round(&mut self, libraries: &[&dyn Library], round: u32) -> Result<(), String> {
        let turns = if self.nodes < 100 { TURNS_OF_SMALL } else { 1 };
        for turn in 0..turns {
            self.or = self.or.min(or_time(&self.good.words));
            let bad = self.bad.iter_mut().flatten();
            for checked in bad.chain([&mut self.good]) {
                let named = |error| format!("check of {}, N = {}: {error}", self.name, self.nodes);
                checked.turn(libraries, round + turn).map_err(named)?;
            }
        }
        Ok(())
    }

    pub fn words(&self) -> usize {
        self.good.words.len()
    }

    /// Nanoseconds by each build.
    pub fn good(&self) -> &[f64] {
        &self.good.best
    }

    pub fn bad(&self) -> [Option<&[f64]>; WRONG.len()] {
        self.bad.each_ref().map(|bad| bad.as_ref().map(|checked| &checked.best[..]))
    }
}

/// The last node in use.
fn last_node(words: &[u64]) -> Option<usize> {
    (0..node_count(words.len())?).rev().find(|node| words[node_place(*node)] != 0)
}

impl Checked {
    /// Some checks by each build, beginning with another in each turn.
    fn turn(&mut self, libraries: &[&dyn Library], turn: u32) -> Result<(), String> {
        for number in 0..IN_A_TURN as usize * libraries.len() {
            let at = (turn as usize + number / IN_A_TURN as usize) % libraries.len();
            let start = Instant::now();
            let result = libraries[at].check(&self.words);
            self.best[at] = self.best[at].min(nanoseconds(start));
            if (result.answer, result.number) != (self.answer, 0) {
                return Err(format!("build {} gives {result:?}, not {}", at + 1, self.answer));
            }
        }
        Ok(())
    }
}

/// What a pass over a pool takes at least.
#[inline(never)]
pub fn or_all(words: &[u64]) -> u64 {
    words.iter().fold(0, |all, word| all | word)
}

fn or_time(words: &[u64]) -> f64 {
    let once = |_| {
        let start = Instant::now();
        black_box(or_all(black_box(words)));
        nanoseconds(start)
    };
    (0..IN_A_TURN).map(once).fold(f64::MAX, f64::min)
}
