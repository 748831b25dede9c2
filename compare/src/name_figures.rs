//! What was compared of pools of names (P10), counted with the other figures.

use crate::figures::{Figures, NAMES};
use crate::name_damage;
use crate::name_kinds::{lengths, of_call, of_pool, KINDS};
use reference::calls::Outcome;
use reference::names::command::Call;
use reference::names::pool::State;

const POOLS: usize = NAMES;
const CALLS: usize = NAMES + 1;
const WORDS: usize = NAMES + 2;
const ANSWERS: usize = NAMES + 4;
const ANSWERS_END: usize = 17;
const KIND: usize = NAMES + 24;
/// Shortcuts by their length, which is 1 to 64: one of 65 would lead to a node of tier 1, and that has no more than 16 keys.
const SHORTCUTS: usize = NAMES + 64;
const LONGEST: usize = 64;
/// Two for each kind of damage: answered 0 and 2.
const DAMAGES: usize = NAMES + 132;

impl Figures {
    /// Counts a pool that reference recovers or not, and of one that is damaged the kind.
    pub fn count_names(self, words: usize, state: Option<&State>, damage: Option<usize>) {
        self.add_at(POOLS, 1);
        if let Some(kind) = damage {
            self.add_at(DAMAGES + 2 * kind + usize::from(state.is_none()), 1);
        }
        // The largest take long, and are counted by their size.
        let Some(state) = state.filter(|_| damage.is_none() || words < 5000) else { return };
        of_pool(state).into_iter().for_each(|kind| self.add_at(KIND + kind as usize, 1));
        lengths(state).into_iter().for_each(|length| self.add_at(SHORTCUTS + length, 1));
    }

    /// Counts a call on it.
    pub fn count_name_call(
        self,
        call: &Call,
        words: usize,
        state: Option<&State>,
        outcome: Outcome,
    ) {
        self.add_at(CALLS, 1);
        self.add_at(WORDS, words);
        self.add_at(ANSWERS + outcome.answer as usize, 1);
        let kinds = of_call(call, state, outcome);
        kinds.into_iter().for_each(|kind| self.add_at(KIND + kind as usize, 1));
    }

    /// Prints all that; whether each answer came, and something else after damage than 2.
    pub fn names_covered(self) -> bool {
        println!(
            "names: {} calls on {} pools, each twice, {} words compared",
            self.at(CALLS),
            self.at(POOLS),
            self.at(WORDS)
        );
        println!("  answers               {}", self.answers(ANSWERS, 0..ANSWERS_END));
        let length = |length: usize| self.at(SHORTCUTS + length);
        let least = (1..=LONGEST).min_by_key(|at| length(*at)).unwrap_or(1);
        println!(
            "  shortcuts             {} of lengths 1 to {LONGEST}, the fewest of length {least}: {}",
            (1..=LONGEST).map(length).sum::<u64>(),
            length(least)
        );
        self.print_kinds(KIND, &KINDS.map(|(_, name)| name));
        self.print_damages();
        self.name_answers_came()
    }

    /// How many pools with each kind of damage were answered 0 and 2.
    fn print_damages(self) {
        let of = |kind: usize, two: usize| self.at(DAMAGES + 2 * kind + two);
        let all = |two: usize| (0..name_damage::KINDS).map(|kind| of(kind, two)).sum::<u64>();
        println!("  damaged pools         well-formed all the same: {}, not: {}", all(0), all(1));
        let named: Vec<String> = (0..name_damage::KINDS)
            .map(|kind| format!("{}: {}, {}", name_damage::kind(kind).1, of(kind, 0), of(kind, 1)))
            .collect();
        named.chunks(5).for_each(|line| println!("    {}", line.join("; ")));
    }

    fn name_answers_came(self) -> bool {
        let never: Vec<usize> =
            [0, 1, 2, 10, 16].into_iter().filter(|answer| self.at(ANSWERS + answer) == 0).collect();
        if !never.is_empty() {
            println!("DIFFERENCE in names: answers that never came: {never:?}");
        }
        never.is_empty()
    }
}
