//! Walks over pauses and over changes in between (P14), on the library: what the theorems of crates/walks say.
//! The same walk that goes on at index + 1 must be caught.

use xapool_host::{Answer, BatchBuilder, Command, Entry, Pool, Reply, Walk, Word, FIND_ANY};

/// Small enough that walks meet changes, and the last index is in it.
const FIRST: u64 = u64::MAX - 1023;
const SPAN: u64 = 1024;

struct Random(u64);

impl Random {
    fn next(&mut self) -> u64 {
        self.0 =
            self.0.wrapping_mul(6_364_136_223_846_793_005).wrapping_add(1_442_695_040_888_963_407);
        self.0 >> 33
    }

    fn below(&mut self, most: u64) -> u64 {
        self.next() % most
    }
}

/// An index of the span; some stores go elsewhere, so that the head grows.
fn command(random: &mut Random) -> Command {
    let index = FIRST + random.below(SPAN);
    let mark = u8::try_from(random.below(3)).unwrap();
    match random.below(12) {
        0..=2 => Command::Erase { index },
        3 => Command::Reserve { index },
        4..=6 => Command::Mark { index, mark },
        7 => Command::Unmark { index, mark },
        8 => Command::Store { index: random.below(70), order: 0, word: Word(5) },
        _ => {
            let order = u8::try_from(random.below(3) * random.below(4)).unwrap();
            let word = Word(2 * random.next() + 1);
            Command::Store { index: index >> order << order, order, word }
        }
    }
}

fn commands(random: &mut Random, most: u64) -> Vec<Command> {
    (0..random.below(most + 1)).map(|_| command(random)).collect()
}

fn run(pool: &mut Pool, commands: &[Command]) -> Vec<Reply> {
    let mut batch = BatchBuilder::new();
    commands.iter().for_each(|command| batch.push(*command).unwrap());
    pool.run(&batch).unwrap().iter().copied().collect()
}

/// Where a walk goes on, by the reply and the last index.
type Next = fn(Reply, u64) -> Option<u64>;

fn as_shipped(reply: Reply, last: u64) -> Option<u64> {
    reply.next_first(last).unwrap()
}

/// The fault: index + 1, of a pause and of a run.
fn at_index_and_one(reply: Reply, last: u64) -> Option<u64> {
    let goes = matches!(reply.answer, Answer::Done | Answer::Paused);
    goes.then(|| reply.index.checked_add(1)).flatten().filter(|next| *next <= last)
}

/// The same fault at pauses alone.
fn past_a_pause(reply: Reply, last: u64) -> Option<u64> {
    match reply.answer {
        Answer::Paused => at_index_and_one(reply, last),
        _ => as_shipped(reply, last),
    }
}

/// What a walk reports: the entries, and the steps that led to each and to the end.
#[derive(Debug, Default, PartialEq)]
struct Reports {
    entries: Vec<Entry>,
    steps: Vec<u64>,
}

struct Range {
    first: u64,
    last: u64,
    filter: u8,
}

impl Range {
    fn any(random: &mut Random) -> Range {
        let (a, z) = (random.below(SPAN), random.below(SPAN));
        let first = if random.below(3) == 0 { 0 } else { FIRST + a.min(z) };
        Range { first, last: FIRST + a.max(z), filter: u8::try_from(random.below(4)).unwrap() }
    }

    fn accepts(&self, entry: &Entry) -> bool {
        !entry.is_reserved() && (self.filter == FIND_ANY || entry.marks.has(self.filter))
    }

    fn find(&self, first: u64, budget: u16) -> Command {
        Command::Find { first, last: self.last, filter: self.filter, budget }
    }
}

/// One walk: before each find a batch of changes, and more changes before and after it in its own batch.
/// `meet` is shown the pool as each find meets it, and where the find begins.
fn walk(
    pool: &mut Pool,
    range: &Range,
    next: Next,
    mut budget: impl FnMut() -> u16,
    mut changes: impl FnMut() -> [Vec<Command>; 3],
    mut meet: impl FnMut(&Pool, u64),
) -> Result<Reports, String> {
    let (mut reports, mut steps, mut first) = (Reports::default(), 0, Some(range.first));
    // Each find goes on by an index at least, and so does a walk of the fault, if it ends at all.
    for _ in 0..4 * SPAN {
        let Some(from) = first else { return Ok(reports) };
        let [between, ahead, behind] = changes();
        run(pool, &between);
        let mut met = pool.clone();
        run(&mut met, &ahead);
        meet(&met, from);
        let batch = [&ahead[..], &[range.find(from, budget())], &behind[..]].concat();
        let reply = run(pool, &batch)[ahead.len()];
        steps += u64::from(reply.count);
        if reply.answer != Answer::Paused {
            reports.entries.extend(reply.entry());
            reports.steps.push(steps);
            steps = 0;
        }
        first = next(reply, range.last);
    }
    Err("it does not end".into())
}

fn pool_of(random: &mut Random) -> Pool<'static> {
    let mut pool = Pool::new(120).unwrap();
    run(&mut pool, &commands(random, 200));
    pool
}

fn unchanged() -> [Vec<Command>; 3] {
    [const { Vec::new() }; 3]
}

/// No change in between: random budgets report what finds with no limit report, with the same steps together,
/// at most 64U + 2; and it is what the list has.
fn budgets_agree(seed: u64, next: Next) -> Result<(), String> {
    let mut random = Random(seed);
    let mut pool = pool_of(&mut random);
    let range = Range::any(&mut random);
    let most = 64 * pool.nodes_in_use() as u64 + 2;
    let unlimited = walk(&mut pool, &range, as_shipped, || u16::MAX, unchanged, |_, _| ())?;
    let listed = pool.list(range.first..=range.last).unwrap();
    let listed: Vec<Entry> = listed.filter(|entry| range.accepts(entry)).collect();
    if unlimited.entries != listed {
        return Err(format!("{unlimited:?} and not {listed:?}"));
    }
    let budget = || u16::try_from(1 + random.below(9)).unwrap();
    let paused = walk(&mut pool, &range, next, budget, unchanged, |_, _| ())?;
    if paused != unlimited {
        return Err(format!("{paused:?} and not {unlimited:?}"));
    }
    match paused.steps.iter().find(|steps| **steps > most) {
        Some(steps) => Err(format!("{steps} steps, above {most}")),
        None => Ok(()),
    }
}

/// With changes before each find, in batches of their own and in its own batch: no index is missed that an
/// accepted entry covered at each find that began at the index or before it. Gives how many indices it asked for, and how many were reported twice.
fn none_missed(seed: u64, next: Next) -> Result<(usize, usize), String> {
    let mut random = Random(seed);
    let mut pool = pool_of(&mut random);
    let range = Range::any(&mut random);
    let mut asked: Vec<u64> = (range.first.max(FIRST)..=range.last).collect();
    let mut budgets = Random(seed + 1);
    let few = 1 + random.below(5);
    let changes = || [(); 3].map(|()| commands(&mut random, few));
    let budget = || u16::try_from(1 + budgets.below(12)).unwrap();
    let meet = |met: &Pool, from: u64| {
        let listed: Vec<Entry> = met.list(FIRST..).unwrap().filter(|e| range.accepts(e)).collect();
        let over = |index: u64| listed.iter().any(|entry| entry.covers(index));
        asked.retain(|index| *index < from || over(*index));
    };
    let reports = walk(&mut pool, &range, next, budget, changes, meet)?;
    let times = |index: &u64| reports.entries.iter().filter(|e| e.covers(*index)).count();
    match asked.iter().find(|index| times(index) == 0) {
        Some(missed) => Err(format!("{missed} was missed")),
        None => Ok((asked.len(), asked.iter().filter(|index| times(index) > 1).count())),
    }
}

#[test]
fn no_change_in_between_and_any_budgets() {
    for seed in 0..400 {
        if let Err(fault) = budgets_agree(seed, as_shipped) {
            panic!("seed {seed}: {fault}");
        }
    }
}

#[test]
fn changes_in_between_and_no_index_missed() {
    let (mut asked, mut twice) = (0, 0);
    for seed in 0..400 {
        match none_missed(seed, as_shipped) {
            Ok(of) => (asked, twice) = (asked + of.0, twice + of.1),
            Err(fault) => panic!("seed {seed}: {fault}"),
        }
    }
    // The test is worth something: indices were covered throughout, and some were reported twice.
    assert!(asked > 1000 && twice > 0, "{asked} {twice}");
}

/// A test of the tests: each of them catches both faults.
#[test]
fn index_and_one_is_caught() {
    for fault in [at_index_and_one as Next, past_a_pause] {
        assert!((0..400).any(|seed| budgets_agree(seed, fault).is_err()));
        let missed = |seed| none_missed(seed, fault).is_err_and(|why| why.ends_with("missed"));
        assert!((0..400).any(missed));
    }
}

/// The wrapper's walk goes this way.
#[test]
fn the_shipped_walk_goes_this_way() {
    for seed in 0..100 {
        let mut random = Random(seed);
        let mut pool = pool_of(&mut random);
        let range = Range::any(&mut random);
        let wanted =
            walk(&mut pool, &range, as_shipped, || 3, unchanged, |_, _| ()).unwrap().entries;
        let walk = || Walk::over(range.first..=range.last, range.filter).with_budget(3);
        let (mut whole, mut found) = (walk(), Vec::new());
        while let Some(entry) = whole.next_in(&mut pool).unwrap() {
            found.push(entry);
        }
        assert!(whole.is_over() && found == wanted, "seed {seed}");
        assert_eq!(whole.next_in(&mut pool), Ok(None));
        // By the replies to its finds, between other commands.
        let (mut by_replies, mut found) = (walk(), Vec::new());
        while let Some(find) = by_replies.find() {
            let loads = [Command::Load { index: FIRST }; 2];
            found.extend(by_replies.read(run(&mut pool, &[loads[0], find, loads[1]])[1]).unwrap());
        }
        assert_eq!(found, wanted, "seed {seed}");
    }
}

#[test]
fn what_cannot_be_searched_is_no_end() {
    let mut pool = Pool::new(1).unwrap();
    for (filter, budget, answer) in [(4, 1, Answer::BadMark), (3, 0, Answer::NoBudget)] {
        let mut walk = Walk::over(.., filter).with_budget(budget);
        assert_eq!(walk.next_in(&mut pool), Err(answer.into()));
        assert!(!walk.is_over());
    }
    assert!(Walk::over(5..5, FIND_ANY).is_over());
}
