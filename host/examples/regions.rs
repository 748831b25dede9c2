//! The records of one side of a migration of 10,000 regions: store them (growing the pool where nodes run
//! short), mark what was compared, split what differs, save and load, account for every region, and
//! list them as evidence. examples/inspection.rs compares two sides.
//!
//! Mark 2 is 'matched', set after a comparison and cleared by a store. A region counts as matched only if
//! a record with mark 2 is found for it: that is looked at region by region, by the plan.
//! examples/c/regions.c is the same job in C and prints the same lines.

use std::error::Error;
use xapool_host::{
    Answer, BatchBuilder, Command, Crc32c, Entry, Marks, Pool, Word, FIND_ANY, MOST_NODES,
};

const REGIONS: u64 = 10_000;
const REVIEW: u8 = 0;
const DIFFERENT: u8 = 1;
const MATCHED: u8 = 2;

type Result<T> = std::result::Result<T, Box<dyn Error>>;

/// The plan. Region r: small ones side by side, nine large ones far away, and one at the last index.
fn region(r: u64) -> Entry {
    let (base, order) = match r {
        _ if r == REGIONS - 1 => (u64::MAX, 0),
        _ if r % 1000 == 999 => ((r / 1000 + 1) << 40, 10 + r / 1000),
        _ => (4 * r, r % 3),
    };
    Entry { base, order: order as u8, word: Word(2 * r + 1), marks: Marks(0) }
}

/// Commands that store an entry with its marks.
fn commands_of(entry: Entry) -> impl Iterator<Item = Command> {
    let Entry { base: index, order, word, marks } = entry;
    let marks = (0..3).filter(move |mark| marks.has(*mark));
    [Command::Store { index, order, word }]
        .into_iter()
        .chain(marks.map(move |mark| Command::Mark { index, mark }))
}

/// Runs the commands; each must be done.
fn run_done(pool: &mut Pool, commands: impl IntoIterator<Item = Command>) -> Result<()> {
    pool.run_all(commands)?.all_done()?;
    Ok(())
}

/// A pool of twice the nodes with the same entries and marks.
fn grow(pool: &mut Pool<'static>) -> Result<()> {
    let nodes = (2 * pool.nodes().unwrap_or(MOST_NODES)).min(MOST_NODES);
    let entries: Vec<Entry> = pool.find(.., FIND_ANY).all()?;
    let mut bigger = Pool::new(nodes)?;
    run_done(&mut bigger, entries.iter().copied().flat_map(commands_of))?;
    *pool = bigger;
    println!("a pool of {nodes} nodes for {} entries", entries.len());
    Ok(())
}

/// Stores the regions. Those for which nodes run short are stored again in a larger pool; the other
/// commands of their batch have run. Gives how many were refused.
fn store_all(pool: &mut Pool<'static>) -> Result<usize> {
    let mut waiting: Vec<Entry> = (0..REGIONS).map(region).collect();
    let mut shortages = 0;
    loop {
        let replies = pool.run_all(waiting.iter().copied().flat_map(commands_of))?;
        let mut refused = Vec::new();
        for (entry, reply) in waiting.iter().zip(&replies) {
            match reply.answer {
                Answer::Done => {}
                Answer::TooFewNodes => refused.push(*entry),
                answer => return Err(answer.into()),
            }
        }
        if refused.is_empty() {
            return Ok(shortages);
        }
        shortages += refused.len();
        waiting = refused;
        grow(pool)?;
    }
}

fn is_different(r: u64) -> bool {
    r % 7 == 3
}

fn is_unread(r: u64) -> bool {
    r % 13 == 6 && !is_different(r)
}

fn is_for_review(r: u64) -> bool {
    r % 11 == 5
}

/// What was compared: a region that matches gets mark 2, one that was not read gets no mark.
fn compare_all(pool: &mut Pool) -> Result<()> {
    let commands = (0..REGIONS).flat_map(|r| {
        let index = region(r).base;
        let compared = match (is_different(r), is_unread(r)) {
            (true, _) => Some(Command::Mark { index, mark: DIFFERENT }),
            (_, true) => None,
            _ => Some(Command::Mark { index, mark: MATCHED }),
        };
        let review = is_for_review(r).then_some(Command::Mark { index, mark: REVIEW });
        compared.into_iter().chain(review)
    });
    run_done(pool, commands)
}

/// The two halves of an entry.
fn halves(entry: Entry) -> Option<[Entry; 2]> {
    let order = entry.order.checked_sub(1)?;
    let half = Entry { order, ..entry };
    Some([half, Entry { base: entry.base + (1 << order), ..half }])
}

/// Splits what differs. A store inside an entry would replace its word alone, so it is erased first.
/// On a copy: if a store is refused after its erase, the pool still has it.
fn split_different(pool: &mut Pool<'static>) -> Result<usize> {
    let found: Vec<Entry> = pool.find(.., DIFFERENT).all()?;
    let mut commands = Vec::new();
    let mut split = 0;
    for entry in found {
        if let Some(halves) = halves(entry) {
            split += 1;
            commands.push(Command::Erase { index: entry.base });
            commands.extend(halves.into_iter().flat_map(commands_of));
        }
    }
    let mut copy = pool.clone();
    run_done(&mut copy, commands)?;
    *pool = copy;
    Ok(split)
}

/// Saves the pool to a file and loads it into other words, by its digest: the check knows the structure,
/// not the entries.
fn save_and_load(pool: &mut Pool<'static>) -> Result<()> {
    let file = std::env::temp_dir().join(format!("regions-{}.pool", std::process::id()));
    let digest = pool.save(&file)?;
    let loaded = Pool::load(&file, digest);
    std::fs::remove_file(&file)?;
    *pool = loaded?;
    println!("saved and loaded {} bytes, digest {digest}", pool.to_bytes().len());
    Ok(())
}

/// Goes through the matched regions below 4,000, ten steps at a time. (`Pool::find` does this by
/// itself; here the pauses are counted.)
fn walk_with_pauses(pool: &mut Pool) -> Result<()> {
    let last = 3999;
    let (mut next, mut found, mut pauses) = (Some(0), 0, 0);
    while let Some(first) = next {
        let mut batch = BatchBuilder::new();
        batch.push(Command::Find { first, last, filter: MATCHED, budget: 10 })?;
        let reply = pool.run(&batch)?[0];
        found += usize::from(reply.entry().is_some());
        pauses += usize::from(reply.paused_at().is_some());
        next = reply.next_first(last)?;
    }
    println!("matched below 4000: {found}, with {pauses} pauses");
    Ok(())
}

/// The entries that the rules above call for, by no other means than these rules.
fn expected() -> Vec<Entry> {
    let mut entries: Vec<Entry> = Vec::new();
    for r in 0..REGIONS {
        let matched = !is_different(r) && !is_unread(r);
        let marks = u8::from(is_for_review(r)) << REVIEW
            | u8::from(is_different(r)) << DIFFERENT
            | u8::from(matched) << MATCHED;
        let entry = Entry { marks: Marks(marks), ..region(r) };
        match halves(entry).filter(|_| is_different(r)) {
            Some(halves) => entries.extend(halves),
            None => entries.push(entry),
        }
    }
    entries.sort_by_key(|entry| entry.base);
    entries
}

/// All entries once more, as an auditor gets them: the bytes of one list.
fn keep_evidence(pool: &Pool) -> Result<Vec<Entry>> {
    let list = pool.list(..)?;
    if !list.clone().eq(expected()) {
        return Err("the list has another entry, or is too short".into());
    }
    let bytes = list.bytes();
    println!("{} bytes of evidence, digest {}", bytes.len(), Crc32c::of(bytes));
    Ok(list.collect())
}

fn account_for_all(pool: &mut Pool) -> Result<()> {
    let entries = pool.find(.., FIND_ANY).all()?;
    if entries != expected() {
        return Err("an entry is missing or another".into());
    }
    let with = |mark| entries.iter().filter(|entry| entry.marks.has(mark)).count();
    let (review, different, matched) = (with(REVIEW), with(DIFFERENT), with(MATCHED));
    println!(
        "{} entries: {review} for review, {different} different, {matched} matched",
        entries.len()
    );
    for mark in 0..3 {
        if pool.find(.., mark).all()?.len() != with(mark) {
            return Err("a find by mark misses some".into());
        }
    }
    walk_the_plan(&keep_evidence(pool)?)
}

/// The record over an index.
fn record(list: &[Entry], index: u64) -> Option<&Entry> {
    let upto = list.partition_point(|entry| entry.base <= index);
    list[..upto].last().filter(|entry| entry.covers(index) && !entry.is_reserved())
}

/// Whether all of a region has records with this mark. One that was split has two.
fn has_mark(list: &[Entry], region: Entry, mark: u8) -> Result<bool> {
    let (mut next, mut has) = (Some(region.base), true);
    while let Some(index) = next {
        let over = record(list, index).ok_or_else(|| format!("no record over {index}"))?;
        has &= over.marks.has(mark);
        next = over.after().filter(|after| *after <= region.last());
    }
    Ok(has)
}

/// Region by region, by the plan: what has no record with mark 2 is not matched, whatever the reason.
fn walk_the_plan(list: &[Entry]) -> Result<()> {
    let (mut matched, mut different) = (0, 0);
    for r in 0..REGIONS {
        matched += u64::from(has_mark(list, region(r), MATCHED)?);
        different += u64::from(has_mark(list, region(r), DIFFERENT)?);
    }
    let unread = REGIONS - matched - different;
    let sign = if matched == REGIONS { "to be signed" } else { "not to be signed" };
    println!(
        "{matched} of {REGIONS} regions matched, {different} different, {unread} not read: {sign}"
    );
    Ok(())
}

fn main() -> Result<()> {
    let mut pool = Pool::new(100)?;
    let shortages = store_all(&mut pool)?;
    println!("stored {REGIONS} regions; {shortages} stores met a shortage on the way");
    compare_all(&mut pool)?;
    println!("split {} regions", split_different(&mut pool)?);
    save_and_load(&mut pool)?;
    walk_with_pauses(&mut pool)?;
    account_for_all(&mut pool)?;
    println!("every region is accounted for");
    Ok(())
}

#[test]
fn it_comes_out() {
    main().expect("as planned");
}
