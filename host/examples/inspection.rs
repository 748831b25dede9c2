//! An inspection of two sides, from the plan to the verdict. What must be there is a plan, a list of runs,
//! which is walked; a region counts as matched only if a record with mark 2 is found for it on both sides.
//! So what was lost, altered, read as nothing, reserved or never stored is named, and none of it passes.
//!
//! Losses are planted in the first pass; the program fails if one of them is not named, or if anything else
//! is. examples/c/inspection.c is the same job in C and prints the same lines.

use std::error::Error;
use std::ops::RangeInclusive;
use xapool_host::{
    compare, nodes_for, Answer, Command, Crc32c, Entry, Pool, TooLarge, Verdict, Word,
};

/// Set after a comparison said matched, and by nothing else; a store clears it.
const MATCHED: u8 = 2;

const FAR: u64 = 1 << 40;
/// What must be there, by the source's own catalogue and not by what a side has.
const PLAN: [RangeInclusive<u64>; 3] = [0..=2999, 8192..=9191, FAR..=FAR + 999];

const LOST_NODE: RangeInclusive<u64> = 8256..=8319;
const READ_EMPTY: u64 = 500;
const RESERVED: u64 = 1000;
const NEVER: u64 = 1500;
const EXTRA: u64 = 5000;

const NO_NEW: &str = "no record on the new side";
const NO_OLD: &str = "no record on the old side";
const NEITHER: &str = "no record on either side";
const EXTRA_NEW: &str = "on the new side, not in the plan";
const EXTRA_OLD: &str = "on the old side, not in the plan";

/// What the first pass must name, in this order, and nothing else.
const PLANTED: [(RangeInclusive<u64>, &str); 9] = [
    (7..=7, NO_NEW),
    (100..=100, "different"),
    (READ_EMPTY..=READ_EMPTY, "nothing to compare"),
    (RESERVED..=RESERVED, NEITHER),
    (NEVER..=NEVER, NEITHER),
    (2999..=2999, "different"),
    (LOST_NODE, NO_NEW),
    (FAR + 999..=FAR + 999, NO_NEW),
    (EXTRA..=EXTRA, EXTRA_NEW),
];

type Result<T> = std::result::Result<T, Box<dyn Error>>;

fn planned() -> impl Iterator<Item = u64> {
    PLAN.into_iter().flatten()
}

/// Whether all that a record covers is in one run of the plan.
fn is_planned(record: &Entry) -> bool {
    PLAN.iter().any(|run| run.contains(&record.base) && run.contains(&record.last()))
}

/// The bytes of a region.
fn data(region: u64) -> Vec<u8> {
    let start = region.wrapping_add(1).wrapping_mul(2_654_435_761);
    (0..64u64).map(|place| (start.wrapping_add(place * 97) >> 8) as u8).collect()
}

/// What the old side reads; none where it has nothing. In the second pass all is repaired.
fn read_old(region: u64, repaired: bool) -> Option<Vec<u8>> {
    match region {
        _ if repaired => Some(data(region)),
        RESERVED | NEVER => None,
        READ_EMPTY => Some(Vec::new()),
        _ => Some(data(region)),
    }
}

/// What the new side reads.
fn read_new(region: u64, repaired: bool) -> Option<Vec<u8>> {
    let mut bytes = read_old(region, repaired)?;
    match region {
        _ if repaired => {}
        7 => return None,
        _ if LOST_NODE.contains(&region) || region == FAR + 999 => return None,
        100 => bytes[63] ^= 1,
        2999 => bytes[0] ^= 128,
        _ => {}
    }
    Some(bytes)
}

/// The record of a region: the digest of what was read, which of nothing is 0. The comparison decides, and
/// not the record.
fn store(index: u64, bytes: &[u8]) -> std::result::Result<Command, TooLarge> {
    let word = Word::value(Crc32c::of(bytes).value().into())?;
    Ok(Command::Store { index, order: 0, word })
}

/// Enters a record for each planned region that a side has.
fn enter(pool: &mut Pool, read: impl Fn(u64) -> Option<Vec<u8>>) -> Result<()> {
    let has = planned().filter_map(|region| Some(store(region, &read(region)?)));
    let commands: Vec<Command> = has.collect::<std::result::Result<_, _>>()?;
    let count = commands.len();
    if pool.run_all(commands)?.all_done()? != count {
        return Err("a record was not entered".into());
    }
    Ok(())
}

/// Whether a side has a record, for each planned region.
fn has_records(pool: &mut Pool) -> Result<Vec<bool>> {
    let replies = pool.run_all(planned().map(|index| Command::Load { index }))?;
    let has = |answer| match answer {
        Answer::Done => Ok(true),
        Answer::Absent => Ok(false),
        answer => Err(answer.into()),
    };
    replies.iter().map(|reply| has(reply.answer)).collect()
}

/// What is read of both sides, compared.
fn verdict(region: u64, repaired: bool) -> Verdict {
    let old = read_old(region, repaired).unwrap_or_default();
    let new = read_new(region, repaired).unwrap_or_default();
    compare(&old, &new).verdict
}

/// Compares every planned region that has a record on both sides, and marks those that match.
fn pass<'a>(old: &mut Pool<'a>, new: &mut Pool<'a>, repaired: bool) -> Result<()> {
    let (in_old, in_new) = (has_records(old)?, has_records(new)?);
    let both =
        planned().zip(in_old.into_iter().zip(in_new)).filter(|(_, has)| *has == (true, true));
    let matched: Vec<u64> = both
        .map(|(region, _)| region)
        .filter(|region| verdict(*region, repaired) == Verdict::Matched)
        .collect();
    for pool in [old, new] {
        let marks = matched.iter().map(|index| Command::Mark { index: *index, mark: MATCHED });
        pool.run_all(marks)?.all_done()?;
    }
    Ok(())
}

/// The records of a side. What is reserved is none.
fn records(pool: &Pool) -> Result<Vec<Entry>> {
    Ok(pool.list(..)?.filter(|entry| !entry.is_reserved()).collect())
}

/// The record over a region.
fn record(records: &[Entry], region: u64) -> Option<&Entry> {
    let upto = records.partition_point(|entry| entry.base <= region);
    records[..upto].last().filter(|entry| entry.covers(region))
}

/// Why a region is not matched, by the records of both sides; none if it is.
fn open(old: &[Entry], new: &[Entry], region: u64, repaired: bool) -> Option<String> {
    let reason = match (record(old, region), record(new, region)) {
        (Some(old), Some(new)) if old.marks.has(MATCHED) && new.marks.has(MATCHED) => return None,
        // Only the reason is asked for anew. Whatever it is, without both marks it is no match.
        (Some(_), Some(_)) => match verdict(region, repaired) {
            Verdict::Matched => "not marked on both sides".into(),
            verdict => verdict.to_string(),
        },
        (Some(_), None) => NO_NEW.into(),
        (None, Some(_)) => NO_OLD.into(),
        (None, None) => NEITHER.into(),
    };
    Some(reason)
}

/// The records that are not in the plan.
fn extras(records: &[Entry], reason: &str) -> Vec<(u64, String)> {
    let outside = records.iter().filter(|entry| !is_planned(entry));
    outside.map(|entry| (entry.base, reason.to_owned())).collect()
}

/// The account, from the pools and the plan alone: all that keeps the inspection from passing, by name.
/// Prints it, and the verdict.
fn account(old: &Pool, new: &Pool, name: &str, repaired: bool) -> Result<Vec<(u64, String)>> {
    let (old, new) = (records(old)?, records(new)?);
    let planned_count = planned().count();
    let reason = |region| Some((region, open(&old, &new, region, repaired)?));
    let mut named: Vec<(u64, String)> = planned().filter_map(reason).collect();
    let matched = planned_count - named.len();
    named.extend(extras(&old, EXTRA_OLD));
    named.extend(extras(&new, EXTRA_NEW));
    if !repaired {
        println!("planned {planned_count} regions in {} runs", PLAN.len());
        println!("old side: {} records, new side: {} records", old.len(), new.len());
    }
    for (region, reason) in &named {
        println!("region {region}: {reason}");
    }
    let passes = planned_count > 0 && matched == planned_count && named.is_empty();
    let verdict = if passes { "PASS" } else { "FAIL" };
    println!("{name} pass: {matched} of {planned_count} matched: {verdict}");
    Ok(named)
}

/// Holds what was named against what was planted.
fn as_planted(named: Vec<(u64, String)>) -> Result<()> {
    let each = |(run, reason): (RangeInclusive<u64>, &str)| {
        let reason = reason.to_owned();
        run.map(move |region| (region, reason.clone()))
    };
    let planted: Vec<(u64, String)> = PLANTED.into_iter().flat_map(each).collect();
    if let Some((region, reason)) = planted.iter().find(|one| !named.contains(one)) {
        return Err(format!("region {region} is not named: {reason}").into());
    }
    match named.iter().find(|one| !planted.contains(one)) {
        Some((region, reason)) => Err(format!("region {region} was not planted: {reason}").into()),
        None if named != planted => Err("named twice, or in another order".into()),
        None => Ok(()),
    }
}

/// An empty pool for one side: the plan's runs, and room for one region anywhere.
fn new_side() -> Result<Pool<'static>> {
    let nodes: usize = PLAN.into_iter().map(|run| nodes_for(run) + 10).sum();
    Ok(Pool::new(nodes + 21)?)
}

fn main() -> Result<()> {
    let (mut old, mut new) = (new_side()?, new_side()?);
    for pool in [&mut old, &mut new] {
        pool.run_all([Command::Reserve { index: RESERVED }])?.all_done()?;
    }
    enter(&mut old, |region| read_old(region, false))?;
    enter(&mut new, |region| read_new(region, false))?;
    new.run_all([store(EXTRA, &data(EXTRA))?])?.all_done()?;
    pass(&mut old, &mut new, false)?;
    as_planted(account(&old, &new, "first", false)?)?;

    // Repaired: every record is entered anew, which clears its mark, and compared again.
    enter(&mut old, |region| read_old(region, true))?;
    enter(&mut new, |region| read_new(region, true))?;
    new.run_all([Command::Erase { index: EXTRA }])?.all_done()?;
    pass(&mut old, &mut new, true)?;
    match account(&old, &new, "second", true)?.first() {
        Some((region, reason)) => Err(format!("region {region} after the repair: {reason}").into()),
        None => Ok(()),
    }
}

#[test]
fn it_comes_out() {
    main().expect("as planned");
}

#[test]
fn one_side_alone_is_no_match() {
    let side =
        |marks| vec![Entry { base: 7, order: 0, word: Word(1), marks: xapool_host::Marks(marks) }];
    let (marked, plain, none) = (side(1 << MATCHED), side(3), Vec::new());
    assert_eq!(open(&marked, &marked, 7, true), None);
    for (old, new) in [(&marked, &plain), (&plain, &marked), (&plain, &plain)] {
        assert!(open(old, new, 7, true).is_some());
    }
    for (old, new, reason) in
        [(&marked, &none, NO_NEW), (&none, &marked, NO_OLD), (&none, &none, NEITHER)]
    {
        assert_eq!(open(old, new, 7, true).as_deref(), Some(reason));
    }
    assert_eq!(open(&marked, &marked, 8, true).as_deref(), Some(NEITHER));
}
