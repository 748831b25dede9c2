//! The random lists reach what they are to reach: this is a test of the test, by reference alone.

use crate::applies;
use crate::engines;
use crate::finds::random_list;
use crate::gates;
use crate::lend::{by_reference, Call};
use crate::list::CallList;
use crate::listings::{kinds, Kind, KINDS};
use crate::pools::recount;
use crate::prepare_kinds;
use crate::prepares::Preparing;
use crate::program::Input;
use crate::reserves;
use crate::sheets;
use crate::stretch::{counts, FindCounts};
use crate::wrong_prepares;
use reference::batch::{read, Command, MOST_BATCH_BYTES};
use reference::calls::{self, check, init, run, Outcome};
use reference::command::{execute, needed, needed_to_reserve, Done};
use reference::evidence::{records, Record};
use reference::model::{
    self, beginning_in, covering, is_aligned, is_entry_word, marks_of, Entry, RESERVED,
};
use reference::pool::{node_count, State, MOST_NODES};
use reference::recover::recover;
use reference::scripts::prepare;
use reference::tree::Node;
use std::collections::BTreeMap;
use std::sync::OnceLock;
use xapool_host::layout::{
    count_place, ANCHOR_WORDS, COUNT_FIELD, MARK_FIELD, NODE_WORDS, SLOT_FIELD,
};
use xapool_host::raw::{self, RawPart};
use xapool_host::PROGRAM_BATCH_BYTES;

type Counts<T> = BTreeMap<T, usize>;

/// How often each answer of a call, each answer in a reply, and each distance of a store from
/// having too few nodes was met (0: exactly enough; -1: one is missing).
#[derive(Default)]
struct Met {
    calls: Counts<u64>,
    replies: Counts<u8>,
    spare: Counts<i64>,
    places: Counts<u64>,
    stores: Counts<&'static str>,
    over: Counts<&'static str>,
    reserved: Counts<reserves::Kind>,
    /// Commands, reserves among them, and how far these are from having too few nodes.
    commands: usize,
    reserves: usize,
    reserve_spare: Counts<i64>,
    /// Where the word of a reservation stands in damaged pools.
    misplaced: Counts<&'static str>,
    /// What the filled counts of damaged pools are.
    counts: Counts<&'static str>,
}

fn follow(met: &mut Met, list: &CallList) {
    let mut pool = list.words.clone();
    for call in &list.calls {
        let outcome = match call {
            Call::Init => init(&mut pool),
            Call::Check => check(&pool),
            Call::List { first, last, buffer } => {
                calls::list(&pool, *first, *last, &mut vec![0; *buffer])
            }
            Call::Run { batch, reply } => {
                let before = recover(&pool);
                let outcome = run(&mut pool, batch, &mut vec![0; *reply]);
                if let (0, Some(state)) = (outcome.answer, before) {
                    follow_batch(met, state, batch);
                }
                outcome
            }
        };
        *met.calls.entry(outcome.answer).or_default() += 1;
        if outcome.answer == 3 {
            *met.places.entry(outcome.number).or_default() += 1;
        }
    }
}

/// What 3,000 lists of calls meet, found once for all tests.
fn met() -> &'static Met {
    static MET: OnceLock<Met> = OnceLock::new();
    MET.get_or_init(|| {
        let mut met = Met::default();
        for list in (0..3000).map(CallList::random) {
            let places = misplaced(&list.words);
            places.into_iter().for_each(|place| *met.misplaced.entry(place).or_default() += 1);
            let counts = count_kinds(&list.words);
            counts.into_iter().for_each(|kind| *met.counts.entry(kind).or_default() += 1);
            follow(&mut met, &list);
        }
        met
    })
}

fn follow_batch(met: &mut Met, mut state: State, batch: &[u8]) {
    for command in read(batch).unwrap_or_default() {
        if let Command::Store { index, order, word } = command {
            let kinds = store_kinds(&state, index, order, word);
            kinds.into_iter().for_each(|kind| *met.stores.entry(kind).or_default() += 1);
            let free = state.free_numbers().len() as i64;
            if let Some(count) = needed(&state, index, order, word).filter(|count| *count > 0) {
                *met.spare.entry(free - count as i64).or_default() += 1;
            }
        }
        met.commands += 1;
        if let Command::Reserve { index } = command {
            met.reserves += 1;
            let needed = needed_to_reserve(&state, index).filter(|count| *count > 0);
            if let Some(count) = needed {
                let spare = state.free_numbers().len() as i64 - count as i64;
                *met.reserve_spare.entry(spare).or_default() += 1;
            }
        }
        let done = execute(&state, command);
        let kinds = reserves::kinds(&state.list, command, &done.reply.bytes());
        kinds.into_iter().for_each(|kind| *met.reserved.entry(kind).or_default() += 1);
        let over = over_mark_2(&state, command, &done);
        over.into_iter().for_each(|kind| *met.over.entry(kind).or_default() += 1);
        *met.replies.entry(done.reply.answer).or_default() += 1;
        state = done.state;
    }
}

/// What a store is as to its refusals; of an unaligned one also what it would meet if it were let
/// through at the last multiple before.
fn store_kinds(state: &State, index: u64, order: u8, word: u64) -> Vec<&'static str> {
    let bad_word = !is_entry_word(word);
    if order > 63 {
        return vec![if bad_word { "order and word" } else { "order" }];
    }
    if is_aligned(index, order) {
        return vec![if bad_word { "word" } else { "good" }];
    }
    let covered = covering(&state.list, index);
    let rounded = index >> order << order;
    let after = model::store(&state.list, rounded, order, 5);
    let all = [
        ("unaligned", true),
        ("unaligned and word", bad_word),
        ("unaligned in an entry", covered.is_some_and(|entry| entry.order >= order)),
        ("unaligned over an entry", covered.is_some_and(|entry| entry.order < order)),
        ("unaligned and few nodes", state.needed(&after) > state.free_numbers().len()),
        ("unaligned by one bit", (index - rounded).is_power_of_two()),
    ];
    all.into_iter().filter(|(_, so)| *so).map(|(kind, _)| kind).collect()
}

/// What a store is that replaced an entry with mark 2; nothing for any other command.
fn over_mark_2(before: &State, command: Command, done: &Done) -> Vec<&'static str> {
    let (Command::Store { order, word, .. }, Some(run)) = (command, done.written) else {
        return Vec::new();
    };
    let (gone, others): (Vec<Entry>, Vec<Entry>) =
        before.list.iter().partition(|entry| entry.range().is_within(run));
    if marks_of(&gone) & 4 == 0 {
        return Vec::new();
    }
    let kept = done.reply.order;
    let near = Node::around(kept - kept % 6, done.reply.index).range();
    let brothers = beginning_in(&others, near);
    let all = [
        ("any", true),
        ("same word", gone.len() == 1 && gone[0].word == word),
        ("in a larger entry", kept > order),
        ("by a wider entry", gone[0].order < kept),
        ("several", gone.len() > 1),
        ("with mark 0 or 1", marks_of(&gone) & 3 > 0),
        ("brother has it", marks_of(brothers) & 4 > 0),
        ("another node has it", marks_of(&others) & 4 > 0 && marks_of(brothers) & 4 == 0),
        ("none has it now", marks_of(&others) & 4 == 0),
        ("as head", before.list.len() == 1 && gone[0].base == 0 && gone[0].order == 0),
    ];
    all.into_iter().filter(|(_, so)| *so).map(|(kind, _)| kind).collect()
}

#[test]
fn stores_are_mostly_good_and_unaligned_in_every_way() {
    let met = met();
    let count = |kind: &str| *met.stores.get(kind).unwrap_or(&0);
    let stores: usize =
        ["good", "word", "order", "order and word", "unaligned"].into_iter().map(count).sum();
    assert!(4 * count("good") >= 3 * stores, "{:?}", met.stores);
    assert!(20 * count("unaligned") >= stores, "{:?}", met.stores);
    let ways = ["and word", "in an entry", "over an entry", "and few nodes", "by one bit"];
    let ways = ways.map(|way| format!("unaligned {way}"));
    let each = ways.iter().map(String::as_str).chain(["order and word"]);
    assert!(each.into_iter().all(|kind| 500 * count(kind) >= stores), "{:?}", met.stores);
}

#[test]
fn stores_go_over_mark_2_in_every_way() {
    let met = met();
    let count = |kind: &str| *met.over.get(kind).unwrap_or(&0);
    assert!(30 * count("any") >= met.stores["good"], "{:?}", met.over);
    let often = ["same word", "in a larger entry", "by a wider entry", "several"];
    let marks = ["with mark 0 or 1", "brother has it", "another node has it", "none has it now"];
    let mut each = often.iter().chain(&marks);
    assert!(each.all(|kind| 40 * count(kind) >= count("any")), "{:?}", met.over);
    assert!(100 * count("as head") >= count("any"), "{:?}", met.over);
}

/// In their dense nodes a brother slot mostly keeps the mark.
#[test]
fn lists_for_finds_go_over_mark_2_beside_brothers() {
    let mut met = Met::default();
    (0..40).for_each(|seed| follow(&mut met, &random_list(seed)));
    let count = |kind: &str| *met.over.get(kind).unwrap_or(&0);
    assert!(count("any") >= 20 && 4 * count("brother has it") >= count("any"), "{:?}", met.over);
}

#[test]
fn every_answer_and_both_sides_of_11_are_met() {
    let met = met();
    let many = |count: Option<&usize>| *count.unwrap_or(&0) >= 20;
    assert!((0..=4).all(|answer| many(met.calls.get(&answer))), "{:?}", met.calls);
    let replies = [0].into_iter().chain(5..=15);
    assert!(replies.into_iter().all(|answer| many(met.replies.get(&answer))), "{:?}", met.replies);
    assert!([-1, 0].iter().all(|spare| many(met.spare.get(spare))), "{:?}", met.spare);
    let too_long = met.places.get(&(MOST_BATCH_BYTES as u64));
    assert!(many(too_long) && met.places.len() > 50, "{:?}", met.places);
}

/// The largest pools and the longest batches are rare, since they take long, but they are met.
#[test]
fn the_largest_pools_and_full_batches_are_met() {
    for of in [CallList::random, engines::random_list] {
        let (mut largest, mut larger, mut full) = (0, 0, 0);
        for list in (0..3000).map(of) {
            let nodes = node_count(list.words.len()).unwrap_or(0);
            largest += usize::from(nodes == MOST_NODES);
            larger += usize::from(nodes > 1000);
            let is_full = |call: &&Call| matches!(call, Call::Run { batch, .. } if batch.len() == MOST_BATCH_BYTES);
            full += list.calls.iter().filter(is_full).count();
        }
        let rare = largest >= 1 && (3..=20).contains(&larger);
        assert!(rare && full >= 10, "{largest} and {larger} large pools, {full} full batches");
    }
}

/// The program's inputs lie on both sides of what it takes, also as whole records.
#[test]
fn inputs_of_the_program_are_on_both_sides_of_its_limit() {
    let lengths: Vec<usize> = (0..2000).map(|seed| Input::random(seed).batch.len()).collect();
    let count = |of: &dyn Fn(usize) -> bool| lengths.iter().filter(|length| of(**length)).count();
    let (most, too_many) = (PROGRAM_BATCH_BYTES, PROGRAM_BATCH_BYTES + 1);
    let sides = [count(&|bytes| bytes == most), count(&|bytes| bytes == too_many)];
    let beyond =
        [count(&|bytes| bytes == MOST_BATCH_BYTES), count(&|bytes| bytes > MOST_BATCH_BYTES)];
    let met =
        sides.into_iter().all(|count| count >= 5) && beyond.into_iter().all(|count| count >= 1);
    assert!(met, "{sides:?}, {beyond:?}");
}

/// Where the word 1,030 stands in a pool that is not well-formed, by the words alone.
fn misplaced(words: &[u64]) -> Vec<&'static str> {
    if node_count(words.len()).is_none() || recover(words).is_some() {
        return Vec::new();
    }
    let reserved = (0..words.len()).filter(|place| words[*place] == RESERVED);
    reserved.map(|place| place_kind(words, place)).collect()
}

fn place_kind(words: &[u64], place: usize) -> &'static str {
    let Some(after) = place.checked_sub(ANCHOR_WORDS) else {
        return if place == 1 { "head" } else { "anchor" };
    };
    let (node, field) = (place - after % NODE_WORDS, after % NODE_WORDS);
    let Some(slot) = field.checked_sub(SLOT_FIELD) else { return "first words" };
    let marked = (MARK_FIELD..SLOT_FIELD).any(|mark| words[node + mark] >> slot & 1 == 1);
    let sibling = |at: usize| at < node + NODE_WORDS && words[at] % 4 == 2 && words[at] < 256;
    match words[node] {
        0 => "free node",
        _ if sibling(place + 1) || sibling(place - 1) => "among siblings",
        1 if marked => "with a mark",
        1 => "shift 0",
        _ => "higher shift",
    }
}

#[test]
fn damaged_pools_have_reservations_everywhere() {
    let met = met();
    let count = |kind: &str| *met.misplaced.get(kind).unwrap_or(&0);
    let places = ["head", "anchor", "first words", "free node", "with a mark", "among siblings"];
    let all = places.iter().chain(&["higher shift"]);
    assert!(all.into_iter().all(|place| count(place) >= 4), "{:?}", met.misplaced);
}

/// What the filled counts of a pool that is not well-formed have to do with it.
fn count_kinds(words: &[u64]) -> Vec<&'static str> {
    let Some(nodes) = node_count(words.len()).filter(|_| recover(words).is_none()) else {
        return Vec::new();
    };
    let mut right = words.to_vec();
    recount(&mut right);
    let wrong: Vec<usize> =
        (0..nodes).map(count_place).filter(|at| words[*at] != right[*at]).collect();
    let alone = wrong.len() == 1 && recover(&right).is_some();
    let by = |more: u64| alone && words[wrong[0]] == right[wrong[0]].wrapping_add(more);
    let free = |at: &usize| words[at - COUNT_FIELD] == 0;
    let all = [
        ("right", wrong.is_empty()),
        ("wrong with more", !alone && !wrong.is_empty()),
        ("alone", alone),
        ("one more", by(1)),
        ("one less", by(u64::MAX)),
        ("of a free node", alone && wrong.iter().all(free)),
        ("of a node with siblings", alone && siblings_below(&right, wrong[0])),
    ];
    all.into_iter().filter(|(_, so)| *so).map(|(kind, _)| kind).collect()
}

/// Whether the node with its filled count at this place has sibling words.
fn siblings_below(words: &[u64], count: usize) -> bool {
    let slots = &words[count - COUNT_FIELD + SLOT_FIELD..count - COUNT_FIELD + NODE_WORDS];
    slots.iter().any(|word| word % 4 == 2 && *word < 256)
}

/// Mostly something else is wrong, with right counts.
#[test]
fn damaged_pools_have_right_counts_and_wrong_ones() {
    let met = met();
    let count = |kind: &str| *met.counts.get(kind).unwrap_or(&0);
    let (right, alone) = (count("right"), count("alone"));
    assert!(right >= 200 && alone >= 100 && count("wrong with more") >= 20, "{:?}", met.counts);
    let kinds = ["one more", "one less", "of a free node", "of a node with siblings"];
    assert!(kinds.iter().all(|kind| count(kind) >= 10), "{:?}", met.counts);
}

#[test]
fn commands_meet_reservations_in_every_way() {
    let met = met();
    let count = |kind: &reserves::Kind| *met.reserved.get(kind).unwrap_or(&0);
    assert!(12 * met.reserves >= met.commands, "{} of {}", met.reserves, met.commands);
    // Each at least once in so many reserves.
    let once_in = |times: usize, kinds: &[reserves::Kind]| {
        let share = |kind| count(kind) * times >= met.reserves;
        assert!(kinds.iter().all(share), "of {}: {:?}", met.reserves, met.reserved);
    };
    use reserves::Kind::*;
    once_in(4, &[Done]);
    once_in(25, &[TooFew, ByLarger, StoreOver, StoreWider, Erased]);
    once_in(40, &[ByEntry, ByReservation, StoreMixed, Loaded, Marked, PassedAny]);
    once_in(150, &[AsHead, BesideHead, StoreShort]);
    once_in(800, &reserves::KINDS.map(|(kind, _)| kind));
    let many = |spare: &i64| *met.reserve_spare.get(spare).unwrap_or(&0) >= 20;
    assert!([-1, 0].iter().all(many), "{:?}", met.reserve_spare);
}

/// In their dense nodes many finds pass reservations.
#[test]
fn lists_for_finds_pass_reservations() {
    let mut met = Met::default();
    (0..40).for_each(|seed| follow(&mut met, &random_list(seed)));
    let count = |kind| *met.reserved.get(&kind).unwrap_or(&0);
    let (any, marks) = (count(reserves::Kind::PassedAny), count(reserves::Kind::PassedMarks));
    assert!(any >= 60 && marks >= 150, "{:?}", met.reserved);
}

/// The engines are not the library: this needs no child process.
#[test]
fn the_engines_run_lists_with_every_answer() {
    let mut met = Met::default();
    for list in (0..1500).map(engines::random_list) {
        assert_eq!(engines::difference(&list, None), None, "{}", list.show());
        assert!(recover(&list.words).is_some());
        follow(&mut met, &list);
    }
    let many = |count: Option<&usize>| *count.unwrap_or(&0) >= 20;
    assert!([0, 3, 4].iter().all(|answer| many(met.calls.get(answer))), "{:?}", met.calls);
    let mut replies = [0].into_iter().chain(5..=15);
    assert!(replies.all(|answer| many(met.replies.get(&answer))), "{:?}", met.replies);
    assert!([-1, 0].iter().all(|spare| many(met.spare.get(spare))), "{:?}", met.spare);
}

/// By reference alone; every run of the list must be done, and every store in it.
fn follow_finds(list: &CallList) -> FindCounts {
    let mut all = FindCounts::default();
    let mut pool = list.words.clone();
    for call in &list.calls {
        let Call::Run { batch, reply } = call else { continue };
        let mut space = vec![0; *reply];
        assert_eq!(run(&mut pool, batch, &mut space).answer, 0);
        assert!(space.chunks(24).all(|reply| [0, 12, 13].contains(&reply[3])), "{}", list.show());
        all.add(counts(call, &pool, &space));
    }
    all
}

#[test]
fn lists_for_finds_have_every_kind_of_find() {
    let mut met = FindCounts::default();
    (0..40).for_each(|seed| met.add(follow_finds(&random_list(seed))));
    // Each at least once in so many finds.
    let once_in = |times: usize, count: usize| assert!(count * times >= met.finds, "{met:?}");
    assert!(met.finds >= 4000, "{met:?}");
    once_in(10, met.paused_inside);
    once_in(10, met.last_inside);
    once_in(10, met.from_sibling);
    once_in(20, met.over_runs);
    // A fourth of the finds have filter 3.
    once_in(60, met.any_paused_inside);
    once_in(60, met.any_last_inside);
}

/// Counts the listings of a list of calls by their kinds, by reference alone, and all of them.
fn follow_listings(met: &mut Counts<Kind>, list: &CallList) -> usize {
    let mut pool = list.words.clone();
    let mut listings = 0;
    for call in &list.calls {
        let given = by_reference(call, &mut pool);
        kinds(call, &pool, &given).into_iter().for_each(|kind| *met.entry(kind).or_default() += 1);
        listings += usize::from(matches!(call, Call::List { .. }));
    }
    listings
}

/// Each of these kinds at least once in so many listings.
fn assert_once_in(times: usize, met: &Counts<Kind>, listings: usize, kinds: &[Kind]) {
    let share = |kind: &Kind| met.get(kind).unwrap_or(&0) * times >= listings;
    assert!(kinds.iter().all(share), "of {listings} listings: {met:?}");
}

#[test]
fn lists_of_calls_have_every_kind_of_listing() {
    let mut met = Counts::default();
    let lists = (0..1500).map(CallList::random);
    let listings: usize = lists.map(|list| follow_listings(&mut met, &list)).sum();
    assert!(listings >= 1000, "{listings}");
    assert_once_in(100, &met, listings, &KINDS.map(|(kind, _)| kind));
    assert_once_in(40, &met, listings, &[Kind::CutByFirst, Kind::CutByLast, Kind::CutByBoth]);
    assert_once_in(40, &met, listings, &[Kind::OneByteShort, Kind::FirstAboveLast]);
}

/// Their pools have more entries, in more nodes.
#[test]
fn lists_for_finds_have_listings_of_several_nodes() {
    let mut met = Counts::default();
    let lists = (0..40).map(random_list);
    let listings: usize = lists.map(|list| follow_listings(&mut met, &list)).sum();
    assert!(listings >= 300, "{listings}");
    let often = [Kind::SeveralNodes, Kind::OthersBefore, Kind::OthersAfter, Kind::Gap];
    assert_once_in(12, &met, listings, &often);
    let cut = [Kind::CutByFirst, Kind::CutByLast, Kind::CutByBoth];
    assert_once_in(20, &met, listings, &cut);
    let buffers = [Kind::Exact, Kind::Longer, Kind::OneByteShort, Kind::Short, Kind::NoBuffer];
    assert_once_in(30, &met, listings, &buffers);
}

#[test]
fn a_seed_gives_the_same_list_again() {
    for seed in 0..50 {
        assert_eq!(CallList::random(seed), CallList::random(seed));
        assert_eq!(random_list(seed), random_list(seed));
        assert_eq!(Input::random(seed), Input::random(seed));
    }
}

#[test]
fn what_is_smaller_differs() {
    for seed in 0..50 {
        let list = CallList::random(seed);
        let mut some = list.smaller().take(200);
        assert!(some.all(|smaller| smaller != list || list.calls.is_empty()), "seed {seed}");
    }
}

/// Of 20,000 look-ups every kind has its share, the rarest (the longest texts) 1 in 1,000.
#[test]
fn every_kind_of_look_up_is_met() {
    let mut met: Counts<sheets::Kind> = Counts::new();
    for seed in 0..20_000 {
        let look_up = sheets::LookUp::random(seed);
        let (base, supplement) = (look_up.base.concat(), look_up.supplement.concat());
        for kind in sheets::kinds(&base, &supplement, look_up.index) {
            *met.entry(kind).or_default() += 1;
        }
    }
    for (kind, name) in sheets::KINDS {
        let least = if matches!(kind, sheets::Kind::Longest) { 20 } else { 200 };
        assert!(met.get(&kind).is_some_and(|count| *count >= least), "{name}: {met:?}");
    }
}

/// The record of an index that a wrong program takes, in sheets of which it reads what is whole.
fn wrong_look_up(fault: &str, sheets: [&[u8]; 2], index: u64) -> RawPart {
    let whole = |sheet: &[u8]| {
        let end = (0..=sheet.len()).rev().find(|end| records(&sheet[..*end]).is_some());
        (end == Some(sheet.len()), records(&sheet[..end.unwrap_or(0)]).unwrap_or_default())
    };
    let [(base_whole, base), (supplement_whole, supplement)] = sheets.map(whole);
    if !(base_whole && supplement_whole) && fault != "damage overlooked" {
        return RawPart { answer: 3, sheet: 0, place: 0, length: 0 };
    }
    let mut found: Vec<(u64, Record)> = Vec::new();
    for (sheet, records) in [(1, supplement), (0, base)] {
        let mut named = records.into_iter().filter(|record| record.index == index);
        let record = if fault == "first taken" { named.next() } else { named.next_back() };
        found.extend(record.map(|record| (sheet, record)));
    }
    if fault == "empty skipped" {
        found.retain(|(sheet, record)| *sheet == 0 || !record.text.is_empty());
    }
    let taken = if fault == "base first" { found.pop() } else { found.into_iter().next() };
    let Some((sheet, Record { text, .. })) = taken else {
        return RawPart { answer: 10, sheet: 0, place: 0, length: 0 };
    };
    let length = if fault == "one byte short" { text.len().max(1) - 1 } else { text.len() };
    RawPart { answer: 0, sheet, place: text.start as u64, length: length as u64 }
}

/// Each of these faults shows in one look-up of fifty or more often; without one there is no difference.
#[test]
fn planted_faults_of_look_ups_show() {
    let faults =
        ["", "first taken", "empty skipped", "damage overlooked", "base first", "one byte short"];
    for fault in faults {
        let differs = |seed: &u64| {
            let look_up = sheets::LookUp::random(*seed);
            let (base, supplement) = (look_up.base.concat(), look_up.supplement.concat());
            let wanted = sheets::by_reference(&base, &supplement, look_up.index);
            wanted != wrong_look_up(fault, [&base, &supplement], look_up.index)
        };
        let seen = (0..2000).filter(differs).count();
        assert!(if fault.is_empty() { seen == 0 } else { seen >= 40 }, "{fault}: {seen} of 2000");
    }
}

/// Of 100,000 gates more than a third have a limit at the share or next to it, and every kind has one in 500.
#[test]
fn every_kind_of_gate_is_met() {
    let mut met: Counts<gates::Kind> = Counts::new();
    let (mut all, mut near) = (0, 0);
    for seed in 0..10 {
        for ask in gates::Asks::random(seed).0 {
            let kinds = gates::kinds(ask);
            all += 1;
            let is_near = |kind| matches!(kind, gates::Kind::AtLimit | gates::Kind::BesideLimit);
            near += usize::from(kinds.iter().copied().any(is_near));
            kinds.into_iter().for_each(|kind| *met.entry(kind).or_default() += 1);
        }
    }
    assert!(near * 3 > all, "{near} of {all}");
    for (kind, name) in gates::KINDS {
        assert!(met.get(&kind).is_some_and(|count| *count >= 200), "{name}: {met:?}");
    }
}

/// What a wrong program gives.
fn wrong_gate(fault: &str, ask: gates::Ask) -> [u64; 2] {
    let [a, b] = [ask.a, ask.b].map(f64::from_bits);
    let mut share = f64::from(ask.part) / f64::from(ask.total);
    if fault == "rounded up" && !ask.part.is_multiple_of(ask.total.max(1)) {
        share = share.next_up();
    }
    let bad = |limit: f64| match limit.is_nan() {
        true => fault != "NaN let through",
        false => !(0.0..=1.0).contains(&limit),
    };
    let own = match ask.kind {
        1 => bad(a),
        2 => bad(b),
        3 => bad(a) || bad(b) || (a > b && fault != "a above b"),
        _ => true,
    };
    let above = ask.part > ask.total;
    let least = if fault == "at least is above" { share > a } else { share >= a };
    let holds = [false, least, share <= b, least && share <= b];
    match () {
        () if own || (fault == "b looked at" && ask.kind == 1 && bad(b)) => [18, 0],
        () if fault == "20 first" && above => [20, 0],
        () if ask.total == 0 => {
            [if fault == "nothing passes" { 0 } else { 19 }, u64::from(fault == "nothing passes")]
        }
        () if above => [20, 0],
        () => [0, holds[ask.kind as usize].into()],
    }
}

/// Each of these faults shows in one gate of five hundred or more often; without one there is no difference.
#[test]
fn planted_faults_of_gates_show() {
    let faults = [
        "",
        "at least is above",
        "NaN let through",
        "20 first",
        "nothing passes",
        "a above b",
        "b looked at",
        "rounded up",
    ];
    let asks = gates::Asks::random(1).0;
    for fault in faults {
        let differs = |ask: &&gates::Ask| ask.by_reference() != wrong_gate(fault, **ask);
        let seen = asks.iter().filter(differs).count();
        assert!(if fault.is_empty() { seen == 0 } else { seen >= 20 }, "{fault}: {seen}");
    }
}

/// Of 2,000 scripts every kind is met ten times.
#[test]
fn every_kind_of_applying_is_met() {
    let mut met: Counts<applies::Kind> = Counts::new();
    for seed in 0..2000 {
        let kinds = applies::kinds(&applies::Applying::random(seed));
        kinds.into_iter().for_each(|kind| *met.entry(kind).or_default() += 1);
    }
    for (kind, name) in applies::KINDS {
        assert!(met.get(&kind).is_some_and(|count| *count >= 10), "{name}: {met:?}");
    }
}

/// What a wrong program does.
fn wrong_apply(fault: &str, pool: &mut [u64], script: &[u64]) -> Outcome {
    let refused = |answer| Outcome { answer, number: 0 };
    let (pairs, half) = script.as_chunks::<2>();
    if fault != "any size" && node_count(pool.len()).is_none() {
        return refused(1);
    }
    if fault != "half a pair" && fault != "17 at the end" && !half.is_empty() {
        return refused(17);
    }
    let most = pool.len() as u64 + u64::from(fault == "one beyond");
    if fault != "17 when met" && pairs.iter().any(|[place, _]| *place >= most) {
        return refused(17);
    }
    if fault == "checks the pool" && raw::check(pool).answer != 0 {
        return refused(2);
    }
    for (number, [place, value]) in pairs.iter().enumerate() {
        match pool.get_mut(*place as usize) {
            Some(word) if fault == "stops at an equal word" && *word == *value => break,
            Some(_) if fault == "the last left out" && number + 1 == pairs.len() => {}
            Some(word) => *word = *value,
            None if fault == "one beyond" => {}
            None => return refused(17),
        }
    }
    let late = fault == "17 at the end" && !half.is_empty();
    Outcome {
        answer: if late { 17 } else { 0 },
        number: u64::from(fault == "counts pairs") * pairs.len() as u64,
    }
}

/// Each of these faults shows in one script of a hundred or more often; without one there is no difference.
#[test]
fn planted_faults_of_applying_show() {
    let faults = [
        "",
        "any size",
        "half a pair",
        "one beyond",
        "17 when met",
        "17 at the end",
        "checks the pool",
        "stops at an equal word",
        "the last left out",
        "counts pairs",
    ];
    for fault in faults {
        let other = |pool: &mut [u64], script: &[u64]| wrong_apply(fault, pool, script);
        let differs =
            |seed: &u64| applies::Applying::random(*seed).difference_by(&other, None).is_some();
        let seen = (0..500).filter(differs).count();
        assert!(if fault.is_empty() { seen == 0 } else { seen >= 5 }, "{fault}: {seen}");
    }
}

/// Of 4,000 preparings every answer comes a hundred times, and every height and every kind ten times.
#[test]
fn every_kind_of_preparing_is_met() {
    let mut kinds: Counts<prepare_kinds::Kind> = Counts::new();
    let mut answers: Counts<u64> = Counts::new();
    let mut heights: Counts<usize> = Counts::new();
    for seed in 0..4000 {
        let preparing = Preparing::random(seed);
        let heights = &mut heights;
        recover(&preparing.words)
            .iter()
            .for_each(|state| *heights.entry(prepare_kinds::height(state)).or_default() += 1);
        let (outcome, script) = preparing.by_reference();
        let mut met = prepare_kinds::kinds(&preparing, outcome);
        for room in preparing.rooms(script.len()) {
            let given = prepare(&preparing.words, &preparing.record, &mut vec![0; room]);
            *answers.entry(given.answer).or_default() += 1;
            assert!(given == outcome || given.answer == 4 && room < script.len());
            met.extend(prepare_kinds::room_kinds(room, given));
        }
        met.into_iter().for_each(|kind| *kinds.entry(kind).or_default() += 1);
    }
    for answer in [0, 1, 2, 3, 4, 5, 6, 7, 10, 11, 14, 15] {
        assert!(answers.get(&answer).is_some_and(|count| *count >= 100), "{answer}: {answers:?}");
    }
    assert!((0..12).all(|height| heights.get(&height) >= Some(&10)), "{heights:?}");
    for (kind, name) in prepare_kinds::KINDS {
        assert!(kinds.get(&kind).is_some_and(|count| *count >= 10), "{name}: {kinds:?}");
    }
}

/// Each of these faults shows in one preparing of three hundred or more often; without one there is no difference.
#[test]
fn planted_faults_of_preparing_show() {
    for fault in [""].into_iter().chain(wrong_prepares::FAULTS) {
        let other = |pool: &[u64], record: &[u8], slice: &mut [u64]| {
            wrong_prepares::prepare(fault, pool, record, slice)
        };
        let differs = |seed: &u64| Preparing::random(*seed).difference_by(&other, None).is_some();
        let seen = (0..600).filter(differs).count();
        assert!(if fault.is_empty() { seen == 0 } else { seen >= 2 }, "{fault}: {seen}");
    }
}
