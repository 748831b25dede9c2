//! The cases (R106 to R120, R182, R191, R192) with their figures, and that no input makes the wrapper panic.

use crate::*;

mod apply;
mod done;
mod file;
mod list;
mod nodes;
mod prepare;
mod region;
mod reserve;

const LAST: u64 = u64::MAX;

fn store(index: u64, order: u8, word: u64) -> Command {
    Command::Store { index, order, word: Word(word) }
}

fn load(index: u64) -> Command {
    Command::Load { index }
}

fn mark(index: u64, mark: u8) -> Command {
    Command::Mark { index, mark }
}

fn find(first: u64, last: u64, filter: u8, budget: u16) -> Command {
    Command::Find { first, last, filter, budget }
}

fn batch(commands: &[Command]) -> BatchBuilder {
    let mut batch = BatchBuilder::new();
    for command in commands {
        batch.push(*command).expect("a short batch");
    }
    batch
}

/// Runs the commands on a new pool; gives the last reply and the pool.
fn run(nodes: usize, commands: &[Command]) -> (Reply, Pool<'static>) {
    let mut pool = Pool::new(nodes).expect("a good size");
    let replies = pool.run(&batch(commands)).expect("a good batch");
    (replies.into_iter().last().expect("a command"), pool)
}

fn last_reply(nodes: usize, commands: &[Command]) -> Reply {
    run(nodes, commands).0
}

fn answer(nodes: usize, commands: &[Command]) -> Answer {
    last_reply(nodes, commands).answer
}

/// The least pool in which the last of the commands is done: nodes before and nodes needed.
fn least_nodes(commands: &[Command]) -> usize {
    let done = |nodes: &usize| answer(*nodes, commands) == Answer::Done;
    (1..=40).find(done).expect("40 nodes are enough")
}

fn slot(pool: &Pool, node: usize, slot: usize) -> u64 {
    pool.words()[layout::slot_place(node, slot)]
}

fn mark_word(pool: &Pool, node: usize, mark: usize) -> u64 {
    pool.words()[layout::mark_place(node, mark)]
}

fn free_nodes(pool: &Pool) -> usize {
    pool.nodes().expect("a pool") - pool.nodes_in_use()
}

const CASE_2: Command = Command::Store { index: 0, order: 0, word: Word(3) };
const CASE_3: Command = Command::Store { index: 64, order: 0, word: Word(5) };

#[test]
fn case_1_absent() {
    let reply = last_reply(40, &[load(0)]);
    assert_eq!((reply.answer, reply.count), (Answer::Absent, 0));
}

#[test]
fn case_2_the_head_is_the_entry() {
    let (reply, pool) = run(40, &[CASE_2]);
    assert_eq!(reply.entry().map(|entry| entry.word), Some(Word(3)));
    assert_eq!(pool.words()[..4], [40, 3, 0, 0]);
    assert_eq!(free_nodes(&pool), 40);
}

#[test]
fn case_3_needs_3() {
    assert_eq!(answer(2, &[CASE_2, CASE_3]), Answer::TooFewNodes);
    assert_eq!(answer(3, &[CASE_2, CASE_3]), Answer::Done);
}

#[test]
fn case_4_needs_3_or_1() {
    assert_eq!(least_nodes(&[CASE_2, CASE_3, store(4096, 0, 7)]), 6);
    assert_eq!(least_nodes(&[CASE_2, CASE_3, store(4095, 0, 7)]), 4);
}

#[test]
fn cases_5_and_6_need_11_and_21() {
    assert_eq!(least_nodes(&[store(LAST, 0, 3)]), 11);
    assert_eq!(least_nodes(&[CASE_2, store(LAST, 0, 3)]), 21);
}

#[test]
fn case_7_order_6_at_0() {
    let (reply, pool) = run(40, &[store(0, 6, 3), load(63)]);
    assert_eq!((reply.index, reply.order, reply.count), (0, 6, 1));
    assert_eq!((free_nodes(&pool), pool.words()[4]), (39, 7));
}

#[test]
fn case_8_siblings() {
    let (reply, pool) = run(40, &[store(8, 3, 3)]);
    assert_eq!(reply.index, 8);
    assert!((9..16).all(|at| slot(&pool, 0, at) == 34));
}

#[test]
fn an_index_that_is_no_multiple_is_14_after_5_and_before_6() {
    let (reply, pool) = run(40, &[store(13, 3, 3)]);
    assert_eq!((reply.answer, reply.index, free_nodes(&pool)), (Answer::NotAligned, 0, 40));
    assert_eq!(last_reply(40, &[store(13, 64, 0)]).answer, Answer::BadOrder);
    assert_eq!(last_reply(40, &[store(13, 3, 0)]).answer, Answer::NotAligned);
    assert_eq!(last_reply(40, &[store(8, 3, 0)]).answer, Answer::BadEntry);
}

#[test]
fn case_9_replaced_whole_then_erased() {
    let first = [store(8, 3, 3), store(10, 0, 9)];
    let reply = last_reply(40, &[first[0], first[1], load(15)]);
    assert_eq!((reply.word, reply.index, reply.order), (Word(9), 8, 3));
    let (reply, pool) = run(40, &[first[0], first[1], Command::Erase { index: 11 }]);
    assert_eq!((reply.answer, free_nodes(&pool)), (Answer::Done, 40));
}

#[test]
fn case_10_marks_are_kept() {
    let entries = [store(64, 0, 3), store(65, 0, 5), mark(64, 0), mark(65, 1)];
    let (_, before) = run(40, &entries);
    let (reply, after) = run(40, &[&entries[..], &[store(64, 6, 7)]].concat());
    assert_eq!(reply.marks, Marks(3));
    assert_eq!(free_nodes(&after), free_nodes(&before) + 1);
}

#[test]
fn case_10a_matched_is_lost_by_a_wider_store() {
    let matched = [store(4096, 0, 5), mark(4096, 0), mark(4096, 2)];
    let (reply, pool) = run(40, &[&matched[..], &[store(4096, 3, 9)]].concat());
    assert_eq!((reply.order, reply.marks, pool.words()[2]), (3, Marks(1), 1));
    assert!((0..3).all(|node| mark_word(&pool, node, 2) == 0));
    assert_eq!([0, 1, 2].map(|node| mark_word(&pool, node, 0)), [2, 1, 1]);

    let brother = [store(4160, 0, 7), mark(4160, 2)];
    let (reply, pool) = run(40, &[&matched[..], &brother, &[store(4096, 3, 9)]].concat());
    assert_eq!((reply.marks, pool.words()[2]), (Marks(1), 5));
    assert_eq!([0, 1, 2, 3].map(|node| mark_word(&pool, node, 2)), [2, 2, 0, 1]);
}

#[test]
fn case_10b_matched_is_lost_with_the_same_word() {
    let marked = [store(4096, 0, 5), mark(4096, 0)];
    let again = [mark(4096, 2), store(4096, 0, 5)];
    let (reply, pool) = run(40, &[marked, again].concat());
    assert_eq!(reply.marks, Marks(1));
    assert_eq!(pool.words(), run(40, &marked).1.words());

    let brother = [store(4160, 0, 7), mark(4160, 2)];
    let (_, pool) = run(40, &[marked, brother, again].concat());
    assert_eq!(pool.words(), run(40, &[marked, brother].concat()).1.words());

    let (reply, pool) = run(40, &[CASE_2, mark(0, 2), CASE_2]);
    assert_eq!(reply.marks, Marks(0));
    assert_eq!(pool.words(), run(40, &[CASE_2]).1.words());
}

#[test]
fn case_11_as_case_2() {
    let (_, pool) = run(40, &[CASE_2, CASE_3, Command::Erase { index: 64 }]);
    assert_eq!(pool.words(), run(40, &[CASE_2]).1.words());
}

#[test]
fn case_12_the_upper_half() {
    let (_, pool) = run(40, &[store(1 << 63, 63, 3)]);
    assert_eq!((pool.words()[4], slot(&pool, 0, 8)), (61, 3));
    assert!((9..16).all(|at| slot(&pool, 0, at) == 34));
    assert_eq!(answer(40, &[store(1 << 63, 64, 3)]), Answer::BadOrder);
}

#[test]
fn case_13_steps() {
    let reply = last_reply(40, &[CASE_2, CASE_3, find(1, LAST, FIND_ANY, 100)]);
    assert_eq!((reply.answer, reply.index, reply.count), (Answer::Done, 64, 64));
    let reply = last_reply(40, &[CASE_2, CASE_3, find(1, LAST, FIND_ANY, 63)]);
    assert_eq!((reply.paused_at(), reply.count), (Some(64), 63));
    let reply = last_reply(40, &[CASE_2, CASE_3, mark(64, 0), find(1, LAST, 0, 100)]);
    assert_eq!((reply.answer, reply.index, reply.count), (Answer::Done, 64, 2));
}

fn hex(bytes: &[u8]) -> String {
    bytes.iter().map(|byte| format!("{byte:02x}")).collect()
}

#[test]
fn case_14_whole_records() {
    assert_eq!(hex(batch(&[CASE_3]).bytes()), "0100110000000000000040000000000000000005");
    let reply = last_reply(3, &[CASE_2, CASE_3, load(64)]);
    assert_eq!(hex(&reply.bytes()), "820015000000000000000040000000000000000005000002");
    assert_eq!(reply.to_string(), "load: done, 64 order 0 value 2 marks -, count 2");
}

#[test]
fn case_15_limits() {
    for (words, is) in [(74, Ok(())), (1_146_884, Ok(())), (73, Err(Refusal::PoolLength))] {
        assert_eq!(Pool::from_words(vec![0; words]).init(), is, "{words} words");
    }
    let long = Pool::from_words(vec![0; 1_146_954]).init();
    assert_eq!((long, Pool::from_words(Vec::new()).init()), (Err(Refusal::PoolLength), long));
    let records = [batch(&[load(0)]).bytes().repeat(2968), batch(&[mark(0, 0)]).bytes().repeat(10)];
    let (full, mut reply) = (records.concat(), vec![0; 2978 * REPLY_BYTES]);
    let mut pool = Pool::new(1).expect("one node");
    assert_eq!((full.len(), pool.run_bytes(&full, &mut reply)), (32_768, Ok(2978)));
    let long = [full, vec![2]].concat();
    assert_eq!(pool.run_bytes(&long, &mut reply), Err(Refusal::BadBatch { place: 32_768 }));
    assert_eq!(count_commands(&long[..32_768]), Ok(2978));
    assert_eq!(count_commands(&long), Err(Refusal::BadBatch { place: 32_768 }));
    assert_eq!(count_commands(&[]), Ok(0));
}

#[test]
fn refusals_by_name() {
    let mut pool = Pool::new(3).expect("three nodes");
    let two = batch(&[CASE_2, CASE_3]);
    let short = pool.run_bytes(two.bytes(), &mut [0; 47]);
    assert_eq!(short, Err(Refusal::ReplySpace { commands: 2 }));
    let cut = pool.run_bytes(&two.bytes()[..39], &mut [0; 48]);
    assert_eq!(cut, Err(Refusal::BadBatch { place: 20 }));
    pool.words_mut()[3] = 1;
    assert_eq!(pool.check(), Err(Refusal::NotWellFormed));
    assert_eq!(pool.run(&two), Err(Refusal::NotWellFormed));
    assert_eq!(Pool::new(0).err(), Some(Refusal::PoolLength));
    assert_eq!(Pool::new(16_385).err(), Some(Refusal::PoolLength));
    assert_eq!(Pool::new(usize::MAX).err(), Some(Refusal::PoolLength));
}

#[test]
fn a_builder_refuses_what_is_too_long() {
    let mut batch = BatchBuilder::new();
    for _ in 0..2978 {
        batch.push(load(0)).expect("room");
    }
    assert_eq!((batch.len(), batch.room()), (2978, 10));
    assert_eq!(batch.push(load(0)), Err(BatchFull(load(0))));
    assert_eq!(batch.bytes().len(), 2978 * 11);
}

#[test]
fn borrowed_words_are_the_callers() {
    let mut words = [7u64; 74];
    let mut pool = Pool::over(&mut words);
    assert_eq!(pool.check(), Err(Refusal::NotWellFormed));
    pool.init().expect("74 words");
    assert_eq!(pool.run(&batch(&[CASE_2])).expect("a good batch").len(), 1);
    drop(pool);
    assert_eq!((words[0], words[1]), (1, 3));
    assert_eq!((node_count(74), node_count(1_146_884)), (Some(1), Some(16_384)));
    assert!([0, 3, 4, 73, 69_004, 1_146_954, usize::MAX]
        .iter()
        .all(|words| node_count(*words).is_none()));
}

/// A small generator (splitmix64).
fn random_bytes(seed: u64, count: usize) -> Vec<u8> {
    let mut state = seed;
    let mut next = || {
        state = state.wrapping_add(0x9E37_79B9_7F4A_7C15);
        let mixed = (state ^ (state >> 30)).wrapping_mul(0xBF58_476D_1CE4_E5B9);
        (mixed ^ (mixed >> 27)) as u8
    };
    (0..count).map(|_| next()).collect()
}

#[test]
fn any_bytes_are_read_without_panic() {
    for seed in 0..2000 {
        let mut bytes = random_bytes(seed, (seed % 60) as usize);
        let firsts = [1, 6, 129, 134, 255, 4, 7, 135];
        if let [first, _, rest @ ..] = &mut bytes[..] {
            *first = firsts[(seed % 8) as usize];
            rest.iter_mut().take(2).for_each(|byte| *byte %= 22);
        }
        assert!(Commands::of(&bytes).count() <= bytes.len());
        assert!(Records::of(&bytes).count() <= bytes.len());
        let mut reply = [0; 240];
        let _ = Pool::from_words(vec![seed; 74]).run_bytes(&bytes, &mut reply);
    }
}

#[test]
fn commands_and_replies_round_trip() {
    let unmark = Command::Unmark { index: 3, mark: 9 };
    let reserve = Command::Reserve { index: LAST };
    let commands = [store(1, 255, 0), load(LAST), unmark, find(5, 2, 7, 0), reserve];
    let all: Result<Vec<Command>, BadBatch> = batch(&commands).commands().collect();
    assert_eq!(all, Ok(commands.to_vec()));
    let mut pool = Pool::new(1).expect("one node");
    for reply in pool.run(&batch(&commands)).expect("a good batch") {
        assert_eq!(Reply::read(&reply.bytes()), Some(reply));
    }
    let refused: Vec<_> = Records::of(&[255, 0, 3, 3, 0x20, 0]).collect();
    assert_eq!(refused, [Ok(Record::Refused { answer: Answer::BadBatch, number: 8192 })]);
    assert_eq!(Records::of(&[255, 0, 3, 9, 0, 0]).next(), Some(Err(BadRecord { place: 0 })));
}

#[test]
fn every_answer_has_its_number() {
    for (number, answer) in Answer::ALL.iter().enumerate() {
        assert_eq!(usize::from(answer.number()), number);
        assert!(!answer.to_string().is_empty());
    }
    assert_eq!(Answer::from_number(16), None);
    assert_eq!(Word::value(1 << 63), Err(TooLarge(1 << 63)));
    assert_eq!(Word::value((1 << 63) - 1), Ok(Word(LAST)));
}

fn bases(pool: &mut Pool, first: u64, last: u64, filter: u8) -> Vec<u64> {
    pool.find(first..=last, filter).map(|entry| entry.expect("good finds").base).collect()
}

#[test]
fn the_index_after_a_run() {
    let entry = |base, order| Entry { base, order, word: Word(1), marks: Marks(0) };
    let cases = [
        (0, 0, 0, Some(1)),
        (8, 3, 15, Some(16)),
        (LAST, 0, LAST, None),
        (LAST - 1, 0, LAST - 1, Some(LAST)),
        (1 << 63, 63, LAST, None),
        (0, 63, (1 << 63) - 1, Some(1 << 63)),
        // No entry has these, but no number makes it fail.
        (0, 64, LAST, None),
        (5, 255, LAST, None),
    ];
    for (base, order, last, after) in cases {
        let entry = entry(base, order);
        assert_eq!((entry.last(), entry.after()), (last, after), "{base} order {order}");
        assert!(entry.covers(base) && entry.covers(last) && !(last < LAST && entry.covers(LAST)));
    }
}

/// An entry of order 3 and one at 2^64 - 1: a loop from `index + 1` never ends on the first, and
/// after the second begins again at 0.
#[test]
fn finds_end_on_runs_and_at_the_last_index() {
    let entries = [store(8, 3, 3), store(16, 0, 5), store(LAST, 0, 7), mark(9, 1), mark(LAST, 1)];
    let (_, mut pool) = run(40, &entries);
    assert_eq!(bases(&mut pool, 0, LAST, FIND_ANY), [8, 16, LAST]);
    assert_eq!(bases(&mut pool, 0, LAST, 1), [8, LAST]);
    assert_eq!(bases(&mut pool, 12, LAST - 1, FIND_ANY), [8, 16]);
    assert_eq!(bases(&mut pool, 15, 15, FIND_ANY), [8]);
    assert_eq!(bases(&mut pool, 17, LAST - 1, FIND_ANY), []);
    assert_eq!(pool.find(16..16, FIND_ANY).count(), 0);
    assert_eq!(pool.find(..0, FIND_ANY).count(), 0);
    assert_eq!(pool.find(.., FIND_ANY).count(), 3);
    let after_the_last = (std::ops::Bound::Excluded(LAST), std::ops::Bound::Unbounded);
    assert_eq!(pool.find(after_the_last, FIND_ANY).count(), 0);
}

#[test]
fn finds_one_by_one_go_on_after_a_run_or_at_a_pause() {
    let (_, mut pool) = run(40, &[store(8, 3, 3), store(LAST, 0, 7)]);
    let (mut first, mut found, mut pauses) = (Some(0), Vec::new(), 0);
    while let Some(from) = first {
        let replies = pool.run(&batch(&[find(from, LAST, FIND_ANY, 3)])).expect("a good batch");
        found.extend(replies[0].entry().map(|entry| entry.base));
        pauses += usize::from(replies[0].paused_at().is_some());
        first = replies[0].next_first(LAST).expect("found, paused or ended");
    }
    assert_eq!(found, [8, LAST]);
    assert!(pauses > 10, "{pauses}");
}

/// Entries of many orders below 2^16, some marked.
fn random_pool(seed: u64) -> Pool<'static> {
    let mut pool = Pool::new(200).expect("a good size");
    let bytes = random_bytes(seed, 600);
    let commands = bytes.chunks(5).map(|part| {
        let index = u64::from(part[0]) * 256 + u64::from(part[1]);
        match part[2] % 8 {
            0 => Command::Erase { index },
            1 | 2 => mark(index, part[3] % 3),
            _ => store(index, part[3] % 9 * (part[4] % 2), 2 * index + 1),
        }
    });
    assert_eq!(pool.run_all(commands).expect("a good pool").len(), 120);
    pool
}

/// Entries of many orders: the list by loads, and by finds with all budgets and sizes of batch.
#[test]
fn finds_give_each_entry_once() {
    for seed in 0..8 {
        let mut pool = random_pool(seed);
        let mut listed: Vec<Entry> = Vec::new();
        let loads = pool.run_all((0..1 << 16).map(load)).expect("a good pool");
        listed.extend(loads.iter().filter_map(|reply| reply.entry()));
        listed.dedup();
        assert!(listed.len() > 20);
        for (budget, most) in [(u16::MAX, MOST_FINDS), (1, 372), (7, 1), (u16::MAX, 5)] {
            for filter in 0..=FIND_ANY {
                let finds = pool.find(.., filter).with_budget(budget).with_batch(most);
                let found: Result<Vec<Entry>, Error> = finds.collect();
                let has = |entry: &&Entry| filter == FIND_ANY || entry.marks.has(filter);
                let expected: Vec<Entry> = listed.iter().filter(has).copied().collect();
                assert_eq!(found, Ok(expected), "seed {seed}, filter {filter}, budget {budget}");
            }
        }
    }
}

/// Entries side by side, apart, far apart and in ten heaps: about as many batches as the finds fill,
/// and a few, in each heap, to see how dense the entries are.
#[test]
fn finds_need_few_batches() {
    let heaps = |at: u64| (at % 500) + (at / 500) * (1 << 30);
    let spreads: [(usize, &dyn Fn(u64) -> u64); 4] =
        [(0, &|at| at), (0, &|at| 4 * at), (0, &|at| at << 12), (10, &heaps)];
    for (number, (heaps, spread)) in spreads.iter().enumerate() {
        let mut pool = Pool::new(1000).expect("a good size");
        let stores = (0..5000).map(|at| store(spread(at), 0, 3));
        let replies = pool.run_all(stores).expect("a good pool");
        let stored = replies.iter().filter(|reply| reply.answer == Answer::Done).count();
        let mut finds = pool.find(.., FIND_ANY);
        assert_eq!(finds.by_ref().count(), stored);
        let full = stored.div_ceil(MOST_FINDS);
        let most = 3 * full + 40 + 8 * heaps;
        assert!(finds.batches() <= most, "{number}: {} for {stored}", finds.batches());
    }
}

#[test]
fn finds_that_cannot_be_say_so_once() {
    let mut pool = Pool::new(1).expect("one node");
    let mut finds = pool.find(.., 4);
    assert_eq!(finds.next(), Some(Err(Error::Answered(Answer::BadMark))));
    assert_eq!(finds.next(), None);
    let mut finds = pool.find(.., 0).with_budget(0);
    assert_eq!(finds.next(), Some(Err(Error::Answered(Answer::NoBudget))));
    pool.words_mut()[3] = 1;
    let mut finds = pool.find(.., 0);
    assert_eq!(finds.next(), Some(Err(Error::Refused(Refusal::NotWellFormed))));
    assert_eq!(finds.next(), None);
}

#[test]
fn any_number_of_commands() {
    let mut pool = Pool::new(400).expect("a good size");
    let replies = pool.run_all((0..5000).map(|index| store(index, 0, 3))).expect("a good pool");
    assert_eq!(replies.len(), 5000);
    assert!(replies.iter().all(|reply| reply.answer == Answer::Done));
    assert_eq!((replies[4999].index, replies.get(5000)), (4999, None));
    assert_eq!(pool.run_all([]).map(|replies| replies.len()), Ok(0));
    let batches: Batches = (0..5000).map(|index| store(index, 0, 3)).collect();
    assert!(batches.iter().all(|batch| batch.bytes().len() <= MOST_BATCH_BYTES));
    assert_eq!(batches.iter().map(BatchBuilder::len).sum::<usize>(), 5000);
    // The same row of records, cut from its bytes.
    let row: Vec<u8> = batches.iter().flat_map(|batch| batch.bytes().to_vec()).collect();
    let cut = split_batches(&row).expect("good records");
    assert!(cut.iter().copied().eq(batches.iter().map(BatchBuilder::bytes)));
    let bad = [&row[..], &[9]].concat();
    assert_eq!(split_batches(&bad), Err(Refusal::BadBatch { place: 100_000 }));
    pool.words_mut()[3] = 1;
    assert_eq!(pool.run_all([]).map_err(Refusal::from), Err(Refusal::NotWellFormed));
}

#[test]
fn a_pool_is_saved_and_loaded() {
    let (_, mut pool) = run(4, &[CASE_2, CASE_3]);
    assert_eq!((pool.nodes(), pool.nodes_in_use()), (Some(4), 3));
    let bytes = pool.to_bytes();
    let loaded = Pool::from_bytes(&bytes).expect("what was saved");
    assert_eq!(loaded.words(), pool.words());
    let copy = pool.clone();
    pool.run(&batch(&[Command::Erase { index: 64 }])).expect("a good batch")[0].done().expect("it");
    assert_eq!((pool.nodes_in_use(), copy.nodes_in_use()), (0, 3));
    assert_eq!(Pool::from_bytes(&bytes[1..]).err(), Some(Refusal::PoolLength));
    assert_eq!(Pool::from_bytes(&bytes[8..]).err(), Some(Refusal::PoolLength));
    assert_eq!(Pool::from_bytes(&[]).err(), Some(Refusal::PoolLength));
    let mut damaged = bytes;
    damaged[24] = 1;
    assert_eq!(Pool::from_bytes(&damaged).err(), Some(Refusal::NotWellFormed));
}

#[test]
fn answers_are_errors() {
    let reply = last_reply(1, &[CASE_2, CASE_3]);
    let error: Box<dyn std::error::Error> = reply.done().expect_err("too few nodes").into();
    assert_eq!(error.to_string(), "too few free nodes");
    assert_eq!(Word::handle(0x1000), Ok(Word(0x1000)));
    assert_eq!([0, 1, 2, 6].map(|word| Word::handle(word).is_err()), [true; 4]);
}

/// What the program tamburish writes tells how it went; its exit status does not.
#[test]
fn the_output_of_the_program_is_whole_or_not() {
    let mut pool = Pool::new(3).expect("three nodes");
    let replies = pool.run(&batch(&[CASE_2, CASE_3])).expect("a good batch");
    let output: Vec<u8> = replies.iter().flat_map(|reply| reply.bytes()).collect();
    assert_eq!(Replies::of_program(&output, 2), Ok(replies));
    for bytes in 0..48 {
        let cut = Replies::of_program(&output[..bytes], 2);
        assert_eq!(cut, Err(ProgramError::Cut { bytes }));
    }
    let refusal = [255, 0, 3, 3, 0x20, 0];
    let refused = ProgramError::Refused { answer: Answer::BadBatch, number: 8192 };
    assert_eq!(Replies::of_program(&refusal, 2), Err(refused));
    assert_eq!(Replies::of_program(&refusal[..5], 0), Err(ProgramError::Cut { bytes: 5 }));
    assert_eq!(Replies::of_program(&[], 0).map(|replies| replies.len()), Ok(0));
}

/// The C header says the same numbers and the same texts.
#[test]
fn the_c_header_agrees() {
    let header = include_str!("../../include/xapool.h");
    // The header puts the text of a pool's length together from the numbers below.
    for answer in Answer::ALL.into_iter().filter(|answer| *answer != Answer::PoolLength) {
        assert!(header.contains(&format!("\"{answer}\"")), "{answer}");
    }
    for verdict in [Verdict::NothingToCompare, Verdict::Matched, Verdict::Different] {
        assert!(header.contains(&format!("\"{verdict}\"")), "{verdict}");
    }
    let version = env!("CARGO_PKG_VERSION");
    assert!(header.contains(&format!("#define XAPOOL_VERSION \"{version}\"")), "{version}");
    let [major, minor, patch] = version.split('.').collect::<Vec<_>>()[..] else {
        panic!("{version} has three numbers");
    };
    for (name, number) in [("MAJOR", major), ("MINOR", minor), ("PATCH", patch)] {
        assert!(header.contains(&format!("#define XAPOOL_VERSION_{name} {number}")), "{name}");
    }
}

/// So are its sizes.
#[test]
fn the_c_header_has_the_sizes() {
    let header = include_str!("../../include/xapool.h");
    let sizes = [
        ("ANCHOR_WORDS", layout::ANCHOR_WORDS),
        ("NODE_WORDS", layout::NODE_WORDS),
        ("SHIFT_FIELD", layout::SHIFT_FIELD),
        ("OWNER_FIELD", layout::OWNER_FIELD),
        ("COUNT_FIELD", layout::COUNT_FIELD),
        ("MARK_FIELD", layout::MARK_FIELD),
        ("SLOT_FIELD", layout::SLOT_FIELD),
        ("SLOTS", layout::SLOTS),
        ("MAX_NODES", MOST_NODES),
        ("BATCH_BYTES", MOST_BATCH_BYTES),
        ("PROGRAM_BYTES", PROGRAM_BATCH_BYTES),
        ("MAX_COMMANDS", MOST_BATCH_BYTES / Tag::Load.record_bytes()),
        ("REPLY_BYTES", REPLY_BYTES),
        ("LISTED_BYTES", LISTED_BYTES),
    ];
    for (name, size) in sizes {
        let line = format!("#define XAPOOL_{name} {size}");
        assert!(
            header.lines().any(|has| has.split(" /*").next().map(str::trim) == Some(&line)),
            "{line}"
        );
    }
}

/// The filled counts of a pool's first nodes (R220).
fn counts(pool: &Pool, nodes: usize) -> Vec<u64> {
    (0..nodes).map(|node| pool.words()[layout::count_place(node)]).collect()
}

#[test]
fn a_node_counts_its_filled_slots() {
    let reserve = Command::Reserve { index: 1 };
    let commands = [CASE_2, CASE_3, store(8, 3, 7), reserve, store(4095, 0, 9)];
    let (_, mut pool) = run(4, &commands);
    // The head leads to three nodes; siblings and what is reserved fill slots as well.
    assert_eq!(counts(&pool, 4), [3, 10, 1, 1]);
    assert_eq!(pool.words()[4..11], [7, 0, 3, 0, 0, 0, 4102]);
    let by_slots: Vec<u64> = (0..4).map(|node| layout::filled_slots(pool.words(), node)).collect();
    assert_eq!(by_slots, counts(&pool, 4));
    assert_eq!(layout::filled_slots(pool.words(), 4), 0);
    let erases = batch(&[Command::Erase { index: 15 }, Command::Erase { index: 4095 }]);
    assert_eq!(pool.run(&erases).expect("a good batch").len(), 2);
    assert_eq!(counts(&pool, 4), [2, 2, 1, 0]);
}

#[test]
fn a_wrong_count_is_not_well_formed() {
    let (_, pool) = run(4, &[CASE_2, CASE_3]);
    // Node 3 is free: its count is 0.
    for (node, right) in [(0, 2), (1, 1), (2, 1), (3, 0u64)] {
        for count in [right + 1, right.wrapping_sub(1), 64] {
            let mut damaged = pool.clone();
            damaged.words_mut()[layout::count_place(node)] = count;
            assert_eq!(damaged.check(), Err(Refusal::NotWellFormed), "node {node}: {count}");
            assert_eq!(damaged.run(&batch(&[load(0)])), Err(Refusal::NotWellFormed));
        }
    }
}

/// Numbers from damaged words are of no place, and none is too large to ask with.
#[test]
fn no_node_is_at_no_place() {
    let (_, pool) = run(4, &[CASE_2, CASE_3]);
    for number in [4, MOST_NODES, usize::MAX / 70, usize::MAX / 4, usize::MAX - 1024, usize::MAX] {
        let places = [
            layout::node_place(number),
            layout::owner_place(number),
            layout::count_place(number),
            layout::mark_place(number, 2),
            layout::slot_place(number, 63),
        ];
        assert!(places.iter().all(|place| pool.words().get(*place).is_none()), "{number}");
        assert!(layout::slot_place(0, number) >= number);
        assert_eq!(layout::filled_slots(pool.words(), number), 0);
        assert_eq!([layout::node_word(number) % 4, layout::sibling_word(number) % 4], [2, 2]);
    }
    assert_eq!(
        [layout::node_word(0), layout::node_word(3), layout::sibling_word(8)],
        [4098, 4110, 34]
    );
}

#[test]
fn the_length_of_a_pool_is_told() {
    let text = "pool length is not 4 + 70 N words, N from 1 to 16384";
    assert_eq!(Refusal::PoolLength.to_string(), text);
    assert_eq!(Answer::PoolLength.to_string(), text);
}
