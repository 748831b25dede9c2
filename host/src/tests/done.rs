//! Every command is done, or it is told which was not; batch and place of each; no pause and no error is
//! taken for an end.

use super::*;
use crate::engine::run_each;

/// A store has 20 bytes, so a batch takes 1,638 of them.
const STORE_BYTES: usize = 20;
const STORES: usize = 1638;

fn stores(count: u64) -> impl Iterator<Item = Command> {
    (0..count).map(|index| store(index, 0, 3))
}

/// One node has 64 slots.
#[test]
fn of_50_000_stores_in_one_node_64_are_done() {
    let mut pool = Pool::new(1).expect("one node");
    let replies = pool.run_all(stores(50_000)).expect("a good pool");
    assert_eq!((replies.len(), replies.batches()), (50_000, 31));
    let place = Place { command: 64, batch: 0, byte: 64 * STORE_BYTES };
    let not_done = NotDone {
        place,
        tag: Tag::Store,
        answer: Answer::TooFewNodes,
        count: 49_936,
        commands: 50_000,
    };
    assert_eq!(replies.all_done(), Err(not_done));
    assert_eq!(
        not_done.to_string(),
        "49936 of 50000 commands not done; first command 64, in batch 0 at byte 1280: store: too few \
         free nodes"
    );
    assert_eq!(pool.run_all(stores(64)).expect("a good pool").all_done(), Ok(64));
    assert_eq!(pool.run_all([]).expect("a good pool").all_done(), Ok(0));
}

/// Whichever command it is, and whatever it is answered in place of done.
#[test]
fn one_command_that_is_not_done_is_found() {
    let not_done = [
        (load(70), Answer::Absent),
        (mark(64, 3), Answer::BadMark),
        (store(13, 3, 3), Answer::NotAligned),
        (find(0, LAST, 2, 100), Answer::Ended),
        (find(1, LAST, FIND_ANY, 1), Answer::Paused),
        (Command::Reserve { index: 64 }, Answer::Covered),
    ];
    for (command, answer) in not_done {
        for at in [2, 3, 2000, 3999] {
            let mut commands = vec![load(64); 4000];
            commands[..2].copy_from_slice(&[CASE_2, CASE_3]);
            commands[at] = command;
            let mut pool = Pool::new(3).expect("three nodes");
            let first = pool.run_all(commands).expect("a good pool").all_done();
            let first = first.expect_err("one is not done");
            assert_eq!((first.place.command, first.answer, first.count), (at, answer, 1));
            assert_eq!(first.tag, command.tag());
        }
    }
}

/// The place of each command is where its record stands in the bytes of its batch.
#[test]
fn batch_and_place_of_each_command() {
    let kinds =
        [store(1, 0, 3), load(1), mark(1, 2), find(0, 5, 0, 9), Command::Reserve { index: 1 }];
    let commands: Vec<Command> = (0..9000).map(|at| kinds[at % 7 % kinds.len()]).collect();
    let batches: Batches = commands.iter().copied().collect();
    let mut pool = Pool::new(1).expect("one node");
    let replies = pool.run_all(commands.iter().copied()).expect("a good pool");
    assert_eq!(replies.batches(), batches.len());
    assert!(batches.len() > 3);
    for (number, command) in commands.iter().enumerate() {
        let place = replies.place(number).expect("a command");
        let batch = batches.iter().nth(place.batch).expect("a batch");
        assert_eq!(
            (place.command, Command::read(&batch.bytes()[place.byte..])),
            (number, Some(*command))
        );
    }
    assert_eq!((replies.place(9000), replies.place(usize::MAX)), (None, None));
    // Stores alone: by hand.
    let replies = pool.run_all(stores(5000)).expect("a good pool");
    let is = |command, batch, byte| Some(Place { command, batch, byte });
    assert_eq!(replies.place(0), is(0, 0, 0));
    assert_eq!(replies.place(STORES - 1), is(STORES - 1, 0, 32_740));
    assert_eq!(replies.place(STORES), is(STORES, 1, 0));
    assert_eq!(replies.place(4999), is(4999, 3, (4999 - 3 * STORES) * STORE_BYTES));
    assert_eq!(Replies::default().place(0), None);
}

/// A refusal in mid-way: the memory is damaged between two batches.
#[test]
fn what_ran_before_a_refused_batch_is_not_lost() {
    let mut pool = Pool::new(100).expect("a good size");
    let batches: Batches = stores(5000).collect();
    let mut number = 0;
    let refused = run_each(&batches, |batch| {
        number += 1;
        if number == 3 {
            pool.words_mut()[3] = 1;
        }
        pool.run(batch)
    });
    let refused = refused.expect_err("a damaged pool");
    assert_eq!((refused.refusal, refused.batch), (Refusal::NotWellFormed, 2));
    assert_eq!(refused.replies.all_done(), Ok(2 * STORES));
    let text = "batch 2: pool is not well-formed; the 3276 commands before it ran";
    assert_eq!(refused.to_string(), text);
    // They did run.
    pool.words_mut()[3] = 0;
    assert_eq!(pool.list(..).expect("mended").len(), 2 * STORES);
    // Of the first batch it is the refusal alone.
    pool.words_mut()[3] = 1;
    let refused = pool.run_all(stores(5000)).expect_err("a damaged pool");
    assert_eq!((refused.batch, refused.replies.len()), (0, 0));
    assert_eq!(refused.to_string(), "pool is not well-formed");
}

/// Forty regions, 2^30 indices apart, every second one marked: a find of one step pauses again and
/// again between two of them.
fn sparse() -> Pool<'static> {
    let mut pool = Pool::new(400).expect("a good size");
    let far = |at: u64| at << 30;
    let marks = (0..40).step_by(2).map(|at| mark(far(at), 2));
    let commands = (0..40).map(|at| store(far(at), 0, 2 * at + 1)).chain(marks);
    assert_eq!(pool.run_all(commands).expect("a good pool").all_done(), Ok(60));
    pool
}

#[test]
fn a_pause_is_never_the_end() {
    let mut pool = sparse();
    for (filter, count) in [(2, 20), (FIND_ANY, 40), (0, 0)] {
        let wanted: Vec<u64> = (0..count).map(|at| (at * 40 / count.max(1)) << 30).collect();
        for (budget, most) in [(1, 1), (1, 3), (2, 1), (5, 64), (1, MOST_FINDS)] {
            let mut finds = pool.find(.., filter).with_budget(budget).with_batch(most);
            let found: Result<Vec<Entry>, Error> = finds.by_ref().collect();
            let found: Vec<u64> =
                found.expect("good finds").iter().map(|entry| entry.base).collect();
            assert_eq!(found, wanted, "filter {filter}, budget {budget}, {most} finds");
            // One step a batch: a pause for each slot that is passed.
            assert!(
                (budget, most) != (1, 1) || count == 0 || finds.batches() > 200,
                "{}",
                finds.batches()
            );
        }
    }
    assert_eq!(
        pool.find(..1 << 30, 2).with_budget(1).with_batch(1).all().map(|all| all.len()),
        Ok(1)
    );
}

/// An answer that is neither an entry, a pause nor the end is an error, also for who writes the loop.
#[test]
fn an_error_is_never_the_end() {
    let mut pool = sparse();
    let finds = batch(&[
        find(0, LAST, 4, 9),
        find(0, LAST, 2, 0),
        find(9, 0, 2, 9),
        find(1 << 40, LAST, 2, 100),
        find(1, LAST, 2, 1),
        find(0, 0, 2, 1),
        find(0, 1, 2, 1),
        load(0),
    ]);
    let replies = pool.run(&finds).expect("a good batch");
    let next: Vec<_> = replies.iter().map(|reply| reply.next_first(LAST)).collect();
    let errors = [Answer::BadMark, Answer::NoBudget, Answer::FirstAboveLast].map(Err);
    assert_eq!(next[..3], errors);
    assert_eq!(next[3], Ok(None));
    assert_eq!(next[4], Ok(replies[4].paused_at()));
    assert!(next[4].is_ok_and(|next| next.is_some()));
    assert_eq!((next[5], next[6], next[7]), (Ok(Some(1)), Ok(Some(1)), Err(Answer::Done)));
    assert_eq!((replies[5].next_first(0), replies[6].next_first(1)), (Ok(None), Ok(Some(1))));
    assert_eq!(pool.find(.., 4).all(), Err(Error::Answered(Answer::BadMark)));
    assert_eq!(pool.find(.., 2).with_budget(0).all(), Err(Error::Answered(Answer::NoBudget)));
    pool.words_mut()[3] = 1;
    assert_eq!(pool.find(.., 2).all(), Err(Error::Refused(Refusal::NotWellFormed)));
}
