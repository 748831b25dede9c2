//! Applying a script: its answers, and that it ends where the uncut one does, from wherever it was cut.

use super::*;

/// The words that differ, each by its place and what it becomes.
fn between(before: &Pool, after: &Pool) -> Vec<u64> {
    let words = before.words().iter().zip(after.words()).enumerate();
    words
        .filter(|(_, (old, new))| old != new)
        .flat_map(|(at, (_, new))| [at as u64, *new])
        .collect()
}

/// A pool, and what a store of order 6 makes of it: a new head, new nodes and freed ones.
fn store_over_marks() -> (Pool<'static>, Pool<'static>) {
    let (_, before) = run(12, &[store(64, 0, 3), store(65, 0, 5), mark(64, 0), mark(65, 1)]);
    let mut after = before.clone();
    let replies = after.run_all([store(64, 6, 9), store(1 << 20, 0, 7)]).expect("a good pool");
    assert_eq!(replies.all_done(), Ok(2));
    (before, after)
}

#[test]
fn cut_after_every_word_and_applied_again() {
    let (before, after) = store_over_marks();
    let script = between(&before, &after);
    let mut half_written = 0;
    for cut in (0..=script.len()).step_by(2) {
        for second in (0..=script.len()).step_by(2) {
            let mut pool = before.clone();
            pool.apply(&script[..cut]).expect("a good script");
            pool.apply(&script[..second]).expect("a good script");
            half_written += u32::from(pool.check() == Err(Refusal::NotWellFormed));
            assert_eq!(pool.apply(&script), Ok(()));
            assert_eq!(pool.words(), after.words(), "cut at {cut}, then at {second}");
        }
    }
    assert!(script.len() > 40 && half_written > 100, "{} words, {half_written}", script.len());
}

#[test]
fn any_of_the_writes_in_any_order() {
    let (before, after) = store_over_marks();
    let script = between(&before, &after);
    let pairs: Vec<&[u64]> = script.chunks(2).collect();
    for step in 1..pairs.len() {
        let mut pool = before.clone();
        for pair in pairs.iter().rev().step_by(step) {
            pool.apply(pair).expect("a good script");
        }
        pool.words_mut()[script[0] as usize] = u64::MAX;
        assert_eq!(pool.apply(&script), Ok(()));
        assert_eq!(pool.words(), after.words());
    }
}

#[test]
fn what_is_refused_writes_nothing() {
    let mut pool = Pool::new(2).expect("a good size");
    let before = pool.words().to_vec();
    for script in [&[1, 3, 144, 0][..], &[1, 3, u64::MAX, 0], &[1, 3, 2], &[0]] {
        assert_eq!(pool.apply(script), Err(Refusal::BadScript));
        assert_eq!(pool.words(), before);
    }
    assert_eq!(Refusal::BadScript.answer(), None);
    assert!(Refusal::BadScript.to_string().contains("outside the pool"));
    assert_eq!(Pool::from_words(vec![0; 143]).apply(&[0, 7]), Err(Refusal::PoolLength));
    assert_eq!(Pool::from_words(Vec::new()).apply(&[]), Err(Refusal::PoolLength));
    assert_eq!(pool.apply(&[]), Ok(()));
    assert_eq!(pool.apply(&[143, 9]), Ok(()));
    assert_eq!((pool.words()[143], pool.check()), (9, Err(Refusal::NotWellFormed)));
}

#[test]
fn what_the_library_never_gives_is_told() {
    for (answer, number) in [(2, 0), (0, 1), (17, 1), (18, 0), (u64::MAX, 0)] {
        let told = Refusal::unless_applied(raw::RawResult { answer, number });
        assert_eq!(told, Err(Refusal::Unexpected { answer, number }));
    }
}
