//! Preparing a command: every kind and every answer, the pool that its script is for, cuts, and scripts that were damaged.

use super::*;
use crate::script::*;

fn unmark(index: u64, mark: u8) -> Command {
    Command::Unmark { index, mark }
}

fn erase(index: u64) -> Command {
    Command::Erase { index }
}

fn reserve(index: u64) -> Command {
    Command::Reserve { index }
}

/// Runs of eight at 8 and of one at 64 to 69, with marks, a reserved index, and 25 free nodes.
fn filled() -> Pool<'static> {
    let entries = [store(8, 3, 3), mark(8, 2), mark(64, 0), mark(64, 1), reserve(700)];
    let stores = (64..70).map(|index| store(index, 0, 5));
    let mut pool = Pool::new(30).expect("a good size");
    pool.run_all(stores.chain(entries)).expect("a good pool").all_done().expect("all done");
    pool
}

/// Every kind of command, with the kinds of change: words alone, marks up to the anchor, a head that grows or shrinks,
/// new nodes, freed nodes, siblings, nothing.
fn changing() -> Vec<Command> {
    vec![
        store(64, 0, 7),
        store(64, 0, 5),
        store(10, 0, 9),
        store(65, 0, 5),
        store(64, 6, 9),
        store(0, 12, 9),
        store(0, 63, 9),
        store(100, 0, 3),
        store(1 << 40, 0, 3),
        store(LAST, 0, 8),
        store(16, 4, 11),
        store(700, 0, 3),
        mark(65, 2),
        mark(64, 0),
        mark(9, 0),
        unmark(64, 0),
        unmark(64, 2),
        unmark(15, 2),
        erase(64),
        erase(12),
        erase(700),
        reserve(71),
        reserve(1 << 30),
    ]
}

fn prepared(pool: &Pool, command: Command) -> Script {
    pool.prepare(command).unwrap_or_else(|error| panic!("{command}: {error}"))
}

fn after(pool: &Pool, command: Command) -> Pool<'static> {
    let mut after = Pool::from_words(pool.words().to_vec());
    after.run_all([command]).expect("a good pool").all_done().expect("done");
    after
}

#[test]
fn a_script_is_what_the_command_changes() {
    let pool = filled();
    let before = pool.words().to_vec();
    let (mut empty, mut longest) = (0, 0);
    for command in changing() {
        let script = prepared(&pool, command);
        assert_eq!(pool.words(), before);
        let after = after(&pool, command);
        let words = before.iter().zip(after.words()).enumerate();
        let changes: Vec<Change> = words
            .filter(|(_, (before, after))| before != after)
            .map(|(place, (before, after))| Change { place, before: *before, after: *after })
            .collect();
        assert_eq!(script.changes(), changes, "{command}");
        assert_eq!((script.pool_words(), script.is_empty()), (before.len(), changes.is_empty()));
        let mut applied = pool.clone();
        assert_eq!(applied.apply_script(&script), Ok(()));
        assert_eq!(applied.words(), after.words(), "{command}");
        empty += u32::from(changes.is_empty());
        longest = longest.max(changes.len());
    }
    assert!(empty >= 3 && longest > 40, "{empty}, {longest}");
}

/// The slice is as large as the library says, also where the script is longer than the first one.
#[test]
fn a_long_script_has_its_room() {
    let mut pool = Pool::new(200).expect("a good size");
    let stores = (0..4096).map(|index| store(index, 0, 3));
    assert_eq!(pool.run_all(stores).expect("a good pool").all_done(), Ok(4096));
    let command = store(0, 12, 9);
    let script = prepared(&pool, command);
    assert!(script.words().len() > 8192, "{}", script.words().len());
    let mut record = Vec::new();
    command.write(&mut record);
    let wanted = script.words().len();
    for room in [0, 2, wanted - 1] {
        let mut space = vec![77; room];
        let refusal = Refusal::ScriptSpace { words: wanted as u64 };
        assert_eq!(pool.prepare_words(&record, &mut space), Err(Error::Refused(refusal)));
        assert!(space.iter().all(|word| *word == 77));
    }
    let mut space = vec![77; wanted + 3];
    assert_eq!(pool.prepare_words(&record, &mut space), Ok(wanted));
    assert_eq!((&space[..wanted], &space[wanted..]), (&script.words()[..], &[77; 3][..]));
    let wanted = after(&pool, command);
    assert_eq!(pool.apply_script(&script), Ok(()));
    assert_eq!(pool.words(), wanted.words());
}

#[test]
fn every_answer_of_the_command() {
    let (_, pool) = run(3, &[store(0, 0, 3), store(64, 0, 5)]);
    let answers = [
        (store(1, 64, 2), Answer::BadOrder),
        (store(1, 255, 3), Answer::BadOrder),
        (store(1, 1, 2), Answer::NotAligned),
        (store(2, 1, 2), Answer::BadEntry),
        (store(7, 0, 0), Answer::BadEntry),
        (mark(0, 3), Answer::BadMark),
        (unmark(9, 3), Answer::BadMark),
        (mark(9, 2), Answer::Absent),
        (unmark(9, 0), Answer::Absent),
        (erase(9), Answer::Absent),
        (store(4096, 0, 3), Answer::TooFewNodes),
        (reserve(4096), Answer::TooFewNodes),
        (reserve(64), Answer::Covered),
    ];
    for (command, answer) in answers {
        assert_eq!(pool.prepare(command), Err(Error::Answered(answer)), "{command}");
    }
}

#[test]
fn what_is_not_one_change_is_refused() {
    let pool = filled();
    let not = Err(Error::Refused(Refusal::NotAChange));
    for command in [load(64), find(0, LAST, FIND_ANY, 9)] {
        assert_eq!(pool.prepare(command), not);
    }
    for command in [store(64, 0, 7), erase(64), mark(64, 2), unmark(64, 0), reserve(71)] {
        let record = batch(&[command]).bytes().to_vec();
        for cut in 0..record.len() {
            assert_eq!(pool.prepare_record(&record[..cut]), not);
        }
        assert_eq!(pool.prepare_record(&[&record[..], &[0]].concat()), not);
        assert_eq!(pool.prepare_record(&[&record[..], &record].concat()), not);
        assert_eq!(pool.prepare_record(&record), pool.prepare(command));
        for (place, byte) in [(0, 0), (0, 8), (1, 1), (2, record[2] + 1)] {
            let mut other = record.clone();
            other[place] = byte;
            assert_eq!(pool.prepare_record(&other), not);
        }
    }
    assert_eq!(Refusal::NotAChange.answer(), Some(Answer::BadBatch));
    assert_eq!(Refusal::ScriptSpace { words: 6 }.answer(), Some(Answer::ReplySpace));
    assert!(Refusal::NotAChange.to_string().contains("changes the pool"));
    assert!(Refusal::ScriptSpace { words: 6 }.to_string().contains("(6 words)"));
}

#[test]
fn a_pool_that_is_none_is_refused_first() {
    let refused = |pool: &Pool, refusal| {
        for command in [store(1, 64, 2), load(1), mark(8, 0)] {
            assert_eq!(pool.prepare(command), Err(Error::Refused(refusal)));
        }
    };
    refused(&Pool::from_words(vec![0; 73]), Refusal::PoolLength);
    refused(&Pool::from_words(Vec::new()), Refusal::PoolLength);
    refused(&Pool::from_words(vec![0; 74]), Refusal::NotWellFormed);
    let mut pool = filled();
    pool.words_mut()[3] = 1;
    refused(&pool, Refusal::NotWellFormed);
}

#[test]
fn what_preparing_never_gives_is_told() {
    let given =
        [(1, 1), (2, 1), (3, 1), (5, 1), (8, 0), (9, 0), (12, 0), (13, 0), (16, 0), (17, 0)];
    for (answer, number) in given {
        let told = Refusal::unless_prepared(raw::RawResult { answer, number });
        assert_eq!(told, Err(Error::Refused(Refusal::Unexpected { answer, number })));
    }
}

/// Cut after every write, and a second time, it ends where the uncut command does.
#[test]
fn cut_anywhere_and_applied_again() {
    let pool = filled();
    let mut half_written = 0;
    for command in changing() {
        let (script, wanted) = (prepared(&pool, command), after(&pool, command));
        let words = script.words();
        for cut in (0..=words.len()).step_by(2) {
            let mut cut_off = pool.clone();
            cut_off.apply(&words[..cut]).expect("a good script");
            half_written += u32::from(cut_off.check().is_err());
            assert_eq!(script.written_in(&cut_off), Ok(cut / 2), "{command}");
            cut_off.apply(&words[..words.len() - cut]).expect("a good script");
            let kept = Script::from_bytes(&script.to_bytes()).expect("its own bytes");
            assert_eq!(cut_off.apply_script(&kept), Ok(()));
            assert_eq!(cut_off.words(), wanted.words(), "{command}, cut at {cut}");
            assert_eq!(script.written_in(&cut_off), Ok(words.len() / 2));
        }
    }
    assert!(half_written > 100, "{half_written}");
}

/// Whatever word of the pool is another one, the script is not that pool's. At a place that it writes there are two words
/// that it may find.
#[test]
fn another_pool_is_refused() {
    let pool = filled();
    for command in [mark(65, 2), store(100, 0, 3), erase(64), mark(64, 0)] {
        let script = prepared(&pool, command);
        for place in 0..pool.words().len() {
            for bit in [0, 1, 63] {
                let mut other = pool.clone();
                other.words_mut()[place] ^= 1 << bit;
                let (word, words) = (other.words()[place], other.words().to_vec());
                let change = script.changes().iter().find(|change| change.place == place);
                if change.is_some_and(|change| change.after == word) {
                    assert_eq!(other.apply_script(&script), Ok(()));
                    continue;
                }
                let error = other.apply_script(&script).expect_err("another pool");
                let ApplyError::OtherPool(why) = error else { panic!("{error}") };
                assert_eq!(matches!(why, OtherPool::Word { .. }), change.is_some(), "{place}");
                assert_eq!(other.words(), words);
            }
        }
        let mut longer = pool.words().to_vec();
        longer.extend([0; layout::NODE_WORDS]);
        longer[0] += 1;
        let error = Pool::from_words(longer).apply_script(&script);
        let length = OtherPool::Length { words: 2174, wanted: 2104 };
        assert_eq!(error, Err(ApplyError::OtherPool(length)));
    }
}

/// Two scripts of one state that write the same places: after one of them the other is of a pool that is no more, and
/// would take back what the first did.
#[test]
fn a_second_script_of_the_same_state_is_refused() {
    let mut pool = filled();
    let (first, second) = (prepared(&pool, mark(66, 2)), prepared(&pool, mark(67, 2)));
    let places = |script: &Script| -> Vec<usize> {
        script.changes().iter().map(|change| change.place).collect()
    };
    assert_eq!(places(&first), places(&second));
    assert_eq!(pool.apply_script(&first), Ok(()));
    let marked = pool.words().to_vec();
    let error = pool.apply_script(&second).expect_err("an older state");
    assert!(error.to_string().contains("neither what it was nor what it becomes"), "{error}");
    assert_eq!(pool.words(), marked);
}

/// One that changes nothing knows its pool as well.
#[test]
fn an_empty_script_is_of_its_pool_alone() {
    let mut pool = filled();
    let script = prepared(&pool, mark(64, 0));
    assert!(script.is_empty() && Script::from_bytes(&script.to_bytes()) == Ok(script.clone()));
    assert_eq!(pool.apply_script(&script), Ok(()));
    pool.run_all([mark(65, 0)]).expect("a good pool").all_done().expect("done");
    let error = pool.apply_script(&script).expect_err("another state");
    assert!(error.to_string().contains("have the digest"), "{error}");
}

#[test]
fn bytes_that_were_damaged_are_no_script() {
    let pool = filled();
    for command in [mark(65, 2), mark(64, 0), store(100, 0, 3)] {
        let script = prepared(&pool, command);
        let bytes = script.to_bytes();
        assert_eq!(bytes.len(), 40 + 24 * script.changes().len());
        assert_eq!(Script::from_bytes(&bytes), Ok(script));
        for place in 0..bytes.len() {
            for bit in 0..8 {
                let mut damaged = bytes.clone();
                damaged[place] ^= 1 << bit;
                assert!(Script::from_bytes(&damaged).is_err(), "byte {place}, bit {bit}");
            }
            let mut damaged = bytes.clone();
            damaged[place] = !damaged[place];
            assert!(Script::from_bytes(&damaged).is_err(), "byte {place}");
            assert!(Script::from_bytes(&bytes[..place]).is_err(), "cut at {place}");
            let mut zeros = bytes[..place].to_vec();
            zeros.resize(bytes.len(), 0);
            assert!(zeros == bytes || Script::from_bytes(&zeros).is_err(), "zeros from {place}");
        }
        let longer = [&bytes[..], &[0; 8]].concat();
        assert_eq!(Script::from_bytes(&longer), Err(BadScriptBytes::Length));
    }
}

/// Bytes with a good digest that no library's script has.
#[test]
fn places_that_no_script_has() {
    let (pool, room) = (filled(), 2104);
    let with = |head: [u64; 3], changes: &[u64]| {
        let words = [&head, changes].concat();
        let mut bytes = [&SCRIPT_FILE[..], &bytes_of_words(&words)].concat();
        bytes.extend(u64::from(Crc32c::of(&bytes).value()).to_le_bytes());
        Script::from_bytes(&bytes)
    };
    assert_eq!(pool.words().len() as u64, room);
    assert!(with([room, 2, 7], &[1, 0, 3, room - 1, 0, 3]).is_ok());
    let bad = Err(BadScriptBytes::Places);
    assert_eq!(with([room, 2, 7], &[1, 0, 3, room, 0, 3]), bad);
    assert_eq!(with([room, 2, 7], &[2, 0, 3, 1, 0, 3]), bad);
    assert_eq!(with([room, 2, 7], &[2, 0, 3, 2, 0, 3]), bad);
    assert_eq!(with([room - 1, 1, 7], &[1, 0, 3]), bad);
    assert_eq!(with([room, 1, 1 << 32], &[1, 0, 3]), bad);
    assert_eq!(with([room, 1, 7], &[u64::MAX, 0, 3]), bad);
    assert_eq!(with([room, 2, 7], &[1, 0, 3]), Err(BadScriptBytes::Length));
    assert_eq!(with([room, u64::MAX, 7], &[1, 0, 3]), Err(BadScriptBytes::Length));
    assert_eq!(Script::from_bytes(b"xascrips"), Err(BadScriptBytes::Head));
    assert_eq!(Script::from_bytes(&[]), Err(BadScriptBytes::Head));
}
