//! The program itself, with bytes in and bytes out.

use crate::helpers::*;
use reference::batch::Command;
use std::io::Write;
use std::process::{Command as Process, Stdio};

fn program(batch: &[u8]) -> Vec<u8> {
    program_with(&[], batch)
}

fn program_with(words: &[&str], batch: &[u8]) -> Vec<u8> {
    let mut process = Process::new(env!("CARGO_BIN_EXE_reference"))
        .args(words)
        .stdin(Stdio::piped())
        .stdout(Stdio::piped())
        .spawn()
        .expect("the program starts");
    let mut input = process.stdin.take().expect("a pipe");
    for piece in batch.chunks(1000) {
        input.write_all(piece).expect("the program reads");
    }
    drop(input);
    let output = process.wait_with_output().expect("the program ends");
    assert!(output.status.success());
    output.stdout
}

#[test]
fn an_empty_batch_writes_nothing() {
    assert_eq!(program(&[]), []);
}

#[test]
fn replies_in_order() {
    let batch = batch_of(&[
        Command::Store { index: 0, order: 0, word: 3 },
        Command::Store { index: 64, order: 0, word: 5 },
        Command::Load { index: 64 },
    ]);
    let said = [gives(0, 0, 3, 0), gives(64, 0, 5, 0), counting(gives(64, 0, 5, 0), 2)];
    let expected: Vec<u8> = said.iter().zip([1, 1, 2]).flat_map(|(s, tag)| s.bytes(tag)).collect();
    assert_eq!(program(&batch), expected);
}

/// A store at the last index needs 11 nodes, one far from it 10 more, and 40 are there.
#[test]
fn the_pool_has_40_nodes() {
    let store = |index| Command::Store { index, order: 0, word: 3 };
    let batch =
        batch_of(&[store(LAST), store(0), store(1 << 60), store(2 << 60), store((1 << 60) + 4096)]);
    let answers: Vec<u8> = program(&batch).chunks(24).map(|reply| reply[3]).collect();
    assert_eq!(answers, [0, 0, 0, 11, 0]);
}

#[test]
fn a_refused_call_is_six_bytes() {
    let load = bytes_of(Command::Load { index: 0 });
    assert_eq!(program(&[9]), [255, 0, 3, 3, 0, 0]);
    let cut = [load.repeat(300), vec![2]].concat();
    assert_eq!(program(&cut), [255, 0, 3, 3, 0x0C, 0xE4]);
    assert_eq!(program(&vec![0; 8193]), [255, 0, 3, 3, 0x20, 0]);
    assert_eq!(program(&vec![0; 30_000]), [255, 0, 3, 3, 0x20, 0]);
}

/// Whole records of 8,193 and 32,768 bytes, which a pool's run takes, and of one byte more.
#[test]
fn the_program_takes_no_more_than_8192_bytes() {
    for (loads, marks, length) in [(735, 9, 8193), (2968, 10, 32_768)] {
        let batch = loads_and_marks(loads, marks);
        assert_eq!(batch.len(), length);
        assert_eq!(program(&batch), [255, 0, 3, 3, 0x20, 0]);
        assert_eq!(program(&[&batch[..], &[2]].concat()), [255, 0, 3, 3, 0x20, 0]);
    }
}

#[test]
fn a_batch_of_8192_bytes() {
    let batch = loads_and_marks(736, 8);
    assert_eq!(batch.len(), 8192);
    let expected = [only(10).bytes(2).repeat(736), only(10).bytes(4).repeat(8)].concat();
    assert_eq!(program(&batch), expected);
}

/// Too small, then done, applied and changed again: case 2, an erase of it, and a record cut.
#[test]
fn preparings_in_a_row() {
    let store = bytes_of(Command::Store { index: 0, order: 0, word: 3 });
    let erase = bytes_of(Command::Erase { index: 0 });
    let asked = |room: u8, record: &[u8]| [&[room, record.len() as u8], record].concat();
    let all =
        [asked(1, &store), asked(3, &store), asked(2, &erase), asked(2, &erase), asked(1, &[3])];
    let wanted: [&[u8]; 5] = [
        &[4, 0, 2, 0, 0],
        &[0, 0, 2, 0, 1, 0, 3, 0, 2],
        &[0, 0, 2, 0, 1, 0, 0],
        &[10, 0, 0, 0, 0, 0, 1],
        &[3, 0, 0, 0, 0],
    ];
    assert_eq!(program_with(&["prepare"], &all.concat()), wanted.concat());
}
