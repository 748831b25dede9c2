//! What is refused, and what is said of it: batches by their cause, and files that are no pool.

mod tool;

use std::fs::{self, File};
use tool::{batch, tool, Folder};
use xabatch::decode::command_at;
use xapool_host::{Pool, Refusal};

/// What a run on a new pool says of these bytes.
fn said_of(bytes: &[u8]) -> String {
    let folder = Folder::new();
    folder.pool(1);
    let (status, replies, errors) = tool(&["run", &folder.name("p.pool")], bytes);
    assert_eq!((status, replies.len()), (1, 0), "{errors}");
    errors
}

/// The lengths are those of docs/HOST.md: a store 20 bytes, 17 of them fields; a load 11 and 8.
#[test]
fn which_cause_and_where() {
    let loads = batch("load 1\nload 2\n");
    let after = |bytes: &[u8]| said_of(&[&loads, bytes].concat());
    let cut = "xabatch: <stdin>: byte 22: the record is cut: ";
    assert_eq!(after(&[1]), format!("{cut}1 of its 20 bytes are there\n"));
    assert_eq!(after(&[1, 0]), format!("{cut}2 of its 20 bytes are there\n"));
    assert_eq!(after(&[2, 0, 8, 0]), format!("{cut}4 of its 11 bytes are there\n"));
    assert_eq!(after(&[9, 0, 8]), "xabatch: <stdin>: byte 22: unknown tag 9\n");
    assert_eq!(after(&[0]), "xabatch: <stdin>: byte 22: unknown tag 0\n");
    let wrong = "xabatch: <stdin>: byte 22: wrong length: 264, of tag 2 it is 8\n";
    assert_eq!(after(&[2, 1, 8, 0, 0, 0, 0, 0, 0, 0, 1]), wrong);
    // In a row of several batches the place is that in the row.
    let long = [batch(&"load 1\n".repeat(5000)), vec![9]].concat();
    assert_eq!(said_of(&long), "xabatch: <stdin>: byte 55000: unknown tag 9\n");
}

#[test]
fn another_kind_of_file_is_named() {
    let folder = Folder::new();
    let pool = folder.pool(1);
    let name = folder.name("p.pool");
    let replies = tool(&["run", &name], &batch("store 0 order 0 value 1\n")).1;
    let list = tool(&["list", "--bytes", pool.to_str().expect("a name")], &[]).1;
    let kind = |bytes: &[u8], what: &str| {
        let line = format!("xabatch: <stdin>: no batch: it looks like {what} ('xabatch ");
        assert!(said_of(bytes).starts_with(&line), "{what}: {}", said_of(bytes));
    };
    kind(&replies, "replies");
    kind(&list, "a list as bytes");
    kind(b"store 1 order 0 value 2\n", "text");
    assert!(said_of(&[200, 7, 9]).ends_with("byte 0: unknown tag 200\n"));
}

/// For any bytes: there is a cause at the place that the library names, and at no place before.
#[test]
fn a_cause_where_the_library_refuses() {
    let mut state = 1u64;
    let mut random = |below: u64| {
        state =
            state.wrapping_mul(6_364_136_223_846_793_005).wrapping_add(1_442_695_040_888_963_407);
        (state >> 33) % below
    };
    let good = batch("load 1\nstore 2 order 0 value 3\nfind 1..2 any budget 3\nmark 1 mark 2\n");
    let (mut bad, mut pool) = (0, Pool::new(1).expect("a pool"));
    for _ in 0..5000 {
        let mut bytes = good.clone();
        bytes.truncate(random(good.len() as u64 + 1) as usize);
        if !bytes.is_empty() && random(2) == 0 {
            let at = random(bytes.len() as u64) as usize;
            bytes[at] = random(12) as u8;
        }
        match pool.clone().run_bytes(&bytes, &mut [0; 24 * 12]) {
            Err(Refusal::BadBatch { place }) => {
                assert!(command_at(&bytes[place as usize..]).is_err(), "{bytes:?} at {place}");
                let before = &bytes[..place as usize];
                assert!(pool.run_bytes(before, &mut [0; 24 * 12]).is_ok(), "{before:?}");
                bad += 1;
            }
            other => assert!(other.is_ok(), "{other:?}"),
        }
    }
    assert!(bad > 1000, "{bad}");
    assert_eq!(command_at(&good).map(|(_, size)| size), Ok(11));
}

/// 8 bytes for each of 4 + 70 * 16,384 words are the most.
#[test]
fn what_is_too_long_for_a_pool_is_not_read() {
    let folder = Folder::new();
    let name = folder.name("sparse");
    let file = File::create(&name).expect("a file");
    file.set_len(1 << 40).expect("a file system with holes");
    for command in ["run", "show", "list"] {
        let (status, _, errors) = tool(&[command, &name], &[]);
        let line = format!("xabatch: {name}: no pool: too long, over 9175072 bytes\n");
        assert_eq!((status, errors), (1, line), "{command}");
    }
    let (status, _, errors) = tool(&["show", "/dev/zero"], &[]);
    assert_eq!((status, errors.contains("no pool: too long")), (1, true), "{errors}");
    // The longest pool is read.
    let longest = tool(&["new", "16384"], &[]).1;
    assert_eq!(longest.len(), 9_175_072);
    fs::write(&name, &longest).expect("written");
    assert_eq!(tool(&["run", &name], &batch("store 1 order 0 value 1\n")).0, 0);
    fs::write(&name, [&longest[..], &[0; 8]].concat()).expect("written");
    assert_eq!(tool(&["run", &name], &batch("store 1 order 0 value 1\n")).0, 1);
}
