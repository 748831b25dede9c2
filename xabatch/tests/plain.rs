//! Plain lists (P12): made, run, listed, refused; nothing of them is lost.

mod tool;

use std::fs;
use std::path::PathBuf;
use tool::{bash, batch, tool, Folder};
use xapool_host::{Plain, Pool};

fn text(bytes: &[u8]) -> String {
    String::from_utf8(bytes.to_vec()).expect("text")
}

/// A new plain list with this room; gives its path and name.
fn plain(folder: &Folder, room: usize) -> (PathBuf, String) {
    let name = folder.name("p.plain");
    assert_eq!(tool(&["new", "--plain", &room.to_string(), &name], &[]).0, 0);
    (folder.path("p.plain"), name)
}

const TWO: &str = "store 64 order 3 value 2\nreserve 7\nmark 70 mark 1\n";

#[test]
fn new_run_and_list() {
    let folder = Folder::new();
    let (path, name) = plain(&folder, 3);
    assert_eq!(fs::read(&path).expect("a list"), Plain::new(3).expect("room").to_bytes());
    let more = format!("{TWO}load 71\nfind 0..max any budget 1\n");
    let (status, replies, errors) = tool(&["run", "--plain", &name], &batch(&more));
    assert_eq!((status, errors.as_str()), (0, ""));
    let lines = text(&tool(&["decode"], &replies).1);
    assert_eq!(lines.lines().last(), Some("find: done, 64 order 3 value 2 marks 1, count 0"));
    let after = Plain::from_bytes(&fs::read(&path).expect("a list")).expect("a list");
    assert_eq!(after.slices(), [[7, 64, 0], [0, 3, 0], [1030, 5, 0], [0, 2, 0]]);
    let listed = tool(&["list", &name], &[]);
    let wanted = "7 reserved\n64 order 3 value 2 marks 1\n";
    assert_eq!((listed.0, text(&listed.1).as_str()), (0, wanted));
    assert_eq!(text(&tool(&["list", &name, "71..80"], &[]).1), "64 order 3 value 2 marks 1\n");
    assert_eq!(text(&tool(&["list", &name, "72..80"], &[]).1), "");
    assert_eq!(folder.names(), ["p.plain"], "something is left over");
}

/// The same text by both engines: the same lists, as bytes and as JSON.
#[test]
fn both_engines_list_the_same() {
    let folder = Folder::new();
    let (pool, (_, name)) = (folder.pool(40).display().to_string(), plain(&folder, 40));
    let records =
        batch(&format!("{TWO}store 8 order 0 value 1\nerase 7\nstore max order 0 value 9\n"));
    let [by_pool, by_list] = [&["run", &pool][..], &["run", "--plain", &name]];
    assert_eq!(tool(by_pool, &records), tool(by_list, &records));
    for how in [&["list"][..], &["list", "--bytes"], &["list", "--json"]] {
        let of = |file: &str| tool(&[how, &[file, "0..max"]].concat(), &[]);
        assert_eq!(of(&pool), of(&name), "{how:?}");
    }
}

#[test]
fn json_has_the_room() {
    let folder = Folder::new();
    let (_, name) = plain(&folder, 3);
    let (status, line, _) = tool(&["run", "--plain", "--json", &name], &batch(TWO));
    let wanted = "\"kept\":true,\"changed\":true,\"room\":3,\"in_use\":2,\"free\":1}\n";
    assert_eq!((status, text(&line).ends_with(wanted)), (0, true), "{}", text(&line));
}

#[test]
fn no_room_keeps_what_was_there() {
    let folder = Folder::new();
    let (path, name) = plain(&folder, 2);
    assert_eq!(tool(&["run", "--plain", &name], &batch(TWO)).0, 0);
    let before = fs::read(&path).expect("a list");
    let records = batch("store 1 order 0 value 1\nerase 7\nstore 1 order 0 value 1\n");
    let (status, replies, errors) = tool(&["run", "--plain", "--strict", &name], &records);
    assert_eq!((status, replies.len()), (4, 0), "{errors}");
    assert!(errors.contains("nothing is kept"), "{errors}");
    assert_eq!(fs::read(&path).expect("a list"), before);
    let (status, replies, errors) = tool(&["run", "--plain", &name], &records);
    assert_eq!((status, replies.len(), replies[3], replies[51]), (0, 72, 11, 0), "{errors}");
}

/// Refused with a message that names it, and not changed.
#[test]
fn what_is_no_plain_list_is_refused() {
    let folder = Folder::new();
    let (path, name) = plain(&folder, 3);
    assert_eq!(tool(&["run", "--plain", &name], &batch(TWO)).0, 0);
    let good = fs::read(&path).expect("a list");
    let mut overlapping = good.clone();
    overlapping[16] = 66;
    let mut large = good.clone();
    large[8] = 4;
    let pool = Pool::new(2).expect("nodes").to_bytes();
    for (bytes, what) in [
        (good[..good.len() - 1].to_vec(), "no plain list: its length is not"),
        (good[..16 + 64].to_vec(), "no plain list: its length is not"),
        ([&good[..], &[0; 32]].concat(), "no plain list: its length is not"),
        (large, "no plain list: its length is not"),
        (overlapping, "the slices do not hold a list and then zeros"),
        (pool, "no plain list: run it without --plain"),
        (Vec::new(), "no plain list"),
    ] {
        fs::write(&path, &bytes).expect("written");
        let (status, replies, errors) = tool(&["run", "--plain", &name], &batch("load 1\n"));
        assert_eq!((status, replies.len()), (1, 0), "{what}");
        assert!(errors.contains("p.plain: ") && errors.contains(what), "{errors}");
        assert_eq!(fs::read(&path).expect("there"), bytes, "{what}");
    }
}

#[test]
fn the_other_commands_name_it() {
    let folder = Folder::new();
    let (_, name) = plain(&folder, 3);
    for command in ["show", "find"] {
        let (status, out, errors) = tool(&[command, &name], &[]);
        assert_eq!((status, out.len()), (1, 0));
        assert!(errors.contains("no pool file: it looks like a plain list"), "{errors}");
    }
    let (status, _, errors) = tool(&["run", &name], &batch("load 1\n"));
    assert_eq!(
        (status, errors.contains("a plain list: run it with --plain")),
        (1, true),
        "{errors}"
    );
    let (status, _, errors) = tool(&["decode", &name], &[]);
    assert_eq!((status, errors.contains("it looks like a plain list")), (1, true), "{errors}");
    // It is an index and no data: that two are equal is no evidence.
    fs::copy(folder.path("p.plain"), folder.path("q.plain")).expect("copied");
    let (status, out, _) = tool(&["compare", &name, &folder.name("q.plain")], &[]);
    assert_eq!((status, text(&out).contains("both are plain lists of an index")), (2, true));
}

#[test]
fn bad_usage() {
    let folder = Folder::new();
    for words in [&["new", "--plain"][..], &["new", "--plain", "4097"], &["new", "--plain", "x"]] {
        assert_eq!(tool(words, &[]).0, 2, "{words:?}");
    }
    let errors = tool(&["new", "--plain", "4097"], &[]).2;
    assert!(errors.contains("4097 entries: a plain list has room for 0 to 4096"), "{errors}");
    // One that is there already is not touched.
    let (path, name) = plain(&folder, 0);
    assert_eq!(tool(&["new", "--plain", "5", &name], &[]).0, 1);
    assert_eq!(fs::read(&path).expect("a list").len(), 16);
}

/// What cannot be written leaves the old list.
#[test]
fn a_size_limit_leaves_the_old_list() {
    let folder = Folder::new();
    let (path, name) = plain(&folder, 400);
    assert_eq!(tool(&["run", "--plain", &name], &batch(TWO)).0, 0);
    let before = fs::read(&path).expect("a list");
    let line = format!("ulimit -f 4; \"$X\" run --plain {name}");
    let (status, replies, errors) = bash(&line, &batch("store 8 order 0 value 2\n"));
    assert_eq!((status, replies.len()), (1, 0), "{errors}");
    assert!(errors.contains("the file is as it was"), "{errors}");
    assert_eq!(fs::read(&path).expect("a list"), before);
    assert_eq!(folder.names(), ["p.plain"], "something is left over");
}
