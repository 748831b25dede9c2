//! `xabatch crc` and `xabatch compare`. Status 0 of a comparison is for a match alone. Digests are
//! published ones, or by the bitwise rule.

mod tool;

use reference::random::Random;
use std::fs;
use tool::{bash, tool, Folder};
use xabatch::progress::bar;

/// The tool reads so many bytes at once.
const PIECE: usize = 1 << 20;

fn bitwise(region: &[u8]) -> u32 {
    let bit = |crc: u32, _| if crc & 1 == 1 { crc >> 1 ^ 0x82f6_3b78 } else { crc >> 1 };
    !region.iter().fold(u32::MAX, |crc, byte| (0..8).fold(crc ^ u32::from(*byte), bit))
}

fn random_bytes(seed: u64, count: usize) -> Vec<u8> {
    let mut random = Random::new(seed);
    (0..count).map(|_| random.word() as u8).collect()
}

/// A file of these bytes; gives its path.
fn file(folder: &Folder, name: &str, bytes: &[u8]) -> String {
    fs::write(folder.path(name), bytes).expect("written");
    folder.name(name)
}

fn lines(bytes: Vec<u8>) -> Vec<String> {
    String::from_utf8(bytes).expect("text").lines().map(str::to_owned).collect()
}

#[test]
fn digests_of_files() {
    let folder = Folder::new();
    let digits = file(&folder, "digits", b"123456789");
    let zeros = file(&folder, "zeros", &[0; 32]);
    let long = random_bytes(1, 2 * PIECE + 5);
    let large = file(&folder, "large", &long);
    let (status, out, errors) = tool(&["crc", &digits, &zeros, &large, "-"], &[0xff; 32]);
    let expected = [
        format!("e3069283  {digits}"),
        format!("8a9136aa  {zeros}"),
        format!("{:08x}  {large}", bitwise(&long)),
        "62a8ab43  -".into(),
    ];
    assert_eq!((status, lines(out), errors.as_str()), (0, expected.to_vec(), ""));
    assert_eq!(tool(&["crc"], b"123456789"), (0, b"e3069283  -\n".to_vec(), String::new()));
    // Through a pipe, in parts that are smaller than a piece.
    let slowly =
        format!("for part in 1 2 3; do head -c 700000 {large}; sleep 0.05; done | \"$X\" crc");
    let thrice = long[..700_000].repeat(3);
    let line = format!("{:08x}  -", bitwise(&thrice));
    assert_eq!(lines(bash(&slowly, &[]).1), [line]);
}

#[test]
fn a_file_that_has_no_digest_is_told_and_the_others_are_written() {
    let folder = Folder::new();
    let digits = file(&folder, "digits", b"123456789");
    let odd = file(&folder, "two\nlines", b"123456789");
    let (none, here) = (folder.name("none"), folder.name(""));
    let (status, out, errors) = tool(&["crc", &none, &here, "/dev/null", &digits, &odd], &[]);
    assert_eq!(status, 1);
    let written = ["00000000  /dev/null".into(), format!("e3069283  {digits}")];
    assert_eq!(lines(out.clone())[..2], written);
    assert!(String::from_utf8_lossy(&out).ends_with("two\\nlines\n"));
    assert!(errors.contains("none: No such file") && errors.contains("Is a directory"), "{errors}");
    assert!(errors.contains("/dev/null: it is empty: 00000000 is the digest of nothing"));
    assert_eq!(errors.lines().count(), 3, "{errors}");
    let (status, _, errors) = bash(&format!("\"$X\" crc {digits} > /dev/full"), &[]);
    assert_eq!((status, errors.contains("No space left")), (1, true), "{errors}");
    assert_eq!(bash(&format!("\"$X\" crc {digits} >&-"), &[]).0, 1);
    assert_eq!(bash("\"$X\" crc <&-", &[]).0, 1);
}

/// Compares two files of these bytes: the status and the last line; the other lines are looked at here.
fn compared(old: &[u8], new: &[u8]) -> (i32, String) {
    let folder = Folder::new();
    let names = [file(&folder, "old", old), file(&folder, "new", new)];
    let (status, out, errors) = tool(&["compare", &names[0], &names[1]], &[]);
    let lines = lines(out);
    let line = |name: &str, bytes: &[u8]| {
        format!("{name}: {} bytes, crc32c {:08x}", bytes.len(), bitwise(bytes))
    };
    assert_eq!((lines.len(), errors.as_str()), (3, ""));
    assert_eq!(lines[..2], [line("old", old), line("new", new)]);
    (status, lines[2].clone())
}

#[test]
fn only_a_match_has_status_0() {
    let page = random_bytes(2, 4096);
    let mut last = page.clone();
    last[4095] ^= 1;
    let mut first = page.clone();
    first[0] ^= 0x80;
    let longer = [&page[..], &[0]].concat();
    let cases: [(&[u8], &[u8], i32, &str); 11] = [
        (&page, &page, 0, "matched"),
        (b"x", b"x", 0, "matched"),
        (&[0; 512], &[0; 512], 0, "matched"),
        (&page, &last, 1, "different: from byte 4095"),
        (&page, &first, 1, "different: from byte 0"),
        (&page, &longer, 1, "different: from byte 4096, where old ends"),
        (&longer, &page, 1, "different: from byte 4096, where new ends"),
        (&[0], &[0, 0], 1, "different: from byte 1, where old ends"),
        (b"", b"", 2, "nothing to compare: both are empty"),
        (b"", &page, 2, "nothing to compare: old is empty"),
        (&page, b"", 2, "nothing to compare: new is empty"),
    ];
    for (old, new, status, line) in cases {
        assert_eq!(compared(old, new), (status, line.into()));
    }
}

/// Where a file ends with a piece the next one is of nothing, and that is no match of its own.
#[test]
fn files_larger_than_a_piece_are_compared_whole() {
    let bytes = random_bytes(3, 2 * PIECE + 1);
    for length in [PIECE - 1, PIECE, PIECE + 1, 2 * PIECE, 2 * PIECE + 1] {
        let old = &bytes[..length];
        assert_eq!(compared(old, old), (0, "matched".into()), "{length} bytes");
        for place in [0, PIECE - 2, PIECE - 1, PIECE, length - 1] {
            let mut new = old.to_vec();
            if let Some(byte) = new.get_mut(place) {
                *byte ^= 4;
                assert_eq!(compared(old, &new), (1, format!("different: from byte {place}")));
            }
        }
        let shorter = &old[..length - 1];
        let ends = format!("different: from byte {}, where new ends", length - 1);
        assert_eq!(compared(old, shorter), (1, ends));
        assert_eq!(compared(&[], old).0, 2);
        assert_eq!(compared(old, &[]).0, 2);
    }
}

#[test]
fn faults_have_status_2() {
    let folder = Folder::new();
    let page = file(&folder, "page", &[7; 4096]);
    let empty = file(&folder, "empty", b"");
    let (none, here) = (folder.name("none"), folder.name(""));
    let cases: [(&[&str], &str); 10] = [
        (&[&none, &page], "none: No such file"),
        (&[&page, &none], "none: No such file"),
        (&[&none, &none], "none: No such file"),
        (&[&here, &here], "Is a directory"),
        (&[&page, &here], "Is a directory"),
        (&[&page], "an argument is missing"),
        (&[&page, &page, &page], "one argument too many"),
        (&["-", "-"], "cannot both be standard input"),
        (&["--fast", &page, &page], "no option"),
        (&[], "an argument is missing"),
    ];
    for (files, message) in cases {
        let (status, out, errors) = tool(&[&["compare"], files].concat(), &[]);
        assert_eq!((status, out.len(), errors.contains(message)), (2, 0, true), "{errors}");
    }
    for pair in [["/dev/null"; 2], ["/dev/null", &page], [&page, "/dev/null"], [&empty, &empty]] {
        assert_eq!(tool(&["compare", pair[0], pair[1]], &[]).0, 2, "{pair:?}");
    }
    let line = format!("\"$X\" compare {page} {}", file(&folder, "copy", &[7; 4096]));
    for redirected in ["> /dev/full", ">&-"] {
        assert_eq!(bash(&format!("{line} {redirected}"), &[]).0, 2, "{redirected}");
    }
    // The reader is gone before it is written.
    let gone = format!("{{ sleep 0.3; {line} 2> /dev/null; echo $? >&2; }} | true");
    assert_eq!(bash(&gone, &[]).2, "2\n");
    assert_eq!(bash(&format!("\"$X\" compare {page} - <&-"), &[]).0, 2);
}

#[test]
fn a_file_is_compared_with_a_pipe() {
    let folder = Folder::new();
    let bytes = random_bytes(4, PIECE + 9);
    let page = file(&folder, "page", &bytes);
    assert_eq!(tool(&["compare", &page, "-"], &bytes).0, 0);
    assert_eq!(tool(&["compare", "-", &page], &bytes).0, 0);
    assert_eq!(tool(&["compare", "-", &page], &bytes[1..]).0, 1);
    assert_eq!(tool(&["compare", "-", &page], &[]).0, 2);
    // In parts that are smaller than a piece.
    let slowly =
        format!("(head -c 99 {page}; sleep 0.05; tail -c +100 {page}) | \"$X\" compare - {page}");
    assert_eq!(bash(&slowly, &[]).0, 0);
}

/// The other file is a pipe, which can be written only once it is open for reading: by then the tool
/// has looked at the first file, and has read nothing of it.
#[test]
fn a_file_that_changes_while_it_is_read_is_a_fault() {
    let changes =
        ["printf x >> old", ": > old", "truncate -s 8191 old", "printf y | dd of=old conv=notrunc"];
    for change in changes {
        let folder = Folder::new();
        file(&folder, "old", &[7; 8192]);
        let line = format!(
            "cd {} && cp old copy && mkfifo new && touch -d 2001-01-01 old\n\
             (exec 3> new; {change} 2> /dev/null; cat copy >&3) &\n\
             \"$X\" compare old new; status=$?; wait; exit $status",
            folder.0.display()
        );
        let (status, out, errors) = bash(&line, &[]);
        assert_eq!((status, out.len()), (2, 0), "{change}");
        assert!(errors.contains("old: it changed while it was read"), "{change}: {errors}");
    }
    // A file that has more bytes than its length says, as those of /proc have.
    let folder = Folder::new();
    let page = file(&folder, "page", &[7; 4096]);
    for arguments in [&["crc", "/proc/version"][..], &["compare", "/proc/version", &page]] {
        let (status, out, errors) = tool(arguments, &[]);
        assert_eq!((status, out.len()), (arguments.len() as i32 - 1, 0), "{errors}");
        assert!(errors.contains("/proc/version: it changed"), "{errors}");
    }
    // Without a change the same pipe is a match.
    let folder = Folder::new();
    file(&folder, "old", &[7; 8192]);
    let line = "mkfifo new; cat old > new & \"$X\" compare old new";
    assert_eq!(bash(&format!("cd {} && {line}", folder.0.display()), &[]).0, 0);
}

/// 64 MiB of memory in all, and two files of 100 MiB.
#[test]
fn files_may_be_larger_than_memory() {
    let folder = Folder::new();
    let line = format!(
        "cd {} && truncate -s 100M a b && printf x >> b && ulimit -v 65536\n\
         \"$X\" crc a && \"$X\" compare a b",
        folder.0.display()
    );
    let (status, out, errors) = bash(&line, &[]);
    assert_eq!((status, errors.as_str()), (1, ""));
    let lines = lines(out);
    assert_eq!(lines[3], "different: from byte 104857600, where old ends");
    assert!(lines[0].ends_with("  a") && lines[1].ends_with(&lines[0][..8]), "{lines:?}");
}

#[test]
fn a_bar_is_full_at_the_end_alone() {
    let of = |filled: usize, percent: &str| {
        format!("[{}{}] {percent} %", "#".repeat(filled), ".".repeat(40 - filled))
    };
    assert_eq!(bar(0, 100), of(0, "  0"));
    assert_eq!(bar(50, 100), of(20, " 50"));
    assert_eq!(bar(u64::MAX - 1, u64::MAX), of(39, " 99"));
    assert_eq!(bar(u64::MAX, u64::MAX), of(40, "100"));
    assert_eq!(bar(7, 5), of(40, "100"));
    assert_eq!(bar(0, 0), of(0, "  0"));
}

/// On a terminal a large file has a bar, a small one has none; nor has a large one elsewhere.
#[test]
fn a_bar_is_for_terminals_and_large_files() {
    if !bash("command -v script", &[]).1.starts_with(b"/") {
        eprintln!("no 'script' here: the bar is not tried on a terminal");
        return;
    }
    let folder = Folder::new();
    let line = |size: &str, how: &str| {
        let data = "printf x | tee -a a >> b";
        format!("cd {} && truncate -s {size} a b && {data} && {how}", folder.0.display())
    };
    let terminal = "TERM=dumb script -qec '\"$X\" compare a b' /dev/null";
    let (status, out, _) = bash(&line("40M", terminal), &[]);
    let said = String::from_utf8_lossy(&out).into_owned();
    assert!(status == 0 && said.contains("%\r") && said.contains("\rold: "), "{said}");
    let (status, out, _) = bash(&line("1M", terminal), &[]);
    assert!(status == 0 && !String::from_utf8_lossy(&out).contains('%'));
    let (status, _, errors) = bash(&line("40M", "\"$X\" compare a b"), &[]);
    assert!(status == 0 && !errors.contains('%'), "{errors}");
}
