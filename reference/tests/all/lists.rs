//! The lines that `lists` prints: their shape, and that the same seed prints the same.

use reference::lists::print;

fn printed(seed: u64) -> String {
    let mut out = Vec::new();
    print(&mut out, seed, 50, 12).expect("a vector takes all");
    String::from_utf8(out).expect("plain text")
}

/// How many fields follow the first word of a line; a place has its own form.
fn fields(name: &str) -> &'static [usize] {
    match name {
        "end" => &[0],
        "list" => &[1],
        "store" => &[4, 6],
        "load" | "erase" | "word" => &[2],
        "mark" | "unmark" => &[3],
        "find" => &[5],
        "reserve" => &[2, 4],
        "entry" => &[4],
        "listing" => &[2, 3],
        "place" => &[2, 3],
        _ => &[],
    }
}

#[test]
fn the_same_seed_prints_the_same() {
    assert_eq!(printed(5), printed(5));
    assert_ne!(printed(5), printed(6));
}

#[test]
fn the_shape_of_the_lines() {
    let text = printed(1);
    for line in text.lines() {
        let words: Vec<&str> = line.split(' ').collect();
        assert!(fields(words[0]).contains(&(words.len() - 1)), "{line}");
    }
    assert_eq!(text.lines().filter(|line| line.starts_with("list ")).count(), 50);
    assert_eq!(text.lines().filter(|line| *line == "end").count(), 50);
}

/// Answer 15 (0f in hex) is told without the nodes needed, 0 and 11 (0b) with them.
#[test]
fn reserves_are_printed_with_what_they_need() {
    let text = printed(8);
    let mut met = std::collections::BTreeSet::new();
    for line in text.lines().filter_map(|line| line.strip_prefix("reserve ")) {
        let words: Vec<&str> = line.split(' ').collect();
        let answer = &words[1][6..8];
        assert_eq!(&words[1][..6], "870015");
        assert_eq!(words.len(), if answer == "0f" { 2 } else { 4 }, "{line}");
        assert!(answer == "0f" || words[2] == "needed", "{line}");
        met.insert(answer.to_owned());
    }
    assert_eq!(met.into_iter().collect::<Vec<_>>(), ["00", "0b", "0f"]);
    assert!(text.lines().any(|line| line.starts_with("entry ") && line.ends_with(" 0 1030 0")));
}

#[test]
fn one_place_line_for_each_node() {
    let text = printed(2);
    for list in text.split_terminator("end\n") {
        let count: usize = list.lines().next().expect("a first line")[5..].parse().expect("N");
        let places = list.lines().filter(|line| line.starts_with("place "));
        assert_eq!(places.count(), count);
        assert!(list.contains(&format!("word 0 {count}\n")));
    }
}

/// Of everything, a listing has the entries that the list ends with: tag 32 and length 18 are 20
/// and 0012 in hex.
#[test]
fn three_to_five_listings_and_the_first_is_of_everything() {
    let text = printed(3);
    for list in text.split_terminator("end\n") {
        let listings: Vec<&str> =
            list.lines().filter_map(|line| line.strip_prefix("listing ")).collect();
        assert!((3..=5).contains(&listings.len()), "{list}");
        let entries = list.lines().filter_map(|line| line.strip_prefix("entry "));
        let bytes: String = entries.map(listed_hex).collect();
        assert_eq!(listings[0], format!("0 18446744073709551615 {bytes}").trim_end());
    }
}

#[test]
fn listings_have_their_first_and_last_in_order() {
    let text = printed(4);
    let listings = text.lines().filter_map(|line| line.strip_prefix("listing "));
    for listing in listings {
        let ends: Vec<u64> =
            listing.split(' ').take(2).map(|text| text.parse().expect("a number")).collect();
        assert!(ends[0] <= ends[1], "{listing}");
    }
}

fn listed_hex(entry: &str) -> String {
    let number = |text: &str| text.parse::<u64>().expect("a number");
    let fields: Vec<u64> = entry.split(' ').map(number).collect();
    let word = if fields[2] == 1030 { 0 } else { fields[2] };
    format!("200012{:016x}{:02x}{:016x}{:02x}", fields[0], fields[1], word, fields[3])
}
