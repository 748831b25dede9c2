//! Base sheet and supplement (request P13): records, which of them counts, what is malformed.

use reference::evidence::{look_up, Sheet};
use std::ops::Range;

/// Tag, length, and what is to stand behind them.
fn record(tag: u8, length: u16, rest: &[u8]) -> Vec<u8> {
    [&[tag], &length.to_be_bytes()[..], rest].concat()
}

fn text(index: u64, text: &[u8]) -> Vec<u8> {
    record(48, 8 + text.len() as u16, &[&index.to_be_bytes(), text].concat())
}

fn finds(base: &[u8], supplement: &[u8], index: u64, sheet: Sheet, part: Range<usize>) {
    let found = look_up(base, supplement, index);
    assert_eq!((found.answer, found.part), (0, Some((sheet, part))), "index {index}");
}

fn answers(base: &[u8], supplement: &[u8], index: u64, answer: u8) {
    let found = look_up(base, supplement, index);
    assert_eq!((found.answer, found.part), (answer, None), "index {index}");
}

#[test]
fn the_supplement_comes_first() {
    let base = [text(7, b"old"), text(8, b"eight")].concat();
    let supplement = text(7, b"new");
    finds(&base, &supplement, 7, Sheet::Supplement, 11..14);
    finds(&base, &supplement, 8, Sheet::Base, 25..30);
    finds(&base, &[], 7, Sheet::Base, 11..14);
    answers(&base, &supplement, 9, 10);
}

#[test]
fn the_last_record_of_an_index_counts() {
    let sheet = [text(7, b"a"), text(8, b"bb"), text(7, b""), text(9, b"c"), text(7, b"ddd")];
    let sheet = sheet.concat();
    finds(&sheet, &[], 7, Sheet::Base, 59..62);
    finds(&[], &sheet, 7, Sheet::Supplement, 59..62);
    finds(&sheet, &[], 8, Sheet::Base, 23..25);
}

#[test]
fn an_empty_text_is_found() {
    finds(&text(7, b"base"), &text(7, b""), 7, Sheet::Supplement, 11..11);
    finds(&text(7, b""), &text(6, b"six"), 7, Sheet::Base, 11..11);
}

#[test]
fn nothing_named_is_10() {
    answers(&[], &[], 0, 10);
    answers(&text(1, b"x"), &[], 0, 10);
    // The index is all eight bytes.
    answers(&text(1 << 56, b"x"), &text(256, b"y"), 1, 10);
}

/// After these whole records every one of these ends is damage, in either sheet and for every index.
#[test]
fn damage_is_3_wherever_it_stands() {
    let good = text(7, b"seven");
    let whole = text(8, b"eight");
    let short = record(48, 7, &[0; 7]);
    let other = record(49, 8, &[0; 8]);
    let far = record(48, 65_535, &[0; 65_534]);
    let cuts = (1..whole.len()).map(|cut| whole[..cut].to_vec());
    for damage in cuts.chain([short, other, far, vec![48, 0, 0], vec![0]]) {
        let bad = [&good[..], &damage].concat();
        for index in [7, 8, 9] {
            answers(&bad, &good, index, 3);
            answers(&good, &bad, index, 3);
            answers(&bad, &[], index, 3);
            answers(&[], &bad, index, 3);
        }
    }
}

#[test]
fn the_longest_text() {
    let sheet = text(u64::MAX, &[0xFF; 65_527]);
    finds(&sheet, &[], u64::MAX, Sheet::Base, 11..65_538);
}
