//! Base sheet and supplement (P13) with figures by hand, on sheets that end at an unreadable page.

use crate::cases::Case;
use crate::sheets::by_library;

/// Index 7 with a text, 16 bytes; the text begins at place 11.
const SEVEN: &[u8] = b"0\0\x0d\0\0\0\0\0\0\0\x07seven";
/// Index 7 with no text, 11 bytes.
const EMPTY: &[u8] = b"0\0\x08\0\0\0\0\0\0\0\x07";
/// Index 8 with a text, 14 bytes.
const EIGHT: &[u8] = b"0\0\x0b\0\0\0\0\0\0\0\x08abc";
/// Another tag, a length of 7, the longest length with too few bytes.
const OTHER: &[u8] = b"1\0\x08\0\0\0\0\0\0\0\x08";
const SHORT: &[u8] = b"0\0\x07\0\0\0\0\0\0\0";
const LONG: &[u8] = b"0\xff\xff\0\0\0\0\0\0\0\x08";

/// The look-up of index 7: answer, sheet, place, length.
fn gives(base: &[&[u8]], supplement: &[&[u8]], wanted: [u64; 4]) -> Option<String> {
    let (base, supplement) = (base.concat(), supplement.concat());
    let found = by_library(&base, &supplement, 7);
    let found = [found.answer, found.sheet, found.place, found.length];
    (found != wanted).then(|| format!("wanted {wanted:?}\nfound  {found:?}"))
}

/// One record of index 7 with the longest text.
fn longest() -> Vec<u8> {
    [&b"0\xff\xff\0\0\0\0\0\0\0\x07"[..], &[b'x'; 65_527]].concat()
}

const MALFORMED: [u64; 4] = [3, 0, 0, 0];
const ABSENT: [u64; 4] = [10, 0, 0, 0];

pub fn sheet_cases() -> Vec<Case> {
    let cut = &longest()[..65_537];
    vec![
        ("sheets: both empty", gives(&[], &[], ABSENT)),
        ("sheets: another index", gives(&[EIGHT], &[EIGHT], ABSENT)),
        ("sheets: in the base sheet", gives(&[EIGHT, SEVEN], &[EIGHT], [0, 0, 25, 5])),
        ("sheets: in the supplement", gives(&[EIGHT], &[SEVEN], [0, 1, 11, 5])),
        ("sheets: in both", gives(&[SEVEN], &[EIGHT, SEVEN], [0, 1, 25, 5])),
        ("sheets: an empty text", gives(&[SEVEN], &[EMPTY], [0, 1, 11, 0])),
        ("sheets: three times", gives(&[SEVEN, EMPTY, EIGHT, SEVEN], &[], [0, 0, 52, 5])),
        ("sheets: empty at last", gives(&[SEVEN, SEVEN, EMPTY], &[], [0, 0, 43, 0])),
        ("sheets: length 65,535", gives(&[&longest()], &[], [0, 0, 11, 65_527])),
        ("sheets: length 65,535 cut", gives(&[SEVEN], &[cut], MALFORMED)),
        ("sheets: cut behind the text", gives(&[SEVEN, &EIGHT[..13]], &[], MALFORMED)),
        ("sheets: cut in the index", gives(&[SEVEN], &[SEVEN, &EIGHT[..10]], MALFORMED)),
        ("sheets: cut in the length", gives(&[SEVEN, &EIGHT[..2]], &[SEVEN], MALFORMED)),
        ("sheets: a tag alone", gives(&[SEVEN], &[SEVEN, &EIGHT[..1]], MALFORMED)),
        ("sheets: another tag behind", gives(&[SEVEN, OTHER], &[], MALFORMED)),
        ("sheets: length 7 behind", gives(&[SEVEN], &[SEVEN, SHORT], MALFORMED)),
        ("sheets: longest length behind", gives(&[SEVEN, LONG], &[SEVEN], MALFORMED)),
        ("sheets: damage in the other", gives(&[OTHER], &[SEVEN], MALFORMED)),
        ("sheets: both damaged", gives(&[SHORT], &[OTHER], MALFORMED)),
    ]
}
