//! Written evidence (P13) by the wrapper: which text, that it is the sheet's own bytes, and what is malformed.

use xapool_host::{evidence, put_evidence, MalformedSheet, Sheet, TextTooLong, MOST_TEXT_BYTES};

fn sheet(records: &[(u64, &[u8])]) -> Vec<u8> {
    let mut sheet = Vec::new();
    records.iter().for_each(|(index, text)| put_evidence(&mut sheet, *index, text).unwrap());
    sheet
}

/// The text of an index as a part of one of both: its bytes are these of that sheet, by address.
fn lies_at(text: Option<&[u8]>, sheet: &[u8], place: usize, length: usize) {
    let text = text.expect("a text");
    assert_eq!(text.as_ptr(), sheet[place..].as_ptr());
    assert_eq!(text.len(), length);
}

#[test]
fn the_text_is_the_sheets_own_bytes() {
    let base = sheet(&[(7, b"base"), (8, b"eight"), (9, b"nine")]);
    let supplement = sheet(&[(1, b"one"), (7, b"later"), (9, b"")]);
    let found = |index| evidence(&base, &supplement, index).unwrap();
    lies_at(found(7), &supplement, 25, 5);
    lies_at(found(8), &base, 26, 5);
    lies_at(found(9), &supplement, 41, 0);
    lies_at(found(1), &supplement, 11, 3);
    assert_eq!(found(2), None);
}

/// The text outlives the call and everything but the sheets.
#[test]
fn the_text_lives_as_long_as_the_sheets() {
    fn text<'a>(base: &'a [u8], supplement: &'a [u8]) -> &'a [u8] {
        evidence(base, supplement, 7).unwrap().unwrap()
    }
    let base = sheet(&[(7, b"base")]);
    let supplement = sheet(&[(6, b"six")]);
    assert_eq!(text(&base, &supplement), b"base");
}

#[test]
fn the_last_record_of_a_sheet_counts() {
    let thrice = sheet(&[(7, b"first"), (8, b"x"), (7, b"second"), (7, b"3"), (8, b"y")]);
    lies_at(evidence(&thrice, &[], 7).unwrap(), &thrice, 56, 1);
    lies_at(evidence(&[], &thrice, 7).unwrap(), &thrice, 56, 1);
}

#[test]
fn absence_is_none_and_an_empty_text_is_some() {
    assert_eq!(evidence(&[], &[], 0), Ok(None));
    assert_eq!(evidence(&sheet(&[(1, b"x")]), &[], 0), Ok(None));
    assert_eq!(evidence(&sheet(&[(0, b"x")]), &sheet(&[(0, b"")]), 0), Ok(Some(&b""[..])));
}

/// Every cut of the last record, another tag and a short length, in either sheet, for every index.
#[test]
fn damage_is_told_by_sheet_and_place() {
    let good = sheet(&[(7, b"seven")]);
    let last = sheet(&[(8, b"eight")]);
    let cuts = (1..last.len()).map(|cut| last[..cut].to_vec());
    let short = vec![48, 0, 7, 0, 0, 0, 0, 0, 0, 0];
    let other = [&[49], &last[1..]].concat();
    for damage in cuts.chain([short, other, vec![48, 0xFF, 0xFF]]) {
        let bad = [&good[..], &damage].concat();
        for index in [7, 8, 9] {
            let place = good.len();
            let wrong = |sheet| Err(MalformedSheet { sheet, place });
            assert_eq!(evidence(&bad, &good, index), wrong(Sheet::Base));
            assert_eq!(evidence(&good, &bad, index), wrong(Sheet::Supplement));
            assert_eq!(evidence(&bad, &bad, index), wrong(Sheet::Base));
        }
    }
    let wrong = evidence(&good, &[0], 7).unwrap_err();
    assert_eq!(wrong.to_string(), "the supplement is malformed: no whole record at byte 0");
}

#[test]
fn the_longest_text_and_one_byte_more() {
    let text = vec![b'x'; MOST_TEXT_BYTES + 1];
    let mut base = Vec::new();
    assert_eq!(put_evidence(&mut base, 1, &text), Err(TextTooLong));
    assert_eq!(base, []);
    put_evidence(&mut base, u64::MAX, &text[1..]).unwrap();
    lies_at(evidence(&base, &[], u64::MAX).unwrap(), &base, 11, MOST_TEXT_BYTES);
}
