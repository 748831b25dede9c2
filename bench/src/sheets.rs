//! A look-up of evidence (P13) beside plain reading: a sheet of 1 MB in records of 64 bytes.

use crate::measure::{least, median, nanoseconds};
use std::hint::black_box;
use std::time::Instant;
use xapool_host::raw::{self, RawPart};
use xapool_host::{evidence, put_evidence};

pub const USAGE: &str = "\
usage: bench evidence [--rounds N]
  --rounds    in each the sheet is read in each way once; 200 if not named
Exit status: 0 fine, 1 a look-up is wrong, 2 bad usage.";

pub const ROUNDS: u32 = 200;
const RECORDS: u64 = 16_384;
const RECORD_BYTES: usize = 64;
/// No byte of the sheet is this one, so a search for it reads all.
const NO_BYTE: u8 = 0xEE;

/// The index of a record: half of them have one that an earlier record had. All bytes are below 128.
fn index_of(record: u64) -> u64 {
    let number = record % (RECORDS / 2);
    number / 128 * 256 + number % 128
}

/// A way to read the sheet, and its nanoseconds in each round.
pub struct Row {
    name: &'static str,
    times: Vec<f64>,
}

/// What reads the whole sheet; its number keeps the work from being left out.
type Way<'a> = &'a dyn Fn(&[u8]) -> u64;

fn sheet() -> Vec<u8> {
    let mut sheet = Vec::new();
    for record in 0..RECORDS {
        let text = [b'a' + (record % 26) as u8; RECORD_BYTES - 11];
        let put = put_evidence(&mut sheet, index_of(record), &text);
        assert_eq!(put, Ok(()), "a text of 53 bytes fits");
    }
    sheet
}

/// All bytes by one search, as `memchr` does it: Rust's own looks at two words at a time.
#[inline(never)]
fn search(sheet: &[u8]) -> u64 {
    u64::from(sheet.contains(&NO_BYTE))
}

/// All bytes by an OR, which the compiler spreads over its widest registers.
#[inline(never)]
fn or(sheet: &[u8]) -> u64 {
    sheet.iter().fold(0, |all, byte| all | byte).into()
}

/// The same look-up in ordinary Rust.
#[inline(never)]
fn in_rust(sheet: &[u8], index: u64) -> Option<Option<&[u8]>> {
    let (mut rest, mut found) = (sheet, None);
    while !rest.is_empty() {
        let (head, after) = rest.split_first_chunk::<3>()?;
        let length = usize::from(u16::from_be_bytes([head[1], head[2]]));
        let (body, after) = after.split_at_checked(length)?;
        let (named, text) = body.split_first_chunk()?;
        if head[0] != 48 {
            return None;
        }
        if u64::from_be_bytes(*named) == index {
            found = Some(text);
        }
        rest = after;
    }
    Some(found)
}

pub fn rows(rounds: u32) -> Result<[Row; 4], String> {
    let sheet = sheet();
    let wanted = index_of(RECORDS - 1);
    let place = sheet.len() - RECORD_BYTES + 11;
    let part = RawPart { answer: 0, sheet: 0, place: place as u64, length: 53 };
    let by_wrapper = evidence(&sheet, &[], wanted).ok().flatten();
    if raw::evidence(&sheet, &[], wanted) != part || in_rust(&sheet, wanted) != Some(by_wrapper) {
        return Err("the ways to look up differ".into());
    }
    let ways: [(&str, Way); 4] = [
        ("xapool_evidence", &|sheet| raw::evidence(sheet, &[], black_box(wanted)).place),
        ("the same in ordinary Rust", &|sheet| u64::from(in_rust(sheet, wanted).is_some())),
        ("every byte by a search for one that is not there", &search),
        ("every byte by an OR", &or),
    ];
    let mut rows = ways.map(|(name, _)| Row { name, times: Vec::new() });
    for _ in 0..rounds {
        for (row, (_, way)) in rows.iter_mut().zip(&ways) {
            let start = Instant::now();
            black_box(way(black_box(&sheet)));
            row.times.push(nanoseconds(start));
        }
    }
    Ok(rows)
}

pub fn table(rows: &[Row; 4]) -> String {
    let mut text = String::from(
        "| a sheet of 1 MB in records of 64 bytes, read whole | microseconds, shortest, median | GB/s | ns a record |\n\
         |---|---|---|---|\n",
    );
    for Row { name, times } in rows {
        let (short, middle) = (least(times), median(times));
        let bytes = (RECORDS as usize * RECORD_BYTES) as f64;
        text += &format!(
            "| {name} | {:.1}, {:.1} | {:.1} | {:.2} |\n",
            short / 1000.0,
            middle / 1000.0,
            bytes / short,
            short / RECORDS as f64
        );
    }
    text
}

pub fn measure(mut words: impl Iterator<Item = String>) -> Option<Result<(), String>> {
    let rounds = match (words.next().as_deref(), words.next()) {
        (None, _) => ROUNDS,
        (Some("--rounds"), Some(rounds)) => rounds.parse().ok().filter(|rounds| *rounds > 0)?,
        _ => return None,
    };
    Some(rows(rounds).map(|rows| println!("{}", table(&rows))))
}

#[cfg(test)]
mod tests {
    use super::*;

    #[test]
    fn the_sheet_has_its_size_and_all_ways_agree() {
        let sheet = sheet();
        assert_eq!(sheet.len(), 1 << 20);
        assert_eq!((search(&sheet), sheet.contains(&NO_BYTE)), (0, false));
        for index in [0, 1, index_of(RECORDS - 1), u64::MAX] {
            assert_eq!(evidence(&sheet, &[], index).ok(), in_rust(&sheet, index), "{index}");
        }
        let cut = &sheet[..sheet.len() - 1];
        assert_eq!((evidence(cut, &[], 0).ok(), in_rust(cut, 0)), (None, None));
        assert!(rows(1).is_ok_and(|rows| table(&rows).lines().count() == 6));
    }
}
