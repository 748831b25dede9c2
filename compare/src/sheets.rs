//! Base sheet and supplement (P13): random look-ups, by reference and by the library on sheets that end at
//! an unreadable page and cannot be written; what kinds they are of, by reference alone.

use crate::batches::hex;
use crate::figures::{Figures, Of};
use crate::os::Guarded;
use reference::answers::{ABSENT, BAD_BATCH, DONE};
use reference::evidence::{look_up, records, Found, Sheet, EVIDENCE_TAG};
use reference::random::Random;
use xapool_host::raw::{self, RawPart};

/// A look-up. Each sheet is pieces, mostly whole records, so that it can be shrunk by leaving some out.
#[derive(Clone, Debug, PartialEq, Eq)]
pub struct LookUp {
    pub base: Vec<Vec<u8>>,
    pub supplement: Vec<Vec<u8>>,
    pub index: u64,
}

/// Few of them, so that records meet; some differ in one byte alone.
const INDICES: [u64; 8] = [0, 1, 7, 7 << 8, 1 << 32, (1 << 32) + 1, 1 << 63, u64::MAX];

const LONGEST_TEXT: usize = 65_527;
/// Two of the longest records, some short ones, and what is put behind.
const MOST_SHEET_BYTES: usize = 300_000;

fn record(index: u64, text: &[u8]) -> Vec<u8> {
    let length = (8 + text.len()) as u16;
    [&[EVIDENCE_TAG], &length.to_be_bytes()[..], &index.to_be_bytes(), text].concat()
}

fn random_text(random: &mut Random) -> Vec<u8> {
    let length = match random.below(100) {
        0..25 => 0,
        25..90 => random.below(6) as usize,
        90..99 => random.below(300) as usize,
        _ if random.one_in(4) => LONGEST_TEXT,
        _ => random.below(LONGEST_TEXT as u64) as usize,
    };
    let byte = random.word() as u8;
    (0..length).map(|place| byte.wrapping_add(place as u8)).collect()
}

fn random_sheet(random: &mut Random, favourite: u64) -> Vec<Vec<u8>> {
    let count = random.below(6);
    let mut sheet: Vec<Vec<u8>> = (0..count)
        .map(|_| {
            let any = INDICES[random.below(8) as usize];
            let index = if random.one_in(3) { favourite } else { any };
            record(index, &random_text(random))
        })
        .collect();
    if random.one_in(4) {
        damage(random, &mut sheet);
    }
    sheet
}

/// Something is cut off, changed or put behind.
fn damage(random: &mut Random, sheet: &mut Vec<Vec<u8>>) {
    match random.below(8) {
        // In the text or the index of the last record, or in its head.
        0 => cut(sheet, |length| random.below(length as u64) as usize),
        1 => cut(sheet, |_| random.below(11) as usize),
        2 => cut(sheet, |length| length - 1),
        // Lengths under 8, with and without the bytes for it.
        3 => sheet.push([&[EVIDENCE_TAG, 0, random.below(8) as u8], &[0; 11][..]].concat()),
        4 => {
            let short = random.below(8) as u8;
            let bytes = 3 + random.below(u64::from(short) + 1) as usize;
            sheet.push([&[EVIDENCE_TAG, 0, short], &[0; 8][..]].concat()[..bytes].to_vec());
        }
        // Another tag, mostly a near one.
        5 => {
            let tag =
                if random.one_in(2) { random.word() as u8 } else { 47 + 2 * random.below(2) as u8 };
            sheet.push([&[tag], &record(7, b"text")[1..]].concat());
        }
        // The longest length, and fewer bytes.
        6 => sheet.push(vec![EVIDENCE_TAG, 0xFF, 0xFF, 0, 0, 0, 0, 0, 0, 0, 7, b'x']),
        // Any byte of any record.
        _ => {
            let which = random.below(sheet.len().max(1) as u64) as usize;
            if let Some(piece) = sheet.get_mut(which) {
                let place = random.below(piece.len() as u64) as usize;
                piece[place] = random.word() as u8;
            }
        }
    }
}

fn cut(sheet: &mut [Vec<u8>], mut left: impl FnMut(usize) -> usize) {
    if let Some(last) = sheet.last_mut() {
        last.truncate(left(last.len()));
    }
}

impl LookUp {
    pub fn random(seed: u64) -> LookUp {
        let mut random = Random::new(seed);
        let index = INDICES[random.below(8) as usize];
        let base = random_sheet(&mut random, index);
        let supplement = random_sheet(&mut random, index);
        LookUp { base, supplement, index }
    }

    fn sheets(&self) -> [Vec<u8>; 2] {
        [self.base.concat(), self.supplement.concat()]
    }

    pub fn difference(&self, figures: Option<Figures>) -> Option<String> {
        let [base, supplement] = self.sheets();
        let wanted = by_reference(&base, &supplement, self.index);
        let found = by_library(&base, &supplement, self.index);
        if let Some(figures) = figures {
            figures.add(Of::LookUps, 1);
            figures.add(Of::SheetBytes, base.len() + supplement.len());
            figures.count_sheets(&kinds(&base, &supplement, self.index));
        }
        (wanted != found).then(|| format!("wanted {wanted:?}\nfound  {found:?}"))
    }

    /// Without one of its pieces, or with one that is half as long.
    pub fn smaller(&self) -> impl Iterator<Item = LookUp> + '_ {
        let changed = |piece: usize, change: &dyn Fn(&mut Vec<Vec<u8>>, usize)| {
            let mut smaller = self.clone();
            match piece.checked_sub(smaller.base.len()) {
                None => change(&mut smaller.base, piece),
                Some(piece) => change(&mut smaller.supplement, piece),
            }
            smaller
        };
        let pieces = 0..self.base.len() + self.supplement.len();
        let without = pieces.clone().map(move |piece| {
            changed(piece, &|pieces, at| {
                pieces.remove(at);
            })
        });
        let halved = pieces.map(move |piece| {
            changed(piece, &|pieces, at| {
                let half = pieces[at].len() / 2;
                pieces[at].truncate(half);
            })
        });
        without.chain(halved)
    }

    pub fn show(&self) -> String {
        let [base, supplement] = self.sheets().map(|sheet| hex(&sheet));
        format!("index {}\n  base sheet {base}\n  supplement {supplement}\n", self.index)
    }
}

pub fn by_reference(base: &[u8], supplement: &[u8], index: u64) -> RawPart {
    let Found { answer, part } = look_up(base, supplement, index);
    let (sheet, part) = part.unwrap_or((Sheet::Base, 0..0));
    RawPart {
        answer: answer.into(),
        sheet: u64::from(sheet == Sheet::Supplement),
        place: part.start as u64,
        length: part.len() as u64,
    }
}

/// Both sheets end at an unreadable page and cannot be written meanwhile.
pub fn by_library(base: &[u8], supplement: &[u8], index: u64) -> RawPart {
    thread_local!(static LENT: std::cell::RefCell<[Guarded; 2]> =
        [Guarded::new(MOST_SHEET_BYTES), Guarded::new(MOST_SHEET_BYTES)].into());
    LENT.with_borrow_mut(|[base_lent, supplement_lent]| {
        let base = lend(base_lent, base);
        let supplement = lend(supplement_lent, supplement);
        let part = raw::evidence(base, supplement, index);
        [base_lent, supplement_lent].into_iter().for_each(|lent| lent.read_only(false));
        part
    })
}

fn lend<'a>(lent: &'a mut Guarded, sheet: &[u8]) -> &'a [u8] {
    let start = lent.bytes().len() - sheet.len();
    lent.bytes()[start..].copy_from_slice(sheet);
    lent.read_only(true);
    &lent.bytes()[start..]
}

/// What a look-up is, by reference; it may be several.
#[derive(Clone, Copy, Debug, PartialEq, Eq, PartialOrd, Ord)]
pub enum Kind {
    InBase,
    InSupplement,
    Absent,
    EmptySheet,
    BothEmpty,
    InBoth,
    ThreeTimes,
    EmptyText,
    EmptyHides,
    Longest,
    BaseBad,
    SupplementBad,
    CutText,
    CutHead,
    ShortLength,
    OtherTag,
    LongestCut,
    BehindWanted,
    OtherSheetHasIt,
}

pub const KINDS: [(Kind, &str); 19] = [
    (Kind::InBase, "found in the base sheet"),
    (Kind::InSupplement, "in the supplement"),
    (Kind::Absent, "absent"),
    (Kind::EmptySheet, "one sheet empty"),
    (Kind::BothEmpty, "both empty"),
    (Kind::InBoth, "named in both"),
    (Kind::ThreeTimes, "three times in one"),
    (Kind::EmptyText, "an empty text found"),
    (Kind::EmptyHides, "an empty one over the base sheet's"),
    (Kind::Longest, "length 65,535"),
    (Kind::BaseBad, "base sheet malformed"),
    (Kind::SupplementBad, "supplement malformed"),
    (Kind::CutText, "cut in index or text"),
    (Kind::CutHead, "cut in tag or length"),
    (Kind::ShortLength, "length under 8"),
    (Kind::OtherTag, "another tag"),
    (Kind::LongestCut, "length 65,535 cut"),
    (Kind::BehindWanted, "damage behind the index"),
    (Kind::OtherSheetHasIt, "damage in the other sheet"),
];

/// The records of a sheet before its first bad one, if it has one, and that one's bytes.
fn taken_apart(sheet: &[u8]) -> (Vec<u64>, Option<&[u8]>) {
    let whole = |end: &usize| records(&sheet[..*end]).is_some();
    let end = (0..=sheet.len()).rev().find(whole).unwrap_or(0);
    let indices = records(&sheet[..end]).unwrap_or_default();
    let bad = (end < sheet.len()).then(|| &sheet[end..]);
    (indices.iter().map(|record| record.index).collect(), bad)
}

pub fn kinds(base: &[u8], supplement: &[u8], index: u64) -> Vec<Kind> {
    let found = look_up(base, supplement, index);
    let mut kinds = Vec::new();
    let mut add = |kind, is: bool| kinds.extend(is.then_some(kind));
    add(Kind::EmptySheet, base.is_empty() != supplement.is_empty());
    add(Kind::BothEmpty, base.is_empty() && supplement.is_empty());
    add(Kind::Absent, found.answer == ABSENT);
    if found.answer == BAD_BATCH {
        bad_kinds(base, supplement, index, &mut add);
        return kinds;
    }
    let [old, new] = [base, supplement].map(|sheet| records(sheet).unwrap_or_default());
    let texts = |records: &[reference::evidence::Record]| {
        let named = records.iter().filter(|record| record.index == index);
        named.map(|record| record.text.len()).collect::<Vec<usize>>()
    };
    let (old, new) = (texts(&old), texts(&new));
    let sheet = found.part.as_ref().map(|part| part.0);
    let length = found.part.map(|part| part.1.len()).filter(|_| found.answer == DONE);
    add(Kind::InBase, sheet == Some(Sheet::Base));
    add(Kind::InSupplement, sheet == Some(Sheet::Supplement));
    add(Kind::InBoth, !old.is_empty() && !new.is_empty());
    add(Kind::ThreeTimes, old.len().max(new.len()) >= 3);
    add(Kind::EmptyText, length == Some(0));
    add(Kind::EmptyHides, new.last() == Some(&0) && old.last().is_some_and(|length| *length > 0));
    add(Kind::Longest, length == Some(LONGEST_TEXT));
    kinds
}

fn bad_kinds(base: &[u8], supplement: &[u8], index: u64, add: &mut impl FnMut(Kind, bool)) {
    let sheets = [taken_apart(base), taken_apart(supplement)];
    add(Kind::BaseBad, sheets[0].1.is_some());
    add(Kind::SupplementBad, sheets[1].1.is_some());
    for (which, (indices, bad)) in sheets.iter().enumerate() {
        let Some(bad) = bad else { continue };
        let length = bad.get(1..3).map(|bytes| usize::from(bytes[0]) * 256 + usize::from(bytes[1]));
        let tagged = bad[0] == EVIDENCE_TAG;
        add(Kind::OtherTag, !tagged);
        add(Kind::CutHead, tagged && length.is_none());
        add(Kind::ShortLength, tagged && length.is_some_and(|length| length < 8));
        add(Kind::CutText, tagged && length.is_some_and(|length| length >= 8));
        add(Kind::LongestCut, tagged && length == Some(65_535));
        add(Kind::BehindWanted, indices.contains(&index));
        let (others, other_bad) = &sheets[1 - which];
        add(Kind::OtherSheetHasIt, other_bad.is_none() && others.contains(&index));
    }
}
