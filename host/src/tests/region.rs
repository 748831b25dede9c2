//! Digests and comparisons. The digests are those that RFC 3720 publishes, or come from the bitwise rule
//! below, which shares nothing with the library.

use super::*;

/// The polynomial of RFC 3720, its highest power in the lowest bit.
const POLYNOMIAL: u32 = 0x82f6_3b78;

/// Bit by bit: all ones at first, complemented at the end.
fn bitwise(region: &[u8]) -> u32 {
    let bit = |crc: u32, _| if crc & 1 == 1 { crc >> 1 ^ POLYNOMIAL } else { crc >> 1 };
    !region.iter().fold(u32::MAX, |crc, byte| (0..8).fold(crc ^ u32::from(*byte), bit))
}

/// The SCSI read (10) command of RFC 3720.
const READ_10: [u8; 48] = [
    0x01, 0xc0, 0, 0, 0, 0, 0, 0, 0, 0, 0, 0, 0, 0, 0, 0, //
    0x14, 0, 0, 0, 0, 0, 0x04, 0, 0, 0, 0, 0x14, 0, 0, 0, 0x18, //
    0x28, 0, 0, 0, 0, 0, 0, 0, 0x02, 0, 0, 0, 0, 0, 0, 0,
];

#[test]
fn published_digests() {
    let ascending: Vec<u8> = (0..32).collect();
    let descending: Vec<u8> = (0..32).rev().collect();
    let vectors: [(&[u8], u32); 7] = [
        (&[0; 32], 0x8a91_36aa),
        (&[0xff; 32], 0x62a8_ab43),
        (&ascending, 0x46dd_794e),
        (&descending, 0x113f_db5c),
        (&READ_10, 0xd996_3a56),
        (b"123456789", 0xe306_9283),
        (b"", 0),
    ];
    for (region, digest) in vectors {
        assert_eq!(Crc32c::of(region).value(), digest, "{region:02x?}");
        assert_eq!(bitwise(region), digest, "the test's own rule: {region:02x?}");
    }
}

fn in_pieces(pieces: &[&[u8]]) -> u32 {
    let mut digest = Crc32c::new();
    pieces.iter().for_each(|piece| digest.update(piece));
    digest.value()
}

#[test]
fn any_cut_gives_the_digest_of_the_whole() {
    let region = random_bytes(1, 64);
    let whole = bitwise(&region);
    for cut in 0..=64 {
        let (left, right) = region.split_at(cut);
        assert_eq!(in_pieces(&[left, right]), whole, "cut at {cut}");
        for second in cut..=64 {
            let (middle, right) = right.split_at(second - cut);
            assert_eq!(in_pieces(&[left, middle, right]), whole, "cuts at {cut} and {second}");
        }
    }
    let bytes: Vec<&[u8]> = region.chunks(1).collect();
    assert_eq!(in_pieces(&bytes), whole);
}

#[test]
fn digests_follow_the_bitwise_rule_at_every_alignment() {
    let mut space = random_bytes(2, 320).into_boxed_slice();
    let begin = space.as_ptr().align_offset(8);
    for length in 0..=300 {
        let region = random_bytes(1000 + length as u64, length);
        let expected = bitwise(&region);
        for alignment in 0..8 {
            let place = &mut space[begin + alignment..][..length];
            place.copy_from_slice(&region);
            assert_eq!(Crc32c::of(place).value(), expected, "{length} bytes at {alignment}");
            let mut again = Crc32c::of(&READ_10);
            again.update(place);
            assert_eq!(again.value(), bitwise(&[&READ_10[..], &region].concat()));
        }
    }
    for length in [4096, 65_537, 1 << 20, (1 << 20) + 7] {
        let region = random_bytes(length as u64, length);
        assert_eq!(Crc32c::of(&region).value(), bitwise(&region), "{length} bytes");
        assert_eq!(Crc32c::of(&region[3..]).value(), bitwise(&region[3..]));
    }
}

/// A comparison by the rule: lengths and bytes, and nothing if either is empty.
fn expected(old: &[u8], new: &[u8]) -> Comparison {
    let verdict = match (old.len(), new.len()) {
        (0, _) | (_, 0) => Verdict::NothingToCompare,
        _ if old == new => Verdict::Matched,
        _ => Verdict::Different,
    };
    let [old, new] = [old, new].map(Crc32c::of);
    Comparison { verdict, old, new }
}

/// The first place where they are not the same, if there is one.
fn difference(old: &[u8], new: &[u8]) -> Option<u64> {
    let length = old.len().max(new.len());
    (0..length).find(|place| old.get(*place) != new.get(*place)).map(|place| place as u64)
}

/// By the call, and in pieces of any size.
fn compared(old: &[u8], new: &[u8]) {
    assert_eq!(compare(old, new), expected(old, new), "{old:02x?}, {new:02x?}");
    for size in [1, 2, 7, 64, 1000] {
        let mut pieces = Pieces::new();
        let (mut left, mut right) = (old.chunks(size), new.chunks(size));
        for _ in 0..old.len().max(new.len()).div_ceil(size) {
            pieces.take(left.next().unwrap_or_default(), right.next().unwrap_or_default());
        }
        assert_eq!(pieces.comparison(), expected(old, new), "in pieces of {size}");
        assert_eq!(pieces.first_difference(), difference(old, new));
        assert_eq!(pieces.bytes(), (old.len() as u64, new.len() as u64));
    }
}

#[test]
fn regions_match_exactly_if_they_are_the_same_and_not_empty() {
    for length in 1..=130 {
        let old = random_bytes(length as u64, length);
        compared(&old, &old.clone());
        compared(&old, &old);
        for place in [0, length / 2, length - 1] {
            let mut new = old.clone();
            new[place] ^= 1 << (length % 8);
            compared(&old, &new);
        }
        compared(&old, &old[..length - 1]);
        compared(&old[1..], &old);
        compared(&old, &[&old[..], &[0]].concat());
        compared(&old, &[]);
        compared(&[], &old);
    }
}

/// An earlier kit took two empty regions for a match: their digests are equal.
#[test]
fn nothing_is_never_a_match() {
    compared(&[], &[]);
    let nothing = compare(&[], &[]);
    assert_eq!((nothing.verdict, nothing.old, nothing.new), Default::default());
    assert_eq!(nothing.verdict, Verdict::NothingToCompare);
    // Nor in pieces, however many of nothing there are.
    let mut pieces = Pieces::new();
    assert_eq!(pieces.comparison().verdict, Verdict::NothingToCompare);
    (0..3).for_each(|_| pieces.take(&[], &[]));
    assert_eq!(pieces.comparison().verdict, Verdict::NothingToCompare);
    pieces.take(b"x", b"");
    assert_eq!(pieces.comparison().verdict, Verdict::NothingToCompare);
    // Zeros that were read are bytes like any other.
    compared(&[0; 64], &[0; 64]);
    assert_eq!(compare(&[0; 64], &[0; 64]).verdict, Verdict::Matched);
    // Digests can be equal where regions are not.
    let (old, new) = same_digest();
    assert_eq!(Crc32c::of(&old), Crc32c::of(&new));
    assert_eq!(compare(&old, &new).verdict, Verdict::Different);
    assert_eq!(Verdict::default(), Verdict::NothingToCompare);
    assert_eq!((Verdict::Matched as u64, Verdict::Different as u64), (1, 2));
}

/// Two regions of 8 bytes with one digest: they differ by the polynomial itself. Its 33 bits stand
/// highest power first, and the lowest bit of a byte comes first.
fn same_digest() -> (Vec<u8>, Vec<u8>) {
    let old = random_bytes(9, 8);
    let difference = (1 | u64::from(POLYNOMIAL) << 1).to_le_bytes();
    let new = old.iter().zip(difference).map(|(byte, by)| byte ^ by).collect();
    (old, new)
}
