//! Gates (P14) with figures by hand.

use crate::cases::Case;
use crate::gates::Ask;

const THIRD: u64 = 0x3FD5_5555_5555_5555;
const ONE: u64 = 0x3FF0_0000_0000_0000;
const MINUS: u64 = 1 << 63;
const NAN: u64 = 0x7FF8_0000_0000_0000;
const SIGNALLING: u64 = 0x7FF0_0000_0000_0001;
const INFINITE: u64 = 0x7FF0_0000_0000_0000;
const MOST: u32 = u32::MAX;

fn gives(kind: u64, limits: [u64; 2], counts: [u32; 2], wanted: [u64; 2]) -> Option<String> {
    let ([a, b], [part, total]) = (limits, counts);
    let found = Ask { kind, a, b, part, total }.by_library();
    (found != wanted).then(|| format!("wanted {wanted:?}\nfound  {found:?}"))
}

const PASS: [u64; 2] = [0, 1];
const FAIL: [u64; 2] = [0, 0];
const BAD: [u64; 2] = [18, 0];
const NO_TOTAL: [u64; 2] = [19, 0];
const ABOVE: [u64; 2] = [20, 0];

pub fn gate_cases() -> Vec<Case> {
    vec![
        ("gates: 0 of 1", gives(1, [0, NAN], [0, 1], PASS)),
        ("gates: 1 of 1", gives(1, [ONE, NAN], [1, 1], PASS)),
        ("gates: a third at least", gives(1, [THIRD, 0], [1, 3], PASS)),
        ("gates: the float below", gives(1, [THIRD - 1, 0], [1, 3], PASS)),
        ("gates: the float above", gives(1, [THIRD + 1, 0], [1, 3], FAIL)),
        ("gates: a third at most", gives(2, [NAN, THIRD], [1, 3], PASS)),
        ("gates: at most the float below", gives(2, [NAN, THIRD - 1], [1, 3], FAIL)),
        ("gates: a third between itself", gives(3, [THIRD, THIRD], [1, 3], PASS)),
        ("gates: all but one", gives(1, [ONE, 0], [MOST - 1, MOST], FAIL)),
        ("gates: all", gives(1, [ONE, 0], [MOST, MOST], PASS)),
        ("gates: one unread", gives(2, [0, 0], [1, MOST], FAIL)),
        ("gates: none unread, -0.0", gives(2, [0, MINUS], [0, 1], PASS)),
        ("gates: the least float", gives(1, [1, 0], [0, 1], FAIL)),
        ("gates: one over the least float", gives(1, [1, 0], [1, MOST], PASS)),
        ("gates: just below 0", gives(1, [MINUS + 1, 0], [1, 1], BAD)),
        ("gates: just above 1", gives(2, [0, ONE + 1], [1, 1], BAD)),
        ("gates: not a number", gives(3, [0, NAN], [1, 1], BAD)),
        ("gates: signalling", gives(1, [SIGNALLING, 0], [0, 0], BAD)),
        ("gates: all bits", gives(2, [0, u64::MAX], [0, 0], BAD)),
        ("gates: infinite", gives(1, [INFINITE, 0], [2, 1], BAD)),
        ("gates: minus infinite", gives(2, [0, MINUS + INFINITE], [2, 1], BAD)),
        ("gates: a above b", gives(3, [THIRD + 1, THIRD], [2, 1], BAD)),
        ("gates: no kind", gives(0, [0, ONE], [1, 1], BAD)),
        ("gates: kind 4", gives(4, [0, ONE], [1, 1], BAD)),
        ("gates: kind 2^32 + 1", gives((1 << 32) + 1, [0, ONE], [1, 1], BAD)),
        ("gates: nothing of nothing", gives(2, [0, ONE], [0, 0], NO_TOTAL)),
        ("gates: something of nothing", gives(1, [0, 0], [1, 0], NO_TOTAL)),
        ("gates: a part above", gives(1, [0, 0], [2, 1], ABOVE)),
        ("gates: the largest above", gives(3, [0, ONE], [MOST, MOST - 1], ABOVE)),
    ]
}
