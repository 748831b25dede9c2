//! Gates (P14) by the wrapper: what each answer becomes, and that other floats are refused before the library is asked.

use std::arch::asm;
use xapool_host::{floats_are_ieee, raw, Gate, GateRefusal};

const THIRD: u64 = 0x3FD5_5555_5555_5555;

fn float(bits: u64) -> f64 {
    f64::from_bits(bits)
}

#[test]
fn passes_and_fails() {
    let third = float(THIRD);
    for (gate, part, total, passes) in [
        (Gate::MatchedAtLeast(0.0), 0, 1, true),
        (Gate::MatchedAtLeast(1.0), 1, 1, true),
        (Gate::MatchedAtLeast(third), 1, 3, true),
        (Gate::MatchedAtLeast(float(THIRD + 1)), 1, 3, false),
        (Gate::MatchedAtLeast(float(THIRD - 1)), 1, 3, true),
        (Gate::UnreadAtMost(third), 1, 3, true),
        (Gate::UnreadAtMost(float(THIRD - 1)), 1, 3, false),
        (Gate::MatchedBetween(third, third), 1, 3, true),
        (Gate::MatchedBetween(float(THIRD - 1), float(THIRD - 1)), 1, 3, false),
        (Gate::MatchedAtLeast(1.0), u32::MAX - 1, u32::MAX, false),
        (Gate::MatchedAtLeast(1.0), u32::MAX, u32::MAX, true),
        (Gate::MatchedAtLeast(float(1)), 0, 1, false),
        (Gate::UnreadAtMost(-0.0), 0, 1, true),
        (Gate::UnreadAtMost(0.0), 1, u32::MAX, false),
    ] {
        assert_eq!(gate.passes(part, total), Ok(passes), "{gate:?} {part} {total}");
    }
}

#[test]
fn refusals_in_their_order() {
    let bad =
        [float(0x7FF0_0000_0000_0001), f64::NAN, f64::INFINITY, -float(1), 1.0 + f64::EPSILON];
    for limit in bad {
        for gate in [
            Gate::MatchedAtLeast(limit),
            Gate::UnreadAtMost(limit),
            Gate::MatchedBetween(limit, 1.0),
            Gate::MatchedBetween(0.0, limit),
            Gate::MatchedBetween(0.5, 0.25),
        ] {
            for (part, total) in [(0, 0), (1, 0), (2, 1), (1, 1)] {
                assert_eq!(gate.passes(part, total), Err(GateRefusal::BadGate), "{gate:?}");
            }
        }
    }
    let gate = Gate::MatchedAtLeast(0.0);
    assert_eq!(gate.passes(0, 0), Err(GateRefusal::NoTotal));
    assert_eq!(gate.passes(1, 0), Err(GateRefusal::NoTotal));
    assert_eq!(gate.passes(2, 1), Err(GateRefusal::PartAboveTotal));
}

/// With these bits of MXCSR in this thread, and then as it was.
fn with_mode<T>(bits: u32, work: impl FnOnce() -> T) -> T {
    let mut before = 0_u32;
    // SAFETY: MXCSR is read and set, for this thread and in between alone; `work` compares floats and nothing else.
    unsafe { asm!("stmxcsr [{}]", in(reg) &mut before) };
    let changed = before | bits;
    unsafe { asm!("ldmxcsr [{}]", in(reg) &changed) };
    let done = work();
    unsafe { asm!("ldmxcsr [{}]", in(reg) &before) };
    done
}

#[test]
fn other_floats_are_refused() {
    assert!(floats_are_ieee());
    // Down, up, to zero; subnormals read as 0, and written as 0 too.
    for bits in [0x2000, 0x4000, 0x6000, 0x40, 0x8040] {
        let gate = Gate::MatchedAtLeast(0.5);
        let (ieee, asked) = with_mode(bits, || (floats_are_ieee(), gate.passes(1, 1)));
        assert_eq!((ieee, asked), (false, Err(GateRefusal::Floats)), "{bits:x}");
    }
    assert!(floats_are_ieee());
    assert!(GateRefusal::Floats.to_string().contains("round to nearest"));
}

/// Why: what the library would have said is wrong.
#[test]
fn other_floats_pass_what_fails() {
    let third = || raw::gate(1, float(THIRD + 1), 0.0, 1, 3).number;
    let nothing = || raw::gate(1, float(1), 0.0, 0, 1).number;
    assert_eq!((third(), nothing()), (0, 0));
    assert_eq!(with_mode(0x4000, third), 1);
    assert_eq!(with_mode(0x8040, nothing), 1);
}
