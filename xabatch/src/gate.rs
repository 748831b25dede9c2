//! `gate`: whether a share of a job is within its limits.

use crate::failure::{usage, Failure};
use crate::files;
use std::ffi::{OsStr, OsString};
use xabatch::text;
use xapool_host::{floats_are_ieee, Gate, GateRefusal};

/// A gate that fails. All else that is no pass is status 2, as bad usage is.
const FAILED: u8 = 1;

/// Status 0 is for a pass that was written alone.
pub fn gate(words: &[OsString]) -> Result<(), Failure> {
    // First of all: a limit is turned from text into a float.
    if !floats_are_ieee() {
        return Err(usage(GateRefusal::Floats.to_string()));
    }
    // There are no options: a limit may begin with a minus.
    let words = words.strip_prefix(&[OsString::from("--")]).unwrap_or(words);
    let (gate, limits, [part, total]) = asked(words)?;
    let passes = gate.passes(part, total).map_err(|refusal| usage(refusal.to_string()))?;
    let verdict = if passes { "pass" } else { "fail" };
    let what = if matches!(gate, Gate::UnreadAtMost(_)) { "unread" } else { "matched" };
    let line = format!("{verdict}: {part} of {total} {what}, {limits}\n");
    files::write(line.as_bytes()).map_err(|failure| usage(failure.message))?;
    if passes {
        return Ok(());
    }
    Err(Failure { status: FAILED, message: String::new() })
}

/// The gate, its limits as they were written, part and total.
fn asked(words: &[OsString]) -> Result<(Gate, String, [u32; 2]), Failure> {
    let shown = |word: &OsStr| word.to_string_lossy().into_owned();
    match words {
        [kind, a, part, total] if kind == "at-least" => {
            let gate = Gate::MatchedAtLeast(limit(a)?);
            Ok((gate, format!("at least {}", shown(a)), [count(part)?, count(total)?]))
        }
        [kind, b, part, total] if kind == "at-most" => {
            let gate = Gate::UnreadAtMost(limit(b)?);
            Ok((gate, format!("at most {}", shown(b)), [count(part)?, count(total)?]))
        }
        [kind, a, b, part, total] if kind == "between" => {
            let gate = Gate::MatchedBetween(limit(a)?, limit(b)?);
            let limits = format!("at least {} and at most {}", shown(a), shown(b));
            Ok((gate, limits, [count(part)?, count(total)?]))
        }
        [kind, ..] if !["at-least", "at-most", "between"].map(OsStr::new).contains(&&**kind) => {
            Err(usage(format!("'{}': no kind of gate; at-least, at-most, between", shown(kind))))
        }
        _ => Err(usage("a kind of gate, its limits, a part and a total are named")),
    }
}

/// A decimal, rounded to the nearest float; or the bits of a float: 0x and 16 digits.
fn limit(word: &OsStr) -> Result<f64, Failure> {
    let word = word.to_string_lossy();
    let bits = word.strip_prefix("0x").filter(|digits| digits.len() == 16);
    let limit = match bits {
        Some(digits) => u64::from_str_radix(digits, 16).map(f64::from_bits).ok(),
        None => word.parse().ok(),
    };
    limit.ok_or_else(|| usage(format!("'{word}': no limit: a decimal, or 0x and 16 digits")))
}

fn count(word: &OsStr) -> Result<u32, Failure> {
    let word = word.to_string_lossy();
    let number = text::index_of(&word).map_err(|error| usage(format!("{word}: {error}")))?;
    u32::try_from(number).map_err(|_| usage(format!("'{word}': a count is at most 4294967295")))
}
