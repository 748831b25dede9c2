//! `evidence`: the text of an index from a base sheet or its supplement.

use crate::args::Arguments;
use crate::failure::{usage, Failure, NOT_DONE};
use crate::files::{self, of_file};
use std::ffi::OsStr;
use xabatch::text;
use xapool_host::{evidence as look_up, Sheet};

/// Status 0 is for a text that was found and written alone: what is not there is no evidence.
pub fn evidence(arguments: Arguments) -> Result<(), Failure> {
    let [base, supplement, index] = arguments.between(3, 3)? else {
        return Err(usage("two sheets and an index are named"));
    };
    if base == "-" && supplement == "-" {
        return Err(usage("the base sheet and the supplement cannot both be standard input"));
    }
    let index = index_of(index)?;
    files::output_is_open()?;
    let sheets = [files::read(base)?, files::read(supplement)?];
    match look_up(&sheets[0], &sheets[1], index) {
        Ok(Some(text)) => {
            if text.is_empty() {
                files::complain(&format!("index {index}: it is named, and its text is empty"));
            }
            files::write(text)
        }
        Ok(None) => {
            let message = format!("index {index}: neither sheet names it; that is no evidence");
            Err(Failure { status: NOT_DONE, message })
        }
        Err(bad) => {
            let file = if bad.sheet == Sheet::Base { base } else { supplement };
            Err(of_file(file, format!("{bad}; no text is given")))
        }
    }
}

fn index_of(word: &OsStr) -> Result<u64, Failure> {
    let word = word.to_string_lossy();
    text::index_of(&word).map_err(|error| usage(format!("{word}: {error}")))
}
