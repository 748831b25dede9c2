//! One function for each command of the tool.

pub mod decode;
mod encode;
mod names;
mod pools;
mod scripts;

use crate::args::Arguments;
use crate::failure::{usage, Failure};
use crate::{evidence, files, gate, help, pool_file, regions};
use std::ffi::OsString;

pub fn act(name: &str, words: &[OsString]) -> Result<(), Failure> {
    if words.iter().take_while(|word| *word != "--").any(|word| word == "-h") {
        return help::write_of(name);
    }
    match name {
        "encode" => encode::encode(Arguments::of(words, &[("--long", false), ("--split", true)])?),
        "decode" => decode::decode(Arguments::of(
            words,
            &[("--batch", true), ("--strict", false), ("--json", false)],
        )?),
        "show" => pools::show(Arguments::of(
            words,
            &[
                ("--summary", false),
                ("--findings", false),
                ("--range", true),
                ("--all", false),
                ("--json", false),
            ],
        )?),
        "list" => pools::list(Arguments::of(words, &[("--bytes", false), ("--json", false)])?),
        "find" => pools::find(Arguments::of(
            words,
            &[("--all", false), ("--mark", true), ("--budget", true), ("--json", false)],
        )?),
        "new" => pool_file::create(Arguments::of(words, &[("--plain", false)])?),
        "run" => pool_file::run(Arguments::of(words, &pool_file::RUN_OPTIONS)?),
        "prepare" => scripts::prepare(Arguments::of(words, &scripts::PREPARE_OPTIONS)?),
        "apply" => scripts::apply(Arguments::of(words, &scripts::APPLY_OPTIONS)?),
        "crc" => regions::crc(Arguments::of(words, &[])?),
        "compare" => {
            regions::compare(Arguments::of(words, &[("--bytes", false), ("--json", false)])?)
        }
        "evidence" => evidence::evidence(Arguments::of(words, &[])?),
        "gate" => gate::gate(words),
        "names" => names::act(words),
        _ => Err(usage(format!("'{name}': no such command; try 'xabatch --help'"))),
    }
}

/// The one file of a command that may go without.
fn only_file(arguments: &Arguments) -> Result<OsString, Failure> {
    Ok(arguments.between(0, 1)?.first().cloned().unwrap_or_else(files::standard_input))
}
