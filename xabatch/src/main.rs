//! xabatch: batches and replies as text, pool files, scripts, digests and comparisons of files, texts of
//! evidence, gates, and pools of names.

mod args;
mod commands;
mod evidence;
mod failure;
mod files;
mod gate;
mod help;
mod kept;
mod os;
mod pool_file;
mod regions;
mod source;

use failure::{usage, Failure};
use std::ffi::OsString;
use std::process::ExitCode;

fn main() -> ExitCode {
    os::size_limit_is_an_error();
    let arguments: Vec<OsString> = std::env::args_os().skip(1).collect();
    match act(&arguments) {
        Ok(()) => ExitCode::SUCCESS,
        Err(failure) => {
            if !failure.message.is_empty() {
                files::complain(&failure.message);
            }
            ExitCode::from(failure.status)
        }
    }
}

fn act(arguments: &[OsString]) -> Result<(), Failure> {
    let Some((command, rest)) = arguments.split_first() else {
        return Err(usage("no command; try 'xabatch --help'"));
    };
    let command = command.to_string_lossy();
    let is_asking = |word: &OsString| word == "--help" || word == "-h";
    let asks = rest.iter().take_while(|word| *word != "--").any(is_asking);
    match &*command {
        "--help" | "-h" | "help" => help::write(rest.first()),
        "--version" | "-V" => files::write(help::VERSION.as_bytes()),
        name if asks => help::write_of(name),
        name => commands::act(name, rest),
    }
}
