//! The options and files of one command.

use crate::failure::{usage, Failure};
use std::ffi::{OsStr, OsString};

/// An option that a command knows, and whether a value follows it.
pub type Known = (&'static str, bool);

/// What stands after the command's name, taken apart.
#[derive(Debug, Default)]
pub struct Arguments {
    options: Vec<(&'static str, OsString)>,
    pub files: Vec<OsString>,
}

impl Arguments {
    /// Options and files in any order; after `--` all are files. `-` is a file.
    pub fn of(words: &[OsString], known: &[Known]) -> Result<Arguments, Failure> {
        let mut arguments = Arguments::default();
        let mut words = words.iter();
        while let Some(word) = words.next() {
            if word == "--" {
                arguments.files.extend(words.by_ref().cloned());
            } else if word.as_encoded_bytes().starts_with(b"-") && word != "-" {
                let (name, value) = split(word);
                let Some((name, valued)) = known.iter().find(|known| known.0 == name) else {
                    return Err(usage(format!("'{name}': no option of this command")));
                };
                let value = match (valued, value) {
                    (false, None) => OsString::new(),
                    (false, Some(_)) => return Err(usage(format!("{name} takes no value"))),
                    (true, Some(value)) => value,
                    (true, None) => match words.next() {
                        Some(value) => value.clone(),
                        None => return Err(usage(format!("{name} wants a value"))),
                    },
                };
                arguments.options.push((name, value));
            } else {
                arguments.files.push(word.clone());
            }
        }
        Ok(arguments)
    }

    pub fn has(&self, name: &str) -> bool {
        self.value(name).is_some()
    }

    pub fn value(&self, name: &str) -> Option<&OsStr> {
        self.options.iter().rev().find(|option| option.0 == name).map(|option| &*option.1)
    }

    /// The files, if there are as many as the command takes.
    pub fn between(&self, least: usize, most: usize) -> Result<&[OsString], Failure> {
        match self.files.len() {
            count if count < least => Err(usage("an argument is missing")),
            count if count > most => {
                let extra = self.files[most].to_string_lossy();
                Err(usage(format!("'{extra}': one argument too many")))
            }
            _ => Ok(&self.files),
        }
    }
}

/// `--name=value` in two.
fn split(word: &OsStr) -> (String, Option<OsString>) {
    let text = word.to_string_lossy();
    match text.split_once('=') {
        Some((name, value)) => (name.into(), Some(value.into())),
        None => (text.into_owned(), None),
    }
}
