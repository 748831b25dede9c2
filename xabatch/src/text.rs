//! Text to commands. A line is one command, or empty; `#` begins a comment.
//!
//! A number that fits its field is taken as it is, so that what the library refuses (order 64,
//! mark 3) can be tried. An error has the line and column (both from 1) at which it stands.

use std::fmt;
use xapool_host::{BatchBuilder, Command, Word, FIND_ANY};

#[derive(Clone, Debug, PartialEq, Eq)]
pub struct SyntaxError {
    pub line: usize,
    pub column: usize,
    pub message: String,
}

impl fmt::Display for SyntaxError {
    fn fmt(&self, f: &mut fmt::Formatter) -> fmt::Result {
        write!(f, "{}:{}: {}", self.line, self.column, self.message)
    }
}

/// So many errors of one text are told.
pub const MOST_ERRORS: usize = 20;

/// What is wrong with a text: its first errors, and how many more there are.
#[derive(Clone, Debug, Default, PartialEq, Eq)]
pub struct SyntaxErrors {
    pub first: Vec<SyntaxError>,
    pub more: usize,
}

impl SyntaxErrors {
    fn add(&mut self, error: SyntaxError) {
        if self.first.len() < MOST_ERRORS {
            self.first.push(error);
        } else {
            self.more += 1;
        }
    }
}

/// The batch of a text.
pub fn batch_of(text: &str) -> Result<BatchBuilder, SyntaxErrors> {
    watched_batch_of(text, &mut |_| {})
}

/// The same; `watch` has the bytes of each line when it was read.
pub fn watched_batch_of(
    text: &str,
    watch: &mut dyn FnMut(usize),
) -> Result<BatchBuilder, SyntaxErrors> {
    let mut batch = BatchBuilder::new();
    let mut is_full = false;
    each_command(text, watch, |command| match batch.push(command) {
        // What follows has no room either: that is told once.
        _ if is_full => Ok(()),
        Ok(()) => Ok(()),
        Err(full) => {
            is_full = true;
            Err(format!("{full}; --long or --split takes more than one batch"))
        }
    })?;
    Ok(batch)
}

/// All commands of a text, also of one that is too long for a batch.
pub fn commands_of(text: &str, watch: &mut dyn FnMut(usize)) -> Result<Vec<Command>, SyntaxErrors> {
    let mut commands = Vec::new();
    each_command(text, watch, |command| {
        commands.push(command);
        Ok(())
    })?;
    Ok(commands)
}

/// Reads a text line by line, also after an error; `take` has each command, and may refuse it.
fn each_command(
    text: &str,
    watch: &mut dyn FnMut(usize),
    mut take: impl FnMut(Command) -> Result<(), String>,
) -> Result<(), SyntaxErrors> {
    let mut errors = SyntaxErrors::default();
    for (number, line) in text.lines().enumerate() {
        let mut words = Words::of(line, number + 1);
        let column = words.column();
        let taken = words.line().and_then(|command| match command {
            Some(command) => take(command).map_err(|message| words.error_at(column, message)),
            None => Ok(()),
        });
        taken.unwrap_or_else(|error| errors.add(error));
        watch(line.len() + 1);
    }
    if errors.first.is_empty() {
        return Ok(());
    }
    Err(errors)
}

/// `FIRST..LAST`, as in a find.
pub fn range_of(text: &str) -> Result<(u64, u64), String> {
    let mut words = Words::of(text, 1);
    let range = words.range().map_err(|error| error.message)?;
    match (words.rest(), range) {
        ("", (first, last)) if first <= last => Ok(range),
        ("", _) => Err("first is above last".into()),
        (rest, _) => Err(format!("'{rest}' after the end of the range")),
    }
}

/// An index by itself, as in a command.
pub fn index_of(text: &str) -> Result<u64, String> {
    let mut words = Words::of(text, 1);
    let index = words.number("an index").map_err(|error| error.message)?;
    match words.rest() {
        "" => Ok(index),
        rest => Err(format!("'{rest}' after the index")),
    }
}

/// The words of one line and how far they were read.
struct Words<'a> {
    line: usize,
    text: &'a str,
    place: usize,
}

impl<'a> Words<'a> {
    fn of(text: &'a str, line: usize) -> Words<'a> {
        let end = text.find('#').unwrap_or(text.len());
        let mut words = Words { line, text: &text[..end], place: 0 };
        words.skip_space();
        words
    }

    fn rest(&self) -> &'a str {
        &self.text[self.place..]
    }

    fn skip_space(&mut self) {
        self.place = self.text.len() - self.rest().trim_start().len();
    }

    /// The column of what comes next; columns count characters, not bytes.
    fn column(&self) -> usize {
        1 + self.text[..self.place].chars().count()
    }

    fn error_at<T: Into<String>>(&self, column: usize, message: T) -> SyntaxError {
        SyntaxError { line: self.line, column, message: message.into() }
    }

    fn error<T: Into<String>>(&self, message: T) -> SyntaxError {
        self.error_at(self.column(), message)
    }

    /// What comes next, up to a space or to `..`; not passed.
    fn peek(&self) -> &'a str {
        let rest = self.rest();
        let space = rest.find(char::is_whitespace).unwrap_or(rest.len());
        let end = rest[..space].find("..").filter(|end| *end > 0).unwrap_or(space);
        &rest[..end]
    }

    fn pass(&mut self, word: &str) {
        self.place += word.len();
        self.skip_space();
    }

    /// The command of the line, if there is one.
    fn line(&mut self) -> Result<Option<Command>, SyntaxError> {
        if self.rest().is_empty() {
            return Ok(None);
        }
        let command = self.command()?;
        match self.rest() {
            "" => Ok(Some(command)),
            _ => Err(self.error(format!("'{}' after the end of the command", self.peek()))),
        }
    }

    fn command(&mut self) -> Result<Command, SyntaxError> {
        let name = self.peek();
        let known = ["store", "load", "erase", "mark", "unmark", "find", "reserve"];
        if !known.contains(&name) {
            let message = format!("unknown command '{name}': one of {}", known.join(", "));
            return Err(self.error(message));
        }
        self.pass(name);
        if name == "find" {
            return self.find();
        }
        let index = self.number("an index")?;
        match name {
            "store" => self.store(index),
            "load" => Ok(Command::Load { index }),
            "erase" => Ok(Command::Erase { index }),
            "reserve" => Ok(Command::Reserve { index }),
            "mark" => Ok(Command::Mark { index, mark: self.mark()? }),
            _ => Ok(Command::Unmark { index, mark: self.mark()? }),
        }
    }

    fn store(&mut self, index: u64) -> Result<Command, SyntaxError> {
        self.expect("order")?;
        let order = self.number_up_to("an order", 255)? as u8;
        Ok(Command::Store { index, order, word: self.entry()? })
    }

    /// `value V`, `handle H` or `word W`.
    fn entry(&mut self) -> Result<Word, SyntaxError> {
        let kind = self.peek();
        if !["value", "handle", "word"].contains(&kind) {
            return Err(self.unexpected("'value', 'handle' or 'word'"));
        }
        self.pass(kind);
        let column = self.column();
        let number = self.number(&format!("a {kind}"))?;
        match kind {
            "value" => {
                Word::value(number).map_err(|large| self.error_at(column, large.to_string()))
            }
            "handle" if number == 0 || number % 4 != 0 => {
                let message = "a handle is a multiple of 4 above 0; 'word' takes any word";
                Err(self.error_at(column, message))
            }
            _ => Ok(Word(number)),
        }
    }

    fn mark(&mut self) -> Result<u8, SyntaxError> {
        self.expect("mark")?;
        Ok(self.number_up_to("a mark", 255)? as u8)
    }

    fn find(&mut self) -> Result<Command, SyntaxError> {
        let (first, last) = self.range()?;
        let filter = self.filter()?;
        self.expect("budget")?;
        let budget = self.number_up_to("a budget", 65_535)? as u16;
        Ok(Command::Find { first, last, filter, budget })
    }

    /// `FIRST..LAST`.
    fn range(&mut self) -> Result<(u64, u64), SyntaxError> {
        let first = self.number("an index")?;
        self.expect("..")?;
        Ok((first, self.number("an index")?))
    }

    /// `any` or `mark M`. Filter 3 is written `any`, so that `mark 3` is not taken for a mark.
    fn filter(&mut self) -> Result<u8, SyntaxError> {
        match self.peek() {
            "any" => {
                self.pass("any");
                Ok(FIND_ANY)
            }
            "mark" => {
                let column = self.column();
                let mark = self.mark()?;
                let any = self.error_at(column, "filter 3 takes any entry: write 'any'");
                (mark != FIND_ANY).then_some(mark).ok_or(any)
            }
            _ => Err(self.unexpected("'mark' or 'any'")),
        }
    }

    fn expect(&mut self, word: &str) -> Result<(), SyntaxError> {
        if self.peek() != word && !(word == ".." && self.rest().starts_with(word)) {
            return Err(self.unexpected(&format!("'{word}'")));
        }
        self.pass(word);
        Ok(())
    }

    fn unexpected(&self, wanted: &str) -> SyntaxError {
        match self.peek() {
            "" => self.error(format!("expected {wanted}, but the line ends")),
            word => self.error(format!("expected {wanted}, not '{word}'")),
        }
    }

    fn number_up_to(&mut self, what: &str, most: u64) -> Result<u64, SyntaxError> {
        let column = self.column();
        let number = self.number(what)?;
        let message = format!("{what} fits its field from 0 to {most}, not {number}");
        (number <= most).then_some(number).ok_or_else(|| self.error_at(column, message))
    }

    /// A decimal or hex number, or `max`.
    fn number(&mut self, what: &str) -> Result<u64, SyntaxError> {
        let word = self.peek();
        let digits = |text: &str, base| {
            let all = !text.is_empty() && text.chars().all(|digit| digit.is_digit(base));
            all.then(|| u64::from_str_radix(text, base))
        };
        let parsed = match word.strip_prefix("0x").or(word.strip_prefix("0X")) {
            Some(hex) => digits(hex, 16),
            None if word == "max" => Some(Ok(u64::MAX)),
            None => digits(word, 10),
        };
        match parsed {
            None => Err(self.unexpected(what)),
            Some(Err(_)) => Err(self.error(format!("{word} is above 2^64 - 1"))),
            Some(Ok(number)) => {
                self.pass(word);
                Ok(number)
            }
        }
    }
}
