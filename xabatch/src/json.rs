//! JSON, written by hand: strings, objects and arrays. Numbers of 64 bits stay numbers.

use std::fmt::Display;

/// A string with its quotes.
#[must_use]
pub fn string(text: &str) -> String {
    let mut json = String::from("\"");
    text.chars().for_each(|character| json.push_str(&escaped(character)));
    json + "\""
}

fn escaped(character: char) -> String {
    match character {
        '"' => "\\\"".into(),
        '\\' => "\\\\".into(),
        '\n' => "\\n".into(),
        '\r' => "\\r".into(),
        '\t' => "\\t".into(),
        // Also those that a terminal would take for its own, which JSON itself allows.
        _ if character.is_control() => format!("\\u{:04x}", u32::from(character)),
        _ => character.into(),
    }
}

/// An array of values that are JSON already.
pub fn array(values: impl IntoIterator<Item = String>) -> String {
    format!("[{}]", values.into_iter().collect::<Vec<_>>().join(","))
}

/// The value, or null.
#[must_use]
pub fn or_null(value: Option<String>) -> String {
    value.unwrap_or_else(|| "null".into())
}

/// An object in the making.
#[derive(Clone, Debug, Default)]
#[must_use = "it is written by end"]
pub struct Object {
    members: Vec<String>,
}

impl Object {
    pub fn new() -> Object {
        Object::default()
    }

    /// A member whose value is JSON already, as numbers, true and false are.
    pub fn with(mut self, name: &str, value: impl Display) -> Object {
        self.members.push(format!("{}:{value}", string(name)));
        self
    }

    /// A member that is a string.
    pub fn text(self, name: &str, value: &str) -> Object {
        self.with(name, string(value))
    }

    #[must_use]
    pub fn end(self) -> String {
        format!("{{{}}}", self.members.join(","))
    }
}
