//! Keys of a pool of names as text: what is written for a key is read as that key.

use std::ffi::OsStr;
use std::os::unix::ffi::OsStrExt;
use xapool_host::Key;

/// What stands before a text that would be read as something else.
const TEXT: &str = "text:";

/// The key that a word of the command line names: the bytes of its hex digits after `0x`, else its own bytes, of which
/// `text:` at the beginning is none.
pub fn of(word: &OsStr) -> Result<Key, String> {
    let bytes = word.as_bytes();
    let key = match digits_of(bytes) {
        Some(digits) => bytes_of(digits)?,
        None => bytes.strip_prefix(TEXT.as_bytes()).unwrap_or(bytes).to_vec(),
    };
    Key::new(&key).map_err(|error| error.to_string())
}

/// The text that `of` reads as this key.
#[must_use]
pub fn shown(key: &Key) -> String {
    let bytes = key.bytes();
    if !is_plain(bytes) {
        return format!("0x{}", hex(bytes));
    }
    let text = String::from_utf8_lossy(bytes);
    // A minus would begin an option.
    if digits_of(bytes).is_some() || text.starts_with(TEXT) || text.starts_with('-') {
        return format!("{TEXT}{text}");
    }
    text.into()
}

/// Two digits a byte.
#[must_use]
pub fn hex(bytes: &[u8]) -> String {
    bytes.iter().map(|byte| format!("{byte:02x}")).collect()
}

/// Whether all of it is seen, and stays as it is between quotes of a shell.
fn is_plain(key: &[u8]) -> bool {
    let is_seen = |byte: &u8| (b' '..=b'~').contains(byte) && !b"'\"\\".contains(byte);
    key.iter().all(is_seen) && key.trim_ascii() == key
}

/// What follows `0x`.
fn digits_of(word: &[u8]) -> Option<&[u8]> {
    word.strip_prefix(b"0x").or(word.strip_prefix(b"0X"))
}

fn bytes_of(digits: &[u8]) -> Result<Vec<u8>, String> {
    let digit = |byte: u8| char::from(byte).to_digit(16);
    let byte = |pair: &[u8]| Some((16 * digit(pair[0])? + digit(pair[1])?) as u8);
    let pairs = digits.chunks_exact(2);
    let is_whole = pairs.remainder().is_empty();
    let bytes: Option<Vec<u8>> = pairs.map(byte).collect();
    let refused = "after 0x a key has two hex digits a byte; text:0x.. is a text that begins so";
    bytes.filter(|_| is_whole).ok_or_else(|| refused.into())
}
