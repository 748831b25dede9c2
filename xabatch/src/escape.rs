//! Names and words of others in a message: a control character is written out, so that it cannot
//! move a terminal's cursor or hide what stands before it.

/// The text with each character that has no shape of its own as `\n` or `\u{1b}`.
pub fn plain(text: &str) -> String {
    text.chars().map(shown).collect()
}

fn shown(character: char) -> String {
    let escaped = character.escape_debug();
    // Two characters: a quote or a backslash, which stay, or a control character.
    if character.is_control() || escaped.len() > 2 {
        escaped.to_string()
    } else {
        character.to_string()
    }
}
