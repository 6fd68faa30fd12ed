//! Characters: which ones fill one column of a terminal, and how the others are told.

use crate::symbols;

/// Whether a character fills one column of every terminal: printable ASCII, the Latin
/// letters and signs, Greek and Cyrillic letters, and what hallview draws with. Wide,
/// combining and invisible characters are not among them.
pub fn fills_one_column(character: char) -> bool {
    match character {
        ' '..='~' => true,
        // A soft hyphen is mostly invisible.
        '\u{ad}' => false,
        '\u{a1}'..='\u{24f}' => true,
        '\u{370}'..='\u{52f}' => character.is_alphabetic(),
        _ => symbols::is_own(character),
    }
}

/// A text for a message. What could move the cursor or hide is told by its code.
pub fn shown(text: &str) -> String {
    let told = |character: char| match character {
        _ if fills_one_column(character) || character.is_alphanumeric() => character.to_string(),
        _ => code(character),
    };
    text.chars().map(told).collect()
}

/// U+001B for an escape character.
pub fn code(character: char) -> String {
    format!("U+{:04X}", u32::from(character))
}
