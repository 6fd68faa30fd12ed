//! Words that several pictures and messages have in common.

use crate::floor::BLOCKED;

/// A number of things: `1 step`, `4 steps`.
pub fn counted(count: usize, name: &str) -> String {
    let plural = if count == 1 { "" } else { "s" };
    format!("{count} {name}{plural}")
}

/// What a cell of a cost is.
pub fn state(cost: u8) -> String {
    match cost {
        BLOCKED => "blocked".to_string(),
        _ => format!("open at cost {cost}"),
    }
}
