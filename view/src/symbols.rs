//! The characters of a drawing, one for each cost, and those that hallview draws with.

use crate::characters::fills_one_column;
use crate::floor::{BLOCKED, Floor, UNNAMED};

pub const WALL: char = '#';
pub const OPEN: char = '.';
pub const SOURCE: char = 'S';
pub const GOAL: char = 'G';

/// What the terminal shows in place of `#` and `.`, and for what a drawing does not have.
pub const BLOCKED_SIGN: char = '█';
pub const CLOSED_SIGN: char = '░';
pub const OPEN_SIGN: char = '·';
pub const MIDPOINT: char = '●';
pub const UPRIGHT_WINDOW: char = '┊';
pub const LEVEL_WINDOW: char = '┈';
/// The first steps by number. Circled numbers above 20 take two columns of a terminal, so
/// later steps share a sign.
pub const FIRST_STEPS: &str = "①②③④⑤⑥⑦⑧⑨⑩⑪⑫⑬⑭⑮⑯⑰⑱⑲⑳";
pub const LATER_STEP: char = '◉';
/// A cell that the source reaches, and one in the way, where there is no route.
pub const REACHED_SIGN: char = '+';
pub const CLOSING_SIGN: char = '×';
/// A changed cell, where it is blocked and where it is open.
pub const CHANGED_BLOCKED: char = '◆';
pub const CHANGED_OPEN: char = '◇';

/// Whether hallview draws with a character: with those above, and with lines.
pub fn is_own(symbol: char) -> bool {
    let is_line = ('\u{2500}'..='\u{257f}').contains(&symbol);
    let signs = [
        BLOCKED_SIGN,
        CLOSED_SIGN,
        OPEN_SIGN,
        MIDPOINT,
        LATER_STEP,
        CLOSING_SIGN,
        CHANGED_BLOCKED,
        CHANGED_OPEN,
    ];
    is_line || signs.contains(&symbol) || FIRST_STEPS.contains(symbol)
}

/// The sign of a changed cell, by what it costs.
pub fn changed_sign(cost: u8) -> char {
    match cost {
        BLOCKED => CHANGED_BLOCKED,
        _ => CHANGED_OPEN,
    }
}

/// The cost that a character has in every drawing.
pub fn fixed_cost(symbol: char) -> Option<u8> {
    match symbol {
        WALL => Some(BLOCKED),
        OPEN | SOURCE | GOAL => Some(UNNAMED),
        '0'..='9' => Some(symbol as u8 - b'0'),
        _ => None,
    }
}

/// Whether a character has a meaning already, so that no legend can give it another.
pub fn is_taken(symbol: char) -> bool {
    fixed_cost(symbol).is_some() || "|-+=/ ".contains(symbol)
}

/// Whether a legend may name a character.
fn is_free(symbol: char) -> bool {
    fills_one_column(symbol) && !is_taken(symbol) && !is_own(symbol)
}

/// The characters that legends are written with, as many as there are costs.
fn free_symbols() -> impl Iterator<Item = char> {
    ('a'..='z')
        .chain('A'..='Z')
        .chain('\u{c0}'..)
        .filter(|symbol| is_free(*symbol))
}

/// The costs of a floor with the character of each: its own, the drawing's, or a free one.
pub fn table(floor: &Floor) -> Vec<(char, u8)> {
    let named = |symbol: &char| floor.legend.iter().any(|entry| entry.0 == *symbol);
    let mut free = free_symbols().filter(|symbol| !named(symbol));
    let mut present = [false; 256];
    for cost in &floor.costs {
        present[usize::from(*cost)] = true;
    }
    (0..=BLOCKED)
        .filter(|cost| present[usize::from(*cost)])
        .filter_map(|cost| {
            let drawn = floor.legend.iter().find(|entry| entry.1 == cost);
            let symbol = match cost {
                BLOCKED => Some(WALL),
                UNNAMED => Some(OPEN),
                0..=9 => Some(char::from(b'0' + cost)),
                _ => drawn.map(|entry| entry.0).or_else(|| free.next()),
            };
            Some((symbol?, cost))
        })
        .collect()
}

/// The character of a cost in a floor's table.
pub fn symbol_of(table: &[(char, u8)], cost: u8) -> char {
    let entry = table.iter().find(|entry| entry.1 == cost);
    entry.map_or('?', |entry| entry.0)
}
