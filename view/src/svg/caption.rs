//! The title above the floor, and the card below it.

use super::colours::{CLOSING, FAINT, INK};
use super::shapes::{Attributes, MONO, MONO_WIDTH, label, wrapped};
use super::sheet::Sheet;

/// The most lines that a card takes as `hallroute` prints it, and that its steps take.
const MOST_LINES: usize = 4;
const MOST_ROWS: usize = 16;
/// From one line to the next.
const LEADING: f64 = 1.45;
/// Characters between two columns of steps.
const BETWEEN: usize = 3;

pub fn draw_title(sheet: &mut Sheet) {
    let size = sheet.text;
    for (at, text) in sheet.title.clone().iter().enumerate() {
        let y = sheet.begin + size * (1.7 + 1.5 * at as f64);
        let (weight, fill) = if at == 0 {
            ("bold", INK)
        } else {
            ("normal", FAINT)
        };
        let list: &Attributes = &[("font-weight", &weight), ("fill", &fill)];
        sheet.add(label((sheet.left, y), text, size, list));
    }
}

/// What was changed, what is warned of, the card, and its steps or why it has none.
pub fn draw(sheet: &mut Sheet) {
    sheet.bottom += sheet.text * 0.6;
    let changes = sheet.scene.moment.told(sheet.hall);
    if !changes.is_empty() {
        listed(sheet, &changes);
        sheet.bottom += sheet.text * 0.6;
    }
    for text in sheet.scene.warnings {
        for text in wrapped(&format!("warning: {text}"), room(sheet)) {
            below(sheet, &text, CLOSING);
        }
    }
    let Some(card) = sheet.scene.card else {
        return;
    };
    for text in cut(wrapped(&card.line(), room(sheet))) {
        below(sheet, &text, INK);
    }
    for text in wrapped(&card.outcome(sheet.hall), room(sheet)) {
        below(sheet, &text, FAINT);
    }
    listed(sheet, &card.details(sheet.hall));
}

/// The characters of a line.
fn room(sheet: &Sheet) -> usize {
    ((sheet.width - sheet.left) / (sheet.text * MONO_WIDTH)) as usize - 2
}

/// Lines as far as there is room for them.
fn cut(mut lines: Vec<String>) -> Vec<String> {
    if lines.len() > MOST_LINES {
        lines.truncate(MOST_LINES);
        lines[MOST_LINES - 1].push_str(" …");
    }
    lines
}

/// Steps or changes in columns. The terminal lists all of a long card.
fn listed(sheet: &mut Sheet, texts: &[String]) {
    let room = room(sheet);
    let mut list: Vec<String> = texts.iter().flat_map(|text| wrapped(text, room)).collect();
    let longest = list.iter().map(|text| text.chars().count()).max();
    let pitch = longest.unwrap_or(0) + BETWEEN;
    let columns = ((room + BETWEEN) / pitch).max(1);
    let most = columns * MOST_ROWS;
    if list.len() > most {
        let more = list.len() - (most - 1);
        list.truncate(most - 1);
        list.push(format!("and {more} more"));
    }
    let rows = list.len().div_ceil(columns);
    let (first, width) = (sheet.bottom, pitch as f64 * sheet.text * MONO_WIDTH);
    for (at, text) in list.iter().enumerate() {
        sheet.bottom = first + (at % rows) as f64 * sheet.text * LEADING;
        mono(sheet, sheet.left + (at / rows) as f64 * width, text, INK);
    }
    sheet.bottom = first + rows as f64 * sheet.text * LEADING;
}

/// A line below what was written last.
fn below(sheet: &mut Sheet, text: &str, fill: &str) {
    mono(sheet, sheet.left, text, fill);
    sheet.bottom += sheet.text * LEADING;
}

fn mono(sheet: &mut Sheet, x: f64, text: &str, fill: &str) {
    let at = (x, sheet.bottom + sheet.text);
    let list: &Attributes = &[
        ("font-family", &MONO),
        ("xml:space", &"preserve"),
        ("fill", &fill),
    ];
    sheet.add(label(at, text, sheet.text, list));
}
