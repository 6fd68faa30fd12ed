//! A floor as a drawing.

use super::Drawn;
use crate::floor::{Floor, LENGTH, Place, UNNAMED};
use crate::symbols;

/// The places of a pair if both can be marked: a mark is a cell of cost 1, and a cell has
/// one mark.
fn marks(floor: &Floor, (source, goal): (usize, usize)) -> Option<(Place, Place)> {
    let is_plain = |number| floor.costs.get(number) == Some(&UNNAMED);
    let can_mark = source != goal && is_plain(source) && is_plain(goal);
    can_mark.then(|| (floor.place(source), floor.place(goal)))
}

/// The drawing of a floor, with rulings between sectors; its first pair is marked if it can be,
/// and the other pairs on the floor are listed.
pub fn write(drawn: &Drawn) -> String {
    let floor = &drawn.floor;
    let table = symbols::table(floor);
    let ends = drawn.pairs.first().and_then(|pair| marks(floor, *pair));
    let listed = &drawn.pairs[usize::from(ends.is_some())..];
    settings(drawn, &table) + &pairs(floor, listed) + "\n" + &rows(floor, &table, ends)
}

fn pairs(floor: &Floor, pairs: &[(usize, usize)]) -> String {
    let on_floor = |number: usize| number < floor.costs.len();
    let named = |number| {
        let (x, y) = floor.place(number);
        format!("{x},{y}")
    };
    let pairs = pairs.iter();
    pairs
        .filter(|(source, goal)| on_floor(*source) && on_floor(*goal))
        .map(|(source, goal)| format!("pair {} {}\n", named(*source), named(*goal)))
        .collect()
}

fn settings(drawn: &Drawn, table: &[(char, u8)]) -> String {
    let mut text = match drawn.plan {
        Some(plan) => plan.line() + "\n",
        None => format!("scale {}\n", drawn.floor.scale),
    };
    if let Some(width) = drawn.width {
        text.push_str(&format!("width {width}\n"));
    }
    let named = table.iter();
    for (symbol, cost) in named.filter(|(symbol, _)| symbols::fixed_cost(*symbol).is_none()) {
        text.push_str(&format!("{symbol} = {cost}\n"));
    }
    text
}

fn rows(floor: &Floor, table: &[(char, u8)], ends: Option<(Place, Place)>) -> String {
    let mut text = String::new();
    let ruling = format!("+{}\n", "----------+".repeat(floor.columns));
    for (x, y) in floor.places() {
        if x == 0 && y % LENGTH == 0 {
            text.push_str(&ruling);
        }
        if x % LENGTH == 0 {
            text.push('|');
        }
        let cost = floor.costs[floor.number((x, y))];
        text.push(match ends {
            Some((source, _)) if source == (x, y) => symbols::SOURCE,
            Some((_, goal)) if goal == (x, y) => symbols::GOAL,
            _ => symbols::symbol_of(table, cost),
        });
        if x + 1 == floor.width() {
            text.push_str("|\n");
        }
    }
    text + &ruling
}
