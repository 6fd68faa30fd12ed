//! The answers to many pairs as a table.

use crate::card::{Answer, Card};
use crate::hall::Hall;
use crate::words::counted;

const HEAD: [&str; 7] = ["pair", "source", "goal", "steps", "leg", "run", "moves"];

/// A line for each card: its numbers, or why it has none.
pub fn draw(hall: &Hall, cards: &[Card]) -> String {
    let rows: Vec<(Vec<String>, String)> = (1..)
        .zip(cards)
        .map(|(number, card)| row(hall, number, card))
        .collect();
    let widths: Vec<usize> = (0..HEAD.len())
        .map(|column| {
            let cells = rows.iter().filter_map(|(cells, _)| cells.get(column));
            cells.map(String::len).fold(HEAD[column].len(), usize::max)
        })
        .collect();
    let mut text = line(&HEAD.map(String::from), &widths) + "\n";
    for (cells, reason) in &rows {
        text.push_str(&format!("{}{reason}\n", line(cells, &widths)));
    }
    let routes = cards.iter().filter(|card| !card.steps().is_empty()).count();
    let pairs = counted(cards.len(), "pair");
    text + &format!("\n{pairs}, {}\n", counted(routes, "route"))
}

/// The cells of a card's line, and what stands behind them.
fn row(hall: &Hall, number: usize, card: &Card) -> (Vec<String>, String) {
    let named = |number: usize| match hall.floor.costs.get(number) {
        None => number.to_string(),
        Some(_) => {
            let (x, y) = hall.floor.place(number);
            format!("{number} ({x},{y})")
        }
    };
    let mut cells = vec![number.to_string(), named(card.source), named(card.goal)];
    match &card.answer {
        Answer::Route { steps, leg, run } => {
            let numbers = [steps.len() as u32, *leg, *run, leg + run];
            cells.extend(numbers.map(|number| number.to_string()));
            (cells, String::new())
        }
        _ => (cells, format!("  {}", card.outcome(hall))),
    }
}

fn line(cells: &[String], widths: &[usize]) -> String {
    let cells = cells.iter().zip(widths);
    cells
        .map(|(cell, width)| format!("  {cell:>width$}"))
        .collect()
}
