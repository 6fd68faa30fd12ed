//! A floor as text: cells, sector borders, windows, midpoints, and the way of a card.

mod canvas;
mod legend;

use crate::card::Card;
use crate::changes::Moment;
use crate::hall::Hall;
use crate::scene::Scene;
use crate::walk::walk;
use canvas::Canvas;

/// The floor, its legend and the card as lines; with colours if the terminal shows them.
pub fn draw(scene: Scene, colours: bool) -> String {
    let (hall, card) = (scene.hall, scene.card);
    let mut canvas = Canvas::empty(hall);
    canvas.scales();
    canvas.cells();
    canvas.borders();
    if let Some(no_route) = card.and_then(Card::no_route) {
        canvas.area(no_route);
    }
    let way = card.map(|card| walk(hall, card)).unwrap_or_default();
    canvas.way(&way);
    canvas.midpoints();
    if let Some(no_route) = card.and_then(Card::no_route) {
        canvas.closing(no_route);
    }
    canvas.changed(scene.moment.changes());
    if let Some(card) = card {
        canvas.steps(card);
    }
    let planned = scene.planned.map(|text| format!("\n{text}\n"));
    heading(scene.moment)
        + &canvas.text(colours)
        + "\n"
        + &legend::draw(scene)
        + &planned.unwrap_or_default()
        + &told(scene.moment, hall)
        + &card.map(|card| words(hall, card)).unwrap_or_default()
}

/// The name of a moment where there are two.
pub fn heading(moment: Moment) -> String {
    let name = moment.name();
    name.map_or(String::new(), |name| format!("{name}\n\n"))
}

/// What was changed, below an empty line.
pub fn told(moment: Moment, hall: &Hall) -> String {
    let lines = moment.told(hall);
    let lines: String = lines.iter().map(|line| format!("  {line}\n")).collect();
    if lines.is_empty() {
        lines
    } else {
        format!("\n{lines}")
    }
}

/// The card as a line, and in words.
fn words(hall: &Hall, card: &Card) -> String {
    let mut text = format!("\n{}\n  {}\n", card.line(), card.outcome(hall));
    for detail in card.details(hall) {
        text.push_str(&format!("  {detail}\n"));
    }
    text
}
