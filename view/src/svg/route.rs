//! The way of a card and the windows of its steps.

use super::colours::{ROUTE, STEP_WINDOW};
use super::floor::{BAR, bar, span};
use super::shapes::{Attributes, Point, line, round};
use super::sheet::Sheet;
use crate::card::Card;
use crate::floor::Place;
use crate::walk::walk;

/// The width of the way.
const WAY: f64 = 2.8;

/// What lies below the costs and midpoints of the floor.
pub fn draw(sheet: &mut Sheet, card: &Card) {
    windows(sheet, card);
    way(sheet, card);
}

/// The line from cell to cell.
fn way(sheet: &mut Sheet, card: &Card) {
    let way = corners(&walk(sheet.hall, card));
    let points: Vec<Point> = way.iter().map(|place| sheet.centre(*place)).collect();
    let width = round(sheet.stroke(WAY));
    let list: &Attributes = &[
        ("stroke", &ROUTE),
        ("stroke-width", &width),
        ("stroke-linejoin", &"round"),
        ("stroke-linecap", &"round"),
    ];
    if points.len() > 1 {
        sheet.add(line(&points, list));
    }
}

/// The windows that the card names.
fn windows(sheet: &mut Sheet, card: &Card) {
    for step in card.steps() {
        if let Some(window) = step.window {
            let ends = span(sheet, step.sector, window);
            let width = sheet.stroke(BAR);
            sheet.add(bar(&ends, STEP_WINDOW, width));
        }
    }
}

/// The cells of a way at which it turns, and its ends.
fn corners(way: &[Place]) -> Vec<Place> {
    let ahead = |from: Place, to: Place| {
        let (x, y) = (to.0 as isize, to.1 as isize);
        (x - from.0 as isize, y - from.1 as isize)
    };
    let turns = |at: &usize| match way.get(at + 1) {
        Some(next) if *at > 0 => ahead(way[at - 1], way[*at]) != ahead(way[*at], *next),
        _ => true,
    };
    (0..way.len()).filter(turns).map(|at| way[at]).collect()
}
