//! Where there is no route: the area that the source reaches, and the cells in the way.

use super::colours::{CLOSING, PAPER, REACHED};
use super::shapes::{Attributes, Point, line, rect, round};
use super::sheet::{CELL, Sheet};
use crate::no_route::NoRoute;

/// What lies below walls and borders.
pub fn draw_area(sheet: &mut Sheet, no_route: &NoRoute) {
    let reached = &no_route.reached;
    for (place, length, ()) in sheet.runs(|place| reached.contains(&place).then_some(())) {
        let size = (length as f64 * CELL, CELL);
        sheet.add(rect(sheet.corner(place), size, &[("fill", &REACHED)]));
    }
}

/// What lies above them.
pub fn draw_closing(sheet: &mut Sheet, no_route: &NoRoute) {
    let half = (CELL * 0.44).max(sheet.text * 0.36);
    for place in &no_route.closing {
        sheet.add(closing(sheet.centre(*place), half));
    }
}

/// A cell in the way, as a mark of some size.
pub fn closing((x, y): Point, half: f64) -> String {
    let (arm, width) = (half * 0.6, round(half * 0.28));
    let frame: &Attributes = &[
        ("fill", &PAPER),
        ("stroke", &CLOSING),
        ("stroke-width", &width),
    ];
    let stroke: &Attributes = &[("stroke", &CLOSING), ("stroke-width", &width)];
    rect((x - half, y - half), (2.0 * half, 2.0 * half), frame)
        + &line(&[(x - arm, y - arm), (x + arm, y + arm)], stroke)
        + &line(&[(x - arm, y + arm), (x + arm, y - arm)], stroke)
}
