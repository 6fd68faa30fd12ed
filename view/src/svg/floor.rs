//! Cells, sector borders and windows: what lies below a route.

use super::colours::{CHANGED, CLOSED, INK, PAPER, WALL, WINDOW};
use super::shades::{class_of, classes};
use super::shapes::{Attributes, Point, line, rect, round};
use super::sheet::{CELL, SECTOR, Sheet};
use crate::floor::{BLOCKED, LENGTH};
use crate::hall::Window;

/// The width of a window on a border.
pub const BAR: f64 = 4.4;
/// The width of the frame of a changed cell.
pub const FRAME: f64 = 2.4;
/// The pattern of cells that scaling closes.
pub const STRIPES: &str = "<defs><pattern id=\"closed\" width=\"5\" height=\"5\" \
    patternUnits=\"userSpaceOnUse\" patternTransform=\"rotate(45)\">\
    <rect width=\"5\" height=\"5\" fill=\"#e7eaee\"/>\
    <rect width=\"1.6\" height=\"5\" fill=\"#8a929c\"/></pattern></defs>";

pub fn draw(sheet: &mut Sheet) {
    costs(sheet);
    grid(sheet);
    walls(sheet);
    changed(sheet);
    borders(sheet);
    windows(sheet);
}

fn costs(sheet: &mut Sheet) {
    let (hall, classes) = (sheet.hall, classes(&sheet.hall.floor));
    for (place, length, class) in sheet.runs(|place| class_of(&classes, hall.base(place))) {
        let size = (length as f64 * CELL, CELL);
        let list: &Attributes = &[("fill", &class.fill())];
        sheet.add(rect(sheet.corner(place), size, list));
    }
}

fn grid(sheet: &mut Sheet) {
    let (width, height) = (sheet.hall.floor.width(), sheet.hall.floor.height());
    let (right, bottom) = sheet.corner((width, height));
    let (left, top) = (sheet.left, sheet.top);
    let upright = |x: usize| format!("M{} {top}V{bottom}", sheet.corner((x, 0)).0);
    let level = |y: usize| format!("M{left} {}H{right}", sheet.corner((0, y)).1);
    let path: String = (1..width)
        .map(upright)
        .chain((1..height).map(level))
        .collect();
    sheet.add(format!(
        "<path d=\"{path}\" stroke=\"#8c959f\" stroke-opacity=\"0.3\" stroke-width=\"0.6\"/>"
    ));
}

/// Blocked cells, and those that scaling closes. Edges without blur leave no seams.
fn walls(sheet: &mut Sheet) {
    let hall = sheet.hall;
    let fill = |place| match hall.base(place) {
        BLOCKED => Some(WALL),
        _ => hall.is_narrow(place).then_some(CLOSED),
    };
    for (place, length, fill) in sheet.runs(fill) {
        let size = (length as f64 * CELL, CELL);
        let list: &Attributes = &[("fill", &fill), ("shape-rendering", &"crispEdges")];
        sheet.add(rect(sheet.corner(place), size, list));
    }
}

/// Frames of changed cells.
fn changed(sheet: &mut Sheet) {
    for change in sheet.scene.moment.changes() {
        let centre = sheet.centre(sheet.hall.floor.place(change.number));
        sheet.add(frame(centre, sheet.stroke(FRAME)));
    }
}

/// The frame of a changed cell, inside it, with a light edge that parts it from a wall.
pub fn frame((x, y): Point, width: f64) -> String {
    let square = |colour: &str, width: f64| {
        let half = (CELL - width) / 2.0;
        let list: &Attributes = &[
            ("fill", &"none"),
            ("stroke", &colour),
            ("stroke-width", &round(width)),
        ];
        rect((x - half, y - half), (2.0 * half, 2.0 * half), list)
    };
    square(PAPER, width + 1.0) + &square(CHANGED, width)
}

fn borders(sheet: &mut Sheet) {
    for column in 0..sheet.hall.floor.columns {
        for row in 0..sheet.hall.floor.rows {
            let corner = sheet.corner((column * LENGTH, row * LENGTH));
            let list: &Attributes = &[("fill", &"none"), ("stroke", &INK), ("stroke-width", &1.8)];
            sheet.add(rect(corner, (SECTOR, SECTOR), list));
        }
    }
}

/// The two ends of a window on the border.
pub fn span(sheet: &Sheet, sector: (usize, usize), window: Window) -> [Point; 2] {
    let ends =
        [window.first, window.last].map(|index| sheet.corner(sheet.hall.place(sector, index)));
    let [(x, y), (last_x, last_y)] = ends;
    let inset = CELL * 0.08;
    match window.side {
        0 => [(x + inset, y), (last_x + CELL - inset, y)],
        1 => [(x + CELL, y + inset), (x + CELL, last_y + CELL - inset)],
        2 => [(x + inset, y + CELL), (last_x + CELL - inset, y + CELL)],
        _ => [(x, y + inset), (x, last_y + CELL - inset)],
    }
}

/// A window on a border, with a light edge that parts it from what is below.
pub fn bar(ends: &[Point], colour: &str, width: f64) -> String {
    let edged = round(width * 1.6);
    line(ends, &[("stroke", &PAPER), ("stroke-width", &edged)])
        + &line(
            ends,
            &[("stroke", &colour), ("stroke-width", &round(width))],
        )
}

/// Windows as open stretches of the borders. They face each other over a border: each is
/// drawn once.
fn windows(sheet: &mut Sheet) {
    let all = sheet.hall.all_windows();
    for (sector, window) in all.filter(|(_, window)| [1, 2].contains(&window.side)) {
        let ends = span(sheet, sector, window);
        let width = sheet.stroke(BAR);
        sheet.add(bar(&ends, WINDOW, width));
    }
}
