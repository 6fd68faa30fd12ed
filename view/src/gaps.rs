//! What scaling closes and what it leaves open, measured against the trolley's width.

use std::fmt;

use crate::drawing::Drawn;
use crate::floor::{BLOCKED, Place};
use crate::hall::Hall;
use crate::words::counted;

/// What scaling does, in the one wording that every document has.
pub const RULE: &str = "Scaling closes gaps of fewer than scale cells between walls, seen along \
    eight directions from a blocked cell, up to the next cell that is blocked or already closed, \
    or to the end of the floor. It can leave open: gaps of scale cells or more, cells beside a \
    wall, and cells of a narrow gap behind a cell already closed or over a sector border.";

/// What follows for whoever plans a hall, in the same wording everywhere.
pub const DUTY: &str = "Scale is radius over unit, rounded up, but a trolley is two radii wide: \
    with radius 2 and unit 1 it is 4 cells wide, and gaps of 2 cells stay open to it. Whoever \
    plans the hall has to choose unit and radius so that every gap that stays open is wide enough.";

/// The highest scale.
const MOST_SCALE: usize = 9;

/// Cells of a row or column between two walls, or a wall and the end of the floor, not all of
/// them closed.
#[derive(Debug, Clone, Copy, PartialEq, Eq)]
pub struct Gap {
    pub first: Place,
    pub last: Place,
    pub cells: usize,
}

impl fmt::Display for Gap {
    fn fmt(&self, f: &mut fmt::Formatter) -> fmt::Result {
        let ((x, y), (last_x, last_y)) = (self.first, self.last);
        match self.cells {
            1 => write!(f, "1 cell at {x},{y}"),
            cells => write!(f, "{cells} cells from {x},{y} to {last_x},{last_y}"),
        }
    }
}

/// The rows and columns of a floor, each as its places in order.
fn straight_lines(hall: &Hall) -> Vec<Vec<Place>> {
    let (width, height) = (hall.floor.width(), hall.floor.height());
    let row = |y| (0..width).map(|x| (x, y)).collect();
    let column = |x| (0..height).map(|y| (x, y)).collect();
    (0..height).map(row).chain((0..width).map(column)).collect()
}

/// The gaps of a line that stay open. A line without walls is no gap.
fn gaps_of(hall: &Hall, line: &[Place]) -> Vec<Gap> {
    line.split(|place| hall.base(*place) == BLOCKED)
        .filter(|run| run.len() < line.len() && run.iter().any(|place| hall.is_open(*place)))
        .map(|run| Gap {
            first: run[0],
            last: run[run.len() - 1],
            cells: run.len(),
        })
        .collect()
}

/// The gaps that stay open and have fewer cells than the trolley is wide, the narrowest first.
pub fn too_narrow(hall: &Hall, width: usize) -> Vec<Gap> {
    let lines = straight_lines(hall);
    let mut gaps: Vec<Gap> = lines.iter().flat_map(|line| gaps_of(hall, line)).collect();
    gaps.retain(|gap| gap.cells < width);
    gaps.sort_by_key(|gap| gap.cells);
    gaps
}

/// What is to be said of a trolley that is wider than gaps that stay open to it.
pub fn warning(hall: &Hall, drawn: &Drawn) -> Option<String> {
    let width = drawn.cells_wide()?;
    let (scale, gaps) = (usize::from(hall.floor.scale), too_narrow(hall, width));
    if width <= scale && gaps.is_empty() {
        return None;
    }
    let here = match gaps[..] {
        [] => "no gap of this floor is narrower".to_string(),
        [gap] => format!("1 narrower gap of this floor stays open: {gap}"),
        [gap, ..] => format!(
            "{} narrower gaps of this floor stay open, the narrowest: {gap}",
            gaps.len()
        ),
    };
    Some(format!(
        "the trolley is {} wide, and scale {scale} closes only gaps of fewer than {}; {here}; {}",
        counted(width, "cell"),
        counted(scale, "cell"),
        remedy(drawn, width, scale)
    ))
}

fn remedy(drawn: &Drawn, width: usize, scale: usize) -> String {
    if width <= scale {
        return "block in the drawing what is too narrow".to_string();
    }
    let stated = match width {
        ..=MOST_SCALE => format!("for this trolley take scale {width}"),
        _ => format!("no scale is above {MOST_SCALE}: make the cells larger"),
    };
    let planned = drawn.plan.and_then(|plan| plan.remedy());
    planned.unwrap_or(stated)
}
