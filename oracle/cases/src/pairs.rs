//! Sources and goals of routes.

use crate::draw::Draw;
use crate::floor::Floor;

/// How a pair is chosen.
#[derive(Clone, Copy)]
enum Choice {
    Open,
    Any,
    SameSector,
    Borders,
    Corners,
    SameCell,
}

const CHOICES: [(usize, Choice); 6] = [
    (60, Choice::Open),
    (8, Choice::Any),
    (10, Choice::SameSector),
    (12, Choice::Borders),
    (8, Choice::Corners),
    (2, Choice::SameCell),
];

/// A source and a goal on the floor.
pub fn pair(floor: &Floor, draw: &mut Draw) -> (usize, usize) {
    let cells = floor.costs.len();
    match draw.weighted(&CHOICES) {
        Choice::Open => (open_cell(floor, draw), open_cell(floor, draw)),
        Choice::Any => (draw.below(cells), draw.below(cells)),
        Choice::SameSector => {
            let source = open_cell(floor, draw);
            (source, source / 100 * 100 + draw.below(100))
        }
        Choice::Borders => (border_cell(cells, draw), border_cell(cells, draw)),
        Choice::Corners => (corner(floor, draw), corner(floor, draw)),
        Choice::SameCell => {
            let cell = draw.below(cells);
            (cell, cell)
        }
    }
}

/// A pair as the program reads it.
pub fn put((source, goal): (usize, usize), input: &mut Vec<u8>) {
    input.extend((source as u16).to_le_bytes());
    input.extend((goal as u16).to_le_bytes());
}

/// A cell that is open, if a few tries find one.
fn open_cell(floor: &Floor, draw: &mut Draw) -> usize {
    let mut cell = draw.below(floor.costs.len());
    for _ in 0..30 {
        if floor.costs[cell] != 255 {
            break;
        }
        cell = draw.below(floor.costs.len());
    }
    cell
}

/// A cell on its sector's border.
fn border_cell(cells: usize, draw: &mut Draw) -> usize {
    let sector = draw.below(cells / 100);
    let place = draw.below(10);
    sector * 100 + draw.pick(&[place, 90 + place, place * 10, place * 10 + 9])
}

/// A corner of the floor or of a sector.
fn corner(floor: &Floor, draw: &mut Draw) -> usize {
    let (width, height) = (floor.width(), floor.height());
    if draw.percent(60) {
        floor.number(draw.pick(&[0, width - 1]), draw.pick(&[0, height - 1]))
    } else {
        draw.below(floor.costs.len() / 100) * 100 + draw.pick(&[0, 9, 90, 99])
    }
}
