//! Changes of a cost.

use crate::draw::Draw;
use crate::floor::Floor;

/// A floor number and its new cost; now and then the number is too large.
pub fn change(floor: &Floor, draw: &mut Draw) -> (usize, u8) {
    let cells = floor.costs.len();
    if draw.percent(2) {
        let past = draw.pick(&[0, 1, 99, 100, 65_535]);
        return (cells + past, draw.pick(&[0, 1, 255]));
    }
    let cell = match draw.below(10) {
        0..=2 => draw.below(cells),
        3..=7 => near_border(cells, draw),
        _ => blocked_cell(floor, draw),
    };
    let toggled = if floor.costs[cell] == 255 { 1 } else { 255 };
    let cost = draw.weighted(&[
        (55, toggled),
        (20, 255),
        (10, 1),
        (8, floor.costs[cell]),
        (4, 0),
        (3, 254),
    ]);
    (cell, cost)
}

/// A cell on or beside a border of its sector.
fn near_border(cells: usize, draw: &mut Draw) -> usize {
    let sector = draw.below(cells / 100);
    let (near, place) = (draw.pick(&[0, 1, 2, 7, 8, 9]), draw.below(10));
    sector * 100 + draw.pick(&[near * 10 + place, place * 10 + near])
}

/// A blocked cell, if a few tries find one.
fn blocked_cell(floor: &Floor, draw: &mut Draw) -> usize {
    let mut cell = draw.below(floor.costs.len());
    for _ in 0..40 {
        if floor.costs[cell] == 255 {
            break;
        }
        cell = draw.below(floor.costs.len());
    }
    cell
}
