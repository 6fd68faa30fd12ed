//! Item 7: trolley scaling.

use crate::cells::{BLOCKED, CELLS};
use crate::directions::DIRECTIONS;
use crate::floor::{floor_number, numbers_of, Floor};

/// The cells passed if the walk stops at a blocked cell or the end of the
/// floor, none if it takes all its steps.
fn cells_passed(
    floor: Floor,
    scale: u8,
    scaled: &[u8],
    from: usize,
    direction: usize,
) -> Option<usize> {
    let stops = |steps: &usize| match floor.step(from, direction, *steps) {
        Some(reached) => scaled[reached] == BLOCKED,
        None => true,
    };
    (1..=scale.into()).find(stops).map(|steps| steps - 1)
}

/// One walk. Cells passed become 255 in the sector where the walk began, at
/// the index of the cell reached, also for cells over a border.
fn walk(floor: Floor, scale: u8, scaled: &mut [u8], from: usize, direction: usize) {
    let Some(passed) = cells_passed(floor, scale, scaled, from, direction) else {
        return;
    };
    for steps in 1..=passed {
        if let Some(reached) = floor.step(from, direction, steps) {
            scaled[floor_number(from / CELLS, reached % CELLS)] = BLOCKED;
        }
    }
}

/// The walks of one sector: base-blocked cells in index order, then directions.
pub fn scale_sector(floor: Floor, scale: u8, base: &[u8], scaled: &mut [u8], sector: usize) {
    for from in numbers_of(sector).filter(|&number| base[number] == BLOCKED) {
        for direction in 0..DIRECTIONS.len() {
            walk(floor, scale, scaled, from, direction);
        }
    }
}

/// Scaling of the whole floor: scaled costs start as base costs, sectors go in
/// number order.
pub fn scaled_costs(floor: Floor, scale: u8, base: &[u8]) -> Vec<u8> {
    let mut scaled = base.to_vec();
    for sector in 0..floor.sectors() {
        scale_sector(floor, scale, base, &mut scaled, sector);
    }
    scaled
}
