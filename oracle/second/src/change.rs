//! The change call: one cost, and the sectors around it afresh.

use crate::cells::CELLS;
use crate::directions::{opposite, DIRECTIONS, SIDES};
use crate::floor::{numbers_of, Floor};
use crate::marks::sector_marks;
use crate::refusal::{number_of, refuse_if};
use crate::scaling::scale_sector;
use crate::store::Hall;
use crate::windows::window_count;

/// Change: the store check, 21 and 22, or 0 and the altered store.
pub fn change(store: &mut [u8], floor_number: usize, cost: u8) -> u8 {
    number_of(changed(store, floor_number, cost).map(|hall| hall.write(store)))
}

/// The hall after the change, worked out beside the store.
fn changed(store: &[u8], floor_number: usize, cost: u8) -> Result<Hall, u8> {
    let mut hall = Hall::read(store)?;
    refuse_if(floor_number >= hall.floor.cells(), 21)?;
    let fresh = fresh_sectors(hall.floor, floor_number / CELLS);
    hall.base[floor_number] = cost;
    rescale(&mut hall, &fresh);
    for &sector in &fresh {
        hall.marks[sector] = sector_marks(hall.floor, &hall.scaled, sector);
    }
    refuse_if(
        fresh.iter().any(|&sector| outgrows(&hall, &fresh, sector)),
        22,
    )?;
    Ok(hall)
}

/// The sector first, then those around it, N, E, S, W, NE, SE, SW, NW.
fn fresh_sectors(floor: Floor, sector: usize) -> Vec<usize> {
    let around = (0..DIRECTIONS.len()).filter_map(|direction| floor.neighbour(sector, direction));
    std::iter::once(sector).chain(around).collect()
}

/// All are reset to base before the first is scaled again.
fn rescale(hall: &mut Hall, fresh: &[usize]) {
    for &sector in fresh {
        let numbers = numbers_of(sector);
        hall.scaled[numbers.clone()].copy_from_slice(&hall.base[numbers]);
    }
    for &sector in fresh {
        scale_sector(hall.floor, hall.scale, &hall.base, &mut hall.scaled, sector);
    }
}

/// Refusal 22: more windows on a side of a sector marked afresh than on the
/// facing side of a sector that is not.
fn outgrows(hall: &Hall, fresh: &[usize], sector: usize) -> bool {
    let count = |sector: usize, side: usize| window_count(hall.marks[sector][side]);
    (0..SIDES).any(|side| match hall.floor.neighbour(sector, side) {
        Some(facing) if !fresh.contains(&facing) => {
            count(sector, side) > count(facing, opposite(side))
        }
        _ => false,
    })
}
