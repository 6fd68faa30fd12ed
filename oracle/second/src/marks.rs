//! Item 8, first part: the open places of a side, as side marks.

use crate::cells::{index, BLOCKED, LENGTH};
use crate::directions::{opposite, SIDES};
use crate::floor::{floor_number, Floor};

/// The marks of a sector's sides N, E, S, W.
pub type Marks = [u16; SIDES];

/// The border cell of a sector at a place of a side.
pub fn border_cell(side: usize, place: usize) -> usize {
    let last = LENGTH - 1;
    match side {
        0 => index((place, 0)),
        1 => index((last, place)),
        2 => index((place, last)),
        _ => index((0, place)),
    }
}

/// The mark of one side: bit i if the border cells on both sides are open at
/// place i, 0 on a side without neighbour.
fn side_mark(floor: Floor, scaled: &[u8], sector: usize, side: usize) -> u16 {
    let Some(facing) = floor.neighbour(sector, side) else {
        return 0;
    };
    let open =
        |sector, side, place| scaled[floor_number(sector, border_cell(side, place))] != BLOCKED;
    (0..LENGTH)
        .filter(|&place| open(sector, side, place) && open(facing, opposite(side), place))
        .fold(0, |mark, place| mark | 1 << place)
}

/// The marks of one sector.
pub fn sector_marks(floor: Floor, scaled: &[u8], sector: usize) -> Marks {
    std::array::from_fn(|side| side_mark(floor, scaled, sector, side))
}

/// The marks of all sectors by sector number.
pub fn marks_of(floor: Floor, scaled: &[u8]) -> Vec<Marks> {
    (0..floor.sectors())
        .map(|sector| sector_marks(floor, scaled, sector))
        .collect()
}
