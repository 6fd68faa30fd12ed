//! Lent stores: they pass the check, whatever their costs and marks say of each other.

use crate::draw::{Draw, Use};
use crate::floor::Floor;
use crate::halls::{self, Hall};

/// The store of this seed and number, and the floor of its scaled costs.
pub fn store(seed: u64, case: u64) -> (Vec<u8>, Floor) {
    let mut draw = Draw::new(seed, case, Use::Store);
    lent(&halls::hall(seed, case), &mut draw)
}

/// A store with the measures and base costs of this hall, and the floor of its scaled costs.
pub fn lent(hall: &Hall, draw: &mut Draw) -> (Vec<u8>, Floor) {
    let mut scaled = hall.floor.clone();
    let altered = draw.pick(&[0, 0, 10, 50, 200, 1000]);
    for cost in scaled.costs.iter_mut() {
        if draw.below(1000) < altered {
            *cost = draw.pick(&[1, 1, 0, 254, 255]);
        }
    }
    let mut store = hall.measures().to_vec();
    store.push(0);
    store.extend(&hall.floor.costs);
    store.extend(&scaled.costs);
    store.extend(marks(scaled.columns, scaled.rows, draw));
    (store, scaled)
}

/// The bytes of marks that pass the check, whatever the costs are.
pub fn marks(columns: usize, rows: usize, draw: &mut Draw) -> Vec<u8> {
    let mask = draw.pick(&[0, 1023, 1023, 1023, 0b10_0000_0001, 0b01_0101_0101]);
    let mut bytes = vec![];
    for sector in 0..columns * rows {
        let (column, row) = (sector / rows, sector % rows);
        // Whether the sector has a neighbour N, E, S, W.
        let sides = [row > 0, column + 1 < columns, row + 1 < rows, column > 0];
        for present in sides {
            let mark = if present { mark(mask, draw) } else { 0 };
            bytes.extend(mark.to_le_bytes());
        }
    }
    bytes
}

/// A mark with bits of the mask only, more or less full.
fn mark(mask: u16, draw: &mut Draw) -> u16 {
    let bits = draw.bits();
    let sparse = (bits & bits >> 16) as u16;
    let dense = (bits | bits >> 16) as u16;
    mask & draw.pick(&[bits as u16, sparse, dense])
}
