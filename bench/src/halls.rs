//! The floors that are timed, as many columns as rows.

use cases::draw::{Draw, Use};
use cases::floor::Floor;
use cases::kinds;

/// The seed of what is drawn.
pub const SEED: u64 = 7;

/// One cell in five blocked, as the seed has it.
pub fn drawn(side: usize) -> Floor {
    let mut draw = Draw::new(SEED, 0, Use::Hall);
    blocked(side, |_| draw.percent(20))
}

/// Floor numbers divisible by 7 blocked.
pub fn sevenths(side: usize) -> Floor {
    blocked(side, |cell| cell % 7 == 0)
}

/// Five windows on each side between sectors.
pub fn combs(side: usize) -> Floor {
    let mut floor = Floor::open(side, side);
    kinds::combs(&mut floor, &mut Draw::new(SEED, 0, Use::Hall));
    floor
}

/// The floor with a wall from north to south, west of its middle column of sectors.
pub fn walled(mut floor: Floor) -> Floor {
    let x = floor.columns / 2 * 10;
    for y in 0..floor.height() {
        floor.block(x, y);
    }
    floor
}

fn blocked(side: usize, mut is_blocked: impl FnMut(usize) -> bool) -> Floor {
    let mut floor = Floor::open(side, side);
    for (cell, cost) in floor.costs.iter_mut().enumerate() {
        if is_blocked(cell) {
            *cost = 255;
        }
    }
    floor
}
