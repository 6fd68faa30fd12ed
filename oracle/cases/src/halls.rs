//! Halls: measures and base costs.

use crate::draw::{Draw, Use};
use crate::floor::Floor;
use crate::kinds::{self, Kind};

/// What a hall is built from.
#[derive(Clone)]
pub struct Hall {
    pub kind: Kind,
    pub scale: u8,
    pub floor: Floor,
}

const KINDS: [(usize, Kind); 10] = [
    (5, Kind::Open),
    (20, Kind::Density),
    (17, Kind::Dots),
    (12, Kind::Walls),
    (9, Kind::Combs),
    (8, Kind::Corridors),
    (8, Kind::CornerGaps),
    (9, Kind::Divisible),
    (8, Kind::Maze),
    (4, Kind::NearlyBlocked),
];

const SCALES: [(usize, u8); 9] = [
    (45, 1),
    (20, 2),
    (11, 3),
    (6, 4),
    (5, 5),
    (4, 6),
    (3, 7),
    (3, 8),
    (3, 9),
];

/// The hall of this seed and number.
pub fn hall(seed: u64, case: u64) -> Hall {
    let mut draw = Draw::new(seed, case, Use::Hall);
    let (columns, rows) = size(&mut draw);
    let scale = draw.weighted(&SCALES);
    let kind = draw.weighted(&KINDS);
    let mut floor = Floor::open(columns, rows);
    kinds::fill(kind, scale.into(), &mut floor, &mut draw);
    if draw.percent(30) {
        vary_open_costs(&mut floor, &mut draw);
    }
    Hall { kind, scale, floor }
}

/// Small floors far more often than large ones, which take long.
fn size(draw: &mut Draw) -> (usize, usize) {
    match draw.below(200) {
        0 => (10, 10),
        1..=5 => (draw.from_to(1, 10), draw.from_to(1, 10)),
        6..=15 => (draw.from_to(6, 10), draw.from_to(1, 2)),
        16..=25 => (draw.from_to(1, 2), draw.from_to(6, 10)),
        26..=85 => (draw.from_to(2, 5), draw.from_to(2, 5)),
        _ => (draw.from_to(1, 3), draw.from_to(1, 3)),
    }
}

/// Open cells may cost anything from 0 to 254.
fn vary_open_costs(floor: &mut Floor, draw: &mut Draw) {
    for cost in floor.costs.iter_mut().filter(|cost| **cost != 255) {
        *cost = draw.pick(&[0, 1, 2, 100, 253, 254]);
    }
}

impl Hall {
    pub fn sectors(&self) -> usize {
        self.floor.columns * self.floor.rows
    }

    /// Columns, rows and scale as the calls take them.
    pub fn measures(&self) -> [u8; 3] {
        [self.floor.columns as u8, self.floor.rows as u8, self.scale]
    }
}
