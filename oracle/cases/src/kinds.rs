//! Kinds of floors.

use crate::draw::Draw;
use crate::floor::Floor;

/// How a floor is filled.
#[derive(Clone, Copy, PartialEq, Eq, PartialOrd, Ord, Debug)]
pub enum Kind {
    Open,
    Density,
    Dots,
    Walls,
    Combs,
    Corridors,
    CornerGaps,
    Divisible,
    Maze,
    NearlyBlocked,
}

/// A side's ten places with five windows and both corners open: one of the runs
/// or one of the gaps is two places long.
const COMBS: [u16; 9] = [
    0b10_1010_1011,
    0b10_1010_1101,
    0b10_1011_0101,
    0b10_1101_0101,
    0b11_0101_0101,
    0b10_1010_1001,
    0b10_1010_0101,
    0b10_1001_0101,
    0b10_0101_0101,
];

/// Fills an open floor.
pub fn fill(kind: Kind, scale: usize, floor: &mut Floor, draw: &mut Draw) {
    match kind {
        Kind::Open => {}
        Kind::Density => density(floor, scale, draw),
        Kind::Dots => dots(floor, draw),
        Kind::Walls => walls(floor, draw),
        Kind::Combs => scattered_combs(floor, draw),
        Kind::Corridors => corridors(floor, draw),
        Kind::CornerGaps => corner_gaps(floor, draw),
        Kind::Divisible => divisible(floor, draw),
        Kind::Maze => maze(floor, draw),
        Kind::NearlyBlocked => scatter(floor, 600 + draw.below(350), draw),
    }
}

/// Blocks each cell so many times in a thousand.
fn scatter(floor: &mut Floor, per_thousand: usize, draw: &mut Draw) {
    for cost in floor.costs.iter_mut() {
        if draw.below(1000) < per_thousand {
            *cost = 255;
        }
    }
}

/// A density that leaves something open at this scale.
fn density(floor: &mut Floor, scale: usize, draw: &mut Draw) {
    let most = if scale == 1 { 450 } else { 300 / scale };
    let per_thousand = draw.from_to(3, most);
    scatter(floor, per_thousand, draw);
}

/// A few blocked cells a sector, most of them near its borders.
fn dots(floor: &mut Floor, draw: &mut Draw) {
    let most = draw.from_to(1, 6);
    for sector in 0..floor.columns * floor.rows {
        for _ in 0..draw.below(most + 1) {
            let near = [0, 1, 2, 7, 8, 9];
            let (mut x, y) = (draw.pick(&near), draw.below(10));
            if draw.percent(20) {
                x = draw.below(10);
            }
            let index = if draw.percent(50) {
                y * 10 + x
            } else {
                x * 10 + y
            };
            floor.costs[sector * 100 + index] = 255;
        }
    }
}

/// Straight walls over the whole floor, with a few gaps.
fn walls(floor: &mut Floor, draw: &mut Draw) {
    let (width, height) = (floor.width(), floor.height());
    for _ in 0..draw.from_to(1, 1 + floor.columns + floor.rows) {
        let upright = draw.percent(50);
        let (across, along) = if upright {
            (width, height)
        } else {
            (height, width)
        };
        let at = draw.below(across);
        let mut gaps = vec![];
        for _ in 0..draw.below(4) {
            let first = draw.below(along);
            gaps.push(first..first + draw.from_to(1, 3));
        }
        for i in (0..along).filter(|i| !gaps.iter().any(|gap| gap.contains(i))) {
            let (x, y) = if upright { (at, i) } else { (i, at) };
            floor.block(x, y);
        }
    }
}

/// Five windows on each side between sectors.
pub fn combs(floor: &mut Floor, draw: &mut Draw) {
    for column in 0..floor.columns {
        for row in 0..floor.rows {
            let (x, y) = (column * 10, row * 10);
            let (east, south) = (draw.pick(&COMBS), draw.pick(&COMBS));
            for i in 0..10 {
                if column + 1 < floor.columns && east >> i & 1 == 0 {
                    floor.block(x + 9, y + i);
                    floor.block(x + 10, y + i);
                }
                if row + 1 < floor.rows && south >> i & 1 == 0 {
                    floor.block(x + i, y + 9);
                    floor.block(x + i, y + 10);
                }
            }
        }
    }
}

/// Combs, some of them with blocked cells anywhere.
fn scattered_combs(floor: &mut Floor, draw: &mut Draw) {
    combs(floor, draw);
    if draw.percent(40) {
        let per_thousand = draw.from_to(10, 150);
        scatter(floor, per_thousand, draw);
    }
}

/// Aisles one cell wide in a blocked floor, each from one aisle's end to a new place.
fn corridors(floor: &mut Floor, draw: &mut Draw) {
    floor.costs.fill(255);
    let (mut x, mut y) = (draw.below(floor.width()), draw.below(floor.height()));
    for _ in 0..3 + 2 * floor.columns * floor.rows {
        let (to_x, to_y) = (draw.below(floor.width()), draw.below(floor.height()));
        let corner = if draw.percent(50) {
            (to_x, y)
        } else {
            (x, to_y)
        };
        carve(floor, (x, y), corner);
        carve(floor, corner, (to_x, to_y));
        (x, y) = (to_x, to_y);
    }
}

/// Opens the cells of a straight line, ends included.
fn carve(floor: &mut Floor, from: (usize, usize), to: (usize, usize)) {
    for x in from.0.min(to.0)..=from.0.max(to.0) {
        for y in from.1.min(to.1)..=from.1.max(to.1) {
            floor.set(x, y, 1);
        }
    }
}

/// Blocked borders with gaps at corners only, or nearly only.
fn corner_gaps(floor: &mut Floor, draw: &mut Draw) {
    let open = draw.from_to(30, 100);
    let stray = draw.below(8);
    for x in 0..floor.width() {
        for y in 0..floor.height() {
            let edges =
                usize::from([0, 9].contains(&(x % 10))) + usize::from([0, 9].contains(&(y % 10)));
            let blocked = match edges {
                0 => false,
                1 => !draw.percent(stray),
                _ => !draw.percent(open),
            };
            if blocked {
                floor.block(x, y);
            }
        }
    }
    open_beside_corners(floor, draw);
}

/// Lets corners be reached from inside their sectors.
fn open_beside_corners(floor: &mut Floor, draw: &mut Draw) {
    for sector in 0..floor.columns * floor.rows {
        for index in [1, 10, 8, 19, 80, 91, 89, 98] {
            if draw.percent(50) {
                floor.costs[sector * 100 + index] = 1;
            }
        }
    }
}

/// Floor numbers divisible by 7, or by another small number.
fn divisible(floor: &mut Floor, draw: &mut Draw) {
    let by = draw.weighted(&[(6, 7), (1, 3), (1, 5), (1, 11), (1, 13)]);
    for cost in floor.costs.iter_mut().step_by(by) {
        *cost = 255;
    }
}

/// A maze over the whole floor: rooms at even places, joined as a tree, then a few holes.
fn maze(floor: &mut Floor, draw: &mut Draw) {
    floor.costs.fill(255);
    let (width, height) = (floor.width(), floor.height());
    let mut trail = vec![(0, 0)];
    floor.set(0, 0, 1);
    while let Some((x, y)) = trail.last().copied() {
        let mut rooms = vec![];
        for (step_x, step_y) in [(0, -2), (2, 0), (0, 2), (-2, 0)] {
            let room = (x as i32 + step_x, y as i32 + step_y);
            let inside =
                (0..width as i32).contains(&room.0) && (0..height as i32).contains(&room.1);
            if inside && !floor.is_open(room.0 as usize, room.1 as usize) {
                rooms.push((room.0 as usize, room.1 as usize));
            }
        }
        if rooms.is_empty() {
            trail.pop();
        } else {
            let room = draw.pick(&rooms);
            carve(floor, (x, y), room);
            trail.push(room);
        }
    }
    for _ in 0..draw.below(1 + 6 * floor.columns * floor.rows) {
        let (x, y) = (draw.below(width), draw.below(height));
        floor.set(x, y, 1);
    }
}
