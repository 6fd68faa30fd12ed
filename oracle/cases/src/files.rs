//! Hall files.

use crate::damage::{self, Turn};
use crate::draw::{Draw, Use};
use crate::floor::Floor;
use crate::halls::{self, Hall};
use crate::repeats;

/// A file, and the list that it is read into.
pub struct Drawn {
    /// How it is made of a whole one.
    pub kind: &'static str,
    /// Where a cell stands twice.
    pub repeat: &'static str,
    pub bytes: Vec<u8>,
    /// How long the list is, and how long it would have to be for the floor.
    pub list: usize,
    pub cells: usize,
}

/// Kinds of files: how often, a name, and how they are made of whole ones.
const KINDS: [(usize, (&str, Turn)); 8] = [
    (50, ("whole", |_, _, _| {})),
    (8, ("with spare bytes", damage::with_spare_bytes)),
    (7, ("cut", damage::cut)),
    (7, ("with other measures", damage::with_other_measures)),
    (8, ("with another count", damage::with_another_count)),
    (10, ("with a cell too large", damage::with_a_cell_too_large)),
    (8, ("damaged", |file, _, draw| damage::damage(file, draw))),
    (2, ("of any bytes", damage::of_any_bytes)),
];

/// The file of this seed and number: in half of them a cell stands twice, whatever else they are.
pub fn drawn(seed: u64, case: u64) -> Drawn {
    let mut draw = Draw::new(seed, case, Use::File);
    let (measures, floor, others) = match draw.percent(2) {
        true => ([10, 10, 1], full_floor(&mut draw), 100),
        false => {
            let hall = halls::hall(seed, case);
            (hall.measures(), hall.floor, others(&mut draw))
        }
    };
    let mut bytes = encode(measures, &entries(&floor, others, &mut draw));
    let repeat = match draw.percent(50) {
        true => repeats::repeat(&mut bytes, &mut draw),
        false => repeats::NONE,
    };
    let (kind, turn) = draw.weighted(&KINDS);
    turn(&mut bytes, &floor, &mut draw);
    let cells = floor.costs.len();
    let list = draw.pick(&[cells, cells, cells, cells - 1, cells + 1, 0]);
    Drawn {
        kind,
        repeat,
        bytes,
        list,
        cells,
    }
}

/// The largest floor, at any costs.
fn full_floor(draw: &mut Draw) -> Floor {
    let mut floor = Floor::open(10, 10);
    floor.costs.fill_with(|| draw.bits() as u8);
    floor
}

/// A hall file for this hall; no cell stands twice.
pub fn file(hall: &Hall, draw: &mut Draw) -> Vec<u8> {
    let others = others(draw);
    encode(hall.measures(), &entries(&hall.floor, others, draw))
}

/// How many of a hundred cells of cost 1 a file names: mostly none.
fn others(draw: &mut Draw) -> usize {
    draw.pick(&[0, 0, 0, 10, 100])
}

/// The cells that don't cost 1, and so many in a hundred of the others: upwards, downwards
/// or in any order.
fn entries(floor: &Floor, others: usize, draw: &mut Draw) -> Vec<(usize, u8)> {
    let cells = floor.costs.iter().copied().enumerate();
    let mut named: Vec<(usize, u8)> = cells
        .filter(|(_, cost)| *cost != 1 || draw.percent(others))
        .collect();
    match draw.below(6) {
        0 => {}
        1 => named.reverse(),
        _ => {
            for i in (1..named.len()).rev() {
                named.swap(i, draw.below(i + 1));
            }
        }
    }
    named
}

/// Columns, rows, scale, count, floor numbers, costs.
pub fn encode(measures: [u8; 3], entries: &[(usize, u8)]) -> Vec<u8> {
    let mut file = measures.to_vec();
    file.extend((entries.len() as u16).to_le_bytes());
    for (number, _) in entries {
        file.extend((*number as u16).to_le_bytes());
    }
    file.extend(entries.iter().map(|entry| entry.1));
    file
}

/// How many entries a file has, or the file that an input begins with.
pub fn count(file: &[u8]) -> u16 {
    u16::from_le_bytes([file[3], file[4]])
}
