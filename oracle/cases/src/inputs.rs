//! Inputs of the program `hallroute`: a hall file, then pairs.

use crate::damage::{self, Turn};
use crate::draw::{Draw, Use};
use crate::files;
use crate::floor::Floor;
use crate::halls;
use crate::pairs;
use crate::repeats;

/// The most bytes that the program reads.
const MOST: usize = 65_536;

/// Kinds of inputs: how often, a name, and how they are made of whole ones.
const KINDS: [(usize, (&str, Turn)); 13] = [
    (33, ("whole", |_, _, _| {})),
    (4, ("without pairs", without_pairs)),
    (10, ("with spare bytes", damage::with_spare_bytes)),
    (8, ("with numbers too large", with_numbers_too_large)),
    (1, ("as long as can be", as_long_as_can_be)),
    (3, ("too long", too_long)),
    (7, ("cut", damage::cut)),
    (7, ("with other measures", damage::with_other_measures)),
    (7, ("with another count", damage::with_another_count)),
    (5, ("with a cell too large", damage::with_a_cell_too_large)),
    (5, ("with a cell twice", with_a_cell_twice)),
    (7, ("damaged", |input, _, draw| damage::damage(input, draw))),
    (3, ("of any bytes", damage::of_any_bytes)),
];

/// The input of this seed and number, and the name of its kind.
pub fn input(seed: u64, case: u64) -> (&'static str, Vec<u8>) {
    let hall = halls::hall(seed, case);
    let mut draw = Draw::new(seed, case, Use::Input);
    let (name, turn) = draw.weighted(&KINDS);
    let mut input = files::file(&hall, &mut draw);
    let count = draw.below(13);
    extend(&mut input, &hall.floor, count, &mut draw);
    turn(&mut input, &hall.floor, &mut draw);
    (name, input)
}

fn extend(input: &mut Vec<u8>, floor: &Floor, count: usize, draw: &mut Draw) {
    for _ in 0..count {
        pairs::put(pairs::pair(floor, draw), input);
    }
}

fn without_pairs(input: &mut Vec<u8>, _: &Floor, draw: &mut Draw) {
    input.truncate(5 + 3 * usize::from(files::count(input)) + draw.pick(&[0, 0, 0, 1, 2, 3]));
}

/// A few pairs more with numbers at and behind the end of the floor, and one on it.
fn with_numbers_too_large(input: &mut Vec<u8>, floor: &Floor, draw: &mut Draw) {
    let cells = floor.costs.len();
    for _ in 0..4 {
        let inside = draw.below(cells);
        let outside = draw.pick(&[cells, cells + 1, 2 * cells, 65_535]);
        let pair = draw.pick(&[(outside, inside), (inside, outside), (outside, outside)]);
        pairs::put(pair, input);
    }
    extend(input, floor, 1, draw);
}

fn as_long_as_can_be(input: &mut Vec<u8>, floor: &Floor, draw: &mut Draw) {
    let left = MOST - input.len();
    extend(input, floor, left / 4, draw);
    input.resize(MOST - draw.below(3), 0);
}

fn too_long(input: &mut Vec<u8>, _: &Floor, draw: &mut Draw) {
    input.resize(MOST + draw.pick(&[1, 1, 2, 3, 4, 4_000, MOST]), 0);
}

/// A cell twice in the file, if it has two entries.
fn with_a_cell_twice(input: &mut Vec<u8>, _: &Floor, draw: &mut Draw) {
    repeats::repeat(input, draw);
}
