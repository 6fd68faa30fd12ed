//! Cells that stand twice in a hall file.

use crate::draw::Draw;
use crate::files;

/// Two places among so many entries, which are two or more.
type Places = fn(usize, &mut Draw) -> (usize, usize);

/// Where a cell's two entries stand, and whether their costs are equal.
const KINDS: [(&str, Places, bool); 6] = [
    ("first and last, equal costs", ends, true),
    ("first and last, other costs", ends, false),
    ("neighbours, equal costs", neighbours, true),
    ("neighbours, other costs", neighbours, false),
    ("any two, equal costs", any, true),
    ("any two, other costs", any, false),
];

/// What is said of a file in which nothing was repeated.
pub const NONE: &str = "none";

/// Puts the cell of one entry into another one too, in a file or an input that begins with
/// one, and says where; a file with fewer than two entries stays.
pub fn repeat(file: &mut [u8], draw: &mut Draw) -> &'static str {
    let count = usize::from(files::count(file));
    if count < 2 {
        return NONE;
    }
    let (name, places, equal) = draw.pick(&KINDS);
    let (from, to) = places(count, draw);
    file.copy_within(5 + 2 * from..7 + 2 * from, 5 + 2 * to);
    let costs = &mut file[5 + 2 * count..];
    let other = costs[from] ^ draw.from_to(1, 255) as u8;
    costs[to] = if equal { costs[from] } else { other };
    name
}

fn ends(count: usize, _: &mut Draw) -> (usize, usize) {
    (0, count - 1)
}

fn neighbours(count: usize, draw: &mut Draw) -> (usize, usize) {
    let at = draw.below(count - 1);
    (at, at + 1)
}

fn any(count: usize, draw: &mut Draw) -> (usize, usize) {
    let at = draw.below(count);
    (at, (at + draw.from_to(1, count - 1)) % count)
}
