//! Stores whose floors are written back as hall files, and the outputs that are lent.

use crate::draw::{Draw, Use};
use crate::floor::Floor;
use crate::halls::{self, Hall};
use crate::{changes, damage, stores};

/// How a store is made.
pub enum Made {
    /// By build, and these changes.
    Built(Vec<(usize, u8)>),
    /// Lent as these bytes.
    Lent(Vec<u8>),
}

pub struct Drawn {
    /// How the store is made, in words, and which base costs its floor has.
    pub kind: &'static str,
    pub costs: &'static str,
    pub hall: Hall,
    pub made: Made,
    pub draw: Draw,
}

type Make = fn(&Hall, &mut Draw) -> Made;

/// Kinds of stores: how often, a name, and how they are made.
const KINDS: [(usize, (&str, Make)); 4] = [
    (20, ("built", |_, _| Made::Built(vec![]))),
    (25, ("built and changed", changed)),
    (30, ("lent", |hall, draw| Made::Lent(lent(hall, draw)))),
    (25, ("damaged", damaged)),
];

type Fill = fn(&mut Floor, &mut Draw);

/// Base costs: how often, a name, and how a drawn floor gets them.
const COSTS: [(usize, (&str, Fill)); 6] = [
    (50, ("as halls have them", |_, _| {})),
    (10, ("any", |floor, draw| fill(floor, || draw.bits() as u8))),
    (10, ("all 1", |floor, _| fill(floor, || 1))),
    (10, ("none 1", |floor, draw| fill(floor, || not_1(draw)))),
    (10, ("all blocked", |floor, _| fill(floor, || 255))),
    (10, ("one not 1", one_not_1)),
];

/// The store of this seed and number, on the largest floor more often than halls are.
pub fn drawn(seed: u64, case: u64) -> Drawn {
    let mut draw = Draw::new(seed, case, Use::Written);
    let mut hall = halls::hall(seed, case);
    if draw.percent(4) {
        hall.floor = Floor::open(10, 10);
    }
    let (costs, fill) = draw.weighted(&COSTS);
    fill(&mut hall.floor, &mut draw);
    let (kind, make) = draw.weighted(&KINDS);
    let made = make(&hall, &mut draw);
    Drawn {
        kind,
        costs,
        hall,
        made,
        draw,
    }
}

fn changed(hall: &Hall, draw: &mut Draw) -> Made {
    let count = draw.from_to(1, 6);
    let changes = (0..count).map(|_| changes::change(&hall.floor, draw));
    Made::Built(changes.collect())
}

/// Any scaled costs and marks, now and then with bytes behind the store.
fn lent(hall: &Hall, draw: &mut Draw) -> Vec<u8> {
    let (mut store, _) = stores::lent(hall, draw);
    let behind = draw.pick(&[0, 0, 1, 9]);
    store.resize(store.len() + behind, 77);
    store
}

fn damaged(hall: &Hall, draw: &mut Draw) -> Made {
    let mut store = lent(hall, draw);
    damage::damage_store(&mut store, hall.sectors(), draw);
    Made::Lent(store)
}

fn fill(floor: &mut Floor, cost: impl FnMut() -> u8) {
    floor.costs.fill_with(cost);
}

fn not_1(draw: &mut Draw) -> u8 {
    draw.pick(&[0, 2, 3, 100, 254, 255])
}

fn one_not_1(floor: &mut Floor, draw: &mut Draw) {
    let cell = draw.below(floor.costs.len());
    floor.costs.fill(1);
    floor.costs[cell] = not_1(draw);
}

type Room = fn(usize, &mut Draw) -> usize;

/// Outputs: how often, a name, and how long they are for a file of some length.
const OUTPUTS: [(usize, (&str, Room)); 7] = [
    (5, ("of no byte", |_, _| 0)),
    (10, ("shorter", |length, draw| draw.below(length))),
    (20, ("one byte short", |length, _| length - 1)),
    (30, ("exact", |length, _| length)),
    (10, ("one byte longer", |length, _| length + 1)),
    (15, ("longer", |length, draw| length + draw.from_to(2, 16))),
    (
        10,
        ("much longer", |length, draw| {
            length + draw.from_to(1_000, 40_000)
        }),
    ),
];

/// An output for a file of this length: its name and how long it is.
pub fn output(length: usize, draw: &mut Draw) -> (&'static str, usize) {
    let (name, room) = draw.weighted(&OUTPUTS);
    (name, room(length, draw))
}

/// Turns a store that passes the check into another that does too; false where it can't.
type Turn = fn(&mut [u8], &mut Draw) -> bool;

/// Other stores, with more bytes behind them: a name, how they are made, and whether they
/// have the same file.
pub const OTHERS: [(&str, Turn, bool); 5] = [
    ("other scaled costs and marks", other_scaling, true),
    ("other bytes behind the store", |_, _| true, true),
    ("another base cost", another_cost, false),
    ("another scale", another_scale, false),
    ("columns and rows exchanged", exchanged, false),
];

/// Columns, rows, and where the scaled costs and the marks begin.
fn layout(store: &[u8]) -> (usize, usize, usize, usize) {
    let (columns, rows) = (usize::from(store[0]), usize::from(store[1]));
    let sectors = columns * rows;
    (columns, rows, 4 + 100 * sectors, 4 + 200 * sectors)
}

fn other_scaling(store: &mut [u8], draw: &mut Draw) -> bool {
    let (columns, rows, scaled, marks) = layout(store);
    for cost in &mut store[scaled..marks] {
        *cost ^= draw.from_to(1, 255) as u8;
    }
    let bytes = stores::marks(columns, rows, draw);
    store[marks..marks + bytes.len()].copy_from_slice(&bytes);
    true
}

fn another_cost(store: &mut [u8], draw: &mut Draw) -> bool {
    let (_, _, scaled, _) = layout(store);
    store[4 + draw.below(scaled - 4)] ^= draw.from_to(1, 255) as u8;
    true
}

fn another_scale(store: &mut [u8], draw: &mut Draw) -> bool {
    let others: Vec<u8> = (1..=9).filter(|scale| *scale != store[2]).collect();
    store[2] = draw.pick(&others);
    true
}

/// Without a mark a store passes the check on a floor of either form.
fn exchanged(store: &mut [u8], _: &mut Draw) -> bool {
    let (columns, rows, _, marks) = layout(store);
    store[marks..][..8 * columns * rows].fill(0);
    store.swap(0, 1);
    columns != rows
}
