//! The library's calls alone, row by row, for a tool that counts instructions: `bench/count.sh`.

use cases::draw::{Draw, Use};
use cases::floor::Floor;
use hall::bytes;

use crate::files::{CELLS, file, store};
use crate::halls::{SEED, combs, drawn, sevenths};
use crate::routes::{ROOM, random};
use crate::stores::{empty, stored};

/// Calls of a row.
const CALLS: usize = 20;

/// A row: its name, the call that is counted, and what makes the calls.
struct Row {
    name: &'static str,
    call: &'static str,
    make: fn(),
}

const ROWS: [Row; 13] = [
    Row {
        name: "read file, 0 entries",
        call: "hall_read_file",
        make: || read(0),
    },
    Row {
        name: "read file, 1,000 entries",
        call: "hall_read_file",
        make: || read(1_000),
    },
    Row {
        name: "read file, 10,000 entries",
        call: "hall_read_file",
        make: || read(CELLS),
    },
    Row {
        name: "write file, 0 entries",
        call: "hall_write_file",
        make: || write(0),
    },
    Row {
        name: "write file, 1,000 entries",
        call: "hall_write_file",
        make: || write(1_000),
    },
    Row {
        name: "write file, 10,000 entries",
        call: "hall_write_file",
        make: || write(CELLS),
    },
    Row {
        name: "build, scale 1, 20 % blocked",
        call: "hall_build",
        make: || build(1, &drawn(10)),
    },
    Row {
        name: "build, scale 9, floor numbers divisible by 7 blocked",
        call: "hall_build",
        make: || build(9, &sevenths(10)),
    },
    Row {
        name: "change, scale 1, 20 % blocked",
        call: "hall_change",
        make: || change(1, &drawn(10)),
    },
    Row {
        name: "change, scale 9, floor numbers divisible by 7 blocked",
        call: "hall_change",
        make: || change(9, &sevenths(10)),
    },
    Row {
        name: "route, all open, random pairs",
        call: "hall_route",
        make: || route(&Floor::open(10, 10)),
    },
    Row {
        name: "route, 20 % blocked, random pairs",
        call: "hall_route",
        make: || route(&drawn(10)),
    },
    Row {
        name: "route, combs, random pairs",
        call: "hall_route",
        make: || route(&combs(10)),
    },
];

/// A line for each row: its number, how many calls it makes, the call and the name.
pub fn list() {
    for (number, row) in ROWS.iter().enumerate() {
        println!("{number} {CALLS} {} {}", row.call, row.name);
    }
}

/// Makes the calls of a row.
pub fn make(number: usize) {
    (ROWS[number].make)();
}

fn read(count: usize) {
    let (file, mut base) = (file(count), vec![0; CELLS]);
    for _ in 0..CALLS {
        assert_eq!(bytes::read_file(&file, &mut base).number, 0);
    }
}

fn write(count: usize) {
    let (store, mut output) = (store(count), vec![0; 5 + 3 * count]);
    for _ in 0..CALLS {
        assert_eq!(bytes::write_file(&store, &mut output).number, 0);
    }
}

fn build(scale: u8, floor: &Floor) {
    let (mut store, measures) = empty(scale, floor);
    for _ in 0..CALLS {
        assert_eq!(bytes::build(measures, &floor.costs, &mut store), 0);
    }
}

fn change(scale: u8, floor: &Floor) {
    let mut store = stored(scale, floor);
    let mut draw = Draw::new(SEED, scale.into(), Use::Changes);
    for _ in 0..CALLS {
        let cell = draw.below(floor.costs.len());
        let cost = if store[4 + cell] == 255 { 1 } else { 255 };
        assert_eq!(bytes::change(&mut store, cell, cost), 0);
    }
}

fn route(floor: &Floor) {
    let store = stored(1, floor);
    let mut draw = Draw::new(SEED, 0, Use::Pairs);
    let mut list = [0; 6 * ROOM];
    for _ in 0..CALLS {
        let (source, goal) = random(floor, &mut draw);
        assert_eq!(bytes::route(&store, source, goal, &mut list).number, 0);
    }
}
