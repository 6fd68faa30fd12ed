//! Read file and write file, which the Rust does not have: the largest hall, by the entries of its file.

use std::hint::black_box;
use std::time::Duration;

use cases::files::encode;
use cases::floor::Floor;
use hall::bytes;

use crate::stores::stored;
use crate::timing::{median, timed};

/// Reads and writes of a row.
const CALLS: usize = 2_000;
/// The cells of the largest hall.
pub const CELLS: usize = 10_000;

pub fn print() {
    println!("| entries | read file | write file |");
    println!("|---|---|---|");
    for count in [0, 1_000, CELLS] {
        let (read, write) = (median(reads(count)), median(writes(count)));
        println!("| {count} | {read:.2} µs | {write:.2} µs |");
    }
}

fn reads(count: usize) -> Vec<Duration> {
    let (file, mut base) = (file(count), vec![0; CELLS]);
    let read = |_| timed(|| bytes::read_file(black_box(&file), &mut base));
    let (answers, times): (Vec<_>, _) = (0..CALLS).map(read).unzip();
    assert!(answers.iter().all(|answer| answer.number == 0));
    times
}

fn writes(count: usize) -> Vec<Duration> {
    let (store, mut output) = (store(count), vec![0; 5 + 3 * count]);
    let write = |_| timed(|| bytes::write_file(black_box(&store), &mut output));
    let (answers, times): (Vec<_>, _) = (0..CALLS).map(write).unzip();
    assert!(answers.iter().all(|answer| answer.number == 0));
    times
}

/// A file with so many blocked cells, in an order that leaps about the floor.
pub fn file(count: usize) -> Vec<u8> {
    let entries: Vec<(usize, u8)> = (0..count).map(|at| (at * 7_919 % CELLS, 255)).collect();
    encode([10, 10, 1], &entries)
}

/// The store of the hall that such a file gives.
pub fn store(count: usize) -> Vec<u8> {
    let mut floor = Floor::open(10, 10);
    assert_eq!(bytes::read_file(&file(count), &mut floor.costs).number, 0);
    stored(1, &floor)
}
