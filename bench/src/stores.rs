//! Build and change: both sides are held to the same store.

use std::hint::black_box;
use std::time::Duration;

use calls::Judge;
use cases::draw::{Draw, Use};
use cases::floor::Floor;
use hall::bytes;
use reference_petgraph::Hall;

use crate::halls::{SEED, combs, drawn, sevenths};
use crate::timing::{RUN, Times, median, timed};

/// Builds and changes of a row.
const BUILDS: usize = 60;
const CHANGES: usize = 400;

pub fn print() {
    println!("| case | proved | Rust | Rust / proved | Rust, scaling alone |");
    println!("|---|---|---|---|---|");
    let drawn = drawn(10);
    build("build, scale 1, all open", 1, &Floor::open(10, 10));
    build("build, scale 1, 20 % blocked", 1, &drawn);
    build("build, scale 1, combs", 1, &combs(10));
    let sevenths = sevenths(10);
    build(
        "build, scale 9, floor numbers divisible by 7 blocked",
        9,
        &sevenths,
    );
    change("change, scale 1, 20 % blocked", 1, &drawn);
    change("change, scale 3, 20 % blocked", 3, &drawn);
    change(
        "change, scale 9, floor numbers divisible by 7 blocked",
        9,
        &sevenths,
    );
    check("store check, which opens change and route", &drawn);
}

/// A hall built by both sides: the library's store and the Rust's hall.
pub fn built(scale: u8, floor: &Floor) -> (Vec<u8>, Hall) {
    let (_, measures) = empty(scale, floor);
    (stored(scale, floor), Hall::build(measures, &floor.costs))
}

/// The library's store of a hall.
pub fn stored(scale: u8, floor: &Floor) -> Vec<u8> {
    let (mut store, measures) = empty(scale, floor);
    let number = bytes::build(measures, &floor.costs, &mut store);
    assert!(number == 0, "build is {number}");
    store
}

/// A store of the floor's size, and the measures.
pub fn empty(scale: u8, floor: &Floor) -> (Vec<u8>, [u8; 3]) {
    let store = vec![0; 4 + 208 * floor.columns * floor.rows];
    (store, [floor.columns as u8, floor.rows as u8, scale])
}

/// Builds in runs, the library's and then the Rust's.
fn build(case: &str, scale: u8, floor: &Floor) {
    let (mut store, measures) = empty(scale, floor);
    let (mut times, mut scaling) = (Times::default(), vec![]);
    for _ in 0..BUILDS / RUN {
        times.proved.extend((0..RUN).map(|_| {
            let (number, time) = timed(|| bytes::build(measures, &floor.costs, &mut store));
            assert!(number == 0, "build is {number}");
            time
        }));
        for _ in 0..RUN {
            let (mut hall, time) = timed(|| Hall::build(measures, &floor.costs));
            times.rust.push(time);
            scaling.push(timed(|| hall.scale_again()).1);
            assert!(store == hall.store(), "{case}: other stores");
        }
    }
    println!("| {case} | {} | {:.1} µs |", times.cells(), median(scaling));
}

/// Changes in runs, each made by the library and then by the Rust.
fn change(case: &str, scale: u8, floor: &Floor) {
    let (mut store, mut hall) = built(scale, floor);
    let mut draw = Draw::new(SEED, scale.into(), Use::Changes);
    let mut times = Times::default();
    while times.proved.len() < CHANGES {
        let run = accepted(&mut store, &mut draw, &mut times.proved);
        let rust = run
            .iter()
            .map(|(cell, cost)| timed(|| hall.set_cost(*cell, *cost)).1);
        times.rust.extend(rust);
        assert!(store == hall.store(), "{case}: other stores");
    }
    println!("| {case} | {} | |", times.cells());
}

/// A run of changes that the library accepts, with their times. The Rust panics where 01 has 22, so those are left out.
fn accepted(store: &mut [u8], draw: &mut Draw, times: &mut Vec<Duration>) -> Vec<(usize, u8)> {
    let mut run = vec![];
    while run.len() < RUN {
        let cell = draw.below((store.len() - 4) / 208 * 100);
        let cost = if store[4 + cell] == 255 { 1 } else { 255 };
        let (number, time) = timed(|| bytes::change(store, cell, cost));
        if number == 0 {
            times.push(time);
            run.push((cell, cost));
        }
    }
    run
}

/// The library alone: the Rust has no store.
fn check(case: &str, floor: &Floor) {
    let (store, _) = built(1, floor);
    let check = |_| timed(|| bytes::check_store(black_box(&store))).1;
    let times = (0..CHANGES).map(check).collect();
    println!("| {case} | {:.1} µs | | | |", median(times));
}
