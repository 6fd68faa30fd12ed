//! Routes at scale 1: both sides are held to the same existence, leg and run. The Rust has
//! made its graphs in its build, so they are not in its times here.

use std::ops::Range;
use std::time::Duration;

use calls::best::{self, Best};
use calls::{Judge, PortalGraph, Step};
use cases::draw::{Draw, Use};
use cases::floor::Floor;
use hall::bytes::{self, RouteAnswer};
use reference_petgraph::Hall;

use crate::halls::{SEED, combs, drawn, walled};
use crate::stores::built;
use crate::timing::{RUN, Times, timed};

/// Routes of a row.
const ROUTES: usize = 200;
/// The steps that the lent list has room for.
pub const ROOM: usize = 1001;
/// Columns and rows of the halls that show the growth.
const SIDES: [usize; 5] = [1, 2, 4, 7, 10];

const HEAD: &str = "pairs with a route | proved | Rust, graphs built before | Rust / proved |\n|---|---|---|---|---|";

/// A hall by both sides.
struct Asked {
    floor: Floor,
    store: Vec<u8>,
    hall: Hall,
    graph: PortalGraph,
}

/// Halls of 10 by 10.
pub fn print() {
    println!("\n| route | {HEAD}");
    let floors = [
        ("all open", Floor::open(10, 10)),
        ("20 % blocked", drawn(10)),
        ("combs, five windows a side", combs(10)),
    ];
    for (name, floor) in floors {
        let asked = Asked::new(floor.clone());
        asked.row(&format!("{name}, corner to corner"), corners);
        asked.row(&format!("{name}, random pairs"), random);
        asked.row(&format!("{name}, one sector"), one_sector);
        let asked = Asked::new(walled(floor));
        asked.row(&format!("{name}, a wall between"), over_the_wall);
    }
}

/// Random pairs on halls from 1 by 1 to 10 by 10.
pub fn print_growth() {
    println!("\n| random pairs | {HEAD}");
    for side in SIDES {
        let open = Asked::new(Floor::open(side, side));
        open.row(&format!("{side} by {side}, all open"), random);
        let drawn = Asked::new(drawn(side));
        drawn.row(&format!("{side} by {side}, 20 % blocked"), random);
    }
}

impl Asked {
    fn new(floor: Floor) -> Self {
        let (store, hall) = built(1, &floor);
        let graph = hall.portal_graph();
        Asked {
            floor,
            store,
            hall,
            graph,
        }
    }

    /// Both sides in runs, the library first.
    fn row(&self, case: &str, pair: impl Fn(&Floor, &mut Draw) -> (usize, usize)) {
        let mut draw = Draw::new(SEED, 0, Use::Pairs);
        let mut times = Times::default();
        let mut routes = 0;
        for _ in 0..ROUTES / RUN {
            let pairs: Vec<_> = (0..RUN).map(|_| pair(&self.floor, &mut draw)).collect();
            let answers = self.answers(&pairs, &mut times.proved);
            for (pair, answer) in pairs.into_iter().zip(answers) {
                let (steps, time) = timed(|| self.hall.route(pair.0, pair.1));
                times.rust.push(time);
                self.hold(pair, answer, steps.as_deref());
                routes += usize::from(answer.steps > 0);
            }
        }
        println!("| {case} | {routes} of {ROUTES} | {} |", times.cells());
    }

    /// What the library answers, with its times.
    fn answers(&self, pairs: &[(usize, usize)], times: &mut Vec<Duration>) -> Vec<RouteAnswer> {
        let mut list = [0; 6 * ROOM];
        let mut route = |&(source, goal)| {
            let (answer, time) = timed(|| bytes::route(&self.store, source, goal, &mut list));
            times.push(time);
            answer
        };
        pairs.iter().map(&mut route).collect()
    }

    /// Both sides have a route or neither has one, and both are of the least run.
    fn hold(&self, (source, goal): (usize, usize), answer: RouteAnswer, steps: Option<&[Step]>) {
        let best = best::best(&self.hall, &self.graph, source, goal);
        let (leg, run) = best.map_or((0, 0), |best| (best.leg, best.run));
        let given = (answer.number, answer.steps > 0, answer.leg, answer.run);
        let owed = (0, best.is_some(), leg, run);
        assert!(given == owed, "{source} to {goal}: {answer:?}");
        let fits = match (steps, best) {
            (Some(steps), Some(best)) => self.fits(goal, steps, best),
            (steps, best) => steps.is_none() && best.is_none(),
        };
        assert!(fits, "{source} to {goal}: {steps:?} by the Rust");
    }

    fn fits(&self, goal: usize, steps: &[Step], best: Best) -> bool {
        let ends = best::joined(&self.hall, &self.graph, goal);
        best.pair.is_none() || best::fits(&self.graph, self.floor.rows, steps, best, &ends)
    }
}

/// From the first open cell of the floor to the last one.
fn corners(floor: &Floor, _: &mut Draw) -> (usize, usize) {
    let open = open_cells(floor, 0..floor.costs.len());
    (open[0], open[open.len() - 1])
}

pub fn random(floor: &Floor, draw: &mut Draw) -> (usize, usize) {
    let all = open_cells(floor, 0..floor.costs.len());
    (draw.pick(&all), draw.pick(&all))
}

fn one_sector(floor: &Floor, draw: &mut Draw) -> (usize, usize) {
    let first = 100 * draw.below(floor.columns * floor.rows);
    let sector = open_cells(floor, first..first + 100);
    (draw.pick(&sector), draw.pick(&sector))
}

/// From a sector west of the wall to one that lies east of it.
fn over_the_wall(floor: &Floor, draw: &mut Draw) -> (usize, usize) {
    let column = 100 * floor.rows;
    let middle = floor.columns / 2 * column;
    let west = open_cells(floor, 0..middle);
    let east = open_cells(floor, middle + column..floor.costs.len());
    (draw.pick(&west), draw.pick(&east))
}

fn open_cells(floor: &Floor, among: Range<usize>) -> Vec<usize> {
    among.filter(|cell| floor.costs[*cell] != 255).collect()
}
