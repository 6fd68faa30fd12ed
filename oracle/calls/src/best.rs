//! Leg and run, which the Rust does not return, worked out from the Rust's own
//! graphs, and what its graphs say about a route's steps.

use std::cmp::Reverse;
use std::collections::BinaryHeap;

use crate::{Judge, PortalGraph, Step};

/// The chosen pair of a route: leg, run, and start and end portal, which a route
/// inside one sector has not.
#[derive(Clone, Copy, PartialEq, Eq, Debug)]
pub struct Best {
    pub leg: u32,
    pub run: u32,
    pub pair: Option<(usize, usize)>,
}

/// 01's choice: pairs start by start, a later pair wins only if its run is less.
pub fn best<J: Judge>(judge: &J, graph: &PortalGraph, source: usize, goal: usize) -> Option<Best> {
    if source / 100 == goal / 100 {
        let moves = judge.moves(source / 100, source % 100, goal % 100);
        if let Some(run) = moves {
            let pair = None;
            return Some(Best { leg: 0, run, pair });
        }
    }
    let ends = joined(judge, graph, goal);
    let mut best: Option<Best> = None;
    for (start, leg) in joined(judge, graph, source) {
        let costs = least_costs(graph, start);
        for (end, moves) in &ends {
            let Some(cost) = costs[*end] else { continue };
            let run = cost + moves;
            if best.is_none_or(|best| run < best.run) {
                let pair = Some((start, *end));
                best = Some(Best { leg, run, pair });
            }
        }
    }
    best
}

/// The portals joined to a cell inside its sector, and the moves between.
pub fn joined<J: Judge>(judge: &J, graph: &PortalGraph, cell: usize) -> Vec<(usize, u32)> {
    let sector = cell / 100;
    let portals = graph.portals.iter().enumerate();
    portals
        .filter(|(_, portal)| portal.sector == sector)
        .filter_map(|(number, portal)| {
            let moves = judge.moves(sector, cell % 100, portal.midpoint.into());
            moves.map(|moves| (number, moves))
        })
        .collect()
}

/// The least cost from one portal to each.
fn least_costs(graph: &PortalGraph, start: usize) -> Vec<Option<u32>> {
    let mut costs = vec![None; graph.portals.len()];
    costs[start] = Some(0);
    let mut waiting = BinaryHeap::from([Reverse((0, start))]);
    while let Some(Reverse((cost, portal))) = waiting.pop() {
        if costs[portal] != Some(cost) {
            continue;
        }
        for (to, weight) in &graph.edges[portal] {
            let offer = cost + weight;
            if costs[*to].is_none_or(|present| offer < present) {
                costs[*to] = Some(offer);
                waiting.push(Reverse((offer, *to)));
            }
        }
    }
    costs
}

/// Whether only one path of the pair has the least cost.
pub fn is_unique(graph: &PortalGraph, (start, end): (usize, usize)) -> bool {
    let left = least_costs(graph, end);
    let mut path = vec![start];
    paths_on(graph, &left, end, &mut path, 0) == 1
}

/// Counts least paths without a portal twice that go on from `path`, up to two.
fn paths_on(
    graph: &PortalGraph,
    left: &[Option<u32>],
    end: usize,
    path: &mut Vec<usize>,
    mut found: usize,
) -> usize {
    let at = path[path.len() - 1];
    if at == end {
        return found + 1;
    }
    for (to, weight) in &graph.edges[at] {
        let least = left[*to].map(|left| left + weight) == left[at];
        if found < 2 && least && !path.contains(to) {
            path.push(*to);
            found = paths_on(graph, left, end, path, found);
            path.pop();
        }
    }
    found
}

/// Whether steps begin at the chosen start and belong to a path of the least run.
pub fn fits(
    graph: &PortalGraph,
    rows: usize,
    steps: &[Step],
    best: Best,
    ends: &[(usize, u32)],
) -> bool {
    let start = steps.first().and_then(|step| portal_of(graph, rows, step));
    start == best.pair.map(|pair| pair.0)
        && run_of_steps(graph, rows, steps, ends) == Some(best.run)
}

/// The least run of any portal path that has these steps, if there is one.
/// The steps show each second portal, and of the last one only its sector.
fn run_of_steps(
    graph: &PortalGraph,
    rows: usize,
    steps: &[Step],
    ends: &[(usize, u32)],
) -> Option<u32> {
    let (_, shown) = steps.split_last()?;
    let shown: Option<Vec<usize>> = shown
        .iter()
        .map(|step| portal_of(graph, rows, step))
        .collect();
    let shown = shown?;
    let mut run = 0;
    for pair in shown.windows(2) {
        run += two_edges(graph, pair[0], pair[1])?;
    }
    let last = *shown.last()?;
    let rest = ends.iter().filter_map(|(end, moves)| {
        let one = one_edge(graph, last, *end);
        let two = two_edges(graph, last, *end);
        let cost = one.into_iter().chain(two).min()?;
        Some(cost + moves)
    });
    Some(run + rest.min()?)
}

/// The portal that a step with a window names, if its goal is the midpoint.
fn portal_of(graph: &PortalGraph, rows: usize, step: &Step) -> Option<usize> {
    let sector = usize::from(step.column) * rows + usize::from(step.row);
    graph.portals.iter().position(|portal| {
        portal.sector == sector
            && Some(portal.window) == step.window
            && portal.midpoint == step.goal
    })
}

fn one_edge(graph: &PortalGraph, from: usize, to: usize) -> Option<u32> {
    let edge = graph.edges[from].iter().find(|edge| edge.0 == to);
    edge.map(|edge| edge.1)
}

fn two_edges(graph: &PortalGraph, from: usize, to: usize) -> Option<u32> {
    let over = |edge: &(usize, u32)| Some(edge.1 + one_edge(graph, edge.0, to)?);
    graph.edges[from].iter().filter_map(over).min()
}
