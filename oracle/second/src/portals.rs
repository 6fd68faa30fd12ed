//! Item 8, second part, and the stand-in: the portal graph and its paths.

use crate::cells::{column_row, moves_from, CELLS};
use crate::directions::opposite;
use crate::floor::{numbers_of, Floor};
use crate::store::Hall;
use crate::windows::{windows_of, Window};
use std::cell::OnceCell;
use std::cmp::Reverse;
use std::collections::BinaryHeap;
use std::ops::Range;

/// A sector and a window.
#[derive(Debug, Clone, Copy, PartialEq, Eq)]
pub struct Portal {
    pub sector: usize,
    pub window: Window,
}

impl Portal {
    /// `PortalNode` order: sector, first cell, last cell, boundary.
    fn order(self) -> (usize, (usize, usize), (usize, usize), u8) {
        let Window { first, last, side } = self.window;
        let (first, last) = (column_row(first.into()), column_row(last.into()));
        (self.sector, first, last, side)
    }
}

#[derive(Debug, Clone, Copy, PartialEq, Eq)]
struct Edge {
    to: usize,
    weight: u32,
}

/// Cost and number of edges of the best path between two portals.
type Key = (u32, u32);
/// The keys from one portal to every portal, none where no path leads.
type Keys = Vec<Option<Key>>;

/// The portal graph of a store, for as many routes as one likes.
#[derive(Debug, Clone, PartialEq, Eq, Default)]
pub struct Graph {
    /// The store check's number. If it is not 0, all else is empty.
    pub refused: u8,
    pub floor: Floor,
    scaled: Vec<u8>,
    portals: Vec<Portal>,
    /// The portals of each sector.
    of_sector: Vec<Range<usize>>,
    edges: Vec<Vec<Edge>>,
    /// The keys from each portal, searched when first asked for.
    keys: Vec<OnceCell<Keys>>,
}

/// The graph of a store, or its refusal, which every route on it then gives.
pub fn graph(store: &[u8]) -> Graph {
    match Hall::read(store) {
        Ok(hall) => Graph::of(hall),
        Err(refused) => Graph {
            refused,
            ..Graph::default()
        },
    }
}

impl Graph {
    fn of(hall: Hall) -> Graph {
        let mut graph = Graph {
            floor: hall.floor,
            scaled: hall.scaled,
            ..Graph::default()
        };
        for (sector, marks) in hall.marks.iter().enumerate() {
            let first = graph.portals.len();
            let windows = windows_of(marks).into_iter();
            graph
                .portals
                .extend(windows.map(|window| Portal { sector, window }));
            graph.of_sector.push(first..graph.portals.len());
        }
        graph.edges = (0..graph.portals.len())
            .map(|portal| graph.edges_of(portal))
            .collect();
        graph.keys = vec![OnceCell::new(); graph.portals.len()];
        graph
    }

    /// The portals, sector by sector, N, E, S, W, in order on each side.
    pub fn portals(&self) -> &[Portal] {
        &self.portals
    }

    /// The fewest moves from a cell to each cell of its sector.
    pub fn moves_from(&self, floor_number: usize) -> [Option<u32>; CELLS] {
        let sector = numbers_of(floor_number / CELLS);
        moves_from(&self.scaled[sector], floor_number % CELLS)
    }

    /// The portals joined to a cell, listed N, E, S, W, and the moves to each.
    pub fn joined(&self, floor_number: usize) -> Vec<(usize, u32)> {
        let fewest = self.moves_from(floor_number);
        self.of_sector[floor_number / CELLS]
            .clone()
            .filter_map(|portal| {
                let midpoint = self.portals[portal].window.midpoint();
                fewest[midpoint].map(|moves| (portal, moves))
            })
            .collect()
    }

    fn edges_of(&self, portal: usize) -> Vec<Edge> {
        let Portal { sector, window } = self.portals[portal];
        let midpoint = numbers_of(sector).start + window.midpoint();
        let inner = self.joined(midpoint).into_iter();
        inner
            .filter(|&(to, _)| to != portal)
            .map(|(to, weight)| Edge { to, weight })
            .chain(self.facing(portal).map(|to| Edge { to, weight: 1 }))
            .collect()
    }

    /// The portals of one side of a sector, in order.
    fn on_side(&self, sector: usize, side: usize) -> impl Iterator<Item = usize> + '_ {
        self.of_sector[sector]
            .clone()
            .filter(move |&portal| usize::from(self.portals[portal].window.side) == side)
    }

    /// The i-th window of the facing side, if it has so many.
    fn facing(&self, portal: usize) -> Option<usize> {
        let Portal { sector, window } = self.portals[portal];
        let side = usize::from(window.side);
        let neighbour = self.floor.neighbour(sector, side)?;
        let place = self
            .on_side(sector, side)
            .position(|other| other == portal)?;
        self.on_side(neighbour, opposite(side)).nth(place)
    }

    /// Least cost, then fewest edges, from a portal to every portal.
    fn keys_from(&self, portal: usize) -> &Keys {
        self.keys[portal].get_or_init(|| search(&self.edges, portal))
    }

    /// The cost of the least-cost path between two portals.
    pub fn path_cost(&self, start: usize, end: usize) -> Option<u32> {
        self.keys_from(start)[end].map(|(cost, _)| cost)
    }

    /// The path of the stand-in: of those with least cost and fewest edges,
    /// at each portal the next one first in `PortalNode` order. Edges run both
    /// ways, so the keys from the end are those to it.
    pub fn path(&self, start: usize, end: usize) -> Option<Vec<usize>> {
        let keys = self.keys_from(end);
        let mut path = vec![start];
        let mut portal = start;
        while portal != end {
            portal = self.next_on_path(keys, portal)?;
            path.push(portal);
        }
        Some(path)
    }

    fn next_on_path(&self, keys: &Keys, portal: usize) -> Option<usize> {
        let key = keys[portal]?;
        let through = |edge: &&Edge| keys[edge.to].map(|to| longer(to, edge)) == Some(key);
        self.edges[portal]
            .iter()
            .filter(through)
            .map(|edge| edge.to)
            .min_by_key(|&to| self.portals[to].order())
    }
}

/// The key of a path with one more edge.
fn longer((cost, edges): Key, edge: &Edge) -> Key {
    (cost + edge.weight, edges + 1)
}

/// Dijkstra's search over keys.
fn search(edges: &[Vec<Edge>], start: usize) -> Keys {
    let mut keys: Keys = vec![None; edges.len()];
    keys[start] = Some((0, 0));
    let mut queue = BinaryHeap::from([Reverse(((0, 0), start))]);
    while let Some(Reverse((key, portal))) = queue.pop() {
        // A lesser key has come since this one was queued.
        if keys[portal] != Some(key) {
            continue;
        }
        for edge in &edges[portal] {
            let next = longer(key, edge);
            if keys[edge.to].is_none_or(|known| next < known) {
                keys[edge.to] = Some(next);
                queue.push(Reverse((next, edge.to)));
            }
        }
    }
    keys
}
