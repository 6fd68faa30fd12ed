//! Stands in for the part of petgraph that docs/src uses. Its search gives
//! document 01's path: least cost, then fewest edges, then, at the first
//! difference, the node that comes first in the order the graph was told.

pub mod algo;
pub mod graph;
pub mod stable_graph;
pub mod visit;

/// Edges lead one way.
#[derive(Clone, Debug, Default)]
pub struct Directed;

/// Edges lead both ways.
#[derive(Clone, Debug, Default)]
pub struct Undirected;

/// Whether edges lead one way.
pub trait EdgeType {
    const ONE_WAY: bool;
}

impl EdgeType for Directed {
    const ONE_WAY: bool = true;
}

impl EdgeType for Undirected {
    const ONE_WAY: bool = false;
}
