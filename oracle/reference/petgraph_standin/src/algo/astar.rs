//! Document 01's path among the least ones.

use std::cmp::Reverse;
use std::collections::BinaryHeap;
use std::ops::Add;

use crate::EdgeType;
use crate::graph::{IndexType, NodeIndex};
use crate::stable_graph::StableGraph;
use crate::visit::{EdgeRef, EdgeReference};

/// Costs that can be added and compared; the default is no cost.
pub trait Measure: Copy + Ord + Default + Add<Output = Self> {}

impl<K: Copy + Ord + Default + Add<Output = K>> Measure for K {}

/// Cost, then edges: every edge makes it greater.
type Key<K> = (K, u32);

/// What a search has found when it first takes up a goal.
struct Found<K> {
    goal: usize,
    keys: Vec<Option<Key<K>>>,
    /// Edges in the order tried: from, to, the key they offered.
    offers: Vec<(usize, usize, Key<K>)>,
}

/// Cost and nodes of the path from `start` to the first goal. Among least-cost
/// paths: fewest edges, then the node first in the graph's order of nodes.
pub fn astar<N, E, Ty, Ix, K, G, C, H>(
    graph: &StableGraph<N, E, Ty, Ix>,
    start: NodeIndex<Ix>,
    mut is_goal: G,
    mut edge_cost: C,
    _estimate: H,
) -> Option<(K, Vec<NodeIndex<Ix>>)>
where
    E: Copy,
    Ty: EdgeType,
    Ix: IndexType,
    K: Measure,
    G: FnMut(NodeIndex<Ix>) -> bool,
    C: FnMut(EdgeReference<'_, E, Ix>) -> K,
    H: FnMut(NodeIndex<Ix>) -> K,
{
    let try_edges = |node, try_edge: &mut dyn FnMut(usize, K)| {
        for edge in graph.edges(NodeIndex::new(node)) {
            try_edge(edge.target().index(), edge_cost(edge));
        }
    };
    let mut node = start.index();
    let is_goal = |node| is_goal(NodeIndex::new(node));
    let found = search(graph.node_bound(), node, is_goal, try_edges)?;
    let next = next_nodes(&found, |node| graph.rank(node));
    let mut path = vec![start];
    while node != found.goal {
        node = next[node]?;
        path.push(NodeIndex::new(node));
    }
    Some((found.keys[node]?.0, path))
}

/// Takes up nodes by least key until a goal is taken up.
fn search<K: Measure>(
    nodes: usize,
    start: usize,
    mut is_goal: impl FnMut(usize) -> bool,
    mut try_edges: impl FnMut(usize, &mut dyn FnMut(usize, K)),
) -> Option<Found<K>> {
    let mut keys = vec![None; nodes];
    let mut offers = vec![];
    let first = (K::default(), 0);
    keys[start] = Some(first);
    let mut waiting = BinaryHeap::from([Reverse((first, start))]);
    while let Some(Reverse((key, node))) = waiting.pop() {
        if keys[node] != Some(key) {
            continue;
        }
        if is_goal(node) {
            let goal = node;
            return Some(Found { goal, keys, offers });
        }
        try_edges(node, &mut |to, cost| {
            let offer = (key.0 + cost, key.1 + 1);
            if keys[to].is_none_or(|present| offer < present) {
                keys[to] = Some(offer);
                waiting.push(Reverse((offer, to)));
            }
            offers.push((node, to, offer));
        });
    }
    None
}

/// For each node of a least path, the first of the nodes that a least path goes on
/// to. Edges out of a node were all tried after those into it, so one pass from the
/// last edge to the first is enough.
fn next_nodes<K: Measure>(found: &Found<K>, rank: impl Fn(usize) -> usize) -> Vec<Option<usize>> {
    let mut next: Vec<Option<usize>> = vec![None; found.keys.len()];
    for (from, to, offer) in found.offers.iter().rev() {
        let leads_on = *to == found.goal || next[*to].is_some();
        let is_least = found.keys[*to] == Some(*offer);
        let is_first = next[*from].is_none_or(|other| rank(*to) < rank(other));
        if leads_on && is_least && is_first {
            next[*from] = Some(*to);
        }
    }
    next
}
