//! A graph whose node numbers outlive the removal of other nodes.

use std::marker::PhantomData;

use crate::EdgeType;
use crate::graph::{IndexType, NodeIndex};
use crate::visit::EdgeReference;

/// Nodes with their edges. A removed node leaves its number unused.
#[derive(Clone, Debug)]
pub struct StableGraph<N, E, Ty, Ix> {
    nodes: Vec<Option<N>>,
    edges: Vec<Vec<(usize, E)>>,
    ranks: Vec<usize>,
    kind: PhantomData<(Ty, Ix)>,
}

impl<N, E, Ty, Ix> Default for StableGraph<N, E, Ty, Ix> {
    fn default() -> Self {
        StableGraph {
            nodes: vec![],
            edges: vec![],
            ranks: vec![],
            kind: PhantomData,
        }
    }
}

impl<N, E: Copy, Ty: EdgeType, Ix: IndexType> StableGraph<N, E, Ty, Ix> {
    pub fn add_node(&mut self, weight: N) -> NodeIndex<Ix> {
        self.nodes.push(Some(weight));
        self.edges.push(vec![]);
        NodeIndex::new(self.nodes.len() - 1)
    }

    pub fn add_edge(&mut self, from: NodeIndex<Ix>, to: NodeIndex<Ix>, weight: E) {
        self.edges[from.index()].push((to.index(), weight));
        if !Ty::ONE_WAY {
            self.edges[to.index()].push((from.index(), weight));
        }
    }

    pub fn contains_edge(&self, from: NodeIndex<Ix>, to: NodeIndex<Ix>) -> bool {
        let to = to.index();
        self.edges[from.index()].iter().any(|edge| edge.0 == to)
    }

    pub fn remove_node(&mut self, node: NodeIndex<Ix>) -> Option<N> {
        let node = node.index();
        self.edges[node].clear();
        for edges in self.edges.iter_mut() {
            edges.retain(|edge| edge.0 != node);
        }
        self.nodes[node].take()
    }

    pub fn clear(&mut self) {
        *self = StableGraph::default();
    }

    pub fn edges(&self, from: NodeIndex<Ix>) -> impl Iterator<Item = EdgeReference<'_, E, Ix>> {
        self.edges[from.index()]
            .iter()
            .map(|(to, weight)| EdgeReference {
                target: NodeIndex::new(*to),
                weight,
            })
    }

    /// Not of petgraph: the order of nodes that decides between equal paths.
    pub fn rank_nodes(&mut self, order: &[NodeIndex<Ix>]) {
        self.ranks = vec![usize::MAX; self.nodes.len()];
        for (rank, node) in order.iter().enumerate() {
            self.ranks[node.index()] = rank;
        }
    }

    /// A node's place in that order; its number where no order was told.
    pub(crate) fn rank(&self, node: usize) -> usize {
        *self.ranks.get(node).unwrap_or(&node)
    }

    pub(crate) fn node_bound(&self) -> usize {
        self.nodes.len()
    }
}
