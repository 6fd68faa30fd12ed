//! An edge as seen from one of its ends.

use crate::graph::NodeIndex;

/// An edge: the node it leads to and its weight.
#[derive(Clone, Copy)]
pub struct EdgeReference<'a, E, Ix> {
    pub(crate) target: NodeIndex<Ix>,
    pub(crate) weight: &'a E,
}

impl<'a, E, Ix> EdgeReference<'a, E, Ix> {
    pub fn weight(&self) -> &'a E {
        self.weight
    }
}

/// Where an edge leads.
pub trait EdgeRef {
    type NodeId;
    fn target(&self) -> Self::NodeId;
}

impl<E, Ix: Copy> EdgeRef for EdgeReference<'_, E, Ix> {
    type NodeId = NodeIndex<Ix>;

    fn target(&self) -> NodeIndex<Ix> {
        self.target
    }
}
