//! Numbers of nodes.

/// The number of a node, of a width that the graph's type names.
#[derive(Clone, Copy, PartialEq, Eq, PartialOrd, Ord, Hash, Debug, Default)]
pub struct NodeIndex<Ix>(Ix);

impl<Ix> From<Ix> for NodeIndex<Ix> {
    fn from(number: Ix) -> Self {
        NodeIndex(number)
    }
}

/// Widths that a node's number may have.
pub trait IndexType: Copy {
    fn narrow(number: usize) -> Self;
    fn wide(self) -> usize;
}

macro_rules! index_type {
    ($($width:ty)*) => {
        $(impl IndexType for $width {
            fn narrow(number: usize) -> Self {
                number.try_into().expect("more nodes than numbers")
            }
            fn wide(self) -> usize {
                self as usize
            }
        })*
    };
}

index_type!(u16 u32);

impl<Ix: IndexType> NodeIndex<Ix> {
    pub fn new(number: usize) -> Self {
        NodeIndex(Ix::narrow(number))
    }

    pub fn index(self) -> usize {
        self.0.wide()
    }
}
