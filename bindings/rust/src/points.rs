//! Boundary points, and the ends of ranges.
use crate::ffi::{hp_ends, hp_static_ends};
use crate::numbers::Node;

/// A boundary point: a node and an offset in it.
#[derive(Clone, Copy, Debug, PartialEq, Eq, Hash)]
pub struct BoundaryPoint {
    /// The node.
    pub node: Node,
    /// The offset: among the units of its data, or among its children.
    pub offset: usize,
}

/// The start and the end of a live range.
#[derive(Clone, Copy, Debug, PartialEq, Eq, Hash)]
pub struct Ends {
    /// Where it starts.
    pub start: BoundaryPoint,
    /// Where it ends.
    pub end: BoundaryPoint,
}

/// The start and the end of a static range, and whether it is valid.
#[derive(Clone, Copy, Debug, PartialEq, Eq, Hash)]
pub struct StaticEnds {
    /// Where it starts.
    pub start: BoundaryPoint,
    /// Where it ends.
    pub end: BoundaryPoint,
    /// Whether the ends still stand in one tree, in their order, and within their nodes.
    pub is_valid: bool,
}

/// Which ends of two ranges are compared, by the standard's numbers.
#[derive(Clone, Copy, Debug, PartialEq, Eq, Hash)]
pub struct How(pub u32);

impl How {
    /// The start of the one with the start of the other.
    pub const START_TO_START: How = How(0);
    /// The end of the first with the start of the other.
    pub const START_TO_END: How = How(1);
    /// The end of the one with the end of the other.
    pub const END_TO_END: How = How(2);
    /// The start of the first with the end of the other.
    pub const END_TO_START: How = How(3);
}

fn point(node: u32, offset: usize) -> BoundaryPoint {
    BoundaryPoint { node: Node::from_number(node), offset }
}

impl From<hp_ends> for Ends {
    fn from(it: hp_ends) -> Ends {
        Ends { start: point(it.start, it.start_offset), end: point(it.end, it.end_offset) }
    }
}

impl From<hp_static_ends> for StaticEnds {
    fn from(it: hp_static_ends) -> StaticEnds {
        let (start, end) = (point(it.start, it.start_offset), point(it.end, it.end_offset));
        StaticEnds { start, end, is_valid: it.is_valid != 0 }
    }
}
