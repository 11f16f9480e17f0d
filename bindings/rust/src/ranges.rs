//! The commands of live and static ranges.
use crate::exception::{Exception, Result};
use crate::numbers::{Node, Range, StaticRange};
use crate::points::{Ends, How, StaticEnds};
use crate::session::Session;
use std::cmp::Ordering;

/// Live and static ranges.
impl Session {
    /// Makes a live range at the start of a document.
    pub fn create_range(&mut self, document: Node) -> Result<Range> {
        self.handle.create_range(document.number()).map(Range::from_number).map_err(Exception::of)
    }

    /// Makes a live range with the ends of another.
    pub fn clone_range(&mut self, range: Range) -> Result<Range> {
        self.handle.clone_range(range.number()).map(Range::from_number).map_err(Exception::of)
    }

    /// The ends of a live range.
    pub fn range(&mut self, range: Range) -> Result<Ends> {
        self.handle.range(range.number()).map(Ends::from).map_err(Exception::of)
    }

    /// Sets the start.
    pub fn set_start(&mut self, range: Range, node: Node, offset: u32) -> Result<()> {
        self.handle.set_start(range.number(), node.number(), offset).map_err(Exception::of)
    }

    /// Sets the end.
    pub fn set_end(&mut self, range: Range, node: Node, offset: u32) -> Result<()> {
        self.handle.set_end(range.number(), node.number(), offset).map_err(Exception::of)
    }

    /// Sets the start before a node.
    pub fn set_start_before(&mut self, range: Range, node: Node) -> Result<()> {
        self.handle.set_start_before(range.number(), node.number()).map_err(Exception::of)
    }

    /// Sets the start after a node.
    pub fn set_start_after(&mut self, range: Range, node: Node) -> Result<()> {
        self.handle.set_start_after(range.number(), node.number()).map_err(Exception::of)
    }

    /// Sets the end before a node.
    pub fn set_end_before(&mut self, range: Range, node: Node) -> Result<()> {
        self.handle.set_end_before(range.number(), node.number()).map_err(Exception::of)
    }

    /// Sets the end after a node.
    pub fn set_end_after(&mut self, range: Range, node: Node) -> Result<()> {
        self.handle.set_end_after(range.number(), node.number()).map_err(Exception::of)
    }

    /// Moves one end to the other: the end to the start, or the start to the end.
    pub fn collapse(&mut self, range: Range, to_start: bool) -> Result<()> {
        self.handle.collapse(range.number(), to_start).map_err(Exception::of)
    }

    /// Sets the ends around a node.
    pub fn select_node(&mut self, range: Range, node: Node) -> Result<()> {
        self.handle.select_node(range.number(), node.number()).map_err(Exception::of)
    }

    /// Sets the ends around the contents of a node.
    pub fn select_node_contents(&mut self, range: Range, node: Node) -> Result<()> {
        self.handle.select_node_contents(range.number(), node.number()).map_err(Exception::of)
    }

    /// Compares an end of the first range with one of the second.
    pub fn compare_boundary_points(&mut self, range: Range, how: How, source: Range) -> Result<Ordering> {
        let order = self.handle.compare_boundary_points(range.number(), how.0, source.number());
        order.map(|it| it.cmp(&0)).map_err(Exception::of)
    }

    /// Whether a point is before a range (less), in it (equal) or after it (greater).
    pub fn compare_point(&mut self, range: Range, node: Node, offset: u32) -> Result<Ordering> {
        let order = self.handle.compare_point(range.number(), node.number(), offset);
        order.map(|it| it.cmp(&0)).map_err(Exception::of)
    }

    /// Whether a point is in a range.
    pub fn is_point_in_range(&mut self, range: Range, node: Node, offset: u32) -> Result<bool> {
        self.handle.is_point_in_range(range.number(), node.number(), offset).map(|it| it != 0).map_err(Exception::of)
    }

    /// Whether a range and a node meet.
    pub fn intersects_node(&mut self, range: Range, node: Node) -> Result<bool> {
        self.handle.intersects_node(range.number(), node.number()).map(|it| it != 0).map_err(Exception::of)
    }

    /// The deepest node that has both ends in it.
    pub fn common_ancestor(&mut self, range: Range) -> Result<Node> {
        self.handle.common_ancestor(range.number()).map(Node::from_number).map_err(Exception::of)
    }

    /// Lets a live range go.
    pub fn release_range(&mut self, range: Range) -> Result<()> {
        self.handle.release_range(range.number()).map_err(Exception::of)
    }

    /// Makes a static range from the node and offset of its start, and those of its end.
    pub fn create_static_range(&mut self, start: Node, start_offset: u32, end: Node, end_offset: u32) -> Result<StaticRange> {
        let made = self.handle.create_static_range(start.number(), start_offset, end.number(), end_offset);
        made.map(StaticRange::from_number).map_err(Exception::of)
    }

    /// The ends of a static range, and whether it is valid.
    pub fn static_range(&mut self, range: StaticRange) -> Result<StaticEnds> {
        self.handle.static_range(range.number()).map(StaticEnds::from).map_err(Exception::of)
    }

    /// Lets a static range go. It keeps no tree in use any more.
    pub fn release_static_range(&mut self, range: StaticRange) -> Result<()> {
        self.handle.release_static_range(range.number()).map_err(Exception::of)
    }
}
