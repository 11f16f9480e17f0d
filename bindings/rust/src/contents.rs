//! The commands on the contents of a live range.
use crate::exception::{Exception, Result};
use crate::numbers::{Node, Range};
use crate::session::Session;

/// The contents of live ranges.
impl Session {
    /// Returns the text in a range.
    pub fn range_text(&mut self, range: Range) -> Result<&[u16]> {
        self.handle.range_text(range.number()).map_err(Exception::of)?;
        self.handle.text().map_err(Exception::of)
    }

    /// Deletes the contents of a range.
    pub fn delete_contents(&mut self, range: Range) -> Result<()> {
        self.handle.delete_contents(range.number()).map_err(Exception::of)
    }

    /// Moves the contents of a range into a new fragment.
    pub fn extract_contents(&mut self, range: Range) -> Result<Node> {
        self.handle.extract_contents(range.number()).map(Node::from_number).map_err(Exception::of)
    }

    /// Copies the contents of a range into a new fragment.
    pub fn clone_contents(&mut self, range: Range) -> Result<Node> {
        self.handle.clone_contents(range.number()).map(Node::from_number).map_err(Exception::of)
    }

    /// Inserts a node at the start of a range.
    pub fn insert_node(&mut self, range: Range, node: Node) -> Result<()> {
        self.handle.insert_node(range.number(), node.number()).map_err(Exception::of)
    }

    /// Moves the contents of a range into a node, and inserts that node in their place.
    pub fn surround_contents(&mut self, range: Range, parent: Node) -> Result<()> {
        self.handle.surround_contents(range.number(), parent.number()).map_err(Exception::of)
    }
}
