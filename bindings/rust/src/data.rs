//! The commands on character data.
use crate::exception::{Exception, Result};
use crate::numbers::Node;
use crate::session::Session;

/// Character data, in UTF-16 units.
impl Session {
    /// The data of a node.
    pub fn data(&mut self, node: Node) -> Result<&[u16]> {
        match self.handle.data(node.number()).map_err(Exception::of) {
            Ok(()) => self.handle.text().map_err(Exception::of),
            Err(Exception::OutOfMemory) => self.handle.data_of(node.number()).map_err(Exception::of),
            Err(refusal) => Err(refusal),
        }
    }

    /// Sets the data of a node.
    pub fn set_data(&mut self, node: Node, data: &[u16]) -> Result<()> {
        self.handle.set_data(node.number(), data).map_err(Exception::of)
    }

    /// Appends to the data of a node.
    pub fn append_data(&mut self, node: Node, data: &[u16]) -> Result<()> {
        self.handle.append_data(node.number(), data).map_err(Exception::of)
    }

    /// Inserts at an offset.
    pub fn insert_data(&mut self, node: Node, offset: u32, data: &[u16]) -> Result<()> {
        self.handle.insert_data(node.number(), offset, data).map_err(Exception::of)
    }

    /// Deletes `count` units from an offset on.
    pub fn delete_data(&mut self, node: Node, offset: u32, count: u32) -> Result<()> {
        self.handle.delete_data(node.number(), offset, count).map_err(Exception::of)
    }

    /// Replaces `count` units from an offset on by a text.
    pub fn replace_data(&mut self, node: Node, offset: u32, count: u32, data: &[u16]) -> Result<()> {
        self.handle.replace_data(node.number(), offset, count, data).map_err(Exception::of)
    }

    /// Returns `count` units from an offset on.
    pub fn substring_data(&mut self, node: Node, offset: u32, count: u32) -> Result<&[u16]> {
        self.handle.substring_data(node.number(), offset, count).map_err(Exception::of)?;
        self.handle.text().map_err(Exception::of)
    }

    /// Splits a Text at an offset. Returns the new Text, which has the units after the offset.
    pub fn split_text(&mut self, text: Node, offset: u32) -> Result<Node> {
        self.handle.split_text(text.number(), offset).map(Node::from_number).map_err(Exception::of)
    }
}
