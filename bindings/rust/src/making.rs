//! The commands that make nodes.
use crate::exception::{Exception, Result};
use crate::numbers::Node;
use crate::session::Session;

fn made(number: std::result::Result<u32, u8>) -> Result<Node> {
    number.map(Node::from_number).map_err(Exception::of)
}

/// Making nodes.
impl Session {
    /// Makes a Document.
    pub fn new_document(&mut self) -> Result<Node> {
        made(self.handle.new_document())
    }

    /// Makes an Element of that name.
    pub fn create_element(&mut self, document: Node, name: &str) -> Result<Node> {
        made(self.handle.create_element(document.number(), name.as_bytes()))
    }

    /// Makes a Text of that data.
    pub fn create_text(&mut self, document: Node, data: &[u16]) -> Result<Node> {
        made(self.handle.create_text(document.number(), data))
    }

    /// Makes a Comment of that data.
    pub fn create_comment(&mut self, document: Node, data: &[u16]) -> Result<Node> {
        made(self.handle.create_comment(document.number(), data))
    }

    /// Makes a ProcessingInstruction of that target and data.
    pub fn create_pi(&mut self, document: Node, target: &str, data: &[u16]) -> Result<Node> {
        made(self.handle.create_pi(document.number(), target.as_bytes(), data))
    }

    /// Makes a DocumentType of that name, with its public and its system id.
    pub fn create_doctype(&mut self, document: Node, name: &str, public_id: &str, system_id: &str) -> Result<Node> {
        made(self.handle.create_doctype(document.number(), name.as_bytes(), public_id.as_bytes(), system_id.as_bytes()))
    }

    /// Makes a DocumentFragment.
    pub fn create_fragment(&mut self, document: Node) -> Result<Node> {
        made(self.handle.create_fragment(document.number()))
    }
}
