//! The commands that change and copy trees.
use crate::exception::{Exception, Result};
use crate::numbers::Node;
use crate::session::Session;

/// Changing and copying trees.
impl Session {
    /// Inserts a node into a parent, before a child; last where there is none. Answers the node.
    pub fn insert_before(&mut self, parent: Node, node: Node, child: Option<Node>) -> Result<Node> {
        self.handle.insert_before(parent.number(), node.number(), Node::or_none(child)).map_err(Exception::of)?;
        Ok(node)
    }

    /// Appends a node to the children of a parent. Answers the node.
    pub fn append_child(&mut self, parent: Node, node: Node) -> Result<Node> {
        self.handle.append_child(parent.number(), node.number()).map_err(Exception::of)?;
        Ok(node)
    }

    /// Adopts a node into a document. Answers the node.
    pub fn adopt_node(&mut self, document: Node, node: Node) -> Result<Node> {
        self.handle.adopt_node(document.number(), node.number()).map_err(Exception::of)?;
        Ok(node)
    }

    /// Puts a node in place of a child. Answers the child.
    pub fn replace_child(&mut self, parent: Node, node: Node, child: Node) -> Result<Node> {
        self.handle.replace_child(parent.number(), node.number(), child.number()).map_err(Exception::of)?;
        Ok(child)
    }

    /// Removes a child. Answers the child.
    pub fn remove_child(&mut self, parent: Node, child: Node) -> Result<Node> {
        self.handle.remove_child(parent.number(), child.number()).map_err(Exception::of)?;
        Ok(child)
    }

    /// Removes a node from its parent, where it has one.
    pub fn remove(&mut self, node: Node) -> Result<()> {
        self.handle.remove(node.number()).map_err(Exception::of)
    }

    /// Puts a node, or nothing, in place of all children.
    pub fn replace_children(&mut self, parent: Node, node: Option<Node>) -> Result<()> {
        self.handle.replace_children(parent.number(), Node::or_none(node)).map_err(Exception::of)
    }

    /// A copy of a node for another document, with or without all below it.
    pub fn import_node(&mut self, document: Node, node: Node, deep: bool) -> Result<Node> {
        self.handle.import_node(document.number(), node.number(), deep).map(Node::from_number).map_err(Exception::of)
    }

    /// A copy of a node, with or without all below it.
    pub fn clone_node(&mut self, node: Node, deep: bool) -> Result<Node> {
        self.handle.clone_node(node.number(), deep).map(Node::from_number).map_err(Exception::of)
    }

    /// Joins Text nodes below a node that stand side by side, and drops empty ones.
    pub fn normalize(&mut self, node: Node) -> Result<()> {
        self.handle.normalize(node.number()).map_err(Exception::of)
    }

    /// Replaces the contents of a node by a text. Null is the empty text.
    pub fn set_text_content(&mut self, node: Node, text: &[u16]) -> Result<()> {
        self.handle.set_text_content(node.number(), text).map_err(Exception::of)
    }

    /// Lets a node and all below it go. Where something still refers to one of them it is [`Exception::InUse`].
    pub fn discard(&mut self, node: Node) -> Result<()> {
        self.handle.discard(node.number()).map_err(Exception::of)
    }
}
