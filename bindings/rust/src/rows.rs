//! The rows of a tree.
use crate::answers::{maybe, name, parts, there, Part};
use crate::ffi::Handle;
use crate::numbers::Node;
use crate::questions::Kind;
use std::fmt;

/// A node of a tree that was asked for.
#[derive(Clone, Copy)]
pub struct Row<'a> {
    /// How deep it stands below the node that was asked for.
    pub depth: usize,
    /// The node.
    pub node: Node,
    /// Its kind.
    pub kind: Kind,
    attributes: usize,
    of: Part<'a>,
}

impl<'a> Row<'a> {
    fn read(of: Part<'a>, index: usize) -> Self {
        let it = there(of.handle.row_at(index));
        Row { depth: it.depth, node: Node::from_number(it.node), kind: Kind::of(it.type_), attributes: it.attributes, of: of.at(index) }
    }

    /// A row of a session that has ended.
    pub(crate) fn held(handle: &'a Handle, depth: usize, node: Node) -> Result<Self, u8> {
        let links = handle.links(node.number())?;
        let mut attributes = 0;
        while handle.attribute_at(node.number(), attributes).is_ok() {
            attributes += 1;
        }
        Ok(Row { depth, node, kind: Kind::of(links.kind.into()), attributes, of: Part::held(handle, node) })
    }

    fn part(&self, part: u8) -> Option<&'a str> {
        match self.of.node() {
            Some(node) => maybe(self.of.handle.name_of(node, part)).map(name),
            None => maybe(self.of.handle.row_name(self.of.index, part)).map(name),
        }
    }

    /// The name of an Element or a DocumentType, or the target of a ProcessingInstruction.
    pub fn name(&self) -> Option<&'a str> {
        self.part(0)
    }

    /// The public id of a DocumentType.
    pub fn public_id(&self) -> Option<&'a str> {
        self.part(1)
    }

    /// The system id of a DocumentType.
    pub fn system_id(&self) -> Option<&'a str> {
        self.part(2)
    }

    /// The data of a Text, a Comment or a ProcessingInstruction.
    pub fn data(&self) -> Option<&'a [u16]> {
        maybe(match self.of.node() {
            Some(node) => self.of.handle.data_of(node),
            None => self.of.handle.row_text(self.of.index),
        })
    }

    /// The attributes of an Element, in order.
    pub fn attributes(&self) -> Attributes<'a> {
        Attributes::new(self.of, self.attributes)
    }
}

impl fmt::Debug for Row<'_> {
    fn fmt(&self, to: &mut fmt::Formatter<'_>) -> fmt::Result {
        let mut it = to.debug_struct("Row");
        it.field("depth", &self.depth).field("node", &self.node).field("kind", &self.kind).field("name", &self.name());
        it.field("data", &self.data().map(String::from_utf16_lossy)).field("attributes", &self.attributes()).finish()
    }
}

fn attribute(of: Part<'_>, at: usize) -> (&str, &[u16]) {
    if let Some(node) = of.node() {
        let (found, value) = there(of.handle.attribute_at(node, at));
        return (name(found), value);
    }
    let value = there(of.handle.row_attribute_value(of.index, at));
    (name(there(of.handle.row_attribute_name(of.index, at))), value)
}

parts! {
    /// The rows of a tree, in tree order.
    Rows, Row<'a>, Row::read
}

parts! {
    /// The attributes of an Element: name and value of each.
    Attributes, (&'a str, &'a [u16]), attribute
}
