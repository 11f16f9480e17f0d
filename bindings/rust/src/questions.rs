//! The questions about nodes.
use crate::answers::{maybe, name, Nodes, Part};
use crate::exception::{Exception, Result};
use crate::numbers::Node;
use crate::rows::Rows;
use crate::session::Session;
use std::fmt;

/// The kinds of nodes, by the standard's numbers (`nodeType`).
#[derive(Clone, Copy, Debug, PartialEq, Eq, Hash)]
pub enum Kind {
    /// An Element.
    Element = 1,
    /// A Text.
    Text = 3,
    /// A ProcessingInstruction.
    ProcessingInstruction = 7,
    /// A Comment.
    Comment = 8,
    /// A Document.
    Document = 9,
    /// A DocumentType.
    DocumentType = 10,
    /// A DocumentFragment.
    DocumentFragment = 11,
}

impl Kind {
    /// The standard's number.
    pub const fn number(self) -> u16 {
        self as u16
    }

    pub(crate) fn of(number: u16) -> Kind {
        match number {
            1 => Kind::Element,
            3 => Kind::Text,
            7 => Kind::ProcessingInstruction,
            8 => Kind::Comment,
            9 => Kind::Document,
            10 => Kind::DocumentType,
            11 => Kind::DocumentFragment,
            _ => unreachable!("the library told the kind {number}"),
        }
    }
}

/// The neighbours of a node, its kind and its names.
#[derive(Clone, Copy)]
pub struct Description<'a> {
    /// The node document.
    pub document: Node,
    /// The kind.
    pub kind: Kind,
    /// The parent.
    pub parent: Option<Node>,
    /// The sibling before it.
    pub previous: Option<Node>,
    /// The sibling after it.
    pub next: Option<Node>,
    of: Part<'a>,
}

impl<'a> Description<'a> {
    fn part(&self, part: u8) -> Option<&'a str> {
        self.of.node().and_then(|node| maybe(self.of.handle.name_of(node, part))).map(name)
    }

    /// The name of an Element or a DocumentType, or the target of a ProcessingInstruction.
    pub fn name(&self) -> Option<&'a str> {
        self.part(0)
    }

    /// The public id of a DocumentType.
    pub fn public_id(&self) -> Option<&'a str> {
        self.part(1)
    }

    /// The system id of a DocumentType.
    pub fn system_id(&self) -> Option<&'a str> {
        self.part(2)
    }
}

impl fmt::Debug for Description<'_> {
    fn fmt(&self, to: &mut fmt::Formatter<'_>) -> fmt::Result {
        let mut it = to.debug_struct("Description");
        it.field("document", &self.document).field("kind", &self.kind).field("name", &self.name());
        it.field("parent", &self.parent).field("previous", &self.previous).field("next", &self.next).finish()
    }
}

/// The kind of a node, and its neighbours in the tree.
#[derive(Clone, Copy, Debug, PartialEq, Eq)]
pub struct Links {
    /// The kind.
    pub kind: Kind,
    /// The node document.
    pub document: Node,
    /// The parent.
    pub parent: Option<Node>,
    /// The sibling before it.
    pub previous: Option<Node>,
    /// The sibling after it.
    pub next: Option<Node>,
    /// The first child.
    pub first_child: Option<Node>,
    /// The last child.
    pub last_child: Option<Node>,
    /// How many children it has.
    pub children: usize,
    /// Its length: of its data, or how many children it has.
    pub length: usize,
}

/// Questions about a node in constant time, or nearly so. The last answer stays.
impl Session {
    /// Returns the kind of a node, and its neighbours in the tree.
    pub fn links(&self, node: Node) -> Result<Links> {
        let it = self.handle.links(node.number()).map_err(Exception::of)?;
        Ok(Links {
            kind: Kind::of(it.kind.into()),
            document: Node::from_number(it.document),
            parent: Node::told(it.parent),
            previous: Node::told(it.previous),
            next: Node::told(it.next),
            first_child: Node::told(it.first_child),
            last_child: Node::told(it.last_child),
            children: it.children,
            length: it.length,
        })
    }

    /// The first child of a node.
    pub fn first_child(&self, node: Node) -> Result<Option<Node>> {
        self.handle.first_child(node.number()).map(Node::told).map_err(Exception::of)
    }

    /// The last child of a node.
    pub fn last_child(&self, node: Node) -> Result<Option<Node>> {
        self.handle.last_child(node.number()).map(Node::told).map_err(Exception::of)
    }

    /// Whether a node has a child.
    pub fn has_child_nodes(&self, node: Node) -> Result<bool> {
        self.first_child(node).map(|it| it.is_some())
    }

    /// The child of a node at an index. The library goes there from the nearer end.
    pub fn child_at(&self, node: Node, index: usize) -> Result<Option<Node>> {
        self.handle.child_at(node.number(), index).map(Node::told).map_err(Exception::of)
    }
}

/// Questions about nodes.
impl Session {
    /// Returns the neighbours of a node, its kind and its names.
    pub fn node(&mut self, node: Node) -> Result<Description<'_>> {
        match self.handle.node(node.number()).map_err(Exception::of) {
            Ok(_) | Err(Exception::OutOfMemory) => {}
            Err(refusal) => return Err(refusal),
        }
        let it = self.links(node)?;
        Ok(Description {
            document: it.document,
            kind: it.kind,
            parent: it.parent,
            previous: it.previous,
            next: it.next,
            of: Part::held(&self.handle, node),
        })
    }

    /// The children of a node.
    pub fn children(&mut self, node: Node) -> Result<Nodes<'_>> {
        self.handle.children(node.number()).map_err(Exception::of)?;
        let count = self.handle.count().map_err(Exception::of)?;
        Ok(Nodes::new(Part::whole(&self.handle), count))
    }

    /// Returns the number of siblings before a node.
    pub fn index(&mut self, node: Node) -> Result<usize> {
        self.handle.index(node.number()).map_err(Exception::of)
    }

    /// The length of a node: of its data, or how many children it has.
    pub fn length(&mut self, node: Node) -> Result<usize> {
        self.handle.length(node.number()).map_err(Exception::of)
    }

    /// The root of a node.
    pub fn root(&mut self, node: Node) -> Result<Node> {
        self.handle.root(node.number()).map(Node::from_number).map_err(Exception::of)
    }

    /// Whether another node is an inclusive descendant.
    pub fn contains(&mut self, node: Node, other: Option<Node>) -> Result<bool> {
        self.handle.contains(node.number(), Node::or_none(other)).map(|it| it != 0).map_err(Exception::of)
    }

    /// Whether both nodes are equal.
    pub fn is_equal(&mut self, node: Node, other: Option<Node>) -> Result<bool> {
        self.handle.is_equal(node.number(), Node::or_none(other)).map(|it| it != 0).map_err(Exception::of)
    }

    /// Returns the position of the second node, relative to the first, as the bits of the standard.
    pub fn compare_position(&mut self, node: Node, other: Node) -> Result<u32> {
        self.handle.compare_position(node.number(), other.number()).map_err(Exception::of)
    }

    /// The text in a node; none for a Document and a DocumentType.
    pub fn text_content(&mut self, node: Node) -> Result<Option<&[u16]>> {
        self.handle.text_content(node.number()).map_err(Exception::of)?;
        self.text()
    }

    /// A node and all below it, in tree order.
    pub fn tree(&mut self, node: Node) -> Result<Rows<'_>> {
        self.handle.tree(node.number()).map_err(Exception::of)?;
        let count = self.handle.count().map_err(Exception::of)?;
        Ok(Rows::new(Part::whole(&self.handle), count))
    }
}
