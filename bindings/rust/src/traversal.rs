//! The commands of node iterators and tree walkers.
use crate::exception::{Exception, Result};
use crate::filters::{verdicts, Listed, Rule};
use crate::numbers::{Node, NodeIterator, TreeWalker};
use crate::session::Session;

/// Where an iterator stands.
#[derive(Clone, Copy, Debug, PartialEq, Eq, Hash)]
pub struct IteratorPlace {
    /// Its root.
    pub root: Node,
    /// Its reference.
    pub reference: Node,
    /// Whether it stands before the reference.
    pub is_before: bool,
}

/// Where a walker stands.
#[derive(Clone, Copy, Debug, PartialEq, Eq, Hash)]
pub struct WalkerPlace {
    /// Its root.
    pub root: Node,
    /// Its current node.
    pub current: Node,
}

/// The moves of a walker.
#[derive(Clone, Copy, Debug, PartialEq, Eq, Hash)]
pub enum Move {
    /// To the parent.
    ParentNode = 0,
    /// To the first child.
    FirstChild = 1,
    /// To the last child.
    LastChild = 2,
    /// To the sibling before.
    PreviousSibling = 3,
    /// To the sibling after.
    NextSibling = 4,
    /// To the node before, in tree order.
    PreviousNode = 5,
    /// To the node after, in tree order.
    NextNode = 6,
}

/// Node iterators and tree walkers.
impl Session {
    /// Makes a node iterator. `show` has a bit for each kind of node, [`SHOW_ALL`](crate::SHOW_ALL) for all.
    pub fn create_iterator(&mut self, root: Node, show: u32, filter: &[Rule<'_>]) -> Result<NodeIterator> {
        let names = Listed::new(filter.iter().map(|(name, _)| *name));
        let made = self.handle.create_iterator(root.number(), show, &names.bytes, &names.lengths, &verdicts(filter));
        made.map(NodeIterator::from_number).map_err(Exception::of)
    }

    /// Makes a tree walker. `show` has a bit for each kind of node, [`SHOW_ALL`](crate::SHOW_ALL) for all.
    pub fn create_walker(&mut self, root: Node, show: u32, filter: &[Rule<'_>]) -> Result<TreeWalker> {
        let names = Listed::new(filter.iter().map(|(name, _)| *name));
        let made = self.handle.create_walker(root.number(), show, &names.bytes, &names.lengths, &verdicts(filter));
        made.map(TreeWalker::from_number).map_err(Exception::of)
    }

    /// Where an iterator stands.
    pub fn iterator(&mut self, iterator: NodeIterator) -> Result<IteratorPlace> {
        let it = self.handle.iterator(iterator.number()).map_err(Exception::of)?;
        let (root, reference) = (Node::from_number(it.root), Node::from_number(it.reference));
        Ok(IteratorPlace { root, reference, is_before: it.is_before != 0 })
    }

    /// Moves an iterator on. Answers the node; none where there is none.
    pub fn next_node(&mut self, iterator: NodeIterator) -> Result<Option<Node>> {
        self.handle.next_node(iterator.number()).map(Node::told).map_err(Exception::of)
    }

    /// Moves an iterator back. Answers the node; none where there is none.
    pub fn previous_node(&mut self, iterator: NodeIterator) -> Result<Option<Node>> {
        self.handle.previous_node(iterator.number()).map(Node::told).map_err(Exception::of)
    }

    /// Where a walker stands.
    pub fn walker(&mut self, walker: TreeWalker) -> Result<WalkerPlace> {
        let it = self.handle.walker(walker.number()).map_err(Exception::of)?;
        Ok(WalkerPlace { root: Node::from_number(it.root), current: Node::from_number(it.current) })
    }

    /// Sets a walker on a node.
    pub fn set_current(&mut self, walker: TreeWalker, node: Node) -> Result<()> {
        self.handle.set_current(walker.number(), node.number()).map_err(Exception::of)
    }

    /// Moves a walker. Answers the node; none where there is none, and then the walker stays.
    pub fn walk(&mut self, walker: TreeWalker, direction: Move) -> Result<Option<Node>> {
        self.handle.walk(walker.number(), direction as u8).map(Node::told).map_err(Exception::of)
    }

    /// Lets an iterator go. No removal moves it any more, and it keeps no tree in use.
    pub fn release_iterator(&mut self, iterator: NodeIterator) -> Result<()> {
        self.handle.release_iterator(iterator.number()).map_err(Exception::of)
    }

    /// Lets a walker go. It keeps no tree in use any more.
    pub fn release_walker(&mut self, walker: TreeWalker) -> Result<()> {
        self.handle.release_walker(walker.number()).map_err(Exception::of)
    }
}
