//! The records that mutation observers get.
use crate::answers::{maybe, name, parts, there, Part};
use crate::ffi::{HP_ATTRIBUTES, HP_CHARACTER_DATA};
use crate::numbers::{Node, Observer};
use std::fmt;

/// The kind of a change in a record.
#[derive(Clone, Copy, Debug, PartialEq, Eq, Hash)]
pub enum RecordType {
    /// An attribute.
    Attributes,
    /// Data.
    CharacterData,
    /// Children.
    ChildList,
}

impl RecordType {
    /// The name that the standard has.
    pub const fn name(self) -> &'static str {
        match self {
            RecordType::Attributes => "attributes",
            RecordType::CharacterData => "characterData",
            RecordType::ChildList => "childList",
        }
    }

    fn of(number: u8) -> RecordType {
        match number {
            HP_ATTRIBUTES => RecordType::Attributes,
            HP_CHARACTER_DATA => RecordType::CharacterData,
            _ => RecordType::ChildList,
        }
    }
}

/// A record of a change.
#[derive(Clone, Copy)]
pub struct Record<'a> {
    /// The kind of the change.
    pub record_type: RecordType,
    /// The node that changed.
    pub target: Node,
    /// The sibling before the added and removed nodes.
    pub previous: Option<Node>,
    /// The sibling after the added and removed nodes.
    pub next: Option<Node>,
    added: usize,
    removed: usize,
    of: Part<'a>,
}

impl<'a> Record<'a> {
    fn read(of: Part<'a>, index: usize) -> Self {
        let it = there(of.handle.record_at(of.notice, index));
        Record {
            record_type: RecordType::of(it.type_),
            target: Node::from_number(it.target),
            previous: Node::told(it.previous),
            next: Node::told(it.next),
            added: it.added,
            removed: it.removed,
            of: of.at(index),
        }
    }

    /// The nodes that came.
    pub fn added(&self) -> RecordNodes<'a> {
        RecordNodes { nodes: Side::Added(Added::new(self.of, self.added)) }
    }

    /// The nodes that went.
    pub fn removed(&self) -> RecordNodes<'a> {
        RecordNodes { nodes: Side::Removed(Removed::new(self.of, self.removed)) }
    }

    /// The name of the attribute that changed.
    pub fn attribute_name(&self) -> Option<&'a str> {
        maybe(self.of.handle.record_name(self.of.notice, self.of.index)).map(name)
    }

    /// The value or the data that was there before, where the observer asked for it.
    pub fn old_value(&self) -> Option<&'a [u16]> {
        maybe(self.of.handle.record_old_value(self.of.notice, self.of.index))
    }
}

impl fmt::Debug for Record<'_> {
    fn fmt(&self, to: &mut fmt::Formatter<'_>) -> fmt::Result {
        let mut it = to.debug_struct("Record");
        it.field("record_type", &self.record_type).field("target", &self.target);
        it.field("added", &self.added()).field("removed", &self.removed());
        it.field("previous", &self.previous).field("next", &self.next).field("attribute_name", &self.attribute_name());
        it.field("old_value", &self.old_value().map(String::from_utf16_lossy)).finish()
    }
}

fn added(of: Part<'_>, at: usize) -> Node {
    Node::from_number(there(of.handle.record_added_at(of.notice, of.index, at)))
}

fn removed(of: Part<'_>, at: usize) -> Node {
    Node::from_number(there(of.handle.record_removed_at(of.notice, of.index, at)))
}

parts! {
    /// The nodes that came, by a record.
    Added, Node, added
}

parts! {
    /// The nodes that went, by a record.
    Removed, Node, removed
}

#[derive(Clone)]
enum Side<'a> {
    Added(Added<'a>),
    Removed(Removed<'a>),
}

/// The nodes that came or went, by a record.
#[derive(Clone)]
pub struct RecordNodes<'a> {
    nodes: Side<'a>,
}

impl Iterator for RecordNodes<'_> {
    type Item = Node;

    fn next(&mut self) -> Option<Node> {
        match &mut self.nodes {
            Side::Added(nodes) => nodes.next(),
            Side::Removed(nodes) => nodes.next(),
        }
    }

    fn size_hint(&self) -> (usize, Option<usize>) {
        match &self.nodes {
            Side::Added(nodes) => nodes.size_hint(),
            Side::Removed(nodes) => nodes.size_hint(),
        }
    }
}

impl DoubleEndedIterator for RecordNodes<'_> {
    fn next_back(&mut self) -> Option<Node> {
        match &mut self.nodes {
            Side::Added(nodes) => nodes.next_back(),
            Side::Removed(nodes) => nodes.next_back(),
        }
    }
}

impl ExactSizeIterator for RecordNodes<'_> {}

impl fmt::Debug for RecordNodes<'_> {
    fn fmt(&self, to: &mut fmt::Formatter<'_>) -> fmt::Result {
        to.debug_list().entries(self.clone()).finish()
    }
}

/// An observer and the records that it gets.
#[derive(Clone, Copy)]
pub struct Notice<'a> {
    /// The observer.
    pub observer: Observer,
    count: usize,
    of: Part<'a>,
}

impl<'a> Notice<'a> {
    fn read(of: Part<'a>, index: usize) -> Self {
        let it = there(of.handle.notice_at(index));
        Notice { observer: Observer::from_number(it.observer), count: it.records, of: of.of_notice(index) }
    }

    /// The records, in the order in which the changes were made.
    pub fn records(&self) -> Records<'a> {
        Records::new(self.of, self.count)
    }
}

impl fmt::Debug for Notice<'_> {
    fn fmt(&self, to: &mut fmt::Formatter<'_>) -> fmt::Result {
        to.debug_struct("Notice").field("observer", &self.observer).field("records", &self.records()).finish()
    }
}

parts! {
    /// Records, in the order in which the changes were made.
    Records, Record<'a>, Record::read
}

parts! {
    /// The notices, one for each observer.
    Notices, Notice<'a>, Notice::read
}
