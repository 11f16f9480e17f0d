//! The numbers of objects, each kind from 0 on.
use crate::ffi::HP_NONE;

macro_rules! numbers {
    ($($(#[$doc:meta])* $name:ident,)*) => {
        $(
            $(#[$doc])*
            #[derive(Clone, Copy, Debug, PartialEq, Eq, PartialOrd, Ord, Hash)]
            pub struct $name(u32);

            impl $name {
                /// The object of that number, whether there is one or not.
                pub const fn from_number(number: u32) -> Self {
                    Self(number)
                }

                /// The number of this object.
                pub const fn number(self) -> u32 {
                    self.0
                }
            }
        )*
    };
}

numbers! {
    /// A node of a session's trees.
    Node,
    /// A live range, whose ends move with edits.
    Range,
    /// A static range, whose ends stay as they were given.
    StaticRange,
    /// A node iterator.
    NodeIterator,
    /// A tree walker.
    TreeWalker,
    /// A mutation observer.
    Observer,
}

impl Node {
    /// The Document that a session has from the first.
    pub const DOCUMENT: Node = Node(0);

    pub(crate) fn or_none(node: Option<Node>) -> u32 {
        node.map_or(HP_NONE, Node::number)
    }

    pub(crate) fn told(number: u32) -> Option<Node> {
        (number != HP_NONE).then_some(Node(number))
    }
}
