//! Answers of many parts: children, observers, names.
use crate::ffi::Handle;
use crate::numbers::{Node, Observer};

/// Returns the part of the last answer at an index that its count allows.
pub(crate) fn there<T>(found: Result<T, u8>) -> T {
    // (the answer is borrowed, so that no command can have changed it)
    found.expect("a part that was counted")
}

/// A part of the last answer that may be null.
pub(crate) fn maybe<T>(found: Result<T, u8>) -> Option<T> {
    found.ok()
}

/// A name of the library, which is UTF-8.
pub(crate) fn name(bytes: &[u8]) -> &str {
    std::str::from_utf8(bytes).expect("names are UTF-8")
}

/// Makes an iterator over the parts of an answer, which knows how many there are.
macro_rules! parts {
    ($(#[$doc:meta])* $name:ident, $item:ty, $read:expr) => {
        $(#[$doc])*
        #[derive(Clone)]
        pub struct $name<'a> {
            of: crate::answers::Part<'a>,
            left: std::ops::Range<usize>,
        }

        impl<'a> $name<'a> {
            pub(crate) fn new(of: crate::answers::Part<'a>, count: usize) -> Self {
                Self { of, left: 0..count }
            }
        }

        impl<'a> Iterator for $name<'a> {
            type Item = $item;

            fn next(&mut self) -> Option<Self::Item> {
                let of = self.of;
                self.left.next().map(|at| $read(of, at))
            }

            fn size_hint(&self) -> (usize, Option<usize>) {
                self.left.size_hint()
            }

            fn nth(&mut self, skipped: usize) -> Option<Self::Item> {
                let of = self.of;
                self.left.nth(skipped).map(|at| $read(of, at))
            }
        }

        impl<'a> DoubleEndedIterator for $name<'a> {
            fn next_back(&mut self) -> Option<Self::Item> {
                let of = self.of;
                self.left.next_back().map(|at| $read(of, at))
            }
        }

        impl ExactSizeIterator for $name<'_> {}
        impl std::iter::FusedIterator for $name<'_> {}

        impl std::fmt::Debug for $name<'_> {
            fn fmt(&self, to: &mut std::fmt::Formatter<'_>) -> std::fmt::Result {
                to.debug_list().entries(self.clone()).finish()
            }
        }
    };
}
pub(crate) use parts;

/// The index that means a node, and no answer.
const HELD: usize = usize::MAX;

/// A part of the last answer: the handle, and the indexes that lead to it.
#[derive(Clone, Copy)]
pub(crate) struct Part<'a> {
    pub(crate) handle: &'a Handle,
    pub(crate) notice: usize,
    pub(crate) index: usize,
}

impl<'a> Part<'a> {
    pub(crate) fn whole(handle: &'a Handle) -> Self {
        Part { handle, notice: 0, index: 0 }
    }

    /// Makes the part of a node, which is read by calls that take no memory, even of a session that has ended.
    pub(crate) fn held(handle: &'a Handle, node: Node) -> Self {
        Part { handle, notice: node.number() as usize, index: HELD }
    }

    /// The number of such a node.
    pub(crate) fn node(&self) -> Option<u32> {
        if self.index == HELD {
            Some(self.notice as u32)
        } else {
            None
        }
    }

    pub(crate) fn of_notice(self, notice: usize) -> Self {
        Part { notice, ..self }
    }

    pub(crate) fn at(self, index: usize) -> Self {
        Part { index, ..self }
    }
}

parts! {
    /// The nodes of an answer.
    Nodes, Node, |of: Part<'_>, at| Node::from_number(there(of.handle.number_at(at)))
}

parts! {
    /// The observers of an answer.
    Observers, Observer, |of: Part<'_>, at| Observer::from_number(there(of.handle.number_at(at)))
}

fn name_at(of: Part<'_>, at: usize) -> &str {
    name(there(of.handle.name_at(at)))
}

parts! {
    /// The names of an answer.
    Names, &'a str, name_at
}
