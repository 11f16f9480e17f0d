//! Sessions, lines and texts.
use crate::exception::{Exception, Result};
use crate::ffi::Handle;
use crate::owned::OwningHandle;
use std::fmt;

/// A session, which has all objects. It frees them when it is dropped.
///
/// A session may go to another thread, and is used by one at a time.
///
/// ```compile_fail,E0277
/// fn shared<T: Sync>() {}
/// shared::<huckleport::Session>();
/// ```
pub struct Session {
    pub(crate) handle: OwningHandle,
}

/// How many objects of each kind a session has: those that were made, and neither discarded nor released.
#[derive(Clone, Copy, Debug, PartialEq, Eq)]
pub struct Counts {
    /// Nodes, in trees and alone.
    pub nodes: usize,
    /// Live ranges.
    pub ranges: usize,
    /// Static ranges.
    pub static_ranges: usize,
    /// Node iterators.
    pub iterators: usize,
    /// Tree walkers.
    pub walkers: usize,
    /// Mutation observers.
    pub observers: usize,
    /// Registrations of all observers, with the transient ones.
    pub registrations: usize,
}

/// The longest line of a session that says no other limit, in bytes.
const LINE: usize = 1 << 20;

impl Session {
    /// A session that has one Document, [`Node::DOCUMENT`](crate::Node::DOCUMENT), and as many numbers as there can be.
    pub fn new() -> Result<Session> {
        Session::with_limits(u32::MAX, LINE)
    }

    /// Opens a session that has `numbers` numbers for each kind of object, and takes at most `line` bytes in a line. Both are at least 1.
    pub fn with_limits(numbers: u32, line: usize) -> Result<Session> {
        match Handle::open(numbers.into(), line) {
            Ok(handle) => Ok(Session { handle: OwningHandle::new(handle) }),
            Err(status) => Err(Exception::of(status)),
        }
    }

    /// Runs a line of JSON, which has no newline, and returns the line of its reply, with its newline.
    ///
    /// If the command was refused, the reply says so.
    ///
    /// ```
    /// # fn main() -> Result<(), huckleport::Exception> {
    /// let mut session = huckleport::Session::new()?;
    /// assert_eq!(session.line(br#"["createElement",0,"p"]"#)?, b"{\"ok\":1}\n");
    /// assert_eq!(session.line(b"?")?, b"{\"error\":\"bad-json\"}\n");
    /// # Ok(())
    /// # }
    /// ```
    pub fn line(&mut self, line: &[u8]) -> Result<&[u8]> {
        match self.handle.line(line).map_err(Exception::of) {
            Err(Exception::OutOfMemory) => Err(Exception::OutOfMemory),
            _ => self.handle.reply_line().map_err(Exception::of),
        }
    }

    /// The last answer as a line of JSON, as the reply to a line has it, with its newline.
    ///
    /// A session that has not answered yet says nothing.
    pub fn printed(&mut self) -> Result<&[u8]> {
        match self.handle.unsettled().print() {
            Err(status) if status != crate::ffi::HP_NOT_THERE => Err(Exception::of(status)),
            _ => self.handle.reply_line().map_err(Exception::of),
        }
    }

    /// Returns whether the session has ended, since an edit was refused memory. It can then be read and serialized; commands that change it return
    /// [`Exception::OutOfMemory`].
    ///
    /// ```
    /// # fn main() -> Result<(), huckleport::Exception> {
    /// assert!(!huckleport::Session::new()?.has_ended());
    /// # Ok(())
    /// # }
    /// ```
    pub fn has_ended(&self) -> bool {
        self.handle.has_ended()
    }

    /// Returns how many objects of each kind the session has, in constant time. The last answer stays, unless an [`Owned`](crate::Owned) was
    /// dropped since: its object is freed first.
    ///
    /// ```
    /// # fn main() -> Result<(), huckleport::Exception> {
    /// use huckleport::{Node, Session};
    ///
    /// let mut session = Session::new()?;
    /// let range = session.create_range(Node::DOCUMENT)?;
    /// assert_eq!((session.in_use()?.nodes, session.in_use()?.ranges), (1, 1));
    /// session.release_range(range)?;
    /// assert_eq!(session.in_use()?.ranges, 0);
    /// # Ok(())
    /// # }
    /// ```
    pub fn in_use(&mut self) -> Result<Counts> {
        self.handle.settle();
        let it = self.handle.in_use().map_err(Exception::of)?;
        Ok(Counts {
            nodes: it.nodes,
            ranges: it.ranges,
            static_ranges: it.static_ranges,
            iterators: it.iterators,
            walkers: it.walkers,
            observers: it.observers,
            registrations: it.registrations,
        })
    }

    /// Returns the text of the last answer; none if it is null.
    pub(crate) fn text(&self) -> Result<Option<&[u16]>> {
        match self.handle.text() {
            Ok(text) => Ok(Some(text)),
            Err(crate::ffi::HP_NOT_THERE) => Ok(None),
            Err(status) => Err(Exception::of(status)),
        }
    }
}

impl fmt::Debug for Session {
    fn fmt(&self, to: &mut fmt::Formatter<'_>) -> fmt::Result {
        to.debug_struct("Session").finish_non_exhaustive()
    }
}

/// The UTF-16 units of a string, as texts are handed to a session.
pub fn utf16(text: &str) -> Vec<u16> {
    text.encode_utf16().collect()
}
