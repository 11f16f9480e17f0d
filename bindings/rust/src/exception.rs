//! Why a command was refused.
use crate::ffi;
use std::fmt;

/// The result of a command, or why it was refused.
pub type Result<T> = std::result::Result<T, Exception>;

macro_rules! exceptions {
    ($($name:ident, $status:ident, $word:literal, $meaning:literal;)*) => {
        /// Why a command was refused. A command that was refused changed nothing.
        #[derive(Clone, Copy, Debug, PartialEq, Eq, Hash)]
        #[non_exhaustive]
        pub enum Exception {
            $(#[doc = concat!("`", $word, "`: ", $meaning, ".")] $name,)*
        }

        impl Exception {
            /// Returns the word of the exception in the reply to a line.
            pub const fn name(self) -> &'static str {
                match self {
                    $(Exception::$name => $word,)*
                }
            }

            /// Returns the meaning of the exception, in words.
            pub const fn meaning(self) -> &'static str {
                match self {
                    $(Exception::$name => $meaning,)*
                }
            }

            pub(crate) fn of(status: u8) -> Exception {
                match status {
                    $(ffi::$status => Exception::$name,)*
                    // (no call of this crate can be answered with another)
                    _ => unreachable!("the library answered the status {status}"),
                }
            }
        }
    };
}

exceptions! {
    IndexSizeError, HP_INDEX_SIZE_ERROR, "IndexSizeError", "an offset is greater than the length";
    HierarchyRequestError, HP_HIERARCHY_REQUEST_ERROR, "HierarchyRequestError", "the node cannot be inserted there";
    WrongDocumentError, HP_WRONG_DOCUMENT_ERROR, "WrongDocumentError", "the objects are in trees of different roots";
    InvalidCharacterError, HP_INVALID_CHARACTER_ERROR, "InvalidCharacterError", "a name has a character that it may not have";
    NotFoundError, HP_NOT_FOUND_ERROR, "NotFoundError", "the node is not a child of this one";
    NotSupportedError, HP_NOT_SUPPORTED_ERROR, "NotSupportedError", "a Document cannot be used here, or a number is not one of the choices";
    InvalidStateError, HP_INVALID_STATE_ERROR, "InvalidStateError", "the range partially contains a node that is not a Text";
    InvalidNodeTypeError, HP_INVALID_NODE_TYPE_ERROR, "InvalidNodeTypeError", "a node of this kind cannot be used here";
    TypeError, HP_TYPE_ERROR, "TypeError", "the node is of the wrong kind, or options contradict each other";
    NoSuchObject, HP_NO_SUCH_OBJECT, "no-such-object", "there is no object of this number: it was discarded, released or never made";
    Limit, HP_LIMIT, "limit", "the session has no number left for a new object";
    InUse, HP_IN_USE, "in-use", "the tree has a parent, or something still refers to a node in it";
    LineTooLong, HP_LINE_TOO_LONG, "line-too-long", "the line is longer than the session allows";
    BadJson, HP_BAD_JSON, "bad-json", "the line is not JSON";
    BadCommand, HP_BAD_COMMAND, "bad-command", "the line does not begin with the name of a command";
    BadArguments, HP_BAD_ARGUMENTS, "bad-arguments", "the line has other arguments than its command";
    OutOfMemory, HP_OUT_OF_MEMORY, "out-of-memory", "out of memory: nothing has changed, and the session goes on; or it has ended, and can still be read and serialized";
    BadLimits, HP_BAD_LIMITS, "bad-limits", "the limits of the session are out of their range";
    BadLengths, HP_BAD_LENGTHS, "bad-lengths", "a name in a list is longer than 4294967295 bytes";
}

impl fmt::Display for Exception {
    fn fmt(&self, to: &mut fmt::Formatter<'_>) -> fmt::Result {
        write!(to, "{}: {}", self.name(), self.meaning())
    }
}

impl std::error::Error for Exception {}
