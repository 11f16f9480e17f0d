//! Documents by the WHATWG DOM Standard: trees of nodes, UTF-16 character data, attributes, live ranges, node iterators, tree walkers
//! and mutation observers, over the proved core of Huckleport.
//!
//! A [`Session`] has all objects. They are identified by numbers of their own types: [`Node`], [`Range`], [`StaticRange`],
//! [`NodeIterator`], [`TreeWalker`] and [`Observer`]. Every command is a method of the session. It returns the result by the standard,
//! or an [`Exception`]. A command that was refused changes nothing.
//! Numbers are copied freely. An object stays until it is freed by its number, or until an [`Owned`] of it is dropped.
//!
//! ```
//! use huckleport::{utf16, Node, Session};
//!
//! # fn main() -> Result<(), huckleport::Exception> {
//! let mut session = Session::new()?;
//! let paragraph = session.create_element(Node::DOCUMENT, "p")?;
//! let text = session.create_text(Node::DOCUMENT, &utf16("some text"))?;
//! session.append_child(Node::DOCUMENT, paragraph)?;
//! session.append_child(paragraph, text)?;
//!
//! let mark = session.create_range(Node::DOCUMENT)?;
//! session.set_start(mark, text, 5)?;
//! session.set_end(mark, text, 9)?;
//! session.insert_data(text, 0, &utf16("Here is "))?;
//! assert_eq!(session.range(mark)?.start.offset, 13);
//! assert_eq!(String::from_utf16_lossy(session.range_text(mark)?), "text");
//! # Ok(())
//! # }
//! ```
//!
//! [`html`] and [`xml`] write nodes as HTML and XML; with the feature `html5ever`, [`html`] also parses. A [`History`] undoes changes.
//!
//! An answer of many parts (children, names, rows, records) or a text is borrowed from the session until its next command:
//!
//! ```compile_fail,E0505
//! use huckleport::{Node, Session};
//!
//! let mut session = Session::new().unwrap();
//! let children = session.children(Node::DOCUMENT).unwrap();
//! drop(session);
//! assert_eq!(children.count(), 0);
//! ```
//!
//! ```compile_fail,E0499
//! use huckleport::{Node, Session};
//!
//! let mut session = Session::new().unwrap();
//! for child in session.children(Node::DOCUMENT).unwrap() {
//!     session.remove(child).unwrap();
//! }
//! ```
#![deny(missing_docs, unsafe_code)]

mod answers;
mod attributes;
mod changes;
mod contents;
mod data;
mod exception;
#[rustfmt::skip]
mod ffi;
mod filters;
mod history;
pub mod html;
mod making;
mod numbers;
mod observers;
mod owned;
#[cfg(feature = "html5ever")]
mod parsing;
mod points;
mod questions;
mod ranges;
mod records;
mod rows;
mod session;
mod traversal;
mod trees;
mod writing;
pub mod xml;

pub use answers::{Names, Nodes, Observers};
pub use attributes::Force;
pub use exception::{Exception, Result};
pub use filters::{Rule, Verdict, SHOW_ALL};
pub use history::History;
pub use numbers::{Node, NodeIterator, Observer, Range, StaticRange, TreeWalker};
pub use observers::Options;
pub use owned::{Object, Owned};
pub use points::{BoundaryPoint, Ends, How, StaticEnds};
pub use questions::{Description, Kind, Links};
pub use records::{Notice, Notices, Record, RecordNodes, RecordType, Records};
pub use rows::{Attributes, Row, Rows};
pub use session::{utf16, Counts, Session};
pub use traversal::{IteratorPlace, Move, WalkerPlace};

// The lines that the crate's pages show are tried as well; the build script says where the longer one is.
#[cfg(doctest)]
#[doc = include_str!(env!("HUCKLEPORT_PAGE"))]
struct Page;
#[cfg(doctest)]
#[doc = include_str!("../README.md")]
struct Readme;
