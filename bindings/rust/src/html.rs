//! HTML out, by the serialization rules of the HTML Standard; and in, with the feature `html5ever`.
//!
//! ```
//! use huckleport::{html, utf16, Node, Session};
//!
//! # fn main() -> Result<(), huckleport::Exception> {
//! let mut session = Session::new()?;
//! let paragraph = session.create_element(Node::DOCUMENT, "p")?;
//! let text = session.create_text(Node::DOCUMENT, &utf16("one < two"))?;
//! session.set_attribute(paragraph, "class", &utf16("first"))?;
//! session.append_child(paragraph, text)?;
//! assert_eq!(html::serialize(&mut session, paragraph)?, r#"<p class="first">one &lt; two</p>"#);
//! assert_eq!(html::serialize_children(&mut session, paragraph)?, "one &lt; two");
//! # Ok(())
//! # }
//! ```
use crate::exception::Result;
use crate::numbers::Node;
use crate::questions::Kind;
use crate::rows::Row;
use crate::session::Session;
use crate::writing::{characters, inside, whole, Markup};

#[cfg(feature = "html5ever")]
pub use crate::parsing::{parse, parse_fragment, Handle, Sink};

/// Elements that have no end tag, and whose descendants are not written.
const VOID: [&str; 18] = [
    "area", "base", "basefont", "bgsound", "br", "col", "embed", "frame", "hr", "img", "input", "keygen", "link", "meta", "param", "source", "track",
    "wbr",
];

/// Elements whose texts are written as they are.
const PLAIN: [&str; 7] = ["iframe", "noembed", "noframes", "plaintext", "script", "style", "xmp"];

struct Html;

/// Writes the characters of a text, in an attribute or outside of one.
fn escape(text: &[u16], is_value: bool, to: &mut String) {
    for it in characters(text) {
        match it.unwrap_or(char::REPLACEMENT_CHARACTER) {
            '&' => to.push_str("&amp;"),
            '\u{a0}' => to.push_str("&nbsp;"),
            '<' => to.push_str("&lt;"),
            '>' => to.push_str("&gt;"),
            '"' if is_value => to.push_str("&quot;"),
            other => to.push(other),
        }
    }
}

fn as_it_is(text: &[u16], to: &mut String) {
    to.extend(characters(text).map(|it| it.unwrap_or(char::REPLACEMENT_CHARACTER)));
}

impl Markup for Html {
    fn start(&self, element: &Row<'_>, _: bool, to: &mut String) -> Result<bool> {
        let name = element.name().unwrap_or_default();
        to.extend(["<", name]);
        for (name, value) in element.attributes() {
            to.extend([" ", name, "=\""]);
            escape(value, true, to);
            to.push('"');
        }
        to.push('>');
        Ok(!VOID.contains(&name))
    }

    fn text(&self, data: &[u16], parent: Option<&str>, to: &mut String) -> Result<()> {
        match parent {
            Some(name) if PLAIN.contains(&name) => as_it_is(data, to),
            _ => escape(data, false, to),
        }
        Ok(())
    }

    fn other(&self, node: &Row<'_>, to: &mut String) -> Result<()> {
        let (name, data) = (node.name().unwrap_or_default(), node.data().unwrap_or_default());
        let end = match node.kind {
            Kind::Comment => {
                to.push_str("<!--");
                "-->"
            }
            Kind::ProcessingInstruction => {
                to.extend(["<?", name, " "]);
                ">"
            }
            Kind::DocumentType => {
                to.extend(["<!DOCTYPE ", name]);
                ">"
            }
            _ => "",
        };
        as_it_is(data, to);
        to.push_str(end);
        Ok(())
    }
}

/// Writes a node and its descendants as HTML. For a Document or a DocumentFragment these are its descendants alone.
///
/// A lone surrogate is written as U+FFFD, as in UTF-8. The descendants of a void element are not written (`br` has no end tag).
pub fn serialize(session: &mut Session, node: Node) -> Result<String> {
    whole(session, node, &Html)
}

/// Writes the descendants of a node as HTML: nothing, for a void element.
pub fn serialize_children(session: &mut Session, node: Node) -> Result<String> {
    let is_void = session.node(node)?.name().map_or(false, |it| VOID.contains(&it));
    if is_void {
        return Ok(String::new());
    }
    inside(session, node, &Html)
}
