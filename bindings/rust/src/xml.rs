//! XML out, by the rules of DOM Parsing and Serialization, with well-formedness required.
//!
//! ```
//! use huckleport::{utf16, xml, Exception, Node, Session};
//!
//! # fn main() -> Result<(), huckleport::Exception> {
//! let mut session = Session::new()?;
//! let note = session.create_element(Node::DOCUMENT, "note")?;
//! session.set_attribute(note, "to", &utf16("you & me"))?;
//! assert_eq!(xml::serialize(&mut session, note)?, r#"<note to="you &amp; me"/>"#);
//! let comment = session.create_comment(Node::DOCUMENT, &utf16("a--b"))?;
//! assert_eq!(xml::serialize(&mut session, comment), Err(Exception::InvalidStateError));
//! # Ok(())
//! # }
//! ```
use crate::exception::{Exception, Result};
use crate::numbers::Node;
use crate::questions::Kind;
use crate::rows::Row;
use crate::session::Session;
use crate::writing::{characters, inside, whole, Markup};

struct Xml;

fn must(is_well_formed: bool) -> Result<()> {
    is_well_formed.then_some(()).ok_or(Exception::InvalidStateError)
}

/// Whether XML has that character at all.
fn is_character(it: char) -> bool {
    matches!(it, '\t' | '\n' | '\r' | ' '..='\u{d7ff}' | '\u{e000}'..='\u{fffd}' | '\u{10000}'..)
}

fn begins_name(it: char) -> bool {
    matches!(it, ':' | '_' | 'A'..='Z' | 'a'..='z' | '\u{c0}'..='\u{d6}' | '\u{d8}'..='\u{f6}' | '\u{f8}'..='\u{2ff}' | '\u{370}'..='\u{37d}')
        || matches!(it, '\u{37f}'..='\u{1fff}' | '\u{200c}'..='\u{200d}' | '\u{2070}'..='\u{218f}' | '\u{2c00}'..='\u{2fef}')
        || matches!(it, '\u{3001}'..='\u{d7ff}' | '\u{f900}'..='\u{fdcf}' | '\u{fdf0}'..='\u{fffd}' | '\u{10000}'..='\u{effff}')
}

fn continues_name(it: char) -> bool {
    begins_name(it) || matches!(it, '-' | '.' | '0'..='9' | '\u{b7}' | '\u{300}'..='\u{36f}' | '\u{203f}'..='\u{2040}')
}

/// Writes a name, where XML can have it.
fn write_name(name: &str, to: &mut String) -> Result<()> {
    must(name.starts_with(begins_name) && name.chars().all(continues_name))?;
    to.push_str(name);
    Ok(())
}

/// Whether a public id may have that character.
fn is_of_public_id(it: char) -> bool {
    it.is_ascii_alphanumeric() || " \r\n-'()+,./:=?;!*#@$_%".contains(it)
}

/// The characters of a text, where XML has each of them.
fn text_of(data: &[u16]) -> Result<String> {
    let found: Option<String> = characters(data).map(|it| it.filter(|it| is_character(*it))).collect();
    found.ok_or(Exception::InvalidStateError)
}

/// Writes the characters of a text. White space that a parser would make another of is written as a number.
fn escape(text: &[u16], is_value: bool, to: &mut String) -> Result<()> {
    for it in text_of(text)?.chars() {
        match it {
            '&' => to.push_str("&amp;"),
            '<' => to.push_str("&lt;"),
            '>' => to.push_str("&gt;"),
            '\r' => to.push_str("&#xD;"),
            '"' if is_value => to.push_str("&quot;"),
            '\t' if is_value => to.push_str("&#x9;"),
            '\n' if is_value => to.push_str("&#xA;"),
            other => to.push(other),
        }
    }
    Ok(())
}

fn write_comment(data: &str, to: &mut String) -> Result<()> {
    must(!data.contains("--") && !data.ends_with('-'))?;
    to.extend(["<!--", data, "-->"]);
    Ok(())
}

fn write_instruction(target: &str, data: &str, to: &mut String) -> Result<()> {
    must(!target.contains(':') && !target.eq_ignore_ascii_case("xml") && !data.contains("?>"))?;
    to.push_str("<?");
    write_name(target, to)?;
    to.extend([" ", data, "?>"]);
    Ok(())
}

fn write_doctype(name: &str, public_id: &str, system_id: &str, to: &mut String) -> Result<()> {
    let mark = if system_id.contains('"') { "'" } else { "\"" };
    must(public_id.chars().all(is_of_public_id) && system_id.chars().all(is_character) && !system_id.contains(mark))?;
    to.push_str("<!DOCTYPE ");
    write_name(name, to)?;
    match (public_id, system_id) {
        ("", "") => {}
        ("", _) => to.extend([" SYSTEM ", mark, system_id, mark]),
        _ => to.extend([" PUBLIC \"", public_id, "\" ", mark, system_id, mark]),
    }
    to.push('>');
    Ok(())
}

impl Markup for Xml {
    fn start(&self, element: &Row<'_>, is_empty: bool, to: &mut String) -> Result<bool> {
        to.push('<');
        write_name(element.name().unwrap_or_default(), to)?;
        for (name, value) in element.attributes() {
            to.push(' ');
            write_name(name, to)?;
            to.push_str("=\"");
            escape(value, true, to)?;
            to.push('"');
        }
        to.push_str(if is_empty { "/>" } else { ">" });
        Ok(!is_empty)
    }

    fn text(&self, data: &[u16], _: Option<&str>, to: &mut String) -> Result<()> {
        escape(data, false, to)
    }

    fn other(&self, node: &Row<'_>, to: &mut String) -> Result<()> {
        let (name, data) = (node.name().unwrap_or_default(), text_of(node.data().unwrap_or_default())?);
        match node.kind {
            Kind::Comment => write_comment(&data, to),
            Kind::ProcessingInstruction => write_instruction(name, &data, to),
            Kind::DocumentType => write_doctype(name, node.public_id().unwrap_or_default(), node.system_id().unwrap_or_default(), to),
            _ => Ok(()),
        }
    }
}

/// Whether a node is a Document without an element.
fn lacks_element(session: &Session, node: Node) -> Result<bool> {
    let links = session.links(node)?;
    let mut child = links.first_child;
    while let Some(it) = child {
        let its = session.links(it)?;
        if its.kind == Kind::Element {
            return Ok(false);
        }
        child = its.next;
    }
    Ok(links.kind == Kind::Document)
}

/// Writes a node and its descendants as XML. For a Document or a DocumentFragment these are its descendants alone.
///
/// Fails by the rules with [`Exception::InvalidStateError`] if no XML can have the node: a Document without an element, a lone surrogate, a
/// comment with two hyphens, a name that XML does not have.
pub fn serialize(session: &mut Session, node: Node) -> Result<String> {
    must(!lacks_element(session, node)?)?;
    whole(session, node, &Xml)
}

/// Writes the descendants of a node as XML, refused as [`serialize`] is.
pub fn serialize_children(session: &mut Session, node: Node) -> Result<String> {
    inside(session, node, &Xml)
}
