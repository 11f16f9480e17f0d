//! Shared by the writers of HTML and XML: rows of a tree are written one after the other, and open elements are closed in time.
use crate::exception::{Exception, Result};
use crate::numbers::Node;
use crate::questions::Kind;
use crate::rows::Row;
use crate::session::Session;

/// How the nodes of one language are written.
pub(crate) trait Markup {
    /// Writes the start tag of an element. Returns whether its contents and an end tag are to follow.
    fn start(&self, element: &Row<'_>, is_empty: bool, to: &mut String) -> Result<bool>;

    /// Writes a text that is in an element of that name, or in none.
    fn text(&self, data: &[u16], parent: Option<&str>, to: &mut String) -> Result<()>;

    /// Writes a node that is neither an element nor a text.
    fn other(&self, node: &Row<'_>, to: &mut String) -> Result<()>;
}

/// Elements that were opened, from the outermost on: the depth of each, and its name.
struct Open<'a>(Vec<(usize, &'a str)>);

impl Open<'_> {
    /// Ends each element that is not above this depth.
    fn end(&mut self, depth: usize, to: &mut String) {
        let stays = self.0.iter().rposition(|it| it.0 < depth).map_or(0, |at| at + 1);
        for (_, name) in self.0.drain(stays..).rev() {
            to.extend(["</", name, ">"]);
        }
    }
}

/// Writes rows. The outermost ones are in an element of that name, or in none.
fn write<'a>(rows: impl Iterator<Item = Row<'a>>, parent: Option<&str>, markup: &impl Markup) -> Result<String> {
    let (mut to, mut open, mut rows) = (String::new(), Open(Vec::new()), rows.peekable());
    // Rows deeper than this are not written.
    let mut shown = usize::MAX;
    while let Some(row) = rows.next() {
        if row.depth > shown {
            continue;
        }
        shown = usize::MAX;
        open.end(row.depth, &mut to);
        match row.kind {
            Kind::Text => markup.text(row.data().unwrap_or_default(), open.0.last().map(|it| it.1).or(parent), &mut to)?,
            Kind::Element => {
                let is_empty = rows.peek().map_or(true, |next| next.depth <= row.depth);
                if markup.start(&row, is_empty, &mut to)? {
                    open.0.push((row.depth, row.name().unwrap_or_default()));
                } else {
                    shown = row.depth;
                }
            }
            _ => markup.other(&row, &mut to)?,
        }
    }
    open.end(0, &mut to);
    Ok(to)
}

/// Returns the name of the element that a node is in, if any.
fn name_of_parent(session: &mut Session, node: Node) -> Result<Option<String>> {
    let parent = match session.node(node)?.parent {
        Some(parent) => parent,
        None => return Ok(None),
    };
    Ok(session.node(parent)?.name().map(str::to_owned))
}

/// Goes from a node to the next in tree order, as deep as that stands below the root.
fn next_below(session: &Session, mut node: Node, mut depth: usize) -> Result<Option<(usize, Node)>> {
    if let Some(child) = session.first_child(node)? {
        return Ok(Some((depth + 1, child)));
    }
    while depth > 0 {
        let links = session.links(node)?;
        match (links.next, links.parent) {
            (Some(next), _) => return Ok(Some((depth, next))),
            (None, Some(parent)) => node = parent,
            (None, None) => return Ok(None),
        }
        depth -= 1;
    }
    Ok(None)
}

/// The rows of a tree of a session that has ended.
fn held_rows(session: &Session, root: Node) -> Result<Vec<Row<'_>>> {
    let mut found = Vec::new();
    let mut at = Some((0, root));
    while let Some((depth, node)) = at {
        found.push(Row::held(&session.handle, depth, node).map_err(Exception::of)?);
        at = next_below(session, node, depth)?;
    }
    Ok(found)
}

/// Writes a node and its descendants.
pub(crate) fn whole(session: &mut Session, node: Node, markup: &impl Markup) -> Result<String> {
    let parent = name_of_parent(session, node)?;
    if session.has_ended() {
        return write(held_rows(session, node)?.into_iter(), parent.as_deref(), markup);
    }
    write(session.tree(node)?, parent.as_deref(), markup)
}

/// Writes the descendants of a node.
pub(crate) fn inside(session: &mut Session, node: Node, markup: &impl Markup) -> Result<String> {
    if session.has_ended() {
        let mut rows = held_rows(session, node)?.into_iter();
        let parent = rows.next().and_then(|it| it.name());
        return write(rows, parent, markup);
    }
    let mut rows = session.tree(node)?;
    let parent = rows.next().and_then(|it| it.name());
    write(rows, parent, markup)
}

/// The characters of a text. A surrogate that stands alone is none.
pub(crate) fn characters(text: &[u16]) -> impl Iterator<Item = Option<char>> + '_ {
    char::decode_utf16(text.iter().copied()).map(|it| it.ok())
}
