//! HTML in, by the parser `html5ever`, which builds its tree through a sink.
use crate::exception::{Exception, Result};
use crate::numbers::Node;
use crate::questions::Kind;
use crate::session::{utf16, Session};
use html5ever::driver::{parse_document, parse_fragment_for_element, ParseOpts};
use html5ever::interface::{ElementFlags, NodeOrText, QuirksMode, TreeSink};
use html5ever::tendril::{StrTendril, TendrilSink};
use html5ever::tree_builder::{create_element, TreeBuilderOpts};
use html5ever::{namespace_url, ns, Attribute, ExpandedName, LocalName, QualName};
use std::borrow::Cow;
use std::collections::HashMap;
use std::rc::Rc;

/// The properties of an element that the parser asks for, and that the core does not keep.
#[derive(Debug)]
struct Element {
    name: QualName,
    is_integration_point: bool,
}

/// A node as the parser knows it.
#[derive(Clone, Debug)]
pub struct Handle {
    node: Node,
    element: Option<Rc<Element>>,
}

impl Handle {
    fn of(node: Node) -> Handle {
        Handle { node, element: None }
    }

    /// The node.
    pub fn node(&self) -> Node {
        self.node
    }
}

/// Makes nodes of a session from the calls of a parser of `html5ever`.
///
/// `html5ever::parse_document(Sink::new(&mut session, document)?, options)` takes a page in pieces, or as bytes; [`parse`] takes it whole.
/// Names are as they are written in tags, with the prefix of an attribute such as `xlink:href`. The contents of a `template` are its children.
/// An attribute whose name the core refuses is left out. If another command is refused, nothing more is made, and the parser's result is that
/// [`Exception`].
#[derive(Debug)]
pub struct Sink<'a> {
    session: &'a mut Session,
    root: Node,
    document: Node,
    /// For a node, the Text that was its last child when it was last put there.
    ends: HashMap<Node, Node>,
    refused: Option<Exception>,
}

/// A name with its prefix.
fn qualified(name: &QualName) -> Cow<'_, str> {
    match &name.prefix {
        Some(prefix) if !prefix.is_empty() => Cow::Owned(format!("{prefix}:{}", name.local)),
        _ => Cow::Borrowed(&name.local),
    }
}

impl<'a> Sink<'a> {
    /// A sink that builds under a Document or a DocumentFragment, which has no child yet.
    pub fn new(session: &'a mut Session, root: Node) -> Result<Sink<'a>> {
        let document = session.node(root)?.document;
        Ok(Sink { session, root, document, ends: HashMap::new(), refused: None })
    }

    /// Asks something of the session, unless it has refused something before.
    fn ask<T>(&mut self, ask: impl FnOnce(&mut Session) -> Result<T>) -> Option<T> {
        if self.refused.is_some() {
            return None;
        }
        ask(self.session).map_err(|why| self.refused = Some(why)).ok()
    }

    /// Makes a node, and returns a handle to it; if it was refused, a handle that is not used any more.
    fn made(&mut self, make: impl FnOnce(&mut Session, Node) -> Result<Node>) -> Handle {
        let document = self.document;
        Handle::of(self.ask(|session| make(session, document)).unwrap_or(document))
    }

    fn set_attribute(&mut self, element: Node, attribute: &Attribute) {
        let (name, value) = (qualified(&attribute.name), utf16(&attribute.value));
        self.ask(|session| match session.set_attribute(element, &name, &value) {
            Err(Exception::InvalidCharacterError) => Ok(()),
            answer => answer,
        });
    }

    /// The node, where it is a Text.
    fn text(&mut self, node: Node) -> Option<Node> {
        self.ask(|session| session.node(node).map(|it| it.kind)).filter(|it| *it == Kind::Text).map(|_| node)
    }

    /// The last child of a node, where that is a Text.
    fn last_text(&mut self, parent: Node) -> Option<Node> {
        let text = self.ends.get(&parent).copied()?;
        self.ask(|session| session.node(text).map(|it| it.parent == Some(parent) && it.next.is_none())).filter(|it| *it).map(|_| text)
    }

    /// Puts a text into a parent, before a child or last; it goes on with the Text before it, if there is one.
    fn put_text(&mut self, parent: Node, text: &str, child: Option<Node>, before: Option<Node>) {
        let data = utf16(text);
        if let Some(before) = before {
            self.ask(|session| session.append_data(before, &data));
            return;
        }
        let made = self.made(|session, document| session.create_text(document, &data)).node;
        self.ask(|session| session.insert_before(parent, made, child));
        if child.is_none() {
            self.ends.insert(parent, made);
        }
    }

    /// Takes a node out of its parent, if it has one.
    fn take_out(&mut self, node: Node) {
        let (parent, previous, next) = match self.ask(|session| session.node(node).map(|it| (it.parent, it.previous, it.next))) {
            Some((parent, previous, next)) => (parent, previous, next),
            None => return,
        };
        self.ask(|session| session.remove(node));
        if let (Some(parent), Some(previous), None) = (parent, previous, next) {
            self.keep_end(parent, previous);
        }
    }

    /// Keeps the last child of a node, where that is a Text.
    fn keep_end(&mut self, parent: Node, last: Node) {
        if let Some(text) = self.text(last) {
            self.ends.insert(parent, text);
        }
    }

    fn append_to(&mut self, parent: Node, child: NodeOrText<Handle>) {
        match child {
            NodeOrText::AppendNode(child) => {
                self.ask(|session| session.append_child(parent, child.node));
            }
            NodeOrText::AppendText(text) => {
                let before = self.last_text(parent);
                self.put_text(parent, &text, None, before);
            }
        }
    }

    fn insert_into(&mut self, parent: Node, child: NodeOrText<Handle>, sibling: Node) {
        match child {
            NodeOrText::AppendNode(child) => {
                self.take_out(child.node);
                self.ask(|session| session.insert_before(parent, child.node, Some(sibling)));
            }
            NodeOrText::AppendText(text) => {
                let previous = self.ask(|session| session.node(sibling).map(|it| it.previous)).flatten();
                let before = previous.and_then(|it| self.text(it));
                self.put_text(parent, &text, Some(sibling), before);
            }
        }
    }

    fn parent(&mut self, node: Node) -> Option<Node> {
        self.ask(|session| session.node(node).map(|it| it.parent)).flatten()
    }
}

impl TreeSink for Sink<'_> {
    type Handle = Handle;
    type Output = Result<()>;

    fn finish(self) -> Result<()> {
        self.refused.map_or(Ok(()), Err)
    }

    fn parse_error(&mut self, _: Cow<'static, str>) {}

    fn get_document(&mut self) -> Handle {
        Handle::of(self.root)
    }

    fn elem_name<'a>(&'a self, target: &'a Handle) -> ExpandedName<'a> {
        target.element.as_ref().expect("the parser asks for names of elements").name.expanded()
    }

    fn create_element(&mut self, name: QualName, attributes: Vec<Attribute>, flags: ElementFlags) -> Handle {
        let made = self.made(|session, document| session.create_element(document, &qualified(&name)));
        for it in &attributes {
            self.set_attribute(made.node, it);
        }
        let is_integration_point = flags.mathml_annotation_xml_integration_point;
        Handle { element: Some(Rc::new(Element { name, is_integration_point })), ..made }
    }

    fn create_comment(&mut self, text: StrTendril) -> Handle {
        self.made(|session, document| session.create_comment(document, &utf16(&text)))
    }

    fn create_pi(&mut self, target: StrTendril, data: StrTendril) -> Handle {
        self.made(|session, document| session.create_pi(document, &target, &utf16(&data)))
    }

    fn append(&mut self, parent: &Handle, child: NodeOrText<Handle>) {
        self.append_to(parent.node, child);
    }

    fn append_before_sibling(&mut self, sibling: &Handle, child: NodeOrText<Handle>) {
        if let Some(parent) = self.parent(sibling.node) {
            self.insert_into(parent, child, sibling.node);
        }
    }

    fn append_based_on_parent_node(&mut self, element: &Handle, previous: &Handle, child: NodeOrText<Handle>) {
        match self.parent(element.node) {
            Some(parent) => self.insert_into(parent, child, element.node),
            None => self.append_to(previous.node, child),
        }
    }

    fn append_doctype_to_document(&mut self, name: StrTendril, public_id: StrTendril, system_id: StrTendril) {
        let made = self.made(|session, document| session.create_doctype(document, &name, &public_id, &system_id));
        self.append_to(self.root, NodeOrText::AppendNode(made));
    }

    fn get_template_contents(&mut self, target: &Handle) -> Handle {
        target.clone()
    }

    fn same_node(&self, one: &Handle, other: &Handle) -> bool {
        one.node == other.node
    }

    fn set_quirks_mode(&mut self, _: QuirksMode) {}

    fn add_attrs_if_missing(&mut self, target: &Handle, attributes: Vec<Attribute>) {
        for it in &attributes {
            let is_there = self.ask(|session| session.has_attribute(target.node, &qualified(&it.name)));
            if is_there == Some(false) {
                self.set_attribute(target.node, it);
            }
        }
    }

    fn remove_from_parent(&mut self, target: &Handle) {
        self.take_out(target.node);
    }

    fn reparent_children(&mut self, node: &Handle, new_parent: &Handle) {
        if let Some(last) = self.ask(|session| move_children(session, node.node, new_parent.node)).flatten() {
            self.keep_end(new_parent.node, last);
        }
    }

    fn is_mathml_annotation_xml_integration_point(&self, handle: &Handle) -> bool {
        handle.element.as_ref().map_or(false, |it| it.is_integration_point)
    }
}

/// Appends all children of a node to another one. Returns the last.
fn move_children(session: &mut Session, from: Node, to: Node) -> Result<Option<Node>> {
    let children: Vec<Node> = session.children(from)?.collect();
    for &it in &children {
        session.append_child(to, it)?;
    }
    Ok(children.last().copied())
}

/// Returns the options of the parser. Scripts are not run, so the contents of a `noscript` are parsed.
fn options() -> ParseOpts {
    ParseOpts { tree_builder: TreeBuilderOpts { scripting_enabled: false, ..TreeBuilderOpts::default() }, ..ParseOpts::default() }
}

/// Parses a page of HTML into a Document that has no child yet.
pub fn parse(session: &mut Session, document: Node, page: &str) -> Result<()> {
    parse_document(Sink::new(session, document)?, options()).one(page)
}

/// Parses a part of a page, as in an element of that name. Returns a DocumentFragment of that document.
pub fn parse_fragment(session: &mut Session, document: Node, container: &str, part: &str) -> Result<Node> {
    let fragment = session.create_fragment(document)?;
    let mut sink = Sink::new(session, fragment)?;
    let name = QualName::new(None, ns!(html), LocalName::from(container));
    let context = create_element(&mut sink, name, Vec::new());
    let container = context.node;
    parse_fragment_for_element(sink, options(), context, None).one(part)?;
    session.discard(container)?;
    // (the parser has all of it stand in an element of its own)
    let ground: Vec<Node> = session.children(fragment)?.collect();
    for it in ground {
        move_children(session, it, fragment)?;
        session.remove(it)?;
        session.discard(it)?;
    }
    Ok(fragment)
}
