//! A page is parsed into the same tree as the parser's own, and written as the parser's own serializer writes that.
use html5ever::interface::{Attribute, QualName};
use html5ever::tendril::TendrilSink;
use html5ever::tree_builder::TreeBuilderOpts;
use html5ever::{namespace_url, ns, LocalName, ParseOpts};
use huckleport::{html, Exception, Kind, Node, Session};
use markup5ever_rcdom::{Handle, NodeData, RcDom, SerializableHandle};
use std::fs;
use std::process::Command;

/// A node: its depth, its kind, its name with the ids of a doctype, its data and its attributes.
type Row = (usize, Kind, [String; 3], String, Vec<(String, String)>);

fn ours(session: &mut Session, node: Node) -> Vec<Row> {
    let owned = |it: Option<&str>| it.unwrap_or_default().to_owned();
    let rows = session.tree(node).unwrap().skip(1).map(|it| {
        let data = String::from_utf16(it.data().unwrap_or_default()).unwrap();
        let attributes = it.attributes().map(|(name, value)| (name.to_owned(), String::from_utf16(value).unwrap())).collect();
        (it.depth, it.kind, [owned(it.name()), owned(it.public_id()), owned(it.system_id())], data, attributes)
    });
    rows.collect()
}

fn qualified(name: &QualName) -> String {
    let prefix = name.prefix.as_ref().filter(|it| !it.is_empty());
    prefix.map_or(name.local.to_string(), |it| format!("{it}:{}", name.local))
}

fn attributes(its: &[Attribute]) -> Vec<(String, String)> {
    its.iter().map(|it| (qualified(&it.name), it.value.to_string())).collect()
}

/// Whether the DOM Standard has an attribute of that name. The parser can make one that it has not: with a sign of equality at its beginning.
fn is_held(attribute: &(String, String)) -> bool {
    !attribute.0.starts_with('=')
}

/// Rows without the attributes that the DOM Standard refuses.
fn held(mut rows: Vec<Row>) -> Vec<Row> {
    rows.iter_mut().for_each(|it| it.4.retain(is_held));
    rows
}

/// Returns the row of a node of the parser's, and the children of that node.
fn row(node: &Handle, depth: usize) -> (Row, Vec<Handle>) {
    let of = |kind, names: [&str; 3], data: &str| (depth, kind, names.map(str::to_owned), data.to_owned(), Vec::new());
    let mut below = node.children.borrow().clone();
    let found = match &node.data {
        NodeData::Document => of(Kind::Document, [""; 3], ""),
        NodeData::Doctype { name, public_id, system_id } => of(Kind::DocumentType, [name, public_id, system_id], ""),
        NodeData::Text { contents } => of(Kind::Text, [""; 3], &contents.borrow()),
        NodeData::Comment { contents } => of(Kind::Comment, [""; 3], contents),
        NodeData::ProcessingInstruction { target, contents } => of(Kind::ProcessingInstruction, [target, "", ""], contents),
        NodeData::Element { name, attrs, template_contents, .. } => {
            below.extend(template_contents.borrow().iter().flat_map(|it| it.children.borrow().clone()));
            (depth, Kind::Element, [qualified(name), String::new(), String::new()], String::new(), attributes(&attrs.borrow()))
        }
    };
    (found, below)
}

/// Returns the rows below a node of the parser's. (A loop: some pages are deep.)
fn theirs(node: &Handle) -> Vec<Row> {
    let mut found = Vec::new();
    let mut left = vec![(node.clone(), 0)];
    while let Some((node, depth)) = left.pop() {
        let (its, below) = row(&node, depth);
        found.push(its);
        left.extend(below.into_iter().rev().map(|it| (it, depth + 1)));
    }
    found.split_off(1)
}

fn options() -> ParseOpts {
    ParseOpts { tree_builder: TreeBuilderOpts { scripting_enabled: false, ..TreeBuilderOpts::default() }, ..ParseOpts::default() }
}

fn their_page(page: &str) -> RcDom {
    html5ever::parse_document(RcDom::default(), options()).one(page)
}

/// Returns the parser's rows of a part, which it puts into an element of its own.
fn their_part(container: &str, part: &str) -> Vec<Row> {
    let name = QualName::new(None, ns!(html), LocalName::from(container));
    let dom = html5ever::parse_fragment(RcDom::default(), options(), name, Vec::new()).one(part);
    let ground = &dom.document.children.borrow()[0];
    theirs(ground)
}

fn our_page(page: &str) -> Session {
    let mut session = Session::new().unwrap();
    html::parse(&mut session, Node::DOCUMENT, page).unwrap();
    session
}

/// Returns the text of the parser's own serializer.
fn their_text(dom: RcDom) -> String {
    let mut written = Vec::new();
    let options = html5ever::serialize::SerializeOpts { scripting_enabled: false, ..Default::default() };
    html5ever::serialize(&mut written, &SerializableHandle::from(dom.document), options).unwrap();
    String::from_utf8(written).unwrap()
}

/// A test of html5lib's: the page or part, and the element that a part stands in.
struct Case {
    data: String,
    container: Option<String>,
}

/// The value of a section that begins with this line, up to the next one's.
fn section<'a>(text: &'a str, head: &str, next: &str) -> Option<&'a str> {
    let (_, rest) = text.split_once(head)?;
    Some(rest.split_once(next).map_or(rest, |it| it.0))
}

/// html5lib's tests of tree construction, as Debian's package of the parser's tree has them.
fn cases() -> Vec<Case> {
    let folder = "/usr/share/cargo/registry/markup5ever_rcdom-0.2.0/html5lib-tests/tree-construction";
    let mut files: Vec<_> =
        fs::read_dir(folder).unwrap().map(|it| it.unwrap().path()).filter(|it| it.extension().and_then(|it| it.to_str()) == Some("dat")).collect();
    files.sort();
    let texts: Vec<String> = files.iter().map(|it| format!("\n{}", fs::read_to_string(it).unwrap())).collect();
    let parts = texts.iter().flat_map(|it| it.split("\n#data\n").skip(1));
    let found = parts.map(|it| Case {
        data: it.split("\n#errors").next().unwrap_or_default().to_owned(),
        container: section(it, "\n#document-fragment\n", "\n").map(str::to_owned),
    });
    found.collect()
}

#[test]
fn pages_of_html5lib() {
    let pages: Vec<Case> = cases().into_iter().filter(|it| it.container.is_none()).collect();
    assert!(pages.len() > 1000, "{} pages", pages.len());
    for it in &pages {
        let page = &it.data;
        assert_eq!(ours(&mut our_page(page), Node::DOCUMENT), held(theirs(&their_page(page).document)), "{page}");
    }
    println!("{} pages", pages.len());
}

#[test]
fn parts_of_html5lib() {
    let mut session = Session::new().unwrap();
    let mut count = 0;
    for it in cases() {
        // (the element of a part is one of HTML)
        let container = match it.container.filter(|it| !it.contains(' ')) {
            Some(container) => container,
            None => continue,
        };
        let fragment = html::parse_fragment(&mut session, Node::DOCUMENT, &container, &it.data).unwrap();
        assert_eq!(ours(&mut session, fragment), held(their_part(&container, &it.data)), "{} in {container}", it.data);
        count += 1;
    }
    assert!(count > 50, "{count} parts");
    println!("{count} parts");
}

/// Whether the parser's serializer writes an attribute otherwise: it leaves signs that the standard now escapes, and writes names that are refused.
fn is_written_otherwise(attribute: &(String, String)) -> bool {
    attribute.1.contains(['<', '>']) || !is_held(attribute)
}

/// Whether the parser's serializer writes a page otherwise, also since it knows namespaces (no element of SVG or MathML is void or has plain texts)
/// and the contents of templates.
fn differs(rows: &[Row]) -> bool {
    rows.iter().any(|it| matches!(it.2[0].as_str(), "svg" | "math" | "template") || it.4.iter().any(is_written_otherwise))
}

#[test]
fn written_as_by_the_parser() {
    let mut count = 0;
    for it in cases().into_iter().filter(|it| it.container.is_none()) {
        let dom = their_page(&it.data);
        if differs(&theirs(&dom.document)) {
            continue;
        }
        let mut session = our_page(&it.data);
        assert_eq!(html::serialize(&mut session, Node::DOCUMENT).unwrap(), their_text(dom), "{}", it.data);
        count += 1;
    }
    assert!(count > 500, "{count} pages");
    println!("{count} pages written");
}

#[test]
fn ten_thousand_elements_there_and_back() {
    let rows: String = (0..2500).map(|at| format!("<div class='c{}' id=n{at}><p>Text {at} &amp; <b>more</b> text</p><br></div>", at % 7)).collect();
    let page = format!("<!DOCTYPE html><html><head><title>t</title></head><body>{rows}</body></html>");
    let dom = their_page(&page);
    let mut session = our_page(&page);
    let found = ours(&mut session, Node::DOCUMENT);
    assert!(found.iter().filter(|it| it.1 == Kind::Element).count() >= 10_000);
    assert_eq!(found, held(theirs(&dom.document)));
    let written = html::serialize(&mut session, Node::DOCUMENT).unwrap();
    assert_eq!(written, their_text(dom));
    assert_eq!(ours(&mut our_page(&written), Node::DOCUMENT), found);
}

#[test]
fn in_pieces_of_bytes() {
    let page = "<table>out<tr>m\u{f6}re<td>in</td></tr><b>bold</b></table>after<p =a b=c>\u{1f600}";
    let mut session = Session::new().unwrap();
    let mut parser = html5ever::parse_document(html::Sink::new(&mut session, Node::DOCUMENT).unwrap(), options()).from_utf8();
    for it in page.as_bytes().chunks(3) {
        parser.process(it.into());
    }
    parser.finish().unwrap();
    assert_eq!(ours(&mut session, Node::DOCUMENT), held(theirs(&their_page(page).document)));
    assert_eq!(session.tree(Node::DOCUMENT).unwrap().find(|it| it.name() == Some("p")).unwrap().attributes().count(), 1);
}

#[test]
fn what_the_session_refuses() {
    let mut session = Session::with_limits(6, 1).unwrap();
    assert_eq!(html::parse(&mut session, Node::DOCUMENT, "<p>a<p>b<p>c<p>d"), Err(Exception::Limit));
    let mut session = our_page("x");
    assert_eq!(html::parse(&mut session, Node::DOCUMENT, "y"), Err(Exception::HierarchyRequestError));
    let element = session.create_element(Node::DOCUMENT, "p").unwrap();
    assert_eq!(html::parse_fragment(&mut session, element, "div", "y"), Err(Exception::TypeError));
    assert_eq!(session.tree(Node::DOCUMENT).unwrap().count(), 5);
}

#[test]
fn a_part_leaves_nothing_else() {
    let mut session = Session::new().unwrap();
    let fragment = html::parse_fragment(&mut session, Node::DOCUMENT, "tr", "<td>a<td>b").unwrap();
    assert_eq!(html::serialize(&mut session, fragment).unwrap(), "<td>a</td><td>b</td>");
    assert_eq!(session.children(Node::DOCUMENT).unwrap().count(), 0);
}

#[test]
fn the_page_shows_the_program() {
    let page = include_str!("../../../../../docs/rust.md");
    assert!(page.contains(&format!("```rust,ignore\n{}```", include_str!("../src/main.rs"))));
    let written = Command::new(env!("CARGO_BIN_EXE_parsing")).output().unwrap().stdout;
    assert!(page.contains(&format!("```text\n{}```", String::from_utf8(written).unwrap())));
}
