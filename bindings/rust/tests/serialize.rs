//! HTML and XML as the serialization rules write them. The expected texts are written down from these rules, and from the tests of browsers.
use huckleport::{html, utf16, xml, Exception, Node, Result, Session};

/// A session with an element that has these children.
struct Made {
    session: Session,
    root: Node,
}

fn made(root: &str) -> Made {
    let mut session = Session::new().unwrap();
    let root = session.create_element(Node::DOCUMENT, root).unwrap();
    Made { session, root }
}

impl Made {
    fn put(&mut self, parent: Node, node: Result<Node>) -> Node {
        self.session.append_child(parent, node.unwrap()).unwrap()
    }

    fn element(&mut self, parent: Node, name: &str) -> Node {
        let node = self.session.create_element(Node::DOCUMENT, name);
        self.put(parent, node)
    }

    fn text(&mut self, parent: Node, data: &str) -> Node {
        let node = self.session.create_text(Node::DOCUMENT, &utf16(data));
        self.put(parent, node)
    }

    fn set(&mut self, name: &str, value: &str) {
        self.session.set_attribute(self.root, name, &utf16(value)).unwrap();
    }

    fn html(&mut self) -> String {
        html::serialize(&mut self.session, self.root).unwrap()
    }

    fn xml(&mut self) -> Result<String> {
        xml::serialize(&mut self.session, self.root)
    }
}

const VOID: &str = "area base basefont bgsound br col embed frame hr img input keygen link meta param source track wbr";
const PLAIN: &str = "iframe noembed noframes plaintext script style xmp";
const OTHERS: &str = "a b body canvas command details div em form h1 head html i image li listing noscript option p pre rp select span svg table td \
    template textarea title u ul video";

/// An element with a text and an element below it.
fn filled(name: &str) -> Made {
    let mut made = made(name);
    made.text(made.root, "a<b>&\u{a0}\"");
    made.element(made.root, "i");
    made
}

#[test]
fn void_elements() {
    for name in VOID.split(' ') {
        let mut it = filled(name);
        assert_eq!(it.html(), format!("<{name}>"));
        assert_eq!(html::serialize_children(&mut it.session, it.root), Ok(String::new()));
    }
}

#[test]
fn elements_whose_texts_are_plain() {
    for name in PLAIN.split(' ') {
        let mut it = filled(name);
        assert_eq!(it.html(), format!("<{name}>a<b>&\u{a0}\"<i></i></{name}>"));
        assert_eq!(html::serialize_children(&mut it.session, it.root).unwrap(), "a<b>&\u{a0}\"<i></i>");
        let text = it.session.children(it.root).unwrap().next().unwrap();
        assert_eq!(html::serialize(&mut it.session, text).unwrap(), "a<b>&\u{a0}\"");
    }
}

#[test]
fn other_elements() {
    for name in OTHERS.split_whitespace() {
        let mut it = filled(name);
        let inner = "a&lt;b&gt;&amp;&nbsp;\"<i></i>";
        assert_eq!(it.html(), format!("<{name}>{inner}</{name}>"));
        assert_eq!(html::serialize_children(&mut it.session, it.root).unwrap(), inner);
    }
}

#[test]
fn a_text_is_plain_by_its_parent_alone() {
    let mut it = made("script");
    let inner = it.element(it.root, "b");
    it.text(inner, "x<y");
    it.text(it.root, "x<y");
    assert_eq!(it.html(), "<script><b>x&lt;y</b>x<y</script>");
}

#[test]
fn attributes_of_html() {
    let mut it = made("p");
    it.set("one", "a\"b'c&d\u{a0}e<f>g");
    it.set("Two", "");
    it.set("xlink:href", "\t\r\n");
    assert_eq!(it.html(), "<p one=\"a&quot;b'c&amp;d&nbsp;e&lt;f&gt;g\" Two=\"\" xlink:href=\"\t\r\n\"></p>");
}

#[test]
fn no_line_is_put_before_a_text() {
    for name in ["pre", "textarea", "listing"] {
        let mut it = made(name);
        it.text(it.root, "\n\nx");
        assert_eq!(it.html(), format!("<{name}>\n\nx</{name}>"));
    }
}

#[test]
fn nodes_that_are_no_elements() {
    let mut it = made("html");
    let document = Node::DOCUMENT;
    let session = &mut it.session;
    for made in [
        session.create_comment(document, &utf16(" a<b--")),
        session.create_doctype(document, "html", "-//W3C//DTD XHTML 1.0 Strict//EN", "strict.dtd"),
        session.create_pi(document, "target", &utf16("some > data")),
    ] {
        session.append_child(document, made.unwrap()).unwrap();
    }
    session.append_child(document, it.root).unwrap();
    assert_eq!(html::serialize(session, document).unwrap(), "<!-- a<b----><!DOCTYPE html><?target some > data><html></html>");
    assert_eq!(html::serialize_children(session, document), html::serialize(session, document));
}

#[test]
fn fragments_and_nodes_that_have_nothing_below() {
    let mut it = made("b");
    let fragment = it.session.create_fragment(Node::DOCUMENT).unwrap();
    assert_eq!(html::serialize(&mut it.session, fragment).unwrap(), "");
    it.text(fragment, "x&");
    let text = it.text(fragment, "<y");
    it.session.append_child(fragment, it.root).unwrap();
    assert_eq!(html::serialize(&mut it.session, fragment).unwrap(), "x&amp;&lt;y<b></b>");
    assert_eq!(xml::serialize(&mut it.session, fragment).unwrap(), "x&amp;&lt;y<b/>");
    assert_eq!(html::serialize_children(&mut it.session, text).unwrap(), "");
    assert_eq!(xml::serialize_children(&mut it.session, text).unwrap(), "");
}

#[test]
fn surrogates() {
    let mut it = made("p");
    for units in [[0xd83d_u16, 0xde00, 0x61], [0xd83d, 0x61, 0xde00]] {
        let text = it.session.create_text(Node::DOCUMENT, &units);
        it.put(it.root, text);
    }
    assert_eq!(it.html(), "<p>\u{1f600}a\u{fffd}a\u{fffd}</p>");
    assert_eq!(it.xml(), Err(Exception::InvalidStateError));
}

#[test]
fn siblings_and_depth() {
    let mut it = made("a");
    let mut parent = it.root;
    for _ in 1..5_000 {
        parent = it.element(parent, "a");
    }
    it.text(parent, "x");
    it.element(it.root, "b");
    let due = format!("{}x{}<b></b></a>", "<a>".repeat(5_000), "</a>".repeat(4_999));
    assert_eq!(it.html(), due);
    assert_eq!(it.xml().unwrap(), due.replace("<b></b>", "<b/>"));
}

#[test]
fn an_object_that_is_not_there() {
    let mut it = made("a");
    it.session.discard(it.root).unwrap();
    assert_eq!(html::serialize(&mut it.session, it.root), Err(Exception::NoSuchObject));
    assert_eq!(xml::serialize_children(&mut it.session, it.root), Err(Exception::NoSuchObject));
}

// ---- XML

#[test]
fn elements_of_xml() {
    let mut it = made("x:a");
    it.set("xmlns:x", "urn:x");
    it.set("b", "\"<>&'\t\n\r\u{a0}");
    assert_eq!(it.xml().unwrap(), "<x:a xmlns:x=\"urn:x\" b=\"&quot;&lt;&gt;&amp;'&#x9;&#xA;&#xD;\u{a0}\"/>");
    it.text(it.root, "<>&\"'\t\n\r\u{a0}\u{1f600}");
    it.element(it.root, "br");
    let inner = "&lt;&gt;&amp;\"'\t\n&#xD;\u{a0}\u{1f600}<br/>";
    assert_eq!(xml::serialize_children(&mut it.session, it.root).unwrap(), inner);
    assert!(it.xml().unwrap().ends_with(&format!(">{inner}</x:a>")));
}

#[test]
fn doctypes_of_xml() {
    let due = [
        ("", "", Some("<!DOCTYPE html>")),
        ("a", "b", Some("<!DOCTYPE html PUBLIC \"a\" \"b\">")),
        ("", "b", Some("<!DOCTYPE html SYSTEM \"b\">")),
        ("a", "", Some("<!DOCTYPE html PUBLIC \"a\" \"\">")),
        ("'", "'", Some("<!DOCTYPE html PUBLIC \"'\" \"'\">")),
        ("", "\"", Some("<!DOCTYPE html SYSTEM '\"'>")),
        ("\"", "", None),
        ("\u{e9}", "", None),
        ("", "'\"", None),
        ("", "\u{1}", None),
    ];
    let mut session = Session::new().unwrap();
    for (public_id, system_id, text) in due {
        let doctype = session.create_doctype(Node::DOCUMENT, "html", public_id, system_id).unwrap();
        assert_eq!(xml::serialize(&mut session, doctype), text.map(str::to_owned).ok_or(Exception::InvalidStateError));
    }
}

#[test]
fn comments_and_instructions_of_xml() {
    let mut session = Session::new().unwrap();
    for (data, is_held) in [("", true), (" a - b ", true), ("-a", true), ("a--b", false), ("a-", false), ("\u{ffff}", false)] {
        let comment = session.create_comment(Node::DOCUMENT, &utf16(data)).unwrap();
        let due = if is_held { Ok(format!("<!--{data}-->")) } else { Err(Exception::InvalidStateError) };
        assert_eq!(xml::serialize(&mut session, comment), due);
    }
    for (target, data, is_held) in [("a", "b > c", true), ("xmla", "", true), ("xml", "b", false), ("XmL", "b", false), ("a:b", "", false)] {
        let instruction = session.create_pi(Node::DOCUMENT, target, &utf16(data)).unwrap();
        let due = if is_held { Ok(format!("<?{target} {data}?>")) } else { Err(Exception::InvalidStateError) };
        assert_eq!(xml::serialize(&mut session, instruction), due);
    }
}

#[test]
fn what_no_xml_can_hold() {
    assert_eq!(xml::serialize(&mut Session::new().unwrap(), Node::DOCUMENT), Err(Exception::InvalidStateError));
    assert_eq!(made("a\"b").xml(), Err(Exception::InvalidStateError));
    for text in ["\0", "\u{8}", "\u{b}", "\u{1f}", "\u{fffe}"] {
        let mut it = made("a");
        it.set("b", text);
        assert_eq!(it.xml(), Err(Exception::InvalidStateError));
    }
    let mut it = made("a");
    it.set("b<", "");
    assert_eq!(it.xml(), Err(Exception::InvalidStateError));
}

#[test]
fn a_document_of_xml() {
    let mut it = made("a");
    let comment = it.session.create_comment(Node::DOCUMENT, &utf16("c"));
    it.put(Node::DOCUMENT, comment);
    assert_eq!(xml::serialize(&mut it.session, Node::DOCUMENT), Err(Exception::InvalidStateError));
    it.session.append_child(Node::DOCUMENT, it.root).unwrap();
    assert_eq!(xml::serialize(&mut it.session, Node::DOCUMENT).unwrap(), "<!--c--><a/>");
}
