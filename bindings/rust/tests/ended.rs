//! A session that has ended out of memory: it is read and serialized, commands that change it are refused, and another session goes on.
#![cfg(all(target_os = "linux", target_pointer_width = "64"))]
use huckleport::{html, utf16, xml, Exception, Node, Session};

/// As `struct rlimit` of Linux.
#[repr(C)]
#[derive(Clone, Copy)]
struct Limit {
    soft: u64,
    hard: u64,
}

/// The limit of all memory of a process.
const ALL_MEMORY: i32 = 9;

extern "C" {
    fn getrlimit(which: i32, limit: *mut Limit) -> i32;
    fn setrlimit(which: i32, limit: *const Limit) -> i32;
}

/// How many bytes this process may reach.
fn mapped() -> u64 {
    let told = std::fs::read_to_string("/proc/self/statm").unwrap();
    told.split(' ').next().unwrap().parse::<u64>().unwrap() * 4096
}

/// Copies a tree until there is no memory: this process may take 8 MB more meanwhile.
fn run_out(session: &mut Session, root: Node) -> Exception {
    let mut limit = Limit { soft: 0, hard: 0 };
    assert_eq!(unsafe { getrlimit(ALL_MEMORY, &mut limit) }, 0);
    let less = Limit { soft: mapped() + (8 << 20), ..limit };
    assert_eq!(unsafe { setrlimit(ALL_MEMORY, &less) }, 0);
    let refusal = loop {
        if let Err(refusal) = session.clone_node(root, true) {
            break refusal;
        }
    };
    assert_eq!(unsafe { setrlimit(ALL_MEMORY, &limit) }, 0);
    refusal
}

/// A Document with a doctype, an element with attributes, a Text, a comment and an instruction, and many elements more.
fn built(session: &mut Session) -> Result<(Node, Node), Exception> {
    let doctype = session.create_doctype(Node::DOCUMENT, "html", "", "")?;
    let root = session.create_element(Node::DOCUMENT, "html")?;
    let comment = session.create_comment(Node::DOCUMENT, &utf16("aside"))?;
    let instruction = session.create_pi(Node::DOCUMENT, "target", &utf16("data"))?;
    let script = session.create_element(Node::DOCUMENT, "script")?;
    let text = session.create_text(Node::DOCUMENT, &utf16("1 < 2"))?;
    for (parent, node) in [(Node::DOCUMENT, doctype), (Node::DOCUMENT, root), (root, comment), (root, instruction), (root, script), (script, text)] {
        session.append_child(parent, node)?;
    }
    session.set_attribute(root, "lang", &utf16("en"))?;
    session.set_attribute(root, "title", &utf16("\"&"))?;
    for _ in 0..3000 {
        let item = session.create_element(Node::DOCUMENT, "i")?;
        session.append_child(root, item)?;
    }
    Ok((root, text))
}

/// Reads a session, as text.
fn read(session: &mut Session, root: Node, text: Node) -> Result<String, Exception> {
    let mut to = html::serialize(session, Node::DOCUMENT)? + &html::serialize_children(session, root)? + &html::serialize(session, text)?;
    to += &xml::serialize(session, Node::DOCUMENT)?;
    let language = session.get_attribute(root, "lang")?.map(String::from_utf16_lossy);
    let has_none = session.get_attribute(root, "none")?.is_none();
    for it in [
        format!("{:?} {:?} {language:?}", session.links(root)?, session.data(text)?.len()),
        format!("{has_none:?} {}", session.has_attribute(root, "title")?),
        format!("{:?}", session.node(root)?),
        format!("{:?}", session.node(text)?),
        format!("{:?} {}", session.root(text)?, session.index(root)?),
    ] {
        to += &it;
    }
    Ok(to)
}

#[test]
fn what_a_session_holds_is_read_after_its_end() -> Result<(), Exception> {
    let (mut session, mut other) = (Session::new()?, Session::new()?);
    let (root, text) = built(&mut session)?;
    let before = read(&mut session, root, text)?;
    assert!(!session.has_ended());
    assert_eq!(run_out(&mut session, root), Exception::OutOfMemory);
    assert!(session.has_ended());
    assert_eq!(read(&mut session, root, text)?, before);
    assert_eq!(session.append_child(root, text).err(), Some(Exception::OutOfMemory));
    assert_eq!(session.set_data(text, &utf16("x")).err(), Some(Exception::OutOfMemory));
    assert_eq!(session.create_element(Node::DOCUMENT, "p").err(), Some(Exception::OutOfMemory));
    assert_eq!(session.clone_node(root, false).err(), Some(Exception::OutOfMemory));
    assert_eq!(read(&mut session, root, text)?, before);
    assert!(!other.has_ended());
    let paragraph = other.create_element(Node::DOCUMENT, "p")?;
    assert_eq!(html::serialize(&mut other, paragraph)?, "<p></p>");
    Ok(())
}
