//! A live range is put around a text. A word is inserted into the text, and the range still covers it.
use huckleport::{utf16, Node, Result, Session};

fn main() -> Result<()> {
    let mut session = Session::new()?;
    let text = session.create_text(Node::DOCUMENT, &utf16("some text"))?;
    let bookmark = session.create_range(Node::DOCUMENT)?;
    session.select_node_contents(bookmark, text)?;
    session.insert_data(text, 4, &utf16(" more"))?;
    println!("{}", String::from_utf16_lossy(session.range_text(bookmark)?));
    Ok(())
}
