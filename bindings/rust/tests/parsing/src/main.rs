use huckleport::{html, Node, Result, Session};

fn main() -> Result<()> {
    let mut session = Session::new()?;
    html::parse(&mut session, Node::DOCUMENT, "<p>some <b>text")?;
    println!("{}", html::serialize(&mut session, Node::DOCUMENT)?);
    Ok(())
}
