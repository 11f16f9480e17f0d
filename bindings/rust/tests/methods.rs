//! Cases that dialogues do not show: commands that they only refuse, texts that are not well-formed, limits, threads, iterators from both ends, and
//! released objects.
use huckleport::{utf16, BoundaryPoint, Counts, Ends, Exception, Kind, Move, Node, Observer, Options, Result, Session, SHOW_ALL};
use std::thread;

#[cfg(target_os = "linux")]
mod memory;

/// A session with an element of three Texts, `a`, `b` and `c`.
fn session() -> Result<(Session, Node, [Node; 3])> {
    let mut session = Session::new()?;
    let parent = session.create_element(Node::DOCUMENT, "p")?;
    let mut texts = [parent; 3];
    for (at, data) in ["a", "b", "c"].into_iter().enumerate() {
        texts[at] = session.create_text(Node::DOCUMENT, &utf16(data))?;
        session.append_child(parent, texts[at])?;
    }
    Ok((session, parent, texts))
}

fn ends(node: Node, start: usize, end: usize) -> Ends {
    Ends { start: BoundaryPoint { node, offset: start }, end: BoundaryPoint { node, offset: end } }
}

#[test]
fn ends_beside_a_node() -> Result<()> {
    let (mut session, parent, [a, b, c]) = session()?;
    let range = session.create_range(Node::DOCUMENT)?;
    session.set_start_before(range, a)?;
    session.set_end_after(range, c)?;
    assert_eq!(session.range(range)?, ends(parent, 0, 3));
    session.set_start_after(range, a)?;
    session.set_end_before(range, c)?;
    assert_eq!(session.range(range)?, ends(parent, 1, 2));
    assert!(session.intersects_node(range, b)?);
    Ok(())
}

#[test]
fn a_child_replaced_and_data_inserted() -> Result<()> {
    let (mut session, parent, [a, b, c]) = session()?;
    assert_eq!(session.replace_child(parent, c, a)?, a);
    assert_eq!(session.children(parent)?.collect::<Vec<_>>(), [c, b]);
    session.insert_data(c, 1, &utf16("d"))?;
    assert_eq!(session.data(c)?, utf16("cd"));
    assert_eq!(session.insert_data(c, 3, &[]), Err(Exception::IndexSizeError));
    Ok(())
}

#[test]
fn what_stands_around_a_node() -> Result<()> {
    let (session, parent, [a, b, c]) = session()?;
    let found = session.links(parent)?;
    assert_eq!((found.kind, found.document, found.parent), (Kind::Element, Node::DOCUMENT, None));
    assert_eq!((found.first_child, found.last_child, found.children, found.length), (Some(a), Some(c), 3, 3));
    let found = session.links(b)?;
    assert_eq!((found.previous, found.next, found.parent), (Some(a), Some(c), Some(parent)));
    assert_eq!((found.first_child, found.last_child, found.children, found.length), (None, None, 0, 1));
    assert_eq!((session.first_child(parent)?, session.last_child(parent)?), (Some(a), Some(c)));
    assert_eq!((session.child_at(parent, 1)?, session.child_at(parent, 3)?), (Some(b), None));
    assert!(session.has_child_nodes(parent)? && !session.has_child_nodes(a)?);
    assert_eq!(session.links(Node::from_number(99)), Err(Exception::NoSuchObject));
    assert_eq!(session.first_child(Node::from_number(99)), Err(Exception::NoSuchObject));
    Ok(())
}

#[test]
fn the_last_answer_stays() -> Result<()> {
    let (mut session, parent, [a, _, c]) = session()?;
    session.children(parent)?;
    let printed = session.printed()?.to_vec();
    assert_eq!((session.first_child(parent)?, session.last_child(parent)?), (Some(a), Some(c)));
    assert_eq!(session.printed()?, printed);
    Ok(())
}

#[test]
fn lone_surrogates() -> Result<()> {
    let mut session = Session::new()?;
    let text = session.create_text(Node::DOCUMENT, &[0xd800, 0x61])?;
    assert_eq!(session.data(text)?, [0xd800, 0x61]);
    assert_eq!(session.printed()?, b"{\"ok\":[55296,97]}\n");
    let pair = session.create_text(Node::DOCUMENT, &utf16("\u{1f600}"))?;
    assert_eq!(session.substring_data(pair, 1, 1)?, [0xde00]);
    Ok(())
}

#[test]
fn iterators_from_both_ends() -> Result<()> {
    let (mut session, parent, [a, b, c]) = session()?;
    let mut children = session.children(parent)?;
    assert_eq!((children.len(), children.next_back(), children.nth(1), children.next()), (3, Some(c), Some(b), None));
    assert_eq!(session.children(parent)?.rev().collect::<Vec<_>>(), [c, b, a]);
    assert_eq!(format!("{:?}", session.children(parent)?), "[Node(2), Node(3), Node(4)]");
    Ok(())
}

#[test]
fn limits() {
    assert_eq!(Session::with_limits(0, 1).unwrap_err(), Exception::BadLimits);
    assert_eq!(Session::with_limits(1, 0).unwrap_err(), Exception::BadLimits);
    let mut session = Session::with_limits(1, 1).unwrap();
    assert_eq!(session.create_fragment(Node::DOCUMENT), Err(Exception::Limit));
    assert_eq!(session.line(b"[]").unwrap(), b"{\"error\":\"line-too-long\"}\n");
}

#[test]
fn before_the_first_answer() {
    let mut session = Session::new().unwrap();
    assert_eq!(session.printed().unwrap(), b"");
}

#[test]
fn a_session_goes_to_another_thread() {
    let (mut session, parent, texts) = session().unwrap();
    let count = thread::spawn(move || session.children(parent).unwrap().count());
    assert_eq!(count.join().unwrap(), texts.len());
}

#[test]
fn exceptions_are_errors() {
    let refused: Box<dyn std::error::Error> = Box::new(Exception::HierarchyRequestError);
    assert_eq!(refused.to_string(), "HierarchyRequestError: the node cannot be inserted there");
}

#[test]
fn a_tree_that_only_what_was_released_named() -> Result<()> {
    let (mut session, parent, [a, ..]) = session()?;
    let iterator = session.create_iterator(parent, SHOW_ALL, &[])?;
    let walker = session.create_walker(a, SHOW_ALL, &[])?;
    let range = session.create_static_range(parent, 0, a, 1)?;
    let observer = session.create_observer()?;
    session.observe(observer, parent, &Options { child_list: Some(true), ..Options::default() })?;
    assert_eq!(session.discard(parent), Err(Exception::InUse));
    session.release_iterator(iterator)?;
    session.release_walker(walker)?;
    session.release_static_range(range)?;
    assert_eq!(session.discard(parent), Err(Exception::InUse));
    session.release_observer(observer)?;
    session.discard(parent)?;
    assert_eq!(session.next_node(iterator), Err(Exception::NoSuchObject));
    assert_eq!(session.walk(walker, Move::FirstChild), Err(Exception::NoSuchObject));
    assert_eq!(session.static_range(range), Err(Exception::NoSuchObject));
    assert_eq!(session.disconnect(observer), Err(Exception::NoSuchObject));
    assert_eq!(session.release_iterator(iterator), Err(Exception::NoSuchObject));
    let next = session.create_iterator(Node::DOCUMENT, SHOW_ALL, &[])?;
    assert_eq!(next.number(), iterator.number() + 1);
    Ok(())
}

#[test]
fn what_there_is_is_counted() -> Result<()> {
    let (mut session, parent, _) = session()?;
    let nodes = Counts { nodes: 5, ranges: 0, static_ranges: 0, iterators: 0, walkers: 0, observers: 0, registrations: 0 };
    assert_eq!(session.in_use()?, nodes);
    let range = session.create_range(Node::DOCUMENT)?;
    let fixed = session.create_static_range(parent, 0, parent, 3)?;
    let iterator = session.create_iterator(parent, SHOW_ALL, &[])?;
    let walker = session.create_walker(parent, SHOW_ALL, &[])?;
    let observer = session.create_observer()?;
    for node in [Node::DOCUMENT, parent] {
        session.observe(observer, node, &Options { child_list: Some(true), ..Options::default() })?;
    }
    assert_eq!(session.in_use()?, Counts { nodes: 5, ranges: 1, static_ranges: 1, iterators: 1, walkers: 1, observers: 1, registrations: 2 });
    session.release_range(range)?;
    session.release_static_range(fixed)?;
    session.release_iterator(iterator)?;
    session.release_walker(walker)?;
    session.release_observer(observer)?;
    assert_eq!(session.in_use()?, nodes);
    session.discard(parent)?;
    assert_eq!(session.in_use()?.nodes, 1);
    Ok(())
}

#[test]
fn an_observer_that_is_released_is_told_nothing() -> Result<()> {
    let (mut session, parent, [a, ..]) = session()?;
    let observers = [session.create_observer()?, session.create_observer()?];
    for observer in observers {
        session.observe(observer, parent, &Options { child_list: Some(true), ..Options::default() })?;
    }
    session.remove(a)?;
    session.release_observer(observers[0])?;
    assert_eq!(session.pending()?.collect::<Vec<_>>(), observers[1..]);
    let told: Vec<_> = session.notify()?.map(|it| it.observer).collect();
    assert_eq!(told, observers[1..]);
    Ok(())
}

/// Returns how many records each of three observers gets in its turn; none if it was released. They observe an element, and a Text of it was removed.
/// After the first observer's turn `does` is called with that element, the Text and the observers.
fn told_in_turn(does: impl FnOnce(&mut Session, [Node; 2], [Observer; 3]) -> Result<()>) -> Result<Vec<Option<usize>>> {
    let (mut session, parent, [a, ..]) = session()?;
    let observers = [session.create_observer()?, session.create_observer()?, session.create_observer()?];
    let options = Options { child_list: Some(true), character_data: Some(true), subtree: Some(true), ..Options::default() };
    for observer in observers {
        session.observe(observer, parent, &options)?;
    }
    session.remove(a)?;
    let pending: Vec<_> = session.take_pending()?.collect();
    assert_eq!(pending, observers);
    assert_eq!(session.pending()?.len(), 0);
    let mut told = vec![Some(session.tell_observer(observers[0])?.len())];
    does(&mut session, [parent, a], observers)?;
    for observer in &observers[1..] {
        match session.tell_observer(*observer) {
            Err(Exception::NoSuchObject) => told.push(None),
            records => told.push(Some(records?.len())),
        }
    }
    Ok(told)
}

#[test]
fn an_observer_that_is_disconnected_before_its_turn_is_told_nothing() -> Result<()> {
    assert_eq!(told_in_turn(|session, _, [_, second, _]| session.disconnect(second))?, [Some(1), Some(0), Some(1)]);
    Ok(())
}

#[test]
fn an_observer_whose_records_are_taken_before_its_turn_is_told_nothing() -> Result<()> {
    let told = told_in_turn(|session, _, [_, second, _]| {
        assert_eq!(session.take_records(second)?.len(), 1);
        Ok(())
    });
    assert_eq!(told?, [Some(1), Some(0), Some(1)]);
    Ok(())
}

#[test]
fn an_observer_that_is_released_before_its_turn_is_not_there() -> Result<()> {
    assert_eq!(told_in_turn(|session, _, [_, second, _]| session.release_observer(second))?, [Some(1), None, Some(1)]);
    Ok(())
}

#[test]
fn a_change_is_told_in_a_turn_that_is_still_to_come() -> Result<()> {
    let told = told_in_turn(|session, [parent, _], observers| {
        let last = session.create_text(Node::DOCUMENT, &utf16("last"))?;
        session.append_child(parent, last)?;
        assert_eq!(session.pending()?.collect::<Vec<_>>(), observers);
        assert_eq!(session.take_records(observers[0])?.len(), 1);
        Ok(())
    });
    assert_eq!(told?, [Some(1), Some(2), Some(2)]);
    Ok(())
}

#[test]
fn what_is_taken_out_is_watched_by_each_observer_until_its_turn() -> Result<()> {
    let told = told_in_turn(|session, [_, removed], [first, ..]| {
        session.append_data(removed, &utf16("more"))?;
        assert_eq!(session.take_records(first)?.len(), 0);
        Ok(())
    });
    assert_eq!(told?, [Some(1), Some(2), Some(2)]);
    Ok(())
}

/// Makes and releases `count` objects of each kind, one after another.
#[cfg(target_os = "linux")]
fn come_and_go(session: &mut Session, count: usize) -> Result<()> {
    let options = Options { child_list: Some(true), ..Options::default() };
    for _ in 0..count {
        let iterator = session.create_iterator(Node::DOCUMENT, SHOW_ALL, &[])?;
        session.release_iterator(iterator)?;
        let walker = session.create_walker(Node::DOCUMENT, SHOW_ALL, &[])?;
        session.release_walker(walker)?;
        let range = session.create_static_range(Node::DOCUMENT, 0, Node::DOCUMENT, 0)?;
        session.release_static_range(range)?;
        let observer = session.create_observer()?;
        session.observe(observer, Node::DOCUMENT, &options)?;
        session.release_observer(observer)?;
    }
    Ok(())
}

#[cfg(target_os = "linux")]
#[test]
fn memory_stays_level_where_many_come_and_go() -> Result<()> {
    let mut session = Session::new()?;
    come_and_go(&mut session, 2_000)?;
    let before = memory::resident();
    come_and_go(&mut session, 100_000)?;
    let more = memory::resident().saturating_sub(before);
    assert!(more < 1_024, "{more} pages more");
    Ok(())
}
