//! The objects that owners free, and when.
use huckleport::{Counts, Exception, History, Node, Object, Options, Owned, Result, Session, SHOW_ALL};
use std::thread;

#[cfg(target_os = "linux")]
mod memory;

const CHILDREN: Options<'static> = Options {
    child_list: Some(true),
    attributes: None,
    character_data: None,
    subtree: None,
    attribute_old_value: None,
    character_data_old_value: None,
    attribute_filter: None,
};

/// The counts of a new session: its Document.
const FIRST: Counts = Counts { nodes: 1, ranges: 0, static_ranges: 0, iterators: 0, walkers: 0, observers: 0, registrations: 0 };

/// Owners of one object of each kind; all but the fragment name it.
struct Each {
    fragment: Owned<Node>,
    range: Owned<huckleport::Range>,
    fixed: Owned<huckleport::StaticRange>,
    iterator: Owned<huckleport::NodeIterator>,
    walker: Owned<huckleport::TreeWalker>,
    observer: Owned<huckleport::Observer>,
}

fn each(session: &mut Session) -> Result<Each> {
    let fragment = session.create_fragment(Node::DOCUMENT)?;
    let range = session.create_range(Node::DOCUMENT)?;
    session.select_node_contents(range, fragment)?;
    let fixed = session.create_static_range(fragment, 0, fragment, 0)?;
    let iterator = session.create_iterator(fragment, SHOW_ALL, &[])?;
    let walker = session.create_walker(fragment, SHOW_ALL, &[])?;
    let observer = session.create_observer()?;
    session.observe(observer, fragment, &CHILDREN)?;
    Ok(Each {
        fragment: session.own(fragment),
        range: session.own(range),
        fixed: session.own(fixed),
        iterator: session.own(iterator),
        walker: session.own(walker),
        observer: session.own(observer),
    })
}

/// An element with a child, and a range in that child.
fn tree(session: &mut Session) -> Result<(Node, Node, huckleport::Range)> {
    let parent = session.create_element(Node::DOCUMENT, "p")?;
    let child = session.create_element(Node::DOCUMENT, "b")?;
    session.append_child(parent, child)?;
    let range = session.create_range(Node::DOCUMENT)?;
    session.select_node_contents(range, child)?;
    Ok((parent, child, range))
}

#[test]
fn each_kind_is_let_go_at_its_drop() -> Result<()> {
    let mut session = Session::new()?;
    let Each { fragment, range, fixed, iterator, walker, observer } = each(&mut session)?;
    assert_eq!(session.in_use()?, Counts { nodes: 2, ranges: 1, static_ranges: 1, iterators: 1, walkers: 1, observers: 1, registrations: 1 });
    assert_eq!(session.next_node(*iterator)?, Some(*fragment));
    drop(range);
    assert_eq!(session.in_use()?, Counts { nodes: 2, ranges: 0, static_ranges: 1, iterators: 1, walkers: 1, observers: 1, registrations: 1 });
    drop(fixed);
    assert_eq!(session.in_use()?, Counts { nodes: 2, iterators: 1, walkers: 1, observers: 1, registrations: 1, ..FIRST });
    drop(iterator);
    assert_eq!(session.in_use()?, Counts { nodes: 2, walkers: 1, observers: 1, registrations: 1, ..FIRST });
    drop(walker);
    assert_eq!(session.in_use()?, Counts { nodes: 2, observers: 1, registrations: 1, ..FIRST });
    drop(observer);
    assert_eq!(session.in_use()?, Counts { nodes: 2, ..FIRST });
    drop(fragment);
    assert_eq!(session.in_use()?, FIRST);
    Ok(())
}

/// Makes an object that keeps an element, and tries to discard that before and after its owner is dropped.
fn keeps<T: Object>(make: impl FnOnce(&mut Session, Node) -> Result<T>) -> Result<()> {
    let mut session = Session::new()?;
    let element = session.create_element(Node::DOCUMENT, "p")?;
    let made = make(&mut session, element)?;
    let owner = session.own(made);
    assert_eq!(session.discard(element), Err(Exception::InUse));
    drop(owner);
    session.discard(element)
}

#[test]
fn what_a_dropped_owner_had_keeps_no_tree() -> Result<()> {
    keeps(|session, element| {
        let range = session.create_range(Node::DOCUMENT)?;
        session.select_node_contents(range, element).map(|()| range)
    })?;
    keeps(|session, element| session.create_static_range(element, 0, element, 0))?;
    keeps(|session, element| session.create_iterator(element, SHOW_ALL, &[]))?;
    keeps(|session, element| session.create_walker(element, SHOW_ALL, &[]))?;
    keeps(|session, element| {
        let observer = session.create_observer()?;
        session.observe(observer, element, &CHILDREN).map(|()| observer)
    })
}

#[test]
fn a_line_comes_after_what_was_dropped() -> Result<()> {
    let mut session = Session::new()?;
    let each = each(&mut session)?;
    let line = format!("[\"discard\",{}]", each.fragment.number());
    assert_eq!(session.line(line.as_bytes())?, b"{\"error\":\"in-use\"}\n");
    each.fragment.into_inner();
    drop((each.range, each.fixed, each.iterator, each.walker, each.observer));
    assert_eq!(session.line(line.as_bytes())?, b"{\"ok\":null}\n");
    Ok(())
}

#[test]
fn the_last_answer_is_printed_first() -> Result<()> {
    let mut session = Session::new()?;
    let each = each(&mut session)?;
    assert_eq!(session.length(*each.fragment)?, 0);
    drop(each);
    assert_eq!(session.printed()?, b"{\"ok\":0}\n");
    assert_eq!(session.in_use()?, FIRST);
    Ok(())
}

#[test]
fn a_node_goes_with_what_is_below_it() -> Result<()> {
    let mut session = Session::new()?;
    let (parent, child, range) = tree(&mut session)?;
    // (the child is asked for first, and the range last)
    drop((session.own(child), session.own(parent), session.own(range)));
    assert_eq!(session.in_use()?, FIRST);
    let document = session.new_document()?;
    let comment = session.create_comment(document, &[])?;
    let walker = session.create_walker(comment, SHOW_ALL, &[])?;
    drop((session.own(document), session.own(comment), session.own(walker)));
    assert_eq!(session.in_use()?, FIRST);
    Ok(())
}

#[test]
fn a_node_with_a_parent_or_in_use_is_left_alone() -> Result<()> {
    let mut session = Session::new()?;
    let (parent, child, range) = tree(&mut session)?;
    drop((session.own(parent), session.own(child)));
    assert_eq!(session.children(parent)?.collect::<Vec<_>>(), [child]);
    drop(session.own(range));
    assert_eq!(session.in_use()?, Counts { nodes: 3, ..FIRST });
    session.discard(parent)?;
    assert_eq!(session.in_use()?, FIRST);
    Ok(())
}

#[test]
fn what_is_gone_already_is_no_fault() -> Result<()> {
    let mut session = Session::new()?;
    let range = session.create_range(Node::DOCUMENT)?;
    let (one, other) = (session.own(range), session.own(range));
    session.release_range(*one)?;
    let next = session.create_range(Node::DOCUMENT)?;
    drop((one, other));
    assert_eq!(session.range(range), Err(Exception::NoSuchObject));
    assert_eq!(session.range(next)?.start.node, Node::DOCUMENT);
    assert_eq!(session.in_use()?.ranges, 1);
    Ok(())
}

#[test]
fn a_number_is_given_back() -> Result<()> {
    let mut session = Session::new()?;
    let made = session.create_range(Node::DOCUMENT)?;
    let owner = session.own(made);
    assert_eq!(format!("{owner:?}"), "Owned(Range(0))");
    assert_eq!(owner.into_inner(), made);
    assert_eq!(session.in_use()?.ranges, 1);
    session.release_range(made)
}

#[test]
fn what_is_refused_halfway_leaves_nothing() -> Result<()> {
    fn part(session: &mut Session, names: &[&str]) -> Result<Node> {
        let fragment = session.create_fragment(Node::DOCUMENT)?;
        let fragment = session.own(fragment);
        for name in names {
            let element = session.create_element(Node::DOCUMENT, name)?;
            session.append_child(*fragment, element)?;
        }
        Ok(fragment.into_inner())
    }
    let mut session = Session::new()?;
    assert_eq!(part(&mut session, &["a", "b", "?"]), Err(Exception::InvalidCharacterError));
    assert_eq!(session.in_use()?, FIRST);
    let made = part(&mut session, &["a", "b"])?;
    assert_eq!(session.children(made)?.len(), 2);
    Ok(())
}

#[test]
fn many_are_let_go_at_once() -> Result<()> {
    let mut session = Session::new()?;
    let all: Vec<Each> = (0..1_000).map(|_| each(&mut session)).collect::<Result<_>>()?;
    assert_eq!((session.in_use()?.nodes, session.in_use()?.iterators), (1_001, 1_000));
    drop(all);
    assert_eq!(session.in_use()?, FIRST);
    Ok(())
}

#[test]
fn owners_outlive_their_session() -> Result<()> {
    let mut session = Session::new()?;
    let each = each(&mut session)?;
    drop(session);
    assert_eq!(each.range.number(), 0);
    drop(each);
    Ok(())
}

#[test]
fn a_session_and_its_owners_in_other_threads() -> Result<()> {
    fn goes<T: Send + Sync>(it: T) -> T {
        it
    }
    let mut session = Session::new()?;
    let (here, there) = (goes(each(&mut session)?), goes(each(&mut session)?));
    let mut session = thread::spawn(move || {
        drop(there);
        session.in_use().map(|it| assert_eq!(it.nodes, 2)).map(|()| session)
    })
    .join()
    .unwrap()?;
    assert_eq!(session.in_use()?.iterators, 1);
    thread::spawn(move || drop(here)).join().unwrap();
    assert_eq!(session.in_use()?, FIRST);
    Ok(())
}

#[test]
fn a_history_that_is_dropped_watches_no_longer() -> Result<()> {
    let mut session = Session::new()?;
    let element = session.create_element(Node::DOCUMENT, "p")?;
    let history = History::new(&mut session, element)?;
    assert_eq!((session.in_use()?.observers, session.in_use()?.registrations), (1, 1));
    drop(history);
    assert_eq!(session.in_use()?, Counts { nodes: 2, ..FIRST });
    History::new(&mut session, element)?.close(&mut session)?;
    assert_eq!(session.in_use()?, Counts { nodes: 2, ..FIRST });
    assert!(matches!(History::new(&mut session, Node::from_number(99)), Err(Exception::NoSuchObject)));
    assert_eq!(session.in_use()?.observers, 0);
    Ok(())
}

#[cfg(target_os = "linux")]
#[test]
fn memory_stays_level_where_owners_come_and_go() -> Result<()> {
    let mut session = Session::new()?;
    for _ in 0..2_000 {
        each(&mut session)?;
    }
    let before = memory::resident();
    for _ in 0..100_000 {
        each(&mut session)?;
    }
    let more = memory::resident().saturating_sub(before);
    assert!(more < 1_024, "{more} pages more");
    assert_eq!(session.in_use()?, FIRST);
    Ok(())
}
