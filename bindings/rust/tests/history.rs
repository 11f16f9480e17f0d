//! Undo and redo: after each step tree and ranges are as they were then.
use huckleport::{utf16, Ends, Exception, Force, History, Kind, Node, Range, Result, Session};

/// Numbers that look like chance, and are the same in each run.
struct Drawn(u64);

impl Drawn {
    fn below(&mut self, bound: usize) -> usize {
        self.0 = self.0.wrapping_mul(6364136223846793005).wrapping_add(1442695040888963407);
        (self.0 >> 33) as usize % bound
    }
}

/// A row of a tree: depth, node, name, attributes, data.
type Row = (usize, Node, String, Vec<(String, Vec<u16>)>, Vec<u16>);

type Seen = (Vec<Row>, Vec<Ends>);

/// Returns the whole state of a tree and of ranges.
fn seen(session: &mut Session, ranges: &[Range]) -> Result<Seen> {
    let rows = session.tree(Node::DOCUMENT)?.map(|it| {
        let attributes = it.attributes().map(|(name, value)| (name.to_owned(), value.to_vec())).collect();
        (it.depth, it.node, it.name().unwrap_or_default().to_owned(), attributes, it.data().unwrap_or_default().to_vec())
    });
    let rows = rows.collect();
    let ends = ranges.iter().map(|it| session.range(*it)).collect::<Result<_>>()?;
    Ok((rows, ends))
}

/// Makes random edits below a node, as an editor makes them.
struct Editor {
    root: Node,
    ranges: Vec<Range>,
    drawn: Drawn,
}

impl Editor {
    fn nodes(&self, session: &mut Session, kinds: &[Kind]) -> Result<Vec<Node>> {
        Ok(session.tree(self.root)?.filter(|it| kinds.contains(&it.kind)).map(|it| it.node).collect())
    }

    fn pick(&mut self, session: &mut Session, kinds: &[Kind]) -> Result<Option<Node>> {
        let found = self.nodes(session, kinds)?;
        Ok((!found.is_empty()).then(|| found[self.drawn.below(found.len())]))
    }

    fn element(&mut self, session: &mut Session) -> Result<Node> {
        Ok(self.pick(session, &[Kind::Element])?.expect("the root is one"))
    }

    fn any(&mut self, session: &mut Session) -> Result<Node> {
        Ok(self.pick(session, &[Kind::Element, Kind::Text, Kind::Comment])?.expect("the root is one"))
    }

    fn put(&mut self, session: &mut Session) -> Result<()> {
        let parent = self.element(session)?;
        let node = match self.drawn.below(3) {
            0 => session.create_element(Node::DOCUMENT, "new")?,
            1 => session.create_text(Node::DOCUMENT, &utf16("new \u{1f600}"))?,
            _ => session.create_comment(Node::DOCUMENT, &utf16("new"))?,
        };
        let children: Vec<Node> = session.children(parent)?.collect();
        let child = children.get(self.drawn.below(children.len() + 1)).copied();
        session.insert_before(parent, node, child).map(drop)
    }

    fn put_several(&mut self, session: &mut Session) -> Result<()> {
        let parent = self.element(session)?;
        let fragment = session.create_fragment(Node::DOCUMENT)?;
        let element = session.create_element(Node::DOCUMENT, "x")?;
        session.set_attribute(element, "a", &utf16("1"))?;
        session.append_child(fragment, element)?;
        let text = session.create_text(Node::DOCUMENT, &utf16("text"))?;
        session.append_child(fragment, text)?;
        session.append_child(parent, fragment).map(drop)
    }

    fn remove(&mut self, session: &mut Session) -> Result<()> {
        let node = self.any(session)?;
        if node != self.root {
            session.remove(node)?;
        }
        Ok(())
    }

    fn moved(&mut self, session: &mut Session) -> Result<()> {
        let (node, parent) = (self.any(session)?, self.element(session)?);
        if !session.contains(node, Some(parent))? {
            let first = session.children(parent)?.next().filter(|it| *it != node);
            session.insert_before(parent, node, first)?;
        }
        Ok(())
    }

    /// A node goes above what it stood under.
    fn swap(&mut self, session: &mut Session) -> Result<()> {
        let child = self.element(session)?;
        let parent = session.node(child)?.parent.filter(|it| child != self.root && *it != self.root);
        let parent = match parent {
            Some(parent) => parent,
            None => return Ok(()),
        };
        let above = session.node(parent)?.parent.expect("it stands below the root");
        session.insert_before(above, child, Some(parent))?;
        session.append_child(child, parent).map(drop)
    }

    /// A node goes into another that is put in its place then.
    fn wrap(&mut self, session: &mut Session) -> Result<()> {
        let node = self.any(session)?;
        if node == self.root {
            return Ok(());
        }
        let (parent, behind) = {
            let it = session.node(node)?;
            (it.parent.expect("it stands below the root"), it.next)
        };
        let wrapper = session.create_element(Node::DOCUMENT, "w")?;
        session.append_child(wrapper, node)?;
        session.insert_before(parent, wrapper, behind).map(drop)
    }

    fn empty(&mut self, session: &mut Session) -> Result<()> {
        let element = self.element(session)?;
        if element != self.root {
            session.replace_children(element, None)?;
        }
        Ok(())
    }

    fn text(&mut self, session: &mut Session) -> Result<()> {
        let text = match self.pick(session, &[Kind::Text, Kind::Comment])? {
            Some(text) => text,
            None => return Ok(()),
        };
        let at = self.drawn.below(session.length(text)? + 1) as u32;
        let words = utf16(["", "a", "\u{1f600}", "abc"][self.drawn.below(4)]);
        session.replace_data(text, at, self.drawn.below(4) as u32, &words)
    }

    fn split(&mut self, session: &mut Session) -> Result<()> {
        let text = match self.pick(session, &[Kind::Text])? {
            Some(text) => text,
            None => return Ok(()),
        };
        let at = self.drawn.below(session.length(text)? + 1) as u32;
        session.split_text(text, at).map(drop)
    }

    fn attribute(&mut self, session: &mut Session) -> Result<()> {
        let (element, name) = (self.element(session)?, ["a", "b", "c", "d"][self.drawn.below(4)]);
        if self.drawn.below(2) == 0 {
            return session.toggle_attribute(element, name, Force::Toggle).map(drop);
        }
        let value = self.drawn.below(1000).to_string();
        session.set_attribute(element, name, &utf16(&value))
    }

    fn cut(&mut self, session: &mut Session) -> Result<()> {
        let range = self.ranges[self.drawn.below(self.ranges.len())];
        session.delete_contents(range)
    }

    fn mark(&mut self, session: &mut Session) -> Result<()> {
        let range = self.ranges[self.drawn.below(self.ranges.len())];
        let (start, end) = (self.any(session)?, self.any(session)?);
        let (from, to) = (session.length(start)?, session.length(end)?);
        session.set_start(range, start, self.drawn.below(from + 1) as u32)?;
        session.set_end(range, end, self.drawn.below(to + 1) as u32)
    }

    fn edit(&mut self, session: &mut Session) -> Result<()> {
        match self.drawn.below(17) {
            0..=2 => self.put(session),
            3 => self.put_several(session),
            4 => self.remove(session),
            5 => self.moved(session),
            6 => self.swap(session),
            7 => self.wrap(session),
            8 => self.empty(session),
            9 | 10 => self.text(session),
            11 => self.split(session),
            12 => {
                let element = self.element(session)?;
                session.normalize(element)
            }
            13 | 14 => self.attribute(session),
            15 => self.cut(session),
            _ => self.mark(session),
        }
    }
}

/// A session with an element in its Document.
fn session() -> Result<(Session, Node)> {
    let mut session = Session::new()?;
    let root = session.create_element(Node::DOCUMENT, "root")?;
    session.append_child(Node::DOCUMENT, root)?;
    Ok((session, root))
}

fn thousand_edits(seed: u64) -> Result<()> {
    let (mut session, root) = session()?;
    let mut history = History::new(&mut session, Node::DOCUMENT)?;
    let ranges = (0..8).map(|_| session.create_range(Node::DOCUMENT)).collect::<Result<Vec<_>>>()?;
    for it in &ranges {
        session.select_node_contents(*it, root)?;
        history.keep(&mut session, *it)?;
    }
    let mut editor = Editor { root, ranges: ranges.clone(), drawn: Drawn(seed) };
    let mut states = vec![seen(&mut session, &ranges)?];
    for at in 0..1000 {
        history.group(&mut session, |session| (0..1 + at % 3).try_for_each(|_| editor.edit(session)))?;
        states.push(seen(&mut session, &ranges)?);
    }
    states.dedup();
    assert!(states.len() > 500, "{}", states.len());
    let back: Vec<_> = states.iter().rev().cloned().collect();
    steps(&mut session, &ranges, &back, |session| history.undo(session))?;
    assert!(!history.can_undo(&mut session)?);
    steps(&mut session, &ranges, &states, |session| history.redo(session))?;
    assert!(!history.can_redo(&mut session)?);
    Ok(())
}

/// Goes on from state to state. A step that shows nowhere (of a node that came and went within a group) leaves the state before.
fn steps(session: &mut Session, ranges: &[Range], states: &[Seen], mut step: impl FnMut(&mut Session) -> Result<bool>) -> Result<()> {
    let mut at = 0;
    while step(session)? {
        let now = seen(session, ranges)?;
        if now != states[at] {
            at += 1;
            assert!(now == states[at], "the state {at} of {}", states.len());
        }
    }
    assert_eq!(at + 1, states.len());
    Ok(())
}

#[test]
fn a_thousand_edits_undone_one_by_one() -> Result<()> {
    (1..=2).try_for_each(thousand_edits)
}

#[test]
fn ranges_that_were_set_since_stay() -> Result<()> {
    let (mut session, root) = session()?;
    let text = session.create_text(Node::DOCUMENT, &utf16("0123456789"))?;
    session.append_child(root, text)?;
    let mut history = History::new(&mut session, root)?;
    let (left, set) = (session.create_range(Node::DOCUMENT)?, session.create_range(Node::DOCUMENT)?);
    for it in [left, set] {
        session.set_start(it, text, 4)?;
        history.keep(&mut session, it)?;
    }
    history.group(&mut session, |session| session.delete_data(text, 0, 5))?;
    session.set_start(set, text, 2)?;
    session.collapse(set, true)?;
    assert!(history.undo(&mut session)?);
    assert_eq!(session.range(left)?.start.offset, 4);
    assert_eq!(session.range(set)?.start.offset, 7);
    Ok(())
}

#[test]
fn what_was_told_by_notify_is_handed_on() -> Result<()> {
    let (mut session, root) = session()?;
    let mut history = History::new(&mut session, root)?;
    let text = session.create_text(Node::DOCUMENT, &utf16("a"))?;
    session.append_child(root, text)?;
    for it in session.notify()? {
        assert_eq!(it.observer, history.observer());
        history.told(it.records());
    }
    assert!(history.commit(&mut session)?);
    assert!(history.undo(&mut session)?);
    assert_eq!(session.length(root)?, 0);
    Ok(())
}

#[test]
fn a_group_that_was_refused_and_a_node_that_is_gone() -> Result<()> {
    let (mut session, root) = session()?;
    let text = session.create_text(Node::DOCUMENT, &utf16("a"))?;
    session.append_child(root, text)?;
    let mut history = History::new(&mut session, root)?;
    let refused = history.group(&mut session, |session| {
        session.set_data(text, &utf16("b"))?;
        session.append_child(Node::DOCUMENT, text)
    });
    assert_eq!(refused, Err(Exception::HierarchyRequestError));
    assert!(history.undo(&mut session)?);
    assert_eq!(session.data(text)?, utf16("a"));
    history.group(&mut session, |session| session.remove(text))?;
    session.discard(text)?;
    assert_eq!(history.undo(&mut session), Err(Exception::NoSuchObject));
    assert_eq!(session.length(root)?, 0);
    history.clear(&mut session)?;
    assert!(!history.can_undo(&mut session)?);
    history.close(&mut session)
}
