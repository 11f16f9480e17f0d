//! Undo and redo of groups of changes, with live ranges put back where they stood.
use crate::changes::{ask, learn, learn_again, put, states, unless_gone, Change, Orders, States};
use crate::exception::Result;
use crate::numbers::{Node, Observer, Range};
use crate::observers::Options;
use crate::owned::Owned;
use crate::points::Ends;
use crate::records::Records;
use crate::session::Session;
use std::collections::BTreeMap;
use std::fmt;
use std::mem;

type Places = BTreeMap<Range, Ends>;

/// The states of nodes and ranges at one time.
struct Side {
    states: States,
    places: Places,
}

/// Changes that are undone together.
struct Group {
    before: Side,
    after: Side,
}

/// Lets an observer watch a node and its descendants.
fn watch(session: &mut Session, observer: Observer, root: Node) -> Result<()> {
    let options = Options {
        child_list: Some(true),
        subtree: Some(true),
        attribute_old_value: Some(true),
        character_data_old_value: Some(true),
        ..Options::default()
    };
    session.observe(observer, root, &options)
}

/// Undoes and redoes changes of a node and its descendants.
///
/// It watches the node by an observer of its own. Ranges that it keeps go back with the changes, each to where it was before them, unless it
/// was set elsewhere since. Removed nodes must not be discarded while it may have to put them back.
///
/// ```
/// use huckleport::{utf16, History, Node, Session};
///
/// # fn main() -> Result<(), huckleport::Exception> {
/// let mut session = Session::new()?;
/// let text = session.create_text(Node::DOCUMENT, &utf16("some text"))?;
/// let mut history = History::new(&mut session, text)?;
/// let bookmark = session.create_range(Node::DOCUMENT)?;
/// session.select_node_contents(bookmark, text)?;
/// history.keep(&mut session, bookmark)?;
/// history.group(&mut session, |session| session.delete_data(text, 0, 5))?;
/// assert_eq!(session.range(bookmark)?.end.offset, 4);
/// history.undo(&mut session)?;
/// assert_eq!(session.data(text)?, utf16("some text"));
/// assert_eq!(session.range(bookmark)?.end.offset, 9);
/// # Ok(())
/// # }
/// ```
pub struct History {
    root: Node,
    observer: Owned<Observer>,
    changes: Vec<Change>,
    ranges: Vec<Range>,
    places: Places,
    orders: Orders,
    done: Vec<Group>,
    undone: Vec<Group>,
}

impl History {
    /// Makes a history of the changes of a node and its descendants from now on. Pass to each call the session that has the node.
    pub fn new(session: &mut Session, root: Node) -> Result<History> {
        let observer = session.create_observer()?;
        let observer = session.own(observer);
        watch(session, *observer, root)?;
        let mut orders = Orders::new();
        learn(session, root, &mut orders)?;
        let (changes, ranges, places) = (Vec::new(), Vec::new(), Places::new());
        Ok(History { root, observer, changes, ranges, places, orders, done: Vec::new(), undone: Vec::new() })
    }

    /// The node that it watches.
    pub fn root(&self) -> Node {
        self.root
    }

    /// Returns its observer. If [`Session::notify`] or [`Session::tell_observer`] returns records for it, pass them to [`told`](History::told).
    pub fn observer(&self) -> Observer {
        *self.observer
    }

    /// Takes the records that its observer was notified of.
    pub fn told(&mut self, records: Records<'_>) {
        self.changes.extend(records.map(Change::from));
    }

    /// Keeps a range: undoing puts it back where it was.
    pub fn keep(&mut self, session: &mut Session, range: Range) -> Result<()> {
        self.places.insert(range, session.range(range)?);
        self.ranges.push(range);
        Ok(())
    }

    /// Keeps a range no longer.
    pub fn let_go(&mut self, range: Range) {
        self.ranges.retain(|it| *it != range);
    }

    /// Makes one group of all changes by `edits`, the moves of ranges too, even if `edits` returns an exception. They are undone together.
    pub fn group<T>(&mut self, session: &mut Session, edits: impl FnOnce(&mut Session) -> Result<T>) -> Result<T> {
        self.commit(session)?;
        self.places = self.places_now(session)?;
        let answer = edits(session);
        self.close_group(session, true)?;
        answer
    }

    /// Makes a group of the changes since the last group. Returns whether there were any.
    pub fn commit(&mut self, session: &mut Session) -> Result<bool> {
        self.close_group(session, false)
    }

    /// Undoes the last group. Returns whether there was one.
    pub fn undo(&mut self, session: &mut Session) -> Result<bool> {
        self.commit(session)?;
        let group = match self.done.pop() {
            Some(group) => group,
            None => return Ok(false),
        };
        let was_put = self.put(session, &group.after, &group.before);
        if was_put.is_ok() { &mut self.undone } else { &mut self.done }.push(group);
        was_put.map(|()| true)
    }

    /// Redoes the group that was undone last. Returns whether there was one; there is none once something else has changed.
    pub fn redo(&mut self, session: &mut Session) -> Result<bool> {
        self.commit(session)?;
        let group = match self.undone.pop() {
            Some(group) => group,
            None => return Ok(false),
        };
        let was_put = self.put(session, &group.before, &group.after);
        if was_put.is_ok() { &mut self.done } else { &mut self.undone }.push(group);
        was_put.map(|()| true)
    }

    /// Whether there is a group to undo.
    pub fn can_undo(&mut self, session: &mut Session) -> Result<bool> {
        self.commit(session)?;
        Ok(!self.done.is_empty())
    }

    /// Whether there is a group to do again.
    pub fn can_redo(&mut self, session: &mut Session) -> Result<bool> {
        self.commit(session)?;
        Ok(!self.undone.is_empty())
    }

    /// Forgets all groups.
    pub fn clear(&mut self, session: &mut Session) -> Result<()> {
        self.commit(session)?;
        self.done.clear();
        self.undone.clear();
        Ok(())
    }

    /// Stops watching, and releases its observer. A history that is dropped does so at the session's next command.
    pub fn close(self, session: &mut Session) -> Result<()> {
        session.release_observer(self.observer.into_inner())
    }

    fn places_now(&self, session: &mut Session) -> Result<Places> {
        let mut found = Places::new();
        for &it in &self.ranges {
            found.extend(unless_gone(session.range(it))?.map(|ends| (it, ends)));
        }
        Ok(found)
    }

    /// Takes the changes, and stops watching removed nodes. For each of these the core would keep the observers that still watch it.
    fn take(&mut self, session: &mut Session) -> Result<Vec<Change>> {
        self.changes.extend(session.take_records(*self.observer)?.map(Change::from));
        session.disconnect(*self.observer)?;
        unless_gone(watch(session, *self.observer, self.root))?;
        Ok(mem::take(&mut self.changes))
    }

    /// Makes a group of the changes, and returns whether there is one. If nothing but ranges has changed, there is one only if `has_moves`.
    fn close_group(&mut self, session: &mut Session, has_moves: bool) -> Result<bool> {
        let changes = self.take(session)?;
        let now = self.places_now(session)?;
        let places = mem::replace(&mut self.places, now.clone());
        let (before, after) = states(session, &changes, &mut self.orders)?;
        if before == after && !(has_moves && places != now) {
            return Ok(false);
        }
        self.done.push(Group { before: Side { states: before, places }, after: Side { states: after, places: now } });
        self.undone.clear();
        Ok(true)
    }

    /// Puts one side of a group in place of the other, with the ranges that nothing else has moved.
    fn put(&mut self, session: &mut Session, now: &Side, due: &Side) -> Result<()> {
        ask(session, &now.states)?;
        ask(session, &due.states)?;
        let here = self.places_now(session)?;
        put(session, &now.states, &due.states)?;
        for (&range, ends) in due.places.iter().filter(|(it, _)| here.contains_key(it) && here.get(it) == now.places.get(it)) {
            session.set_start(range, ends.start.node, ends.start.offset as u32)?;
            session.set_end(range, ends.end.node, ends.end.offset as u32)?;
        }
        learn_again(&due.states, &mut self.orders);
        self.take(session)?;
        self.places = self.places_now(session)?;
        Ok(())
    }
}

impl fmt::Debug for History {
    fn fmt(&self, to: &mut fmt::Formatter<'_>) -> fmt::Result {
        to.debug_struct("History").field("root", &self.root).field("ranges", &self.ranges).finish_non_exhaustive()
    }
}
