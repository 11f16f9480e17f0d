//! The states of nodes on the two sides of a group of changes, and how one side replaces the other.
use crate::exception::{Exception, Result};
use crate::numbers::Node;
use crate::records::{Record, RecordType};
use crate::session::Session;
use std::collections::{BTreeMap, BTreeSet};

type Pairs = Vec<(String, Vec<u16>)>;
pub(crate) type States = BTreeMap<Node, State>;
/// The order of the attributes of elements, since no record has the position of a removed attribute.
pub(crate) type Orders = BTreeMap<Node, Vec<String>>;

/// A record that is kept past the next command.
pub(crate) struct Change {
    target: Node,
    record_type: RecordType,
    added: Vec<Node>,
    removed: Vec<Node>,
    previous: Option<Node>,
    next: Option<Node>,
    name: Option<String>,
    old: Option<Vec<u16>>,
}

impl From<Record<'_>> for Change {
    fn from(it: Record<'_>) -> Change {
        Change {
            target: it.target,
            record_type: it.record_type,
            added: it.added().collect(),
            removed: it.removed().collect(),
            previous: it.previous,
            next: it.next,
            name: it.attribute_name().map(str::to_owned),
            old: it.old_value().map(<[u16]>::to_vec),
        }
    }
}

impl Change {
    /// Returns where its nodes were inserted or removed, among the children as they were after it.
    fn place(&self, children: &[Node]) -> usize {
        let index = |of: Option<Node>| children.iter().position(|it| Some(*it) == of);
        let behind = index(self.previous).map(|at| at + 1);
        behind.or_else(|| index(self.next).map(|at| at.saturating_sub(self.added.len()))).unwrap_or(0)
    }
}

/// The changed parts of a node, as they were at one time.
#[derive(Clone, Default, PartialEq)]
pub(crate) struct State {
    /// Of the children those that differ between the two sides, and the index of the first.
    children: Option<Vec<Node>>,
    at: usize,
    data: Option<Vec<u16>>,
    pairs: Option<Pairs>,
}

/// Returns an answer, or none if a node was discarded.
pub(crate) fn unless_gone<T>(answer: Result<T>) -> Result<Option<T>> {
    match answer {
        Err(Exception::NoSuchObject) => Ok(None),
        it => it.map(Some),
    }
}

fn children(session: &mut Session, node: Node) -> Result<Vec<Node>> {
    Ok(session.children(node)?.collect())
}

fn names(session: &mut Session, element: Node) -> Result<Vec<String>> {
    Ok(session.attribute_names(element)?.map(str::to_owned).collect())
}

fn pairs(session: &mut Session, element: Node) -> Result<Pairs> {
    let mut found = Vec::new();
    for name in names(session, element)? {
        let value = session.get_attribute(element, &name)?.unwrap_or_default().to_vec();
        found.push((name, value));
    }
    Ok(found)
}

impl State {
    /// Reads the part of a node that a record's type names, as it is now.
    fn read(&mut self, session: &mut Session, change: &Change) -> Result<()> {
        match change.record_type {
            RecordType::ChildList if self.children.is_none() => self.children = unless_gone(children(session, change.target))?,
            RecordType::CharacterData if self.data.is_none() => {
                self.data = unless_gone(session.data(change.target).map(<[u16]>::to_vec))?;
            }
            RecordType::Attributes if self.pairs.is_none() => self.pairs = unless_gone(pairs(session, change.target))?,
            _ => {}
        }
        Ok(())
    }

    /// Changes it back to the state before a change.
    fn take_back(&mut self, change: &Change) {
        match change.record_type {
            RecordType::CharacterData if self.data.is_some() => self.data = change.old.clone(),
            RecordType::Attributes => {
                let name = change.name.as_deref().unwrap_or_default();
                self.pairs = self.pairs.take().map(|it| without(it, name, change.old.as_deref()));
            }
            RecordType::ChildList => {
                let now = match &mut self.children {
                    Some(now) => now,
                    None => return,
                };
                let at = change.place(now).min(now.len());
                let end = (at + change.added.len()).min(now.len());
                now.splice(at..end, change.removed.iter().copied());
            }
            RecordType::CharacterData => {}
        }
    }

    fn lose(&mut self, child: Node) {
        self.children.iter_mut().for_each(|it| it.retain(|other| *other != child));
    }

    fn nodes(&self) -> impl Iterator<Item = Node> + '_ {
        self.children.iter().flatten().copied()
    }
}

/// Attributes before one was changed. One that was taken out comes last, and is put in its place later.
fn without(mut pairs: Pairs, name: &str, old: Option<&[u16]>) -> Pairs {
    let at = pairs.iter().position(|it| it.0 == name);
    match (at, old) {
        (Some(at), Some(old)) => pairs[at].1 = old.to_vec(),
        (Some(at), None) => drop(pairs.remove(at)),
        (None, Some(old)) => pairs.push((name.to_owned(), old.to_vec())),
        (None, None) => {}
    }
    pairs
}

/// Stores the orders of the attributes of a node and its descendants.
pub(crate) fn learn(session: &mut Session, node: Node, orders: &mut Orders) -> Result<()> {
    let rows = match unless_gone(session.tree(node))? {
        Some(rows) => rows,
        None => return Ok(()),
    };
    let with_attributes = rows.filter(|it| it.attributes().len() > 0);
    orders.extend(with_attributes.map(|it| (it.node, it.attributes().map(|(name, _)| name.to_owned()).collect())));
    Ok(())
}

/// Returns the states of nodes before changes, from their states now.
fn back_from(after: &States, changes: &[Change]) -> States {
    let mut before = after.clone();
    let mut holders: BTreeMap<Node, Node> = after.iter().flat_map(|(&node, state)| state.nodes().map(move |it| (it, node))).collect();
    for it in changes.iter().rev() {
        for node in &it.removed {
            // (it may have been inserted into another node while that one was outside, without a record)
            if let Some(state) = holders.insert(*node, it.target).and_then(|holder| before.get_mut(&holder)) {
                state.lose(*node);
            }
        }
        before.entry(it.target).or_default().take_back(it);
    }
    before
}

/// Returns the states of the nodes of changes before these, and their states now.
pub(crate) fn states(session: &mut Session, changes: &[Change], orders: &mut Orders) -> Result<(States, States)> {
    let mut after = States::new();
    for it in changes {
        after.entry(it.target).or_default().read(session, it)?;
    }
    let mut before = back_from(&after, changes);
    lend(session, &mut before, &mut after)?;
    for (node, state) in &mut before {
        settle(*node, state, after.entry(*node).or_default(), orders);
    }
    for it in changes.iter().flat_map(|it| &it.added).collect::<BTreeSet<_>>() {
        learn(session, *it, orders)?;
    }
    Ok((before, after))
}

/// Puts attributes in the order that they had, and leaves of the children what differs.
fn settle(node: Node, before: &mut State, after: &mut State, orders: &mut Orders) {
    if let Some(pairs) = &mut before.pairs {
        let order = orders.get(&node).map_or(&[][..], Vec::as_slice);
        pairs.sort_by_key(|it| order.iter().position(|name| *name == it.0).unwrap_or(order.len()));
        orders.insert(node, after.pairs.iter().flatten().map(|it| it.0.clone()).collect());
    }
    narrow(before, after);
}

/// Adds nodes that no record has: the present parents of children that have to be put back, if these were inserted while the parent was outside.
fn lend(session: &mut Session, before: &mut States, after: &mut States) -> Result<()> {
    let mut back = BTreeSet::new();
    for (node, state) in before.iter() {
        let there: BTreeSet<Node> = after[node].nodes().collect();
        back.extend(state.nodes().filter(|it| !there.contains(it)));
    }
    for child in &back {
        let parent = unless_gone(session.node(*child).map(|it| it.parent))?.flatten();
        let parent = match parent.filter(|it| after.get(it).map_or(true, |state| state.children.is_none())) {
            Some(parent) => parent,
            None => continue,
        };
        let now = children(session, parent)?;
        before.entry(parent).or_default().children = Some(now.iter().copied().filter(|it| !back.contains(it)).collect());
        after.entry(parent).or_default().children = Some(now);
    }
    Ok(())
}

/// Leaves of two lists of children what differs, and where it begins.
fn narrow(one: &mut State, other: &mut State) {
    let (a, b) = match (&mut one.children, &mut other.children) {
        (Some(a), Some(b)) => (a, b),
        _ => return,
    };
    let same = |(a, b): &(&Node, &Node)| a == b;
    let first = a.iter().zip(b.iter()).take_while(same).count();
    let last = a[first..].iter().rev().zip(b[first..].iter().rev()).take_while(same).count();
    for it in [a, b] {
        it.truncate(it.len() - last);
        it.drain(..first);
    }
    (one.at, other.at) = (first, first);
}

/// Removes the children of one side, and returns for each parent the sibling after them, if any.
fn take_out(session: &mut Session, now: &States) -> Result<Vec<(Node, Option<Node>)>> {
    let mut behind = Vec::new();
    for (&parent, state) in now.iter().filter(|(_, state)| state.children.is_some()) {
        let there = children(session, parent)?;
        let end = (state.at + state.nodes().count()).min(there.len());
        behind.push((parent, there.get(end).copied()));
        there[state.at.min(end)..end].iter().try_for_each(|child| session.remove(*child))?;
    }
    Ok(behind)
}

/// Gives an element these attributes in this order.
fn put_attributes(session: &mut Session, element: Node, due: &Pairs) -> Result<()> {
    let now = names(session, element)?;
    let kept = now.iter().zip(due).take_while(|(name, pair)| **name == pair.0).count();
    now[kept..].iter().try_for_each(|name| session.remove_attribute(element, name))?;
    for (name, value) in due {
        if session.get_attribute(element, name)? != Some(value) {
            session.set_attribute(element, name, value)?;
        }
    }
    Ok(())
}

/// Gives a node these data. Only the units that differ are replaced, so that ends of ranges beside them stay at their units.
fn put_data(session: &mut Session, node: Node, due: &[u16]) -> Result<()> {
    let now = session.data(node)?;
    let same = |(a, b): &(&u16, &u16)| a == b;
    let front = now.iter().zip(due).take_while(same).count();
    let back = now[front..].iter().rev().zip(due[front..].iter().rev()).take_while(same).count();
    let (count, words) = (now.len() - front - back, &due[front..due.len() - back]);
    if count == 0 && words.is_empty() {
        return Ok(());
    }
    session.replace_data(node, front as u32, count as u32, words)
}

/// Replaces the states of nodes on one side of a group by those on the other. All children to remove are removed first, so that no node
/// is inserted under itself.
pub(crate) fn put(session: &mut Session, now: &States, due: &States) -> Result<()> {
    for (parent, reference) in take_out(session, now)? {
        due[&parent].nodes().try_for_each(|child| session.insert_before(parent, child, reference).map(drop))?;
    }
    for (&node, state) in due {
        if let Some(data) = &state.data {
            put_data(session, node, data)?;
        }
        if let Some(pairs) = &state.pairs {
            put_attributes(session, node, pairs)?;
        }
    }
    Ok(())
}

/// Asks for each node of a side, so that one that was discarded is known before anything is changed.
pub(crate) fn ask(session: &mut Session, states: &States) -> Result<()> {
    let mut nodes = states.iter().flat_map(|(node, state)| std::iter::once(*node).chain(state.nodes()));
    nodes.try_for_each(|it| session.node(it).map(drop))
}

/// The orders of attributes, once a side was put in place.
pub(crate) fn learn_again(states: &States, orders: &mut Orders) {
    let known = states.iter().filter_map(|(node, state)| Some((*node, state.pairs.as_ref()?)));
    orders.extend(known.map(|(node, pairs)| (node, pairs.iter().map(|it| it.0.clone()).collect())));
}
