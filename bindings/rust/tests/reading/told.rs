//! Answers of the typed methods, as replies have them.
use super::json::Json;
use huckleport::{Attributes, Description, Ends, Kind, Node, Notices, Record, Records, Row, StaticEnds};
use std::cmp::Ordering;

pub fn number(it: u32) -> Json {
    Json::Number(it.into())
}

pub fn count(it: usize) -> Json {
    Json::Number(it.try_into().expect("a count of a dialogue"))
}

pub fn maybe(it: Option<Node>) -> Json {
    it.map_or(Json::Null, |it| number(it.number()))
}

pub fn nodes(it: impl Iterator<Item = Node>) -> Json {
    Json::List(it.map(|it| number(it.number())).collect())
}

pub fn maybe_units(it: Option<&[u16]>) -> Json {
    it.map_or(Json::Null, Json::of_units)
}

pub fn order(it: Ordering) -> Json {
    Json::Number(it as i64)
}

pub fn ends(it: Ends) -> Json {
    let (start, end) = (it.start, it.end);
    Json::List(vec![number(start.node.number()), count(start.offset), number(end.node.number()), count(end.offset)])
}

pub fn static_ends(it: StaticEnds) -> Json {
    let mut found = match ends(Ends { start: it.start, end: it.end }) {
        Json::List(found) => found,
        _ => unreachable!(),
    };
    found.push(Json::Bool(it.is_valid));
    Json::List(found)
}

/// The name that replies have: a kind's own where the node has none.
fn named(kind: Kind, name: Option<&str>) -> Json {
    Json::text(match kind {
        Kind::Text => "#text",
        Kind::Comment => "#comment",
        Kind::Document => "#document",
        Kind::DocumentFragment => "#document-fragment",
        _ => name.expect("this kind has a name"),
    })
}

pub fn description(it: Description<'_>) -> Json {
    let mut members = vec![("document", number(it.document.number())), ("name", named(it.kind, it.name()))];
    members.extend([("next", maybe(it.next)), ("parent", maybe(it.parent)), ("previous", maybe(it.previous))]);
    members.extend(it.public_id().map(|id| ("public", Json::text(id))));
    members.extend(it.system_id().map(|id| ("system", Json::text(id))));
    members.push(("type", number(it.kind.number().into())));
    Json::Object(members.into_iter().map(|(name, value)| (name.to_string(), value)).collect())
}

fn attributes(it: Attributes<'_>) -> Json {
    Json::List(it.map(|(name, value)| Json::List(vec![Json::text(name), Json::of_units(value)])).collect())
}

pub fn row(it: Row<'_>) -> Json {
    let mut parts = vec![count(it.depth), number(it.node.number()), number(it.kind.number().into()), named(it.kind, it.name())];
    if it.kind == Kind::Element {
        parts.push(attributes(it.attributes()));
    }
    parts.extend(it.data().map(Json::of_units));
    parts.extend(it.public_id().map(Json::text));
    parts.extend(it.system_id().map(Json::text));
    Json::List(parts)
}

fn record(it: Record<'_>) -> Json {
    Json::List(vec![
        Json::text(it.record_type.name()),
        number(it.target.number()),
        nodes(it.added()),
        nodes(it.removed()),
        maybe(it.previous),
        maybe(it.next),
        it.attribute_name().map_or(Json::Null, Json::text),
        maybe_units(it.old_value()),
    ])
}

pub fn records(it: Records<'_>) -> Json {
    Json::List(it.map(record).collect())
}

pub fn notices(it: Notices<'_>) -> Json {
    Json::List(it.map(|it| Json::List(vec![number(it.observer.number()), records(it.records())])).collect())
}
