//! Each dialogue of `dialogues` by the typed methods: every command of docs/commands.json is said.
mod reading;

use reading::json::{read, Json};
use reading::said::Said;
use reading::{dialogues, Dialogue};
use std::collections::BTreeSet;
use std::fs;

/// Refusals of a line's form: there is no method that could say such a line.
const OF_LINES: [&str; 4] = ["line-too-long", "bad-json", "bad-command", "bad-arguments"];

/// Says a dialogue, and adds the names of its commands to those that were said.
fn say(it: &Dialogue, said: &mut BTreeSet<String>) {
    let mut session = it.open();
    for (line, due_line) in it.lines().zip(it.replies()) {
        let due = read(due_line);
        if due.member("error").map_or(false, |it| OF_LINES.contains(&it.string().as_str())) {
            continue;
        }
        let given = read(line);
        let name = given.list()[0].string();
        let answer = Said { session: &mut session, given: &given.list()[1..] }.answer(&name);
        let reply = match answer.unwrap_or_else(|| panic!("no method says {name}")) {
            Ok(answer) => Json::Object(vec![("ok".into(), answer)]),
            Err(refused) => Json::Object(vec![("error".into(), Json::text(refused.name()))]),
        };
        assert_eq!(reply, due, "{}: {}", it.name, String::from_utf8_lossy(line));
        if due.member("ok").is_some() {
            assert_eq!(session.printed().unwrap(), due_line, "{}: {}", it.name, String::from_utf8_lossy(line));
        }
        said.insert(name);
    }
}

/// The names in the table of the commands.
fn commands() -> BTreeSet<String> {
    let table = fs::read_to_string(concat!(env!("CARGO_MANIFEST_DIR"), "/../../docs/commands.json")).expect("the table of the commands");
    let rows = read(table.trim_end().as_bytes());
    rows.member("commands").expect("rows").list().iter().map(|it| it.member("name").expect("a name").string()).collect()
}

#[test]
fn dialogues_by_methods() {
    let mut said = BTreeSet::new();
    for it in dialogues() {
        say(&it, &mut said);
    }
    assert_eq!(said, commands());
}
