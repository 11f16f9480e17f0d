//! The library for Rust, by a method for each command: the tests of bindings/rust say them.
#[path = "../../../../bindings/rust/tests/reading/mod.rs"]
mod reading;

use huckleport::Session;
use reading::json::{read, Json};
use reading::said::Said;
use std::io::{self, BufRead, Write};

/// The line of a refusal, or of a command that no method says.
fn told(member: &str, words: &str) -> Vec<u8> {
    format!("{{\"{member}\":\"{words}\"}}\n").into_bytes()
}

/// The reply's line to a command.
fn reply(session: &mut Session, given: &Json) -> Vec<u8> {
    let name = given.list()[0].string();
    let answer = Said { session, given: &given.list()[1..] }.answer(&name);
    match answer {
        None => told("skip", "has no such command"),
        Some(Err(refused)) => told("error", refused.name()),
        Some(Ok(answer)) => {
            let mut line = Vec::from(&b"{\"ok\":"[..]);
            print(&answer, &mut line);
            line.extend_from_slice(b"}\n");
            line
        }
    }
}

fn print_each<T>(items: &[T], ends: [u8; 2], out: &mut Vec<u8>, each: impl Fn(&T, &mut Vec<u8>)) {
    out.push(ends[0]);
    for (at, it) in items.iter().enumerate() {
        if at > 0 {
            out.push(b',');
        }
        each(it, out);
    }
    out.push(ends[1]);
}

fn print(value: &Json, out: &mut Vec<u8>) {
    match value {
        Json::Null => out.extend_from_slice(b"null"),
        Json::Bool(it) => out.extend_from_slice(it.to_string().as_bytes()),
        Json::Number(it) => out.extend_from_slice(it.to_string().as_bytes()),
        Json::Text(units) => print_text(units, out),
        Json::List(items) => print_each(items, *b"[]", out, print),
        Json::Object(members) => print_each(members, *b"{}", out, |(name, value), out| {
            print(&Json::text(name), out);
            out.push(b':');
            print(value, out);
        }),
    }
}

/// A text as JSON, each unit escaped that is no plain sign.
fn print_text(units: &[u16], out: &mut Vec<u8>) {
    out.push(b'"');
    for unit in units {
        match u8::try_from(*unit) {
            Ok(it) if it.is_ascii_alphanumeric() || b"# -".contains(&it) => out.push(it),
            _ => out.extend_from_slice(format!("\\u{unit:04x}").as_bytes()),
        }
    }
    out.push(b'"');
}

fn main() {
    let mut session = Session::new().expect("there is memory");
    let mut out = io::stdout().lock();
    for line in io::stdin().lock().lines() {
        let given = read(line.expect("UTF-8").as_bytes());
        let reply = match &given {
            Json::List(_) => reply(&mut session, &given),
            Json::Object(members) if members[0].0 == "hello" => b"{\"player\":{\"name\":\"rust\"}}\n".to_vec(),
            _ => {
                session = Session::new().expect("there is memory");
                b"{\"ok\":null}\n".to_vec()
            }
        };
        out.write_all(&reply).and_then(|()| out.flush()).expect("replies are read");
    }
}
