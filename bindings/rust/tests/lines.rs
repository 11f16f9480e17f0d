//! Each dialogue of `dialogues` by lines, byte for byte.
mod reading;

use reading::{dialogues, Dialogue};

fn replies(it: &Dialogue) -> Vec<u8> {
    let mut session = it.open();
    let mut out = Vec::new();
    for line in it.lines() {
        out.extend_from_slice(session.line(line).expect("there is memory"));
    }
    out
}

#[test]
fn dialogues_by_lines() {
    for it in dialogues() {
        assert!(replies(&it) == it.due, "{} has other replies", it.name);
    }
}
