//! An undo list: an observer's records have the data of a text before each change, and the changes are undone from the last to the first.
//! Two live ranges are the cursors of two writers, and stay at their words meanwhile.
use huckleport::{utf16, Node, Observer, Options, Range, Result, Session};

/// A change that can be undone: the Text, and the data that it had.
struct Change {
    text: Node,
    before: Vec<u16>,
}

struct Editor {
    session: Session,
    text: Node,
    observer: Observer,
    done: Vec<Change>,
}

/// Returns where two texts begin to differ, how many units of the first differ, and the units that the second has there.
fn difference<'a>(now: &[u16], before: &'a [u16]) -> (usize, usize, &'a [u16]) {
    let same = |(a, b): &(&u16, &u16)| a == b;
    let front = now.iter().zip(before).take_while(same).count();
    let back = now[front..].iter().rev().zip(before[front..].iter().rev()).take_while(same).count();
    (front, now.len() - front - back, &before[front..before.len() - back])
}

impl Editor {
    fn open(words: &str) -> Result<Editor> {
        let mut session = Session::new()?;
        let paragraph = session.create_element(Node::DOCUMENT, "p")?;
        session.append_child(Node::DOCUMENT, paragraph)?;
        let text = session.create_text(Node::DOCUMENT, &utf16(words))?;
        session.append_child(paragraph, text)?;
        let observer = session.create_observer()?;
        let options = Options { subtree: Some(true), character_data_old_value: Some(true), ..Options::default() };
        session.observe(observer, paragraph, &options)?;
        Ok(Editor { session, text, observer, done: Vec::new() })
    }

    /// Makes a cursor around the units between two offsets.
    fn cursor(&mut self, from: u32, to: u32) -> Result<Range> {
        let cursor = self.session.create_range(Node::DOCUMENT)?;
        self.session.set_start(cursor, self.text, from)?;
        self.session.set_end(cursor, self.text, to)?;
        Ok(cursor)
    }

    /// Puts words in place of others, and keeps the records of the change.
    fn put(&mut self, at: u32, count: u32, words: &str) -> Result<()> {
        self.session.replace_data(self.text, at, count, &utf16(words))?;
        for it in self.session.take_records(self.observer)? {
            let before = it.old_value().expect("the observer asked for it").to_vec();
            self.done.push(Change { text: it.target, before });
        }
        Ok(())
    }

    /// Undoes the last change, if there is one. Only the units that differ are put back, so that cursors beside them stay.
    fn undo(&mut self) -> Result<()> {
        let change = match self.done.pop() {
            Some(change) => change,
            None => return Ok(()),
        };
        let (at, count, words) = difference(self.session.data(change.text)?, &change.before);
        self.session.replace_data(change.text, at as u32, count as u32, words)?;
        // (the records of undoing are not to be undone)
        self.session.take_records(self.observer)?;
        Ok(())
    }

    /// The text, and the words at the cursors.
    fn tell(&mut self, cursors: &[Range]) -> Result<String> {
        let mut told = String::from_utf16_lossy(self.session.data(self.text)?);
        for it in cursors {
            let word = String::from_utf16_lossy(self.session.range_text(*it)?);
            told.extend([" [", &word, "]"]);
        }
        Ok(told)
    }
}

fn main() -> Result<()> {
    let mut editor = Editor::open("one two three")?;
    let cursors = [editor.cursor(0, 3)?, editor.cursor(8, 13)?];
    let mut told = vec![editor.tell(&cursors)?];
    editor.put(4, 3, "and a half and")?;
    told.push(editor.tell(&cursors)?);
    editor.put(0, 0, "from ")?;
    told.push(editor.tell(&cursors)?);
    for _ in 0..2 {
        editor.undo()?;
        told.push(editor.tell(&cursors)?);
    }
    println!("{}", told.join("\n"));
    let due = [
        "one two three [one] [three]",
        "one and a half and three [one] [three]",
        "from one and a half and three [from one] [three]",
        "one and a half and three [one] [three]",
        "one two three [one] [three]",
    ];
    assert_eq!(told, due);
    Ok(())
}
