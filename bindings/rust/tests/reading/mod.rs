//! The dialogues of the repository, and a small reader of JSON.
#![allow(dead_code)]
pub mod json;
pub mod said;
pub mod told;

use huckleport::Session;
use std::fs;
use std::path::{Path, PathBuf};

/// A dialogue: the bytes of its input, and the expected ones of its output.
pub struct Dialogue {
    pub name: String,
    given: Vec<u8>,
    pub due: Vec<u8>,
    words: String,
}

impl Dialogue {
    fn read(path: &Path) -> Dialogue {
        let beside = |ending| fs::read(path.with_extension(ending));
        Dialogue {
            name: path.display().to_string(),
            given: beside("in").expect("a dialogue"),
            due: beside("out").expect("its replies"),
            words: beside("opts").map(|it| String::from_utf8(it).expect("options are text")).unwrap_or_default(),
        }
    }

    /// The value of an option of the program.
    fn limit(&self, option: &str) -> Option<u64> {
        let mut words = self.words.split_whitespace();
        words.find(|it| *it == option)?;
        words.next()?.parse().ok()
    }

    /// A session with the limits of the dialogue.
    pub fn open(&self) -> Session {
        let numbers = self.limit("--numbers").unwrap_or_else(|| u32::MAX.into());
        let line = self.limit("--line").unwrap_or(1 << 20);
        Session::with_limits(numbers.try_into().unwrap(), line.try_into().unwrap()).expect("there is memory")
    }

    /// Returns the lines of the input: pieces between newlines, the last only if it is not empty.
    pub fn lines(&self) -> impl Iterator<Item = &[u8]> {
        let whole = self.given.strip_suffix(b"\n").unwrap_or(&self.given);
        let count = if self.given.is_empty() { 0 } else { usize::MAX };
        whole.split(|it| *it == b'\n').take(count)
    }

    /// Returns the expected lines, with their newlines.
    pub fn replies(&self) -> impl Iterator<Item = &[u8]> {
        self.due.split_inclusive(|it| *it == b'\n')
    }
}

fn find(folder: &Path, found: &mut Vec<PathBuf>) {
    for it in fs::read_dir(folder).expect("the folder of the dialogues") {
        let path = it.expect("a file").path();
        if path.is_dir() {
            find(&path, found);
        } else if path.extension().map_or(false, |it| it == "in") {
            found.push(path);
        }
    }
}

/// All dialogues of the repository.
pub fn dialogues() -> Vec<Dialogue> {
    let mut found = Vec::new();
    find(&Path::new(env!("CARGO_MANIFEST_DIR")).join("../../dialogues"), &mut found);
    found.sort();
    assert!(!found.is_empty());
    found.iter().map(|it| Dialogue::read(it)).collect()
}
