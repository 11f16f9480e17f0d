//! Filters of iterators and walkers, and lists of names.

/// Makes iterators and walkers show every kind of node. Other values have a bit for each kind, by the standard.
pub const SHOW_ALL: u32 = u32::MAX;

/// The verdict of a filter on a node, by the standard's numbers.
#[derive(Clone, Copy, Debug, PartialEq, Eq, Hash)]
pub enum Verdict {
    /// The node is returned.
    Accept = 1,
    /// The node is passed over, and for a walker all below it.
    Reject = 2,
    /// The node is passed over.
    Skip = 3,
}

/// A rule of a filter: a name, or `*` for every name, and the verdict on nodes that have it. The first rule that fits decides.
pub type Rule<'a> = (&'a str, Verdict);

/// Names as the library takes them: the bytes of all, one after the other, and the length of each.
pub(crate) struct Listed {
    pub(crate) bytes: Vec<u8>,
    pub(crate) lengths: Vec<u32>,
}

impl Listed {
    pub(crate) fn new<'a>(names: impl Iterator<Item = &'a str>) -> Listed {
        let mut listed = Listed { bytes: Vec::new(), lengths: Vec::new() };
        for name in names {
            listed.bytes.extend_from_slice(name.as_bytes());
            // (a name that is longer does not fit its length, which the library refuses)
            listed.lengths.push(u32::try_from(name.len()).unwrap_or(u32::MAX));
        }
        listed
    }
}

pub(crate) fn verdicts(rules: &[Rule<'_>]) -> Vec<u8> {
    rules.iter().map(|(_, verdict)| *verdict as u8).collect()
}
