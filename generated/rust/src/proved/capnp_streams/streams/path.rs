//! Parses paths to a part of a message.

/// The largest number of indexes of a path.
const MOST: usize = 32;

/// A path from the root pointer to a part of a message: at most 32 indexes, each of a pointer of a
/// struct, or of an element of a list. A path without indexes leads to the whole message.
#[derive(Clone, Copy)]
pub struct Path {
    /// The indexes, and zeros after them.
    indexes: [u32; MOST],
    /// The number of indexes.
    count: usize,
}

impl Path {
    /// Returns the path without indexes.
    pub fn empty() -> Self {
        Path {
            indexes: [0; MOST],
            count: 0,
        }
    }

    /// Returns the indexes.
    pub fn indexes(&self) -> &[u32] {
        let count = self.count.min(MOST);
        &self.indexes[..count]
    }

    /// Whether the path has no indexes.
    pub fn is_empty(&self) -> bool {
        self.indexes().is_empty()
    }

    /// Returns the path with `index` after its indexes; `None` if it has 32 already.
    fn with_index(self, index: u32) -> Option<Self> {
        if self.count >= MOST {
            return None;
        }
        let mut indexes = self.indexes;
        indexes[self.count] = index;
        Some(Path {
            indexes,
            count: self.count + 1,
        })
    }

    /// Returns the path with the index that `text` states after its indexes; `None` if `text`
    /// states none, or if the path has 32 indexes already.
    fn with_parsed_index(self, text: &str) -> Option<Self> {
        match parse_bracketed_index(text) {
            Some(index) => self.with_index(index),
            None => None,
        }
    }
}

/// Parses a path: 1 to 32 indexes between dots, each in decimal digits, with or without brackets,
/// as in `0.2.[7].1`. Returns `None` for any other text, also if an index doesn't fit a `u32`.
pub(super) fn parse_path(text: &str) -> Option<Path> {
    let mut path = Path::empty();
    let mut rest = text;
    while let Some((first, more)) = split_at_dot(rest) {
        let Some(longer) = path.with_parsed_index(first) else {
            return None;
        };
        path = longer;
        rest = more;
    }
    path.with_parsed_index(rest)
}

/// Returns the parts of `text` before and after its first dot; `None` if there is no dot.
fn split_at_dot(text: &str) -> Option<(&str, &str)> {
    text.split_once('.')
}

/// Returns the index that `text` states in decimal digits, with or without brackets; `None` if
/// `text` states none.
fn parse_bracketed_index(text: &str) -> Option<u32> {
    parse_index(without_brackets(text))
}

/// Returns `text` without the `[` at its front and the `]` at its end, if it has both; otherwise
/// `text`.
fn without_brackets(text: &str) -> &str {
    if 1 < text.len() && text.starts_with('[') && text.ends_with(']') {
        &text[1..text.len() - 1]
    } else {
        text
    }
}

/// Parses an index: a `u32` in decimal digits. Returns `None` for any other text, also for one with
/// a `+`.
fn parse_index(text: &str) -> Option<u32> {
    if text.starts_with('+') {
        return None;
    }
    text.parse().ok()
}
