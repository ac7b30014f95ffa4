//! The corpus of this repository: messages with their canonical words, or without, from outside of
//! this crate. Left out if the crate isn't in the repository.
use capnp_layout::{Limits, Message};
use std::path::PathBuf;

fn rows(name: &str) -> Vec<String> {
    let path = PathBuf::from(env!("CARGO_MANIFEST_DIR"))
        .join("../../../tests/corpus")
        .join(name);
    match std::fs::read_to_string(&path) {
        Ok(text) => text.lines().map(str::to_owned).collect(),
        Err(error) => {
            println!("skipped: {}: {error}", path.display());
            Vec::new()
        }
    }
}

/// The text after `"key":` in a row, up to the end of the value; the values here have no nested
/// quotes.
fn value<'a>(row: &'a str, key: &str) -> Option<&'a str> {
    let start = row.find(&format!("\"{key}\":"))? + key.len() + 3;
    let rest = &row[start..];
    let end = match rest.as_bytes()[0] {
        b'"' => rest[1..].find('"')? + 2,
        b'[' => rest.find(']')? + 1,
        _ => rest.find([',', '}'])?,
    };
    Some(&rest[..end])
}

fn bytes(value: &str) -> Option<Vec<u8>> {
    let digits = value.strip_prefix('"')?.strip_suffix('"')?;
    (0..digits.len() / 2)
        .map(|at| u8::from_str_radix(&digits[2 * at..2 * at + 2], 16).ok())
        .collect()
}

/// Compares a message with its row; returns what differs.
fn difference(message: Result<Message<'_>, capnp_layout::Error>, row: &str) -> Option<String> {
    let expected = bytes(value(row, "canonical")?);
    let Ok(message) = message else {
        return expected.map(|_| "not opened".into());
    };
    let made = message.canonical().ok();
    let digest = message.digest().ok();
    if made != expected || digest.is_some() != expected.is_some() {
        return Some(format!("canonical words {made:02x?}"));
    }
    if message.is_canonical() == Ok(true) && value(row, "is_canonical") != Some("true") {
        return Some("is canonical".into());
    }
    let fault = message
        .check()
        .ok()
        .flatten()
        .map(|it| format!("[{},{},\"{:?}\"]", it.segment, it.word, it.reason));
    match (value(row, "fault"), fault) {
        (Some(there), Some(found)) if there != found => return Some(format!("fault {found}")),
        _ => {}
    }
    // what has canonical words is sound, and readers give the same words
    if let Some(words) = expected {
        let root = message.sound_pointer().ok()?;
        if root.canonical() != Ok(words.clone())
            || message.lazy_pointer().ok()?.canonical() != Ok(words)
        {
            return Some("a reader's words".into());
        }
    }
    None
}

#[test]
fn canonical_words() {
    let rows = rows("corpus.jsonl");
    let mut checked = 0;
    let wrong: Vec<String> = rows
        .iter()
        .filter(|row| {
            checked += 1;
            value(row, "frame").is_some()
        })
        .filter_map(|row| {
            let frame = bytes(value(row, "frame")?)?;
            difference(Message::open(&frame, Limits::default()), row)
                .map(|what| format!("{what}: {row:.300}"))
        })
        .collect();
    assert!(
        wrong.is_empty(),
        "{} of {checked} differ:\n{}",
        wrong.len(),
        wrong[..wrong.len().min(5)].join("\n")
    );
    assert!(checked == 0 || checked > 3000);
}

#[test]
fn packed_messages() {
    let rows = rows("packed.jsonl");
    let wrong: Vec<String> = rows
        .iter()
        .filter_map(|row| {
            let packed = bytes(value(row, "packed")?)?;
            difference(Message::open_packed(&packed, Limits::default()), row)
                .map(|what| format!("{what}: {row:.300}"))
        })
        .collect();
    assert!(
        wrong.is_empty(),
        "{} of {} differ:\n{}",
        wrong.len(),
        rows.len(),
        wrong[..wrong.len().min(5)].join("\n")
    );
    assert!(rows.is_empty() || rows.len() > 80);
}
