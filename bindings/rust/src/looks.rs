//! Guesses what bytes are that were refused as a frame.
use crate::{frame_size, words, Limits};

const BEGINNINGS: [(&[u8], &str); 5] = [
    (b"\x1f\x8b", "gzip"),
    (b"\x28\xb5\x2f\xfd", "zstd"),
    (b"BZh", "bzip2"),
    (b"\xfd7zX", "xz"),
    (b"PK\x03\x04", "a zip archive"),
];

/// What bytes look like that were refused as a frame, such as `gzip`; `None` if they look like nothing else, or do
/// start with a frame. It is a guess, to help people read a refusal; don't base anything else on it.
pub fn looks_like(bytes: &[u8]) -> Option<&'static str> {
    if bytes.len() < 4 || frame_size(bytes, u64::MAX).is_ok() {
        return None;
    }
    if let Some((_, name)) = BEGINNINGS.iter().find(|it| bytes.starts_with(it.0)) {
        return Some(name);
    }
    if is_text(bytes) {
        return Some("text");
    }
    if words::is_canonical(bytes, Limits::default()) {
        return Some("raw canonical words");
    }
    is_packed(bytes).then_some("packed messages")
}

/// Whether the first bytes are text: no control characters but tabs and line ends.
fn is_text(bytes: &[u8]) -> bool {
    let front = &bytes[..bytes.len().min(64)];
    front
        .iter()
        .all(|it| !it.is_ascii_control() || b"\t\n\r".contains(it))
}

/// Whether packed bytes start with what may be the table of a frame.
fn is_packed(bytes: &[u8]) -> bool {
    let (mut table, mut at) = ([0; 8], 1);
    for (place, byte) in table.iter_mut().enumerate() {
        if bytes[0] >> place & 1 == 0 {
            continue;
        }
        match bytes.get(at) {
            None | Some(0) => return false,
            Some(next) => *byte = *next,
        }
        at += 1;
    }
    let number = u64::from_le_bytes(table);
    let (segments, words) = ((number & 0xffff_ffff) + 1, number >> 32);
    segments <= 512 && 0 < words && words < 1 << 29
}
