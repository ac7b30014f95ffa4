//! The rows of tests/library/rows/prefixes.txt: digests of a prefix and words, and packed frames; and messages that are compared.
use capnp_canonical::{
    canonical_copy, canonical_words_at, digest_with, digest_with_at, equal, pack, pack_into,
    segments, unpack, words, Error, Limits, Words,
};
use std::fs;

const PREFIXES: &str = concat!(env!("CARGO_MANIFEST_DIR"), "/tests/prefixes.txt");
/// A struct without sections.
const EMPTY: &str = "0000000001000000fcffffff00000000";

fn bytes_of(digits: &str) -> Vec<u8> {
    let digits = digits.trim_matches('-');
    (0..digits.len())
        .step_by(2)
        .map(|at| u8::from_str_radix(&digits[at..at + 2], 16).unwrap())
        .collect()
}

#[test]
fn rows() -> Result<(), Box<dyn std::error::Error>> {
    let (text, limits, empty) = (
        fs::read_to_string(PREFIXES)?,
        Limits::default(),
        bytes_of(EMPTY),
    );
    let (mut count, mut known) = (0, 0);
    for line in text.lines().filter(|line| !line.starts_with('#')) {
        let [name, frame, path, prefix, hash, packed] = line.split(' ').collect::<Vec<_>>()[..]
        else {
            return Err(line.into());
        };
        let (frame, prefix, hash) = (bytes_of(frame), bytes_of(prefix), bytes_of(hash));
        let path: Vec<u32> = path
            .split('.')
            .filter_map(|index| index.parse().ok())
            .collect();
        let flat = canonical_words_at(&frame, &path, limits)?;
        let part = [&flat[..]];
        assert_eq!(
            digest_with_at(&prefix, &frame, &path, limits)?[..],
            hash,
            "{name}"
        );
        assert_eq!(
            words::digest_with(&prefix, &flat, limits)?[..],
            hash,
            "{name}"
        );
        assert_eq!(
            words::digest_with_at(&prefix, &flat, &[], limits)?[..],
            hash,
            "{name}"
        );
        assert_eq!(
            segments::digest_with(&prefix, &part, limits)?[..],
            hash,
            "{name}"
        );
        assert_eq!(
            segments::digest_with_at(&prefix, &part, &[], limits)?[..],
            hash,
            "{name}"
        );
        assert_eq!(
            Words::from_bytes(flat.clone()).digest_with(&prefix, limits)?[..],
            hash,
            "{name}"
        );
        if path.is_empty() {
            assert_eq!(digest_with(&prefix, &frame, limits)?[..], hash, "{name}");
        }
        if packed != "-" {
            assert_eq!(pack(&frame)?, bytes_of(packed), "{name}");
            known += 1;
        }
        assert_eq!(unpack(pack(&frame)?, limits.words)?, frame, "{name}");
        let copy = canonical_copy(&frame, limits)?;
        assert!(equal(&frame, &copy, limits)?, "{name}");
        assert_eq!(equal(&empty, &frame, limits)?, copy == empty, "{name}");
        assert!(words::equal(&flat, &flat, limits)?, "{name}");
        assert!(segments::equal(&part, &part, limits)?, "{name}");
        assert_eq!(
            equal(&frame, &frame[..4], limits),
            Err(Error::TRUNCATED),
            "{name}"
        );
        count += 1;
    }
    assert_eq!((count, known), (26, 18));
    Ok(())
}

#[test]
fn packing_appends() {
    let mut to = b"front".to_vec();
    assert_eq!(pack_into([0; 24], &mut to), Ok(2));
    assert_eq!(to, b"front\x00\x02");
    assert_eq!(pack_into([], &mut to), Ok(0));
    for size in [1, 7, 9] {
        let cut = Err(Error::SEGMENT_IS_NOT_WHOLE_WORDS);
        assert_eq!(pack_into(vec![1; size], &mut to), cut);
        assert_eq!(to, b"front\x00\x02");
    }
}
