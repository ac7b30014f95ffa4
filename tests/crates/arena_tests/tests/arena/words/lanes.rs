//! Tests the functions of `capnp_words::lanes`, which work on many bytes at a time, with every
//! length from 0 to 200 bytes.

use capnp_proved::capnp_words::lanes::{copy, is_zero, trailing_zero_words, zero};
use std::array;

const LENGTH: usize = 200;

/// Returns bytes that are all different from zero.
fn nonzero_bytes() -> [u8; LENGTH] {
    array::from_fn(|i| 1 + (i % 251) as u8)
}

/// Checks `is_zero`, and the number of zero words at the end, of `length` bytes: first with no bit
/// set, then with each single bit set.
fn check_single_bits(length: usize) {
    let mut bytes = vec![0; length];
    let words = length / 8;
    assert!(is_zero(&bytes));
    assert_eq!(trailing_zero_words(&bytes[..8 * words]), words);
    for i in 0..length {
        let word = i / 8;
        let after = if word < words {
            words - 1 - word
        } else {
            words
        };
        for bit in 0..8 {
            bytes[i] = 1 << bit;
            assert!(!is_zero(&bytes), "bit {bit} of byte {i} of {length}");
            let found = trailing_zero_words(&bytes[..8 * words]);
            assert_eq!(found, after, "bit {bit} of byte {i} of {length}");
        }
        bytes[i] = 0;
    }
}

#[test]
fn single_bits_are_found() {
    for length in 0..=LENGTH {
        check_single_bits(length);
    }
    for words in 31..43 {
        check_single_bits(8 * words);
    }
}

#[test]
fn zero_clears_only_its_range() {
    for length in 0..=LENGTH {
        let mut bytes = nonzero_bytes();
        zero(&mut bytes[..length]);
        for (i, byte) in bytes.iter().enumerate() {
            assert_eq!(*byte == 0, i < length, "byte {i} of {length}");
        }
    }
}

#[test]
fn copy_writes_only_its_range() {
    let from = nonzero_bytes();
    for length in 0..=LENGTH {
        let mut to = [0; LENGTH];
        copy(&from[..length], &mut to[..length]);
        assert_eq!(to[..length], from[..length]);
        assert!(to[length..].iter().all(|byte| *byte == 0), "{length} bytes");
    }
}
