//! Tests reading and writing the words of a byte slice.

use capnp_proved::capnp_words::words::{
    copy_words, count, move_words, put_word, used_words, used_words_in, word_at, word_range,
    zero_words,
};
use std::array;

const WORD: u64 = 0x0706_0504_0302_0100;

fn first_four_words(bytes: &[u8]) -> [u64; 4] {
    array::from_fn(|at| word_at(bytes, at))
}

/// Writes a word among zero words, and reads it back. Copies two words to the place after it, moves
/// all three to the front, and zeroes the second.
#[test]
fn words_are_written_copied_and_moved() {
    let mut bytes = [0; 36];
    assert_eq!(count(&bytes), 4);
    assert_eq!(used_words(&bytes), 0);

    put_word(&mut bytes, 1, WORD);
    assert_eq!(first_four_words(&bytes), [0, WORD, 0, 0]);
    assert_eq!(bytes[9], 1);
    assert_eq!(used_words(&bytes), 2);
    assert_eq!(used_words_in(&bytes, 0, 1), 0);
    assert_eq!(word_at(word_range(&bytes, 1, 2), 0), WORD);

    copy_words(&mut bytes, 2, b"\x09\0\0\0\0\0\0\0\x08\0\0\0\0\0\0\0");
    move_words(&mut bytes, 1, 0, 3);
    zero_words(&mut bytes, 1, 1);
    assert_eq!(first_four_words(&bytes), [WORD, 0, 8, 8]);
}
