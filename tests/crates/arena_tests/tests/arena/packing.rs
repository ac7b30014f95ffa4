//! Tests packing and unpacking of words in memory, and their refusals. The first three pairs of
//! words and packed bytes are the examples of the encoding specification's "Packing".

use capnp_proved::capnp_framing::devices::{DeviceFault, MemoryOutput, Output};
use capnp_proved::capnp_packing::packing::{pack, unpack, PackingError, PackingOutput};
use capnp_proved::support::alloc::Global;

/// Two words with a few bytes that aren't zero.
const WORDS: &[u8] = b"\x08\0\0\0\x03\0\x02\0\x19\0\0\0\xaa\x01\0\0";

/// `WORDS` packed: for each word, a tag and the bytes that aren't zero.
const PACKED: &[u8] = b"\x51\x08\x03\x02\x31\x19\xaa\x01";

/// Four words without a zero byte, packed: a tag, the bytes of the first word, the number of the
/// other words, and these words unchanged.
const PACKED_WHOLE: &[u8] = b"\xff\x8a\x8a\x8a\x8a\x8a\x8a\x8a\x8a\x03\
    \x8a\x8a\x8a\x8a\x8a\x8a\x8a\x8a\x8a\x8a\x8a\x8a\
    \x8a\x8a\x8a\x8a\x8a\x8a\x8a\x8a\x8a\x8a\x8a\x8a";

/// After the tag of a zero word, one byte states how many more zero words follow, at most 255. So
/// the last of 257 zero words has a tag of its own.
#[test]
fn words_are_packed_and_unpacked() {
    for (words, packed) in [
        (WORDS, PACKED),
        (&[0; 32], &[0, 3]),
        (&[0x8a; 32], PACKED_WHOLE),
        (&[], &[]),
        (&[0; 2048], &[0, 255]),
        (&[0; 2056], &[0, 255, 0, 0]),
    ] {
        assert_eq!(pack(Global, words).unwrap().as_slice(), packed);
        let unpacked = unpack(Global, packed, words.len()).unwrap();
        assert_eq!(unpacked.as_slice(), words);
    }
}

#[test]
fn cut_or_long_input_is_refused() {
    let refused = pack(Global, &WORDS[..15]).err();
    assert_eq!(refused, Some(PackingError::CutWord));
    let refused = unpack(Global, PACKED, 15).err();
    assert_eq!(refused, Some(PackingError::TooLong));
    for cut in [1, 2, 3, 5, 6, 7] {
        let refused = unpack(Global, &PACKED[..cut], 16).err();
        assert_eq!(refused, Some(PackingError::Truncated), "{cut} bytes");
    }
    assert_eq!(PackingError::Truncated.name(), "Truncated");

    let mut output = PackingOutput::new(MemoryOutput::new(Global));
    assert_eq!(output.write(&WORDS[..7]), Err(DeviceFault));
    assert!(output.failed());
}
