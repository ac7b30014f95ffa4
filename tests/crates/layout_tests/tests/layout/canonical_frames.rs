//! Tests that values are written as canonical frames.

use capnp_proved::capnp_layout::arena::ReaderOptions;
use capnp_proved::capnp_layout::devices::MemoryOutput;
use capnp_proved::capnp_layout::error::ErrorKind;
use capnp_proved::capnp_layout::framing::{write_canonical, CanonicalError};
use capnp_proved::capnp_layout::read_limiter::ReadLimiter;
use capnp_proved::capnp_layout::readers::PointerReader;
use capnp_proved::support::alloc::Global;
use test_support::arena_from_hex;

/// A struct of two data words.
const TWO: &str = "0000000002000000 1111111111111111 0000000000000080";

/// A message of eight words, whose canonical copy has 23: three structs of two pointers each. Both
/// pointers of a struct lead to the next struct, and both of the last one to a struct with the
/// number 9.
const DOUBLED: &str = "0000000000000200 0400000000000200 0000000000000200 0400000000000200 \
    0000000000000200 0400000001000000 0000000001000000 0900000000000000";

/// Writes a struct, and a value whose copy takes several tries. Each is written as one frame, and
/// `lim` is charged for one copy and counts each pointer once. If `lim` doesn't cover the copy,
/// nothing is written, charged or counted.
#[test]
fn frames_are_charged_once() {
    let refused = Err(CanonicalError::Layout(ErrorKind::ReadLimitExceeded));
    for (text, budget, want, words, left, pointers) in [
        (TWO, 3, Ok(()), 3, 0, 1),
        (DOUBLED, 23, Ok(()), 23, 0, 15),
        (DOUBLED, 22, refused, 0, 21, 0),
    ] {
        let source = arena_from_hex(text, ReaderOptions::default());
        let mut lim = ReadLimiter::new(Some(budget));
        let root = PointerReader::get_root_from_arena(&source, &mut lim).unwrap();
        let mut to = MemoryOutput::new(Global);
        let written = write_canonical(Global, &mut to, root, &mut lim);
        assert_eq!(written, want);
        assert_eq!(lim.left(), Some(left));
        assert_eq!(lim.followed(), pointers);
        if want.is_ok() {
            assert!(to.bytes().starts_with(&[0, 0, 0, 0, words, 0, 0, 0]));
            assert_eq!(to.bytes().len(), 8 + 8 * usize::from(words));
        } else {
            assert!(to.bytes().is_empty());
        }
    }
}
