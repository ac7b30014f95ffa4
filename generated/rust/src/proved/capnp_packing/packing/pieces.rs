//! Unpacks a packed stream piece by piece (encoding specification, "Packing").

use super::place::{step, Place};
use super::unpacking::{fill_with_zeros, place_after_raw, unpack_words, Progress, UNIT};

/// Whether the next packed byte is a count.
fn is_before_count(place: Place) -> bool {
    matches!(place, Place::Zeros | Place::Count)
}

/// Writes `zeros` zero bytes to the front of `to`, or as many as fit.
fn unpack_zeros_due(zeros: u16, place: Place, to: &mut [u8]) -> Progress {
    let given = to.len().min(zeros as usize);
    fill_with_zeros(&mut to[..given]);
    Progress {
        taken: 0,
        given,
        zeros: zeros - given as u16,
        place,
    }
}

/// Unpacks the byte `packed`, and writes the result to the front of `to`: a byte, if it stands for
/// one, and then zero bytes, or as many of them as fit.
///
/// # Preconditions
///
/// ```text
/// requires { takes_next (length to.old) 0 place ≡ true }
/// ```
fn unpack_byte(place: Place, packed: u8, to: &mut [u8]) -> Progress {
    let unpacked = step(place, packed);
    match unpacked.byte {
        Some(byte) => {
            to[0] = byte;
            let zeros = unpack_zeros_due(unpacked.zeros, unpacked.next, &mut to[1..]);
            Progress {
                taken: 1,
                given: 1 + zeros.given,
                ..zeros
            }
        }
        None => {
            let zeros = unpack_zeros_due(unpacked.zeros, unpacked.next, to);
            Progress { taken: 1, ..zeros }
        }
    }
}

/// Copies bytes of words that aren't packed to the front of `to`: as many as there are, and as fit.
/// `left` + 1 bytes of these words are still to come.
///
/// # Preconditions
///
/// ```text
/// requires some { 0 < length packed.now }
/// requires room { 0 < length to.old }
/// ```
fn unpack_raw(left: u16, packed: &[u8], to: &mut [u8]) -> Progress {
    let given = packed.len().min(to.len()).min(left as usize + 1);
    to[..given].copy_from_slice(&packed[..given]);
    Progress {
        taken: given,
        given,
        zeros: 0,
        place: place_after_raw(left, given),
    }
}

/// Unpacks bytes from the front of `packed`, at least one, to the front of `to`.
///
/// # Preconditions
///
/// ```text
/// requires some { 0 < length packed.now }
/// requires room { takes_next (length to.old) 0 place ≡ true }
/// ```
fn unpack_next(place: Place, packed: &[u8], to: &mut [u8]) -> Progress {
    if let Place::Raw(left) = place {
        return unpack_raw(left, packed, to);
    }
    if matches!(place, Place::Tag) && packed.len() >= UNIT && to.len() >= 8 {
        return unpack_words(packed, to);
    }
    unpack_byte(place, packed[0], to)
}

/// Whether there is a further packed byte, and it is unpacked before the call ends.
///
/// # Preconditions
///
/// ```text
/// requires within { done.given ≤ room }
/// requires full { done.zeros ≢ 0 → done.given ≡ room }
/// ```
fn takes_more(done: Progress, packed: &[u8], room: usize) -> bool {
    done.zeros == 0
        && done.taken < packed.len()
        && (done.given < room || is_before_count(done.place))
}

/// Unpacks the next bytes of a packed stream to the front of `to`: first `zeros` zero bytes, and
/// then what `packed` unpacks to from `place` on. At the start of a stream, `zeros` is 0 and `place`
/// is `Place::Tag`; afterwards, they are those that the last call returned.
///
/// Stops when `to` is full or all of `packed` is unpacked. Takes no more packed bytes than it needs
/// to fill `to`, and the count after the last word if that is in `packed`. So for a whole message it
/// takes exactly the message's packed bytes, if no run of words begins in one message and ends in
/// another.
pub fn unpack_piece(zeros: u16, place: Place, packed: &[u8], to: &mut [u8]) -> Progress {
    let mut done = unpack_zeros_due(zeros, place, to);
    while takes_more(done, packed, to.len()) {
        let next = unpack_next(done.place, &packed[done.taken..], &mut to[done.given..]);
        done = Progress {
            taken: done.taken + next.taken,
            given: done.given + next.given,
            ..next
        };
    }
    done
}
