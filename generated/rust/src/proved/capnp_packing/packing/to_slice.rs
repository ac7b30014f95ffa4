//! Unpacks packed bytes to a slice of exactly the unpacked size (encoding specification,
//! "Packing").

use super::place::{step, Place};
use super::unpacking::{fill_with_zeros, unpack_words, UNIT};

/// How many bytes a packed byte unpacks to, and the next place.
#[derive(Clone, Copy)]
struct Given {
    /// The number of unpacked bytes.
    count: usize,
    /// The place after the packed byte.
    next: Place,
}

/// Counts the bytes that `byte` unpacks to at `place`.
fn count_unpacked(place: Place, byte: u8) -> Given {
    let taken = step(place, byte);
    let zeros = taken.zeros as usize;
    let count = match taken.byte {
        Some(_) => 1 + zeros,
        None => zeros,
    };
    Given {
        count,
        next: taken.next,
    }
}

/// Returns `count`, or `room` if that is less. By the contract, `room` is never less; but a C
/// program may break the contract, with packed bytes that overlap `to`, or that another thread
/// changes after they were counted. Even then, each write is inside `to`.
///
/// # Preconditions
///
/// ```text
/// requires { count ≤ room }
/// ```
#[inline(always)]
fn clamp_to_room(count: usize, room: usize) -> usize {
    count.min(room)
}

/// Writes `byte` to the front of `to`. Does nothing if `to` is empty, which only a C program that
/// breaks the contract can cause (see `clamp_to_room`).
///
/// # Preconditions
///
/// ```text
/// requires { 1 ≤ length to.old }
/// ```
#[inline(always)]
fn write_first(byte: u8, to: &mut [u8]) {
    if !to.is_empty() {
        to[0] = byte;
    }
}

/// Unpacks `byte` at `place`, and writes the result to the front of `to`.
///
/// # Preconditions
///
/// ```text
/// requires { length (all_given place byte) ≤ length to.old }
/// ```
fn unpack_to_front(place: Place, byte: u8, to: &mut [u8]) -> Given {
    let taken = step(place, byte);
    let zeros = taken.zeros as usize;
    let next = taken.next;
    match taken.byte {
        Some(itself) => {
            let count = clamp_to_room(1 + zeros, to.len());
            write_first(itself, to);
            fill_with_zeros(&mut to[clamp_to_room(1, count)..count]);
            Given { count, next }
        }
        None => {
            let count = clamp_to_room(zeros, to.len());
            fill_with_zeros(&mut to[..count]);
            Given { count, next }
        }
    }
}

/// The number of bytes that `packed` unpacks to, and the place after the last packed byte. That
/// place is `Tag` exactly if the packed bytes aren't cut short. `None` if there are 2^64 unpacked
/// bytes or more.
pub fn unpacked_size(packed: &[u8]) -> Option<(usize, Place)> {
    let mut size: usize = 0;
    let mut place = Place::Tag;
    for byte in packed {
        let given = count_unpacked(place, *byte);
        let Some(sum) = size.checked_add(given.count) else {
            return None;
        };
        size = sum;
        place = given.next;
    }
    Some((size, place))
}

/// Unpacks packed bytes to `to`, one by one; `start` is the place of the first. Precondition: `to`
/// has exactly as many bytes as `packed` unpacks to.
///
/// # Preconditions
///
/// ```text
/// requires { length (unpacked_bytes start packed.now) ≡ length to.old }
/// ```
fn unpack_bytes(start: Place, packed: &[u8], to: &mut [u8]) {
    let mut place = start;
    let mut given = 0;
    for byte in packed {
        let more = unpack_to_front(place, *byte, &mut to[given..]);
        given += more.count;
        place = more.next;
    }
}

/// Unpacks `packed` to `to`: word by word while at least `UNIT` packed bytes are left, and then
/// byte by byte. Precondition: `to` has exactly as many bytes as `packed` unpacks to.
///
/// # Preconditions
///
/// ```text
/// requires { length (unpacked_bytes Place.Tag packed.now) ≡ length to.old }
/// ```
pub fn unpack_to_slice(packed: &[u8], to: &mut [u8]) {
    if packed.len() < UNIT || to.len() < 8 {
        unpack_bytes(Place::Tag, packed, to);
        return;
    }
    let front = unpack_words(packed, to);
    let behind = clamp_to_room(front.given + front.zeros as usize, to.len());
    fill_with_zeros(&mut to[front.given..behind]);
    unpack_bytes(front.place, &packed[front.taken..], &mut to[behind..]);
}
