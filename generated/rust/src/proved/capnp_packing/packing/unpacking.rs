//! Unpacks words from packed bytes in memory (encoding specification, "Packing").

use super::place::Place;

/// The most packed bytes that `unpack_unit` needs at once: 1 for a tag, 8 for its word, and 1 for a
/// count.
pub(super) const UNIT: usize = 10;

/// How far unpacking got.
#[derive(Clone, Copy)]
pub struct Progress {
    /// The number of packed bytes that were unpacked.
    pub taken: usize,
    /// The number of unpacked bytes written.
    pub given: usize,
    /// The number of unpacked zero bytes that come after the `given` ones, and that didn't fit.
    pub zeros: u16,
    /// The place after the `taken` packed bytes.
    pub place: Place,
}

/// Zeroes all bytes.
#[inline(always)]
pub(super) fn fill_with_zeros(to: &mut [u8]) {
    for byte in to.iter_mut() {
        *byte = 0;
    }
}

/// For each value of four bits of a tag: the factors that move the next four packed bytes to their
/// positions in a number of four bytes. The factor is 0 for a packed byte that isn't part of that
/// number.
static MULTIPLIERS: [[u32; 4]; 16] = [
    [0, 0, 0, 0],
    [1, 0, 0, 0],
    [1 << 8, 0, 0, 0],
    [1, 1 << 8, 0, 0],
    [1 << 16, 0, 0, 0],
    [1, 1 << 16, 0, 0],
    [1 << 8, 1 << 16, 0, 0],
    [1, 1 << 8, 1 << 16, 0],
    [1 << 24, 0, 0, 0],
    [1, 1 << 24, 0, 0],
    [1 << 8, 1 << 24, 0, 0],
    [1, 1 << 8, 1 << 24, 0],
    [1 << 16, 1 << 24, 0, 0],
    [1, 1 << 16, 1 << 24, 0],
    [1 << 8, 1 << 16, 1 << 24, 0],
    [1, 1 << 8, 1 << 16, 1 << 24],
];

/// Four bytes of a word as a number, the first byte lowest: for each of the lowest four bits of
/// `bits`, the next packed byte if the bit is set, and zero if not.
///
/// # Preconditions
///
/// ```text
/// requires bits { bits < 16 }
/// requires packed { 4 ≤ length packed.now }
/// ```
#[inline(always)]
fn half_word(bits: u8, packed: &[u8]) -> u32 {
    let multipliers = &MULTIPLIERS[bits as usize];
    let first = u32::from(packed[0]).wrapping_mul(multipliers[0]);
    let second = u32::from(packed[1]).wrapping_mul(multipliers[1]);
    let third = u32::from(packed[2]).wrapping_mul(multipliers[2]);
    let last = u32::from(packed[3]).wrapping_mul(multipliers[3]);
    first
        .wrapping_add(second)
        .wrapping_add(third)
        .wrapping_add(last)
}

/// The last four bytes of a word as a number, like `half_word`. In most words the last three of
/// these are zero, as in a small number or the pointer to a short text, so this case has code of
/// its own.
///
/// # Preconditions
///
/// ```text
/// requires bits { bits < 16 }
/// requires packed { 4 ≤ length packed.now }
/// ```
#[inline(always)]
fn last_half(bits: u8, packed: &[u8]) -> u32 {
    if bits < 2 {
        return u32::from(packed[0]).wrapping_mul(u32::from(bits));
    }
    half_word(bits, packed)
}

/// Writes the bytes of a word: for each bit of `tag`, the next packed byte if the bit is set, and
/// zero if not. Returns the number of packed bytes that were unpacked.
///
/// # Preconditions
///
/// ```text
/// requires packed { length packed.now ≡ 8 }
/// requires room { length to.old ≡ 8 }
/// ```
#[inline(always)]
fn unpack_tagged_word(tag: u8, packed: &[u8], to: &mut [u8]) -> usize {
    let behind = (tag % 16).count_ones() as usize;
    to[..4].copy_from_slice(&half_word(tag % 16, packed).to_le_bytes());
    to[4..].copy_from_slice(&last_half(tag / 16, &packed[behind..]).to_le_bytes());
    tag.count_ones() as usize
}

/// Unpacks a zero word and `more` further zero words. If `to` is too short for all of them, fills
/// `to`, and returns in `zeros` how many zero bytes didn't fit. Precondition: `to` has room for one
/// word.
///
/// # Preconditions
///
/// ```text
/// requires { 8 ≤ length to.old }
/// ```
#[inline(always)]
fn unpack_zeros(more: u8, to: &mut [u8]) -> Progress {
    if more == 0 {
        fill_with_zeros(&mut to[..8]);
        return Progress {
            taken: 2,
            given: 8,
            zeros: 0,
            place: Place::Tag,
        };
    }
    let due = 8 + 8 * more as usize;
    let given = to.len().min(due);
    fill_with_zeros(&mut to[..given]);
    Progress {
        taken: 2,
        given,
        zeros: (due - given) as u16,
        place: Place::Tag,
    }
}

/// Unpacks a tag of 255: copies its word, which isn't packed. Also copies the further words that
/// the count states, if all of them are in `packed` and fit in `to`; otherwise copies none of the
/// further words.
///
/// # Preconditions
///
/// ```text
/// requires ready { CanUnpack packed.now to.old }
/// requires tag { slice_index packed.now 0 ≡ 255 }
/// ```
#[inline(always)]
fn unpack_whole(packed: &[u8], to: &mut [u8]) -> Progress {
    to[..8].copy_from_slice(&packed[1..9]);
    let more = 8 * packed[9] as usize;
    if more == 0 {
        return Progress {
            taken: 10,
            given: 8,
            zeros: 0,
            place: Place::Tag,
        };
    }
    if packed.len() - 10 < more || to.len() - 8 < more {
        return Progress {
            taken: 10,
            given: 8,
            zeros: 0,
            place: Place::Raw(more as u16 - 1),
        };
    }
    to[8..8 + more].copy_from_slice(&packed[10..10 + more]);
    Progress {
        taken: 10 + more,
        given: 8 + more,
        zeros: 0,
        place: Place::Tag,
    }
}

/// The place after the next `taken` bytes of words that aren't packed. `left` + 1 bytes of these
/// words are still to be read: the next one, and `left` after it.
///
/// # Preconditions
///
/// ```text
/// requires some { 0 < taken }
/// requires inside { taken ≤ left + 1 }
/// ```
pub(super) fn place_after_raw(left: u16, taken: usize) -> Place {
    if taken > left as usize {
        Place::Tag
    } else {
        Place::Raw(left - taken as u16)
    }
}

/// Unpacks a tag with its word and, if a count follows, the further words that the count states.
///
/// # Preconditions
///
/// ```text
/// requires { CanUnpack packed.now to.old }
/// ```
#[inline(always)]
fn unpack_unit(packed: &[u8], to: &mut [u8]) -> Progress {
    let tag = packed[0];
    if tag == 0 {
        unpack_zeros(packed[1], to)
    } else if tag == 255 {
        unpack_whole(packed, to)
    } else {
        let taken = unpack_tagged_word(tag, &packed[1..9], &mut to[..8]);
        Progress {
            taken: 1 + taken,
            given: 8,
            zeros: 0,
            place: Place::Tag,
        }
    }
}

/// Unpacks words while `to` has room for one more, and at least `UNIT` packed bytes are left. Stops
/// earlier if words that a count states aren't all in `packed`, or don't all fit in `to`.
///
/// # Preconditions
///
/// ```text
/// requires { CanUnpack packed.now to.old }
/// ```
pub(super) fn unpack_words(packed: &[u8], to: &mut [u8]) -> Progress {
    let mut taken = 0;
    let mut given = 0;
    while packed.len() - taken >= UNIT && to.len() - given >= 8 {
        let unit = unpack_unit(&packed[taken..], &mut to[given..]);
        taken += unit.taken;
        given += unit.given;
        if unit.zeros != 0 || !matches!(unit.place, Place::Tag) {
            return Progress {
                taken,
                given,
                zeros: unit.zeros,
                place: unit.place,
            };
        }
    }
    Progress {
        taken,
        given,
        zeros: 0,
        place: Place::Tag,
    }
}
