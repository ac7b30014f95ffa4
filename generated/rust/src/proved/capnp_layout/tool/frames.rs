//! Writes frames and segments as lines of hex digits (encoding specification, "Serialization Over a
//! Stream").

use super::writing::{write_hex_digits, write_hex_line};
use crate::proved::capnp_arena::arena::{OutputSegments, ReaderSegments};
use crate::proved::capnp_layout::devices::{write_all, DeviceFault, Output};
use crate::proved::capnp_messages::messages::Form;

/// Returns the bytes of segment `id`, or no bytes if there is no such segment.
///
/// # Preconditions
///
/// ```text
/// requires { IsSmall (S.segments segments.now) }
/// ```
fn segment_at<S: ReaderSegments>(segments: &S, id: u32) -> &[u8] {
    match segments.get_segment(id) {
        Some(bytes) => bytes,
        None => &[],
    }
}

/// Writes a number in eight hex digits, the lowest byte first.
///
/// # Preconditions
///
/// ```text
/// requires { W.has_failed output.old ≡ false }
/// ```
fn write_hex_u32<W: Output>(output: &mut W, number: u32) -> Result<(), DeviceFault> {
    let mut digits = [0u8; 8];
    let _ =
        crate::proved::support::hex::encode_to_slice(number.to_le_bytes().as_slice(), &mut digits);
    write_all(output, &digits)
}

/// Writes the number of words of each segment as hex digits.
///
/// # Preconditions
///
/// ```text
/// requires { AreWritable W.Output output.old (S.segments segments.now) }
/// ```
fn write_lengths<W: Output, S: ReaderSegments>(
    output: &mut W,
    segments: &S,
) -> Result<(), DeviceFault> {
    for i in 0..segments.len() as u32 {
        let words = segment_at(segments, i).len() / 8;
        write_hex_u32(output, words as u32)?;
    }
    Ok(())
}

/// Writes the padding of a frame's table that has `count` sizes: four zero bytes if `count` is
/// even, otherwise nothing.
///
/// # Preconditions
///
/// ```text
/// requires works { W.has_failed output.old ≡ false }
/// requires few { count ≤ max_frame_segments }
/// ```
fn write_padding<W: Output>(output: &mut W, count: u32) -> Result<(), DeviceFault> {
    if count % 2 == 0 {
        write_hex_u32(output, 0)
    } else {
        Ok(())
    }
}

/// Writes the words of all segments as hex digits, in order.
///
/// # Preconditions
///
/// ```text
/// requires { AreWritable W.Output output.old (S.segments segments.now) }
/// ```
fn write_all_segments<W: Output, S: ReaderSegments>(
    output: &mut W,
    segments: &S,
) -> Result<(), DeviceFault> {
    for i in 0..segments.len() as u32 {
        write_hex_digits(output, segment_at(segments, i))?;
    }
    Ok(())
}

/// Writes the frame of a message as one line of hex digits. The frame's padding is zero.
///
/// # Preconditions
///
/// ```text
/// requires writable { AreWritable W.Output output.old (S.segments segments.now) }
/// requires some { 1 ≤ length (S.segments segments.now) }
/// requires few { length (S.segments segments.now) ≤ max_frame_segments }
/// ```
pub(in crate::proved::capnp_layout) fn write_frame<W: Output, S: ReaderSegments>(
    output: &mut W,
    segments: &S,
) -> Result<(), DeviceFault> {
    let count = segments.len() as u32;
    write_hex_u32(output, count - 1)?;
    write_lengths(output, segments)?;
    write_padding(output, count)?;
    write_all_segments(output, segments)?;
    write_all(output, b"\n")
}

/// Writes the canonical words in `words` as one line of hex digits: in a frame or without one,
/// depending on `form`.
///
/// # Preconditions
///
/// ```text
/// requires works { W.has_failed output.old ≡ false }
/// requires short { length words.now < 2 ^ 35 }
/// ```
pub(in crate::proved::capnp_layout) fn write_words_in_form<W: Output>(
    output: &mut W,
    words: &[u8],
    form: Form,
) -> Result<(), DeviceFault> {
    match form {
        Form::Flat => write_hex_line(output, words),
        Form::Framed => write_frame(output, &OutputSegments::SingleSegment(words)),
    }
}

/// Writes a line of hex digits for each segment of a message.
///
/// # Preconditions
///
/// ```text
/// requires { AreWritable W.Output output.old (S.segments segments.now) }
/// ```
pub(in crate::proved::capnp_layout) fn write_segment_lines<W: Output, S: ReaderSegments>(
    output: &mut W,
    segments: &S,
) -> Result<(), DeviceFault> {
    for i in 0..segments.len() as u32 {
        write_hex_line(output, segment_at(segments, i))?;
    }
    Ok(())
}
