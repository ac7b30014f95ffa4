//! The segments of a built message, for writing them out.

use crate::proved::capnp_arena::arena::ReaderSegments;
use crate::proved::support::vec::Vec;

/// The allocated words of each segment of a builder arena, in order of number. Section "Messages"
/// of the encoding specification.
pub enum OutputSegments<'a> {
    /// The only segment.
    SingleSegment(&'a [u8]),
    /// No segment, or more than one.
    MultiSegment(Vec<&'a [u8]>),
}

impl ReaderSegments for OutputSegments<'_> {
    #[inline]
    fn get_segment(&self, id: u32) -> Option<&[u8]> {
        match self {
            OutputSegments::SingleSegment(segment) => {
                if id == 0 {
                    Some(*segment)
                } else {
                    None
                }
            }
            OutputSegments::MultiSegment(segments) => match segments.get(id as usize) {
                Some(s) => Some(*s),
                None => None,
            },
        }
    }

    #[inline]
    fn len(&self) -> usize {
        match self {
            OutputSegments::SingleSegment(_) => 1,
            OutputSegments::MultiSegment(segments) => segments.len(),
        }
    }
}
