//! Where a reader's segments come from.

/// The segments of a message, each as a slice of bytes. Section "Messages" of the encoding
/// specification.
pub trait ReaderSegments {
    /// The bytes of segment `id`; `None` exactly if `id` isn't below `len`.
    fn get_segment(&self, id: u32) -> Option<&[u8]>;

    /// The number of segments.
    fn len(&self) -> usize;

    /// Whether there are no segments.
    #[inline]
    fn is_empty(&self) -> bool {
        self.len() == 0
    }
}

/// Returns `bytes`. If `bytes` is empty, returns an empty slice with another pointer, because C may
/// have passed a null pointer.
#[inline]
fn without_null(bytes: &[u8]) -> &[u8] {
    if bytes.is_empty() {
        &[]
    } else {
        bytes
    }
}

/// Borrowed segments: fewer than 2^32, each of fewer than 2^32 words. C may have lent an empty one as
/// a null pointer.
#[derive(Clone, Copy)]
pub struct SegmentArray<'a> {
    segments: &'a [&'a [u8]],
}

impl<'a> SegmentArray<'a> {
    /// Takes `segments`, in this order. Returns `None` exactly if there are 2^32 segments or more,
    /// or a segment has 2^32 words or more.
    #[inline]
    pub fn new(segments: &'a [&'a [u8]]) -> Option<Self> {
        if segments.len() >= 0x1_0000_0000 {
            return None;
        }
        if segments.iter().all(|s| s.len() / 8 < 0x1_0000_0000) {
            Some(SegmentArray { segments })
        } else {
            None
        }
    }
}

impl ReaderSegments for SegmentArray<'_> {
    #[inline]
    fn get_segment(&self, id: u32) -> Option<&[u8]> {
        match self.segments.get(id as usize) {
            Some(s) => Some(without_null(*s)),
            None => None,
        }
    }

    #[inline]
    fn len(&self) -> usize {
        self.segments.len()
    }
}
