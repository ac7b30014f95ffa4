//! An allocator that makes one segment of memory lent by the caller, and all others on the heap.

use crate::proved::capnp_arena::arena::{
    Allocator, HeapAllocator, HeapSegment, Segment, MAX_SEGMENT_WORDS,
};
use crate::proved::capnp_words::error::ErrorKind;
use crate::proved::support::alloc::Global;
use crate::proved::support::vec::Vec;

/// Makes borrowed bytes usable as a segment.
impl Segment for &mut [u8] {
    #[inline]
    fn empty(_alloc: Global) -> Self {
        &mut []
    }

    #[inline(always)]
    fn len(&self) -> usize {
        (**self).len()
    }

    #[inline]
    fn bytes(&self) -> &[u8] {
        &**self
    }

    #[inline]
    fn bytes_mut(&mut self) -> &mut [u8] {
        &mut **self
    }

    /// Does nothing: all bytes are ready from the start.
    #[inline(always)]
    fn make_ready(&mut self, _bytes: usize) {}
}

/// A segment in borrowed memory, or one on the heap.
pub enum ScratchSegment<B: Segment> {
    /// In borrowed memory.
    Borrowed(B),
    /// On the heap.
    Owned(HeapSegment),
}

impl<B: Segment> Segment for ScratchSegment<B> {
    #[inline]
    fn empty(alloc: Global) -> Self {
        ScratchSegment::Owned(HeapSegment::empty(alloc))
    }

    #[inline(always)]
    fn len(&self) -> usize {
        match self {
            ScratchSegment::Borrowed(segment) => segment.len(),
            ScratchSegment::Owned(segment) => segment.len(),
        }
    }

    #[inline]
    fn bytes(&self) -> &[u8] {
        match self {
            ScratchSegment::Borrowed(segment) => segment.bytes(),
            ScratchSegment::Owned(segment) => segment.bytes(),
        }
    }

    #[inline]
    fn bytes_mut(&mut self) -> &mut [u8] {
        match self {
            ScratchSegment::Borrowed(segment) => segment.bytes_mut(),
            ScratchSegment::Owned(segment) => segment.bytes_mut(),
        }
    }

    #[inline(always)]
    fn make_ready(&mut self, bytes: usize) {
        match self {
            ScratchSegment::Borrowed(segment) => segment.make_ready(bytes),
            ScratchSegment::Owned(segment) => segment.make_ready(bytes),
        }
    }
}

/// Borrowed bytes, all zero. To contracts, a value of this type is the number of its bytes.
struct ZeroBytes<'a> {
    bytes: &'a mut [u8],
}

impl<'a> ZeroBytes<'a> {
    /// Zeroes all of `bytes`, and wraps them.
    #[inline]
    fn new(bytes: &'a mut [u8]) -> Self {
        bytes.fill(0);
        ZeroBytes { bytes }
    }

    /// Zeroes the first `used` words of `bytes`, and wraps `bytes`. Precondition: all bytes after
    /// these words are zero.
    ///
    /// # Preconditions
    ///
    /// ```text
    /// requires within { 8 * used ≤ length bytes.old }
    /// requires clear { IsClearFrom used bytes.old }
    /// ```
    #[inline]
    fn rezeroed(bytes: &'a mut [u8], used: u32) -> Self {
        bytes[..8 * used as usize].fill(0);
        ZeroBytes { bytes }
    }

    /// The number of words of the segment that these bytes make: the number of whole words in
    /// `bytes`, or 536,870,911 if that is less.
    #[inline]
    fn words(&self) -> u32 {
        (self.bytes.len() / 8).min(MAX_SEGMENT_WORDS as usize) as u32
    }

    /// The bytes of the segment's words.
    #[inline]
    fn into_words(self) -> &'a mut [u8] {
        let words = self.words();
        let ZeroBytes { bytes } = self;
        &mut bytes[..8 * words as usize]
    }
}

/// Makes segments like `HeapAllocator`, except for one: the scratch space, which is memory lent by
/// the caller.
///
/// One segment is made of the scratch space's whole words, or of the first 536,870,911 of them if
/// there are more. While no arena uses that segment, it is granted to every request that it is
/// large enough for; this takes no memory and is never refused. After it is returned, it can be
/// granted again. A scratch space without a whole word is never used.
///
/// An arena with this allocator stores the row of its first segment itself
/// (`keeps_first_in_arena`), so a message that fits in the scratch space takes no memory at all.
pub struct ScratchSpaceHeapAllocator<'a> {
    scratch: Option<ZeroBytes<'a>>,
    scratch_words: u32,
    heap: HeapAllocator,
}

impl<'a> ScratchSpaceHeapAllocator<'a> {
    /// Makes an allocator with `scratch` as its scratch space. Every other segment has at least
    /// `words` words. Zeroes all bytes of `scratch`, and takes no memory. Precondition: `words` is
    /// at most 536,870,911.
    ///
    /// # Preconditions
    ///
    /// ```text
    /// requires { words ≤ max_segment_words }
    /// ```
    #[inline]
    pub fn new(alloc: Global, scratch: &'a mut [u8], words: u32) -> Self {
        let scratch = ZeroBytes::new(scratch);
        let scratch_words = scratch.words();
        ScratchSpaceHeapAllocator {
            scratch: Some(scratch),
            scratch_words,
            heap: HeapAllocator::new(alloc, words),
        }
    }

    /// Lends the scratch space, which is then in use. Returns `None`, and changes nothing, if it is
    /// already in use, has fewer than `min_words` words, or has no whole word.
    #[inline]
    fn lend(&mut self, min_words: u32) -> Option<&'a mut [u8]> {
        if self.scratch_words == 0 || min_words > self.scratch_words {
            return None;
        }
        let scratch = self.scratch.take()?;
        Some(scratch.into_words())
    }

    /// If `bytes` has as many bytes as the scratch space's segment, takes `bytes` back as the
    /// scratch space, and zeroes its first `used_words` words; otherwise does nothing.
    /// Precondition: all bytes after these words are zero.
    ///
    /// # Preconditions
    ///
    /// ```text
    /// requires within { 8 * used_words ≤ length bytes.old }
    /// requires clear { IsClearFrom used_words bytes.old }
    /// ```
    #[inline]
    fn reclaim(&mut self, bytes: &'a mut [u8], used_words: u32) {
        if bytes.len() == 8 * self.scratch_words as usize {
            self.scratch = Some(ZeroBytes::rezeroed(bytes, used_words));
        }
    }
}

impl<'a> Allocator for ScratchSpaceHeapAllocator<'a> {
    type Segment = ScratchSegment<&'a mut [u8]>;

    #[inline(always)]
    fn keeps_first_in_arena() -> bool {
        true
    }

    #[inline]
    fn allocate_segment(
        &mut self,
        min_words: u32,
    ) -> Result<ScratchSegment<&'a mut [u8]>, ErrorKind> {
        if let Some(bytes) = self.lend(min_words) {
            return Ok(ScratchSegment::Borrowed(bytes));
        }
        let segment = self.heap.allocate_segment(min_words)?;
        Ok(ScratchSegment::Owned(segment))
    }

    /// # Preconditions
    ///
    /// ```text
    /// requires within { 8 * used_words ≤ length (bytes_of segment) }
    /// requires clear { IsClearFrom used_words (bytes_of segment) }
    /// ```
    #[inline]
    fn deallocate_segment(&mut self, segment: ScratchSegment<&'a mut [u8]>, used_words: u32) {
        match segment {
            ScratchSegment::Borrowed(bytes) => self.reclaim(bytes, used_words),
            ScratchSegment::Owned(segment) => self.heap.deallocate_segment(segment, used_words),
        }
    }

    #[inline]
    fn keep<T>(&mut self, list: &mut Vec<T>, row: T) -> Option<T> {
        self.heap.keep(list, row)
    }

    #[inline]
    fn refused(&self) -> u64 {
        self.heap.refused()
    }
}
