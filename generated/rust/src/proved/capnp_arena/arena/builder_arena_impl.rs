//! The arena of a message being built.

use crate::proved::capnp_arena::arena::listed::Listed;
use crate::proved::capnp_arena::arena::row::Row;
use crate::proved::capnp_arena::arena::rows::Rows;
use crate::proved::capnp_arena::arena::{
    Allocator, BuilderArena, NullAllocator, OutputSegments, ReaderArena, Segment, SegmentId,
    WordPlace, MAX_SEGMENTS,
};
use crate::proved::capnp_arena_traits::arena::sealed::Closed;
use crate::proved::capnp_words::error::ErrorKind;
use crate::proved::capnp_words::words;
use crate::proved::support::alloc::Global;
use crate::proved::support::vec::Vec;
use core::mem;

/// A message being built, with 0 to 4,294,967,295 segments, which the allocator grants. The arena's
/// nesting limit is `i32::MAX`, and reading from it charges nothing.
///
/// Dropping the arena returns each segment to the allocator exactly once, in order of number.
pub struct BuilderArenaImpl<A: Allocator> {
    alloc: Global,
    /// `None` only while the arena is dropped.
    allocator: Option<A>,
    /// All rows, if `keeps_first_in_arena` of the allocator is `false`; otherwise empty.
    listed: Listed<A::Segment>,
    /// All rows, with the first one outside of the list, if `keeps_first_in_arena` of the allocator
    /// is `true`; otherwise empty.
    apart: Rows<A::Segment>,
}

/// Returns the segment of a row to the allocator.
#[inline]
fn deallocate<A: Allocator>(allocator: &mut A, row: Row<A::Segment>) {
    let Row {
        segment,
        used,
        bound: _,
    } = row;
    allocator.deallocate_segment(segment, used);
}

/// Returns the segment of each row in `rows` to the allocator exactly once, in order of number.
#[inline(always)]
fn deallocate_list<A: Allocator>(allocator: &mut A, mut rows: Vec<Row<A::Segment>>) {
    if rows.len() > 1 {
        rows.reverse();
    }
    while let Some(row) = rows.pop() {
        deallocate(allocator, row);
    }
    rows.destroy_empty();
}

/// For an arena that stores its first row outside of the list: returns each segment in the list,
/// `rows`, to the allocator exactly once, in order of number. For most messages the list is empty.
#[inline(never)]
fn deallocate_others<A: Allocator>(allocator: &mut A, rows: Vec<Row<A::Segment>>) {
    if rows.is_empty() {
        rows.destroy_empty();
    } else {
        deallocate_list(allocator, rows);
    }
}

/// For an arena that stores its first row outside of the list: returns each segment to the
/// allocator exactly once, in order of number.
#[inline(always)]
fn deallocate_rows<A: Allocator>(allocator: &mut A, rows: Rows<A::Segment>) {
    let Rows {
        first,
        there,
        others,
    } = rows;
    if there {
        deallocate(allocator, first);
        deallocate_others(allocator, others);
    } else {
        let Row {
            segment,
            used: _,
            bound: _,
        } = first;
        drop(segment);
        others.destroy_empty();
    }
}

/// Returns each segment to the allocator exactly once, in order of number. In every arena at least
/// one of `listed` and `apart` is empty.
#[inline(always)]
fn deallocate_all<A: Allocator>(
    allocator: &mut A,
    listed: Listed<A::Segment>,
    apart: Rows<A::Segment>,
) {
    deallocate_rows(allocator, apart);
    let Listed { rows } = listed;
    deallocate_list(allocator, rows);
}

/// Appends `segment`, with none of its words allocated. If there is no memory for its row, returns
/// the segment to the allocator and refuses with `AllocationFailed`. The first row needs no memory.
///
/// # Preconditions
///
/// ```text
/// requires few { length (all A.Segment.Segment rows.old) < max_segments }
/// requires fresh { IsFresh 0 (A.Segment.content segment) }
/// ```
#[inline]
fn push_to_rows<A: Allocator>(
    allocator: &mut A,
    rows: &mut Rows<A::Segment>,
    segment: A::Segment,
) -> Result<(), ErrorKind> {
    if !rows.there {
        rows.push_first(segment);
        return Ok(());
    }
    match allocator.keep(&mut rows.others, Row::new(segment)) {
        None => Ok(()),
        Some(row) => {
            deallocate(allocator, row);
            Err(ErrorKind::AllocationFailed)
        }
    }
}

/// Like `push_to_rows`, for an arena with all rows in a list: the first row needs memory, too.
///
/// # Preconditions
///
/// ```text
/// requires few { length list.old.rows.items < max_segments }
/// requires fresh { IsFresh 0 (A.Segment.content segment) }
/// ```
#[inline]
fn push_to_list<A: Allocator>(
    allocator: &mut A,
    list: &mut Listed<A::Segment>,
    segment: A::Segment,
) -> Result<(), ErrorKind> {
    match allocator.keep(&mut list.rows, Row::new(segment)) {
        None => Ok(()),
        Some(row) => {
            deallocate(allocator, row);
            Err(ErrorKind::AllocationFailed)
        }
    }
}

/// Appends the allocated words of each row to `segments`, in order. Fails with `AllocationFailed`
/// if memory runs out.
#[inline]
fn push_allocated<'a, S: Segment>(
    segments: &mut Vec<&'a [u8]>,
    rows: &'a [Row<S>],
) -> Result<(), ErrorKind> {
    for row in rows {
        if segments.push(row.allocated()).is_err() {
            return Err(ErrorKind::AllocationFailed);
        }
    }
    Ok(())
}

/// The allocated words of each row, in order. Fails with `AllocationFailed` if memory runs out.
#[inline]
fn allocated_of_rows<S: Segment>(alloc: Global, rows: &Rows<S>) -> Result<Vec<&[u8]>, ErrorKind> {
    let mut segments = match Vec::with_capacity(alloc, rows.len()) {
        Ok(segments) => segments,
        Err(_) => return Err(ErrorKind::AllocationFailed),
    };
    if rows.there {
        if segments.push(rows.first.allocated()).is_err() {
            return Err(ErrorKind::AllocationFailed);
        }
        push_allocated(&mut segments, &rows.others)?;
    }
    Ok(segments)
}

/// The allocated words of each row of a list, in order. Fails with `AllocationFailed` if memory
/// runs out.
#[inline]
fn allocated_of_list<S: Segment>(alloc: Global, list: &Listed<S>) -> Result<Vec<&[u8]>, ErrorKind> {
    let mut segments = match Vec::with_capacity(alloc, list.len()) {
        Ok(segments) => segments,
        Err(_) => return Err(ErrorKind::AllocationFailed),
    };
    push_allocated(&mut segments, &list.rows)?;
    Ok(segments)
}

/// The output segments of an arena that stores its first row outside of the list.
#[inline]
fn output_of_rows<S: Segment>(
    alloc: Global,
    rows: &Rows<S>,
) -> Result<OutputSegments<'_>, ErrorKind> {
    if rows.len() == 1 {
        return Ok(OutputSegments::SingleSegment(rows.first.allocated()));
    }
    let segments = allocated_of_rows(alloc, rows)?;
    Ok(OutputSegments::MultiSegment(segments))
}

/// The output segments of an arena with all rows in a list.
#[inline]
fn output_of_list<S: Segment>(
    alloc: Global,
    list: &Listed<S>,
) -> Result<OutputSegments<'_>, ErrorKind> {
    if list.rows.len() == 1 {
        return Ok(OutputSegments::SingleSegment(list.rows[0].allocated()));
    }
    let segments = allocated_of_list(alloc, list)?;
    Ok(OutputSegments::MultiSegment(segments))
}

/// The number of allocated words in all of `rows` together.
///
/// # Preconditions
///
/// ```text
/// requires { length rows.now ≤ max_segments }
/// ```
#[inline]
fn allocated_words_in<S: Segment>(rows: &[Row<S>]) -> usize {
    let mut words = 0;
    for row in rows {
        words += row.used as usize;
    }
    words
}

/// The number of allocated words in an arena that stores its first row outside of the list.
#[inline]
fn allocated_words_of_rows<S: Segment>(rows: &Rows<S>) -> usize {
    if rows.there {
        rows.first.used as usize + allocated_words_in(&rows.others)
    } else {
        0
    }
}

/// The allocator of an arena that isn't being dropped.
#[inline(always)]
fn allocator_in<A>(allocator: &mut Option<A>) -> &mut A {
    match allocator {
        Some(allocator) => allocator,
        None => unreachable!(),
    }
}

impl<A: Allocator> Drop for BuilderArenaImpl<A> {
    #[inline]
    fn drop(&mut self) {
        if let Some((mut allocator, listed, apart)) = self.take_apart() {
            deallocate_all(&mut allocator, listed, apart);
        }
    }
}

/// What an arena is made of: its allocator and its rows.
type Parts<A> = (
    A,
    Listed<<A as Allocator>::Segment>,
    Rows<<A as Allocator>::Segment>,
);

impl<A: Allocator> BuilderArenaImpl<A> {
    /// Takes the allocator and the rows out of the arena; `None` if they are out already.
    #[inline(always)]
    fn take_apart(&mut self) -> Option<Parts<A>> {
        let allocator = self.allocator.take()?;
        let listed = mem::replace(&mut self.listed, Listed::new(self.alloc));
        let apart = mem::replace(&mut self.apart, Rows::new(self.alloc));
        Some((allocator, listed, apart))
    }

    /// Takes an arena apart that is dropped only then.
    #[inline(always)]
    fn into_parts(mut self) -> Parts<A> {
        match self.take_apart() {
            Some(parts) => parts,
            None => unreachable!(),
        }
    }
}

impl<A: Allocator> BuilderArenaImpl<A> {
    /// Makes an arena without segments. `allocator` will grant its segments.
    #[inline]
    pub fn new(alloc: Global, allocator: A) -> Self {
        let listed = Listed::new(alloc);
        let apart = Rows::new(alloc);
        BuilderArenaImpl {
            alloc,
            allocator: Some(allocator),
            listed,
            apart,
        }
    }

    /// The number of segments.
    #[inline]
    pub fn len(&self) -> usize {
        if A::keeps_first_in_arena() {
            self.apart.len()
        } else {
            self.listed.len()
        }
    }

    /// Whether there are no segments.
    #[inline]
    pub fn is_empty(&self) -> bool {
        self.len() == 0
    }

    /// Returns each segment to the allocator exactly once, in order of number, and then returns the
    /// allocator.
    #[inline(always)]
    pub fn into_allocator(self) -> A {
        let (mut allocator, listed, apart) = self.into_parts();
        deallocate_all(&mut allocator, listed, apart);
        allocator
    }

    /// Separates the arena from its allocator, and returns both. The returned arena keeps its
    /// segments and their words, can allocate words only in these segments, and starts with a
    /// `refused` of 0. `with_allocator` gives it an allocator again.
    ///
    /// Dropping the arena without its allocator drops the segments: they aren't returned to the
    /// allocator.
    #[inline]
    pub fn without_allocator(self) -> (BuilderArenaImpl<NullAllocator<A>>, A) {
        let alloc = self.alloc;
        let (allocator, listed, apart) = self.into_parts();
        let segments = BuilderArenaImpl {
            alloc,
            allocator: Some(NullAllocator::new()),
            listed,
            apart,
        };
        (segments, allocator)
    }

    /// Appends `segment`, with none of its words allocated. If there is no memory for its row,
    /// returns the segment to the allocator and refuses with `AllocationFailed`. If
    /// `keeps_first_in_arena` of the allocator is `true`, the first row needs no memory.
    ///
    /// # Preconditions
    ///
    /// ```text
    /// requires few { length (⟦<Self as ReaderArena>⟧.segments self.old) < max_segments }
    /// requires fresh { IsFresh 0 (A.Segment.content segment) }
    /// ```
    #[inline(always)]
    fn push_segment(&mut self, segment: A::Segment) -> Result<(), ErrorKind> {
        if A::keeps_first_in_arena() {
            push_to_rows(allocator_in(&mut self.allocator), &mut self.apart, segment)
        } else {
            push_to_list(allocator_in(&mut self.allocator), &mut self.listed, segment)
        }
    }

    /// Appends a segment of at least `min` words, with none of its words allocated.
    ///
    /// Refusals: `MessageTooLarge(usize::MAX)` if there are 4,294,967,295 segments already;
    /// `MessageTooLarge(min)` if `min` is above 536,870,911; `AllocationFailed` if memory ran out.
    /// A refusal changes nothing, except that `AllocationFailed` adds 1 to `refused` of the arena.
    /// If `keeps_first_in_arena` of the allocator is `true`, the first segment takes memory only if
    /// the allocator takes memory for it.
    #[inline]
    pub fn allocate_segment(&mut self, min: u32) -> Result<(), ErrorKind> {
        if self.len() >= MAX_SEGMENTS {
            return Err(ErrorKind::MessageTooLarge(usize::MAX));
        }
        let segment = allocator_in(&mut self.allocator).allocate_segment(min)?;
        self.push_segment(segment)
    }

    /// The allocated words of each segment, for writing the message out. They meet the precondition
    /// of `ReaderArenaImpl::new`: fewer than 2^32 segments, each of fewer than 2^32 words. Takes
    /// memory unless there is exactly one segment, and fails with `AllocationFailed` if memory runs
    /// out.
    #[inline]
    pub fn get_segments_for_output(&self) -> Result<OutputSegments<'_>, ErrorKind> {
        if A::keeps_first_in_arena() {
            output_of_rows(self.alloc, &self.apart)
        } else {
            output_of_list(self.alloc, &self.listed)
        }
    }

    /// The allocated words of segment `id`; `None` if there is no such segment.
    #[inline(always)]
    fn allocated(&self, id: u32) -> Option<&[u8]> {
        if A::keeps_first_in_arena() {
            self.apart.allocated(id)
        } else {
            self.listed.allocated(id)
        }
    }

    /// Returns the number of the first segment with room for `amount` more words; `None` if no
    /// segment has room for them.
    #[inline]
    fn first_fit(&mut self, amount: u32) -> Option<u32> {
        if A::keeps_first_in_arena() {
            self.apart.first_fit(amount)
        } else {
            self.listed.first_fit(amount)
        }
    }

    /// Allocates `amount` words after the allocated ones of segment `id`, and returns their
    /// position. Precondition: the segment has room for them.
    ///
    /// # Preconditions
    ///
    /// ```text
    /// requires there { id < length (⟦<Self as ReaderArena>⟧.segments self.old) }
    /// requires fits { length (segment (⟦<Self as BuilderArena>⟧.view self.old).words id) + amount
    ///     ≤ (⟦<Self as BuilderArena>⟧.view self.old).room id }
    /// ```
    #[inline]
    fn allocate_fitting(&mut self, id: u32, amount: u32) -> u32 {
        if A::keeps_first_in_arena() {
            self.apart.allocate_fitting(id, amount)
        } else {
            self.listed.allocate_fitting(id, amount)
        }
    }

    /// Appends a segment of at least `amount` words, allocates `amount` words in it, and returns
    /// the segment's number. Refuses like `allocate_segment` for `amount` words.
    #[inline]
    fn allocate_in_new_segment(&mut self, amount: u32) -> Result<u32, ErrorKind> {
        let id = self.len();
        self.allocate_segment(amount)?;
        let id = id as u32;
        let _at = self.allocate_fitting(id, amount);
        Ok(id)
    }
}

impl<A: Allocator> BuilderArenaImpl<NullAllocator<A>> {
    /// Returns the arena with `allocator` in place of the `NullAllocator`, which refuses every
    /// request. From then on, `allocator` grants further segments, and all segments are returned to
    /// `allocator`, including those that the arena has now. The segments, their words and their
    /// room are unchanged.
    #[inline]
    pub fn with_allocator(self, allocator: A) -> BuilderArenaImpl<A> {
        let alloc = self.alloc;
        let (_, listed, apart) = self.into_parts();
        BuilderArenaImpl {
            alloc,
            allocator: Some(allocator),
            listed,
            apart,
        }
    }
}

impl<A: Allocator> ReaderArena for BuilderArenaImpl<A> {
    #[inline]
    fn get_segment(&self, id: u32) -> Result<&[u8], ErrorKind> {
        match self.allocated(id) {
            Some(words) => Ok(words),
            None => Err(ErrorKind::InvalidSegmentId(id)),
        }
    }

    #[inline]
    fn nesting_limit(&self) -> i32 {
        i32::MAX
    }

    #[inline]
    fn charges(&self) -> bool {
        false
    }

    #[inline]
    fn size_in_words(&self) -> usize {
        if A::keeps_first_in_arena() {
            allocated_words_of_rows(&self.apart)
        } else {
            allocated_words_in(&self.listed.rows)
        }
    }
}

impl<A: Allocator> Closed for BuilderArenaImpl<A> {}

impl<A: Allocator> BuilderArena for BuilderArenaImpl<A> {
    #[inline]
    fn segment_mut(&mut self, id: u32) -> &mut [u8] {
        if A::keeps_first_in_arena() {
            self.apart.allocated_mut(id)
        } else {
            self.listed.allocated_mut(id)
        }
    }

    #[inline]
    fn allocated_mut(&mut self, id: u32) -> Option<&mut [u8]> {
        if (id as usize) < self.len() {
            return Some(self.segment_mut(id));
        }
        None
    }

    #[inline]
    fn get_word(&self, id: u32, at: u32) -> u64 {
        if A::keeps_first_in_arena() {
            self.apart.word(id, at)
        } else {
            self.listed.word(id, at)
        }
    }

    #[inline]
    fn put_word(&mut self, id: u32, at: u32, word: u64) {
        if A::keeps_first_in_arena() {
            self.apart.put_word(id, at, word);
        } else {
            self.listed.put_word(id, at, word);
        }
    }

    #[inline]
    fn move_words(&mut self, from: WordPlace, to: WordPlace, n: u32) {
        if n == 0 {
            return;
        }
        if from.segment == to.segment {
            let bytes = self.segment_mut(to.segment);
            words::move_words(bytes, from.at as usize, to.at as usize, n as usize);
        } else if A::keeps_first_in_arena() {
            self.apart.copy_across(from, to, n);
        } else {
            self.listed.copy_across(from, to, n);
        }
    }

    #[inline]
    fn allocate(&mut self, id: u32, amount: u32) -> Option<u32> {
        if A::keeps_first_in_arena() {
            self.apart.allocate(id, amount)
        } else {
            self.listed.allocate(id, amount)
        }
    }

    #[inline]
    fn allocate_anywhere(&mut self, amount: u32) -> Result<(SegmentId, u32), ErrorKind> {
        match self.first_fit(amount) {
            Some(id) => {
                let at = self.allocate_fitting(id, amount);
                Ok((id, at))
            }
            None => {
                let id = self.allocate_in_new_segment(amount)?;
                Ok((id, 0))
            }
        }
    }

    #[inline]
    fn as_reader(&self) -> &Self {
        self
    }

    #[inline]
    fn refused(&self) -> u64 {
        match &self.allocator {
            Some(allocator) => allocator.refused(),
            None => unreachable!(),
        }
    }
}
