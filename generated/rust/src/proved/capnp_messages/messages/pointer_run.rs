//! Elements of lists of structs, and consecutive pointers of an object.

use crate::proved::capnp_arena::arena::ReaderArena;
use crate::proved::capnp_pointers::object::Place;
use crate::proved::capnp_pointers::pointers::Pointer;
use crate::proved::capnp_words::error::ErrorKind;
use crate::proved::capnp_words::wire_pointer::StructSize;

/// An element of a list of structs, which is a struct to which no pointer leads.
///
/// Required of the fields: both sections are inside the segment, from `first` on.
pub struct ElementPlace<'a, A: ReaderArena> {
    /// The place of the element's first word, with the nesting limit of the element's pointers.
    pub first: Pointer<'a, A>,
    /// The element's sections.
    pub size: StructSize,
}

impl<'a, A: ReaderArena> Clone for ElementPlace<'a, A> {
    fn clone(&self) -> Self {
        *self
    }
}

impl<'a, A: ReaderArena> Copy for ElementPlace<'a, A> {}

/// The place `words` words after `start`, which is inside the object that `from` leads to, as the
/// place of a pointer. Its nesting limit is one less than that of `from`.
///
/// # Preconditions
///
/// ```text
/// requires held { IsHeld (source_start A.ReaderArena from.source).segments start }
/// requires inside { start.at + words
///     ≤ length (segment (source_start A.ReaderArena from.source).segments start.segment) }
/// ```
pub(super) fn pointer_within<'a, A: ReaderArena>(
    from: Pointer<'a, A>,
    start: Place<'a>,
    words: u32,
) -> Pointer<'a, A> {
    from.inside(start).past(words)
}

/// Consecutive pointers: those of a struct, or of a list.
pub(super) struct PointerRun<'a, A: ReaderArena> {
    /// The first pointer.
    pub(super) first: Pointer<'a, A>,
    /// The number of pointers.
    pub(super) count: u32,
}

impl<'a, A: ReaderArena> PointerRun<'a, A> {
    /// The `count` pointers that come `words` words after `start`, which is inside the object that
    /// `from` leads to. Their nesting limit is one less than that of `from`.
    ///
    /// # Preconditions
    ///
    /// ```text
    /// requires held { IsHeld (source_start A.ReaderArena from.source).segments start }
    /// requires inside { start.at + words + count
    ///     ≤ length (segment (source_start A.ReaderArena from.source).segments start.segment) }
    /// ```
    pub(super) fn inside(from: Pointer<'a, A>, start: Place<'a>, words: u32, count: u32) -> Self {
        PointerRun {
            first: pointer_within(from, start, words),
            count,
        }
    }

    /// The pointers of an element.
    pub(super) fn from_element(element: ElementPlace<'a, A>) -> Self {
        PointerRun {
            first: element.first.past(u32::from(element.size.data_words)),
            count: u32::from(element.size.pointers),
        }
    }

    /// The pointer at `index`. Refuses with `NoSuchPlace` if there are no more than `index`
    /// pointers.
    pub(super) fn get(self, index: u32) -> Result<Pointer<'a, A>, ErrorKind> {
        if index >= self.count {
            return Err(ErrorKind::NoSuchPlace);
        }
        Ok(self.first.past(index))
    }
}
