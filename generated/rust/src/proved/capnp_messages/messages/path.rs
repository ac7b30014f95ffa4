//! Follows a path of indexes to a part of a message: to a pointer, or to an element of a list of
//! structs.

use super::pointer_run::{pointer_within, ElementPlace, PointerRun};
use super::root::read_root;
use crate::proved::capnp_arena::arena::{ReaderArena, ReaderArenaImpl, ReaderSegments};
use crate::proved::capnp_pointers::object::{Object, Place, Purpose};
use crate::proved::capnp_pointers::pointers::{MessageSize, Pointer};
use crate::proved::capnp_words::error::ErrorKind;
use crate::proved::capnp_words::read_limiter::ReadLimiter;
use crate::proved::capnp_words::wire_pointer::StructSize;

/// Where a path leads.
pub enum Reached<'a, A: ReaderArena> {
    /// To a pointer.
    Pointer(Pointer<'a, A>),
    /// To an element of a list of structs.
    Element(ElementPlace<'a, A>),
}

impl<'a, A: ReaderArena> Clone for Reached<'a, A> {
    fn clone(&self) -> Self {
        *self
    }
}

impl<'a, A: ReaderArena> Copy for Reached<'a, A> {}

impl<'a, A: ReaderArena> Reached<'a, A> {
    /// The end of a path at the pointer of `run` with this `index`.
    fn pointer_in_run(run: PointerRun<'a, A>, index: u32) -> Result<Self, ErrorKind> {
        match run.get(index) {
            Ok(pointer) => Ok(Reached::Pointer(pointer)),
            Err(kind) => Err(kind),
        }
    }

    /// The element at `index` of the list of structs that `from` leads to, which has `count`
    /// elements from `start` on.
    ///
    /// # Preconditions
    ///
    /// ```text
    /// requires held { IsHeld (source_start A.ReaderArena from.source).segments start }
    /// requires inside { start.at + count * (size.data_words + size.pointers)
    ///     ≤ length (segment (source_start A.ReaderArena from.source).segments start.segment) }
    /// ```
    fn element_of_list(
        from: Pointer<'a, A>,
        start: Place<'a>,
        size: StructSize,
        count: u32,
        index: u32,
    ) -> Result<Self, ErrorKind> {
        if index >= count {
            return Err(ErrorKind::NoSuchPlace);
        }
        let first = pointer_within(from, start, index * size.total());
        Ok(Reached::Element(ElementPlace { first, size }))
    }

    /// Where `index` leads from `object`, to which the pointer `from` leads. Refuses with
    /// `NoSuchPlace` if that is nowhere.
    ///
    /// # Preconditions
    ///
    /// ```text
    /// requires { IsObjectRead Value (reading A.ReaderArena from) object }
    /// ```
    fn child_of_object(
        from: Pointer<'a, A>,
        object: Object<'a>,
        index: u32,
    ) -> Result<Self, ErrorKind> {
        match object {
            Object::Struct { start, size } => {
                let words = u32::from(size.data_words);
                let pointers = u32::from(size.pointers);
                Reached::pointer_in_run(PointerRun::inside(from, start, words, pointers), index)
            }
            Object::Pointers { start, count } => {
                Reached::pointer_in_run(PointerRun::inside(from, start, 0, count), index)
            }
            Object::Structs { start, size, count } => {
                Reached::element_of_list(from, start, size, count, index)
            }
            Object::Null | Object::Capability(_) | Object::Flat { .. } => {
                Err(ErrorKind::NoSuchPlace)
            }
        }
    }

    /// Where `index` leads from the end of a path. A pointer is read like `Source::read_object`,
    /// and its object's pointers have a nesting limit that is one less.
    fn step(self, index: u32, lim: &mut ReadLimiter) -> Result<Self, ErrorKind> {
        match self {
            Reached::Pointer(from) => {
                let object = from.read(Purpose::Value, lim)?;
                Reached::child_of_object(from, object, index)
            }
            Reached::Element(element) => {
                Reached::pointer_in_run(PointerRun::from_element(element), index)
            }
        }
    }

    /// Counts the words and capabilities of the value at the end of the path, like
    /// `Pointer::total_size`. An element has the words of its sections, which aren't charged again.
    pub(super) fn total_size(self, lim: &mut ReadLimiter) -> Result<MessageSize, ErrorKind> {
        match self {
            Reached::Pointer(pointer) => pointer.total_size(lim),
            Reached::Element(element) => {
                let words = u64::from(element.size.total());
                let run = PointerRun::from_element(element);
                run.first.total_size_of(run.count, words, lim)
            }
        }
    }
}

/// Follows `path` from the pointer `from`, and returns where it leads.
///
/// From a pointer to a struct, an index leads to a pointer of the struct; from a pointer to a list
/// of pointers, to an element; from a pointer to a list of structs, to an element, which is a
/// struct: the next index leads to one of its pointers. Each pointer on the way is read and charged
/// like `Source::read_object`; the last one isn't. Each has a nesting limit that is one less than
/// that of the one before.
///
/// Refuses with `NoSuchPlace` if an index leads nowhere. Refuses like `Source::read_object` if a
/// pointer on the way can't be read. What was charged before stays charged.
pub fn follow_path<'a, A: ReaderArena>(
    from: Pointer<'a, A>,
    path: &[u32],
    lim: &mut ReadLimiter,
) -> Result<Reached<'a, A>, ErrorKind> {
    let mut end = Reached::Pointer(from);
    for index in path {
        end = end.step(*index, lim)?;
    }
    Ok(end)
}

/// Reads the root pointer of a message like `read_root`, and then follows `path` from there like
/// `follow_path`.
pub fn read_part<'a, S: ReaderSegments>(
    arena: &'a ReaderArenaImpl<S>,
    path: &[u32],
    lim: &mut ReadLimiter,
) -> Result<Reached<'a, ReaderArenaImpl<S>>, ErrorKind> {
    let root = read_root(arena, lim)?;
    follow_path(root, path, lim)
}
