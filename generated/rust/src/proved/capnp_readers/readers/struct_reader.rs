//! Structs of a message, read in place.

use crate::proved::capnp_arena_traits::arena::ReaderArena;
use crate::proved::capnp_pointers::object::Place;
use crate::proved::capnp_pointers::pointers::Pointer;
use crate::proved::capnp_pointers::source::Source;
use crate::proved::capnp_readers::readers::{
    bytes_are_below_256, ListReader, PointerReader, NO_SECTIONS,
};
use crate::proved::capnp_words::mask::Mask;
use crate::proved::capnp_words::primitive::Primitive;
use crate::proved::capnp_words::wire_pointer::{ElementSize, StructSize};
use crate::proved::capnp_words::zero::Zero;

/// The place of a struct in an arena. The size of its data section is in bits, since an element of
/// a list of numbers can be read as a struct. Its pointer section needn't follow its data section.
///
/// The place is *inside* a message if its segment exists and has both sections, in allocated words
/// if the message is being built. It is *aligned* if the data section has 8 bytes or more and starts
/// at a multiple of 8, or has 4, 2 or 1 whole bytes and starts at a multiple of that number, or has
/// less than a byte.
#[derive(Clone, Copy, Debug, PartialEq, Eq)]
pub struct StructPlace {
    /// The number of the segment.
    pub segment: u32,
    /// The size of the data section in bits.
    pub bits: u32,
    /// Where the data section starts, in bytes.
    pub byte: u64,
    /// Where the pointer section starts, in words.
    pub pointers_at: u32,
    /// The number of pointers in the pointer section.
    pub pointers: u16,
}

/// A struct being read, with its data section.
///
/// Required of the fields: `pointers.bytes` has exactly the whole words of segment
/// `pointers.segment` of `source`, fewer than 2^32; `content` is the part of `pointers.bytes` from
/// `byte` on that holds `bits` bits; the segment has at least `pointers.at + pointer_count` words.
pub struct StructReader<'a, A: ReaderArena> {
    /// What the struct is read from.
    pub source: Source<'a, A>,
    /// The bytes of the data section.
    pub content: &'a [u8],
    /// Where the data section starts in its segment, in bytes.
    pub byte: u64,
    /// The size of the data section in bits.
    pub bits: u32,
    /// Where the pointer section starts.
    pub pointers: Place<'a>,
    /// The number of pointers in the pointer section.
    pub pointer_count: u16,
    /// The nesting limit for the struct's pointers: how many levels of structs and lists may be
    /// entered from them; none if it is below 1.
    pub nesting_limit: i32,
}

impl<'a, A: ReaderArena> Clone for StructReader<'a, A> {
    #[inline]
    fn clone(&self) -> Self {
        *self
    }
}

impl<'a, A: ReaderArena> Copy for StructReader<'a, A> {}

impl<'a, A: ReaderArena> StructReader<'a, A> {
    /// Returns a struct without sections, which isn't in any message. Its nesting limit is
    /// `i32::MAX`.
    #[inline]
    pub fn new_default() -> Self {
        StructReader {
            source: Source::Nothing,
            content: &[],
            byte: 0,
            bits: 0,
            pointers: Place {
                segment: 0,
                bytes: &[],
                at: 0,
            },
            pointer_count: 0,
            nesting_limit: i32::MAX,
        }
    }

    /// Returns a reader of the struct at `place` of `arena`. Precondition: both sections are inside
    /// segment `place.segment` of `arena`.
    ///
    /// # Preconditions
    ///
    /// ```text
    /// requires { IsStructPlace (message (A.segments arena.now)) place }
    /// ```
    #[inline]
    pub fn at(arena: &'a A, place: StructPlace, nesting_limit: i32) -> Self {
        let Ok(bytes) = arena.get_segment(place.segment) else {
            return Self::new_default();
        };
        let start = place.byte as usize;
        let length = (place.bits as usize + 7) / 8;
        StructReader {
            source: Source::Arena(arena),
            content: &bytes[start..start + length],
            byte: place.byte,
            bits: place.bits,
            pointers: Place {
                segment: u64::from(place.segment),
                bytes,
                at: place.pointers_at,
            },
            pointer_count: place.pointers,
            nesting_limit,
        }
    }

    /// # Preconditions
    ///
    /// ```text
    /// requires held { IsHeld (source_start A.ReaderArena source).segments start }
    /// requires room { HasWordsFrom (source_start A.ReaderArena source).segments start
    ///     (size.data_words + size.pointers) }
    /// ```
    // The struct of whole words that starts at a place.
    #[inline(always)]
    pub(in crate::proved::capnp_readers) fn starting_at(
        source: Source<'a, A>,
        start: Place<'a>,
        size: StructSize,
        nesting_limit: i32,
    ) -> Self {
        let first = 8 * start.at as usize;
        let length = 8 * usize::from(size.data_words);
        StructReader {
            source,
            content: &start.bytes[first..first + length],
            byte: first as u64,
            bits: 64 * u32::from(size.data_words),
            pointers: Place {
                at: start.at + u32::from(size.data_words),
                ..start
            },
            pointer_count: size.pointers,
            nesting_limit,
        }
    }

    /// The bytes that hold the data section. A data section whose size isn't a multiple of 8 bits
    /// ends inside the last of these bytes.
    #[inline]
    pub fn data_bytes(&self) -> &'a [u8] {
        self.content
    }

    /// The number of pointers in the pointer section.
    #[inline]
    pub fn pointer_count(&self) -> u16 {
        self.pointer_count
    }

    // The first pointer of the pointer section, or where it would be.
    #[inline(always)]
    pub(in crate::proved::capnp_readers) fn pointers(&self) -> Pointer<'a, A> {
        Pointer {
            source: self.source,
            place: self.pointers,
            nesting_limit: self.nesting_limit,
        }
    }

    /// Returns a reader of pointer `index` of the pointer section. If the section has no such
    /// pointer, returns a null pointer that isn't in any message.
    #[inline]
    pub fn get_pointer_field(&self, index: usize) -> PointerReader<'a, A> {
        if index >= usize::from(self.pointer_count) {
            return PointerReader::new_default();
        }
        PointerReader {
            source: self.source,
            place: Place {
                at: self.pointers.at + index as u32,
                ..self.pointers
            },
            nesting_limit: self.nesting_limit,
        }
    }

    /// Returns the pointer section as a list of pointers, whose nesting limit is the struct's own
    /// (encoding specification, "Structs" and "Lists"). Its element `i` is the struct's pointer
    /// `i`; the list is empty if the struct has no pointers.
    #[inline]
    pub fn get_pointer_section_as_list(&self) -> ListReader<'a, A> {
        ListReader::starting_at(
            self.source,
            self.pointers,
            ElementSize::Pointer,
            NO_SECTIONS,
            u32::from(self.pointer_count),
            self.nesting_limit,
        )
    }

    /// Whether pointer `index` of the pointer section is null, or the section has no such pointer.
    #[inline]
    pub fn is_pointer_field_null(&self, index: usize) -> bool {
        self.get_pointer_field(index).is_null()
    }

    /// Returns the field of the data section at `offset`, which is counted in values of type `T`.
    /// Returns zero if the field isn't wholly inside the section.
    #[inline]
    pub fn get_data_field<T: Primitive + Zero>(&self, offset: usize) -> T {
        bytes_are_below_256(self.content);
        let n = T::BYTES;
        if offset < self.bits as usize / 8 / n {
            let start = offset * n;
            T::load(&self.content[start..start + n])
        } else {
            T::zero()
        }
    }

    /// Returns the exclusive or of the value that `StructReader::get_data_field` returns, and of
    /// `mask`. The caller passes the field's default value as `mask`, so a field outside of the
    /// section has this value.
    #[inline]
    pub fn get_data_field_mask<T: Primitive + Zero + Mask>(
        &self,
        offset: usize,
        mask: <T as Mask>::T,
    ) -> T {
        T::mask(self.get_data_field(offset), mask)
    }

    /// Returns the bit of the data section at `offset`, which is counted in bits; `false` if the
    /// section ends before that bit.
    #[inline]
    pub fn get_bool_field(&self, offset: usize) -> bool {
        bytes_are_below_256(self.content);
        offset < self.bits as usize && self.content[offset / 8] >> (offset % 8) & 1 == 1
    }

    /// Returns the exclusive or of the bit that `StructReader::get_bool_field` returns, and of
    /// `mask`. The caller passes the field's default value as `mask`, so a bit after the section
    /// has this value.
    #[inline]
    pub fn get_bool_field_mask(&self, offset: usize, mask: bool) -> bool {
        self.get_bool_field(offset) != mask
    }
}
