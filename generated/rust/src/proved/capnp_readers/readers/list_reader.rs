//! Lists of a message, read in place.

use crate::proved::capnp_arena_traits::arena::ReaderArena;
use crate::proved::capnp_pointers::object::Place;
use crate::proved::capnp_pointers::source::Source;
use crate::proved::capnp_readers::readers::{
    bytes_are_below_256, PointerReader, StructReader, NO_SECTIONS,
};
use crate::proved::capnp_words::primitive::Primitive;
use crate::proved::capnp_words::wire_pointer::{
    data_bits_per_element, pointers_per_element, ElementSize, StructSize,
};

/// The place of a list in an arena.
///
/// The place is *inside* a message if `byte` is a multiple of 8, and its segment exists and has all
/// elements, in allocated words if the message is being built.
#[derive(Clone, Copy, Debug)]
pub struct ListPlace {
    /// The number of the segment.
    pub segment: u32,
    /// Where the elements start, in bytes from the start of the segment, a multiple of 8. In a list
    /// of structs, the elements start after the tag.
    pub byte: u64,
    /// The element size.
    pub size: ElementSize,
    /// The numbers of data words and pointers of each element; only used for a list of structs.
    pub struct_size: StructSize,
    /// The number of elements.
    pub count: u32,
}

/// A list being read, with the words of its elements.
///
/// Required of the fields: `start.bytes` has exactly the whole words of segment `start.segment` of
/// `source`, fewer than 2^32; `content` is the part of `start.bytes` from word `start.at` on that
/// has exactly the words of the elements; unless these are structs, `struct_size` is 0 and 0.
pub struct ListReader<'a, A: ReaderArena> {
    /// What the list is read from.
    pub source: Source<'a, A>,
    /// The whole words that hold the elements, without the tag of a list of structs.
    pub content: &'a [u8],
    /// Where the elements start.
    pub start: Place<'a>,
    /// The element size.
    pub element_size: ElementSize,
    /// The numbers of data words and pointers of each element of a list of structs; 0 and 0 for any
    /// other list.
    pub struct_size: StructSize,
    /// The number of elements.
    pub count: u32,
    /// The nesting limit for the list's pointers: how many levels of structs and lists may be
    /// entered from them; none if it is below 1.
    pub nesting_limit: i32,
}

impl<'a, A: ReaderArena> Clone for ListReader<'a, A> {
    #[inline]
    fn clone(&self) -> Self {
        *self
    }
}

impl<'a, A: ReaderArena> Copy for ListReader<'a, A> {}

// The sections of an element that is a pointer.
const ONE_POINTER: StructSize = StructSize {
    data_words: 0,
    pointers: 1,
};

/// The number of words that `count` elements take.
#[inline]
fn words_of_elements(size: ElementSize, struct_size: StructSize, count: u32) -> usize {
    match size {
        ElementSize::InlineComposite => count as usize * struct_size.total() as usize,
        ElementSize::Pointer => count as usize,
        _ => (count as usize * data_bits_per_element(size) as usize + 63) / 64,
    }
}

impl<'a, A: ReaderArena> ListReader<'a, A> {
    /// Returns a list of void without elements, which isn't in any message. Its nesting limit is
    /// `i32::MAX`.
    #[inline]
    pub fn new_default() -> Self {
        ListReader {
            source: Source::Nothing,
            content: &[],
            start: Place {
                segment: 0,
                bytes: &[],
                at: 0,
            },
            element_size: ElementSize::Void,
            struct_size: StructSize {
                data_words: 0,
                pointers: 0,
            },
            count: 0,
            nesting_limit: i32::MAX,
        }
    }

    /// Returns a reader of the list at `place` of `arena`. Preconditions: `place.byte` is a
    /// multiple of 8; the elements are inside segment `place.segment` of `arena`.
    ///
    /// # Preconditions
    ///
    /// ```text
    /// requires { IsListPlace (message (A.segments arena.now)) place }
    /// ```
    #[inline]
    pub fn at(arena: &'a A, place: ListPlace, nesting_limit: i32) -> Self {
        let Ok(bytes) = arena.get_segment(place.segment) else {
            return Self::new_default();
        };
        let struct_size = match place.size {
            ElementSize::InlineComposite => place.struct_size,
            _ => NO_SECTIONS,
        };
        let start = Place {
            segment: u64::from(place.segment),
            bytes,
            at: (place.byte / 8) as u32,
        };
        Self::starting_at(
            Source::Arena(arena),
            start,
            place.size,
            struct_size,
            place.count,
            nesting_limit,
        )
    }

    /// # Preconditions
    ///
    /// ```text
    /// requires held { IsHeld (source_start A.ReaderArena source).segments start }
    /// requires room { HasWordsFrom (source_start A.ReaderArena source).segments start
    ///     (elements_words element_size count (struct_size.data_words + struct_size.pointers)) }
    /// requires sized { size_number element_size < 7
    ///     → (struct_size.data_words ≡ 0) × (struct_size.pointers ≡ 0) }
    /// ```
    // The list whose elements start at a place.
    #[inline(always)]
    pub(in crate::proved::capnp_readers) fn starting_at(
        source: Source<'a, A>,
        start: Place<'a>,
        element_size: ElementSize,
        struct_size: StructSize,
        count: u32,
        nesting_limit: i32,
    ) -> Self {
        let first = 8 * start.at as usize;
        let length = 8 * words_of_elements(element_size, struct_size, count);
        ListReader {
            source,
            content: &start.bytes[first..first + length],
            start,
            element_size,
            struct_size,
            count,
            nesting_limit,
        }
    }

    /// The number of elements.
    #[inline]
    pub fn len(&self) -> u32 {
        self.count
    }

    /// Whether there are no elements.
    #[inline]
    pub fn is_empty(&self) -> bool {
        self.count == 0
    }

    /// The element size.
    #[inline]
    pub fn get_element_size(&self) -> ElementSize {
        self.element_size
    }

    /// The numbers of data words and pointers of each element of a list of structs; 0 and 0 for any
    /// other list.
    #[inline]
    pub fn struct_size(&self) -> StructSize {
        self.struct_size
    }

    /// The whole words that hold the elements, without the tag of a list of structs.
    #[inline]
    pub fn data_bytes(&self) -> &'a [u8] {
        self.content
    }

    /// The number of data bits of each element: the size of the data section for structs, and 0 for
    /// pointers.
    #[inline]
    pub fn element_data_bits(&self) -> u32 {
        data_bits_per_element(self.element_size) + 64 * u32::from(self.struct_size.data_words)
    }

    /// Returns the lowest 64 bits of the data of element `index`, as a number: the value of a
    /// number or a bit, or the first data word of a struct; 0 if the element has no data.
    /// Precondition: `index` is below the number of elements.
    ///
    /// # Preconditions
    ///
    /// ```text
    /// requires { index < self.now.count }
    /// ```
    #[inline]
    pub fn element_data(&self, index: u32) -> u64 {
        bytes_are_below_256(self.content);
        self.lowest_data(index)
    }

    /// # Preconditions
    ///
    /// ```text
    /// requires { index < self.now.count }
    /// ```
    // The lowest 64 bits of the data of element `index`, as a number.
    #[inline(always)]
    fn lowest_data(&self, index: u32) -> u64 {
        match self.element_size {
            ElementSize::Bit => u64::from(self.bit_at(index)),
            ElementSize::Byte => u64::from(self.number_at::<u8>(index)),
            ElementSize::TwoBytes => u64::from(self.number_at::<u16>(index)),
            ElementSize::FourBytes => u64::from(self.number_at::<u32>(index)),
            ElementSize::EightBytes => self.number_at(index),
            ElementSize::InlineComposite if self.struct_size.data_words > 0 => {
                self.number_at(index)
            }
            _ => 0,
        }
    }

    // The number of bits from one element to the next.
    #[inline]
    fn step_bits(&self) -> u32 {
        // A sum without a branch: a loop over the elements computes it once.
        let StructSize {
            data_words,
            pointers,
        } = self.struct_size;
        let total = u32::from(data_words) + u32::from(pointers);
        let is_struct = u32::from(self.element_size == ElementSize::InlineComposite);
        let words = pointers_per_element(self.element_size) + is_struct * total;
        data_bits_per_element(self.element_size) + 64 * words
    }

    /// # Preconditions
    ///
    /// ```text
    /// requires range { index < self.now.count }
    /// requires wide { 8 * T.BYTES ≤ data_bits self.now.element_size self.now.struct_size }
    /// ```
    // The number in the lowest bytes of an element's data.
    #[inline]
    pub(in crate::proved::capnp_readers) fn number_at<T: Primitive>(&self, index: u32) -> T {
        bytes_are_below_256(self.content);
        let n = T::BYTES;
        let step = self.step_bits() / 8;
        let start = index as usize * step as usize;
        T::load(&self.content[start..start + n])
    }

    /// # Preconditions
    ///
    /// ```text
    /// requires range { index < self.now.count }
    /// requires wide { 1 ≤ data_bits self.now.element_size self.now.struct_size }
    /// ```
    // The lowest bit of an element's data.
    #[inline]
    pub(in crate::proved::capnp_readers) fn bit_at(&self, index: u32) -> bool {
        bytes_are_below_256(self.content);
        let at = index as usize * self.step_bits() as usize;
        self.content[at / 8] >> (at % 8) & 1 == 1
    }

    /// Returns a reader of the pointer of element `index`: of the element itself if the elements
    /// are pointers, or of its first pointer if they are structs. Preconditions: the elements are
    /// pointers, or structs with at least one pointer; `index` is below the number of elements.
    ///
    /// # Preconditions
    ///
    /// ```text
    /// requires range { index < self.count }
    /// requires pointers { HoldsPointer self.element_size self.struct_size }
    /// ```
    #[inline]
    pub fn get_pointer_element(self, index: u32) -> PointerReader<'a, A> {
        let behind = match self.element_size {
            ElementSize::InlineComposite => {
                index * self.struct_size.total() + u32::from(self.struct_size.data_words)
            }
            _ => index,
        };
        PointerReader {
            source: self.source,
            place: Place {
                at: self.start.at + behind,
                ..self.start
            },
            nesting_limit: self.nesting_limit,
        }
    }

    /// Returns element `index` as a struct, whose nesting limit is the list's own. A number becomes
    /// a struct whose data section is that number; a pointer becomes a struct with one pointer.
    /// Preconditions: the elements aren't bits; `index` is below the number of elements.
    ///
    /// # Preconditions
    ///
    /// ```text
    /// requires range { index < self.now.count }
    /// requires size { size_number self.now.element_size ≢ 1 }
    /// ```
    #[inline]
    pub fn get_struct_element(&self, index: u32) -> StructReader<'a, A> {
        bytes_are_below_256(self.content);
        self.element_with_limit(index, self.nesting_limit)
    }

    /// The same call as `ListReader::get_struct_element`. Preconditions: the elements aren't bits;
    /// `index` is below the number of elements.
    ///
    /// # Preconditions
    ///
    /// ```text
    /// requires range { index < self.now.count }
    /// requires size { size_number self.now.element_size ≢ 1 }
    /// ```
    #[inline]
    pub fn element(&self, index: u32) -> StructReader<'a, A> {
        self.get_struct_element(index)
    }

    /// # Preconditions
    ///
    /// ```text
    /// requires range { index < self.now.count }
    /// requires size { size_number self.now.element_size ≢ 1 }
    /// ```
    #[inline]
    fn element_with_limit(&self, index: u32, nesting_limit: i32) -> StructReader<'a, A> {
        match self.element_size {
            ElementSize::InlineComposite => StructReader::starting_at(
                self.source,
                Place {
                    at: self.start.at + index * self.struct_size.total(),
                    ..self.start
                },
                self.struct_size,
                nesting_limit,
            ),
            _ => self.non_struct_element(index, nesting_limit),
        }
    }

    /// # Preconditions
    ///
    /// ```text
    /// requires range { index < self.now.count }
    /// requires size { size_number self.now.element_size ≢ 1 }
    /// requires plain { size_number self.now.element_size ≤ 6 }
    /// ```
    // An element that isn't a struct, as a struct of its bits or of one pointer. Not inlined, so
    // that a loop over structs makes one test for each.
    #[cold]
    #[inline(never)]
    fn non_struct_element(&self, index: u32, nesting_limit: i32) -> StructReader<'a, A> {
        match self.element_size {
            ElementSize::Pointer => StructReader::starting_at(
                self.source,
                Place {
                    at: self.start.at + index,
                    ..self.start
                },
                ONE_POINTER,
                nesting_limit,
            ),
            _ => self.number_element(index, nesting_limit),
        }
    }

    /// # Preconditions
    ///
    /// ```text
    /// requires range { index < self.now.count }
    /// requires whole { size_number self.now.element_size ≢ 1 }
    /// requires flat { size_number self.now.element_size ≤ 5 }
    /// ```
    // An element that is a number, as a struct of its bits.
    #[inline]
    fn number_element(&self, index: u32, nesting_limit: i32) -> StructReader<'a, A> {
        let bits = data_bits_per_element(self.element_size);
        let length = bits as usize / 8;
        let first = index as usize * length;
        StructReader {
            source: self.source,
            content: &self.content[first..first + length],
            byte: 8 * u64::from(self.start.at) + first as u64,
            bits,
            pointers: self.start,
            pointer_count: 0,
            nesting_limit,
        }
    }
}
