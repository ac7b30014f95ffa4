//! Lists of structs, of numbers and of texts that are read.

use crate::proved::capnp_arena_traits::arena::ReaderArena;
use crate::proved::capnp_readers::readers::{
    ListReader, PointerReader, PrimitiveElement, StructReader,
};
use crate::proved::capnp_words::error::ErrorKind;
use crate::proved::capnp_words::read_limiter::ReadLimiter;
use crate::proved::capnp_words::wire_pointer::ElementSize;
use crate::proved::typed_reading::value::is_null;
use core::marker::PhantomData;

/// A list of structs that is read.
pub struct StructsReader<'a, A: ReaderArena> {
    /// The list. Required: its elements aren't bits.
    pub reader: ListReader<'a, A>,
}

impl<'a, A: ReaderArena> Clone for StructsReader<'a, A> {
    #[inline]
    fn clone(&self) -> Self {
        *self
    }
}

impl<'a, A: ReaderArena> Copy for StructsReader<'a, A> {}

impl<'a, A: ReaderArena> StructsReader<'a, A> {
    /// The number of elements.
    #[inline]
    pub fn len(&self) -> u32 {
        self.reader.len()
    }

    /// Returns element `index`. Precondition: `index` is below the number of elements.
    ///
    /// # Preconditions
    ///
    /// ```text
    /// requires { index < self.now.reader.count }
    /// ```
    #[inline]
    pub fn get(&self, index: u32) -> StructReader<'a, A> {
        self.reader.get_struct_element(index)
    }
}

/// A list of numbers that is read, of bits, or of nothing.
pub struct NumbersReader<'a, A: ReaderArena, T: PrimitiveElement> {
    /// The list.
    pub reader: ListReader<'a, A>,
    // The type of the elements.
    of: PhantomData<T>,
}

impl<'a, A: ReaderArena, T: PrimitiveElement> Clone for NumbersReader<'a, A, T> {
    #[inline]
    fn clone(&self) -> Self {
        *self
    }
}

impl<'a, A: ReaderArena, T: PrimitiveElement> Copy for NumbersReader<'a, A, T> {}

impl<'a, A: ReaderArena, T: PrimitiveElement> NumbersReader<'a, A, T> {
    /// The number of elements.
    #[inline]
    pub fn len(&self) -> u32 {
        self.reader.len()
    }

    /// Returns element `index`: the lowest bits of its data. Precondition: `index` is below the
    /// number of elements.
    ///
    /// # Preconditions
    ///
    /// ```text
    /// requires { index < self.now.reader.count }
    /// ```
    #[inline]
    pub fn get(&self, index: u32) -> T {
        T::get(&self.reader, index)
    }
}

/// A list of texts that is read.
pub struct TextsReader<'a, A: ReaderArena> {
    /// The list. Required: its elements, if there are any, are pointers or structs with pointers.
    pub reader: ListReader<'a, A>,
}

impl<'a, A: ReaderArena> Clone for TextsReader<'a, A> {
    #[inline]
    fn clone(&self) -> Self {
        *self
    }
}

impl<'a, A: ReaderArena> Copy for TextsReader<'a, A> {}

impl<'a, A: ReaderArena> TextsReader<'a, A> {
    /// The number of elements.
    #[inline]
    pub fn len(&self) -> u32 {
        self.reader.len()
    }

    /// Returns the bytes of text `index`, without the zero byte at its end; no bytes if the element
    /// is null. Precondition: `index` is below the number of elements.
    ///
    /// Refuses like `PointerReader::get_text`.
    ///
    /// # Preconditions
    ///
    /// ```text
    /// requires { index < self.now.reader.count }
    /// ```
    #[inline]
    pub fn get(&self, index: u32, lim: &mut ReadLimiter) -> Result<&'a [u8], ErrorKind> {
        self.reader.get_pointer_element(index).get_text(lim, None)
    }
}

/// A list of data that is read.
pub struct DataListReader<'a, A: ReaderArena> {
    /// The list. Required: its elements, if there are any, are pointers or structs with pointers.
    pub reader: ListReader<'a, A>,
}

impl<'a, A: ReaderArena> Clone for DataListReader<'a, A> {
    #[inline]
    fn clone(&self) -> Self {
        *self
    }
}

impl<'a, A: ReaderArena> Copy for DataListReader<'a, A> {}

impl<'a, A: ReaderArena> DataListReader<'a, A> {
    /// The number of elements.
    #[inline]
    pub fn len(&self) -> u32 {
        self.reader.len()
    }

    /// Returns the bytes of data `index`; no bytes if the element is null. Precondition: `index` is
    /// below the number of elements.
    ///
    /// Refuses like `PointerReader::get_data`.
    ///
    /// # Preconditions
    ///
    /// ```text
    /// requires { index < self.now.reader.count }
    /// ```
    #[inline]
    pub fn get(&self, index: u32, lim: &mut ReadLimiter) -> Result<&'a [u8], ErrorKind> {
        self.reader.get_pointer_element(index).get_data(lim, None)
    }
}

/// A list of pointers that is read: of lists, of capabilities, or of anything.
pub struct PointersReader<'a, A: ReaderArena> {
    /// The list. Required: its elements aren't bits.
    pub reader: ListReader<'a, A>,
}

impl<'a, A: ReaderArena> Clone for PointersReader<'a, A> {
    #[inline]
    fn clone(&self) -> Self {
        *self
    }
}

impl<'a, A: ReaderArena> Copy for PointersReader<'a, A> {}

impl<'a, A: ReaderArena> PointersReader<'a, A> {
    /// The number of elements.
    #[inline]
    pub fn len(&self) -> u32 {
        self.reader.len()
    }

    /// Returns element `index` as a struct whose pointer 0 is the element, so that the functions of
    /// this crate read it. Precondition: `index` is below the number of elements.
    ///
    /// # Preconditions
    ///
    /// ```text
    /// requires { index < self.now.reader.count }
    /// ```
    #[inline]
    pub fn get(&self, index: u32) -> StructReader<'a, A> {
        self.reader.element(index)
    }
}

// The list that a pointer of a struct leads to; a list without elements if the pointer is null.
#[inline]
fn get_list<'a, A: ReaderArena>(
    reader: &StructReader<'a, A>,
    index: usize,
    expected: ElementSize,
    lim: &mut ReadLimiter,
) -> Result<ListReader<'a, A>, ErrorKind> {
    reader
        .get_pointer_field(index)
        .get_list(lim, expected, None)
}

/// Returns the list of structs that a pointer of a struct leads to; a list without elements if the
/// pointer is null.
///
/// Refuses like `PointerReader::get_list`.
#[inline]
pub fn get_structs<'a, A: ReaderArena>(
    reader: &StructReader<'a, A>,
    index: usize,
    lim: &mut ReadLimiter,
) -> Result<StructsReader<'a, A>, ErrorKind> {
    match get_list(reader, index, ElementSize::InlineComposite, lim) {
        Ok(reader) => Ok(StructsReader { reader }),
        Err(kind) => Err(kind),
    }
}

/// Returns the list of numbers that a pointer of a struct leads to; a list without elements if the
/// pointer is null.
///
/// Refuses like `PointerReader::get_list`.
#[inline]
pub fn get_numbers<'a, A: ReaderArena, T: PrimitiveElement>(
    reader: &StructReader<'a, A>,
    index: usize,
    lim: &mut ReadLimiter,
) -> Result<NumbersReader<'a, A, T>, ErrorKind> {
    match get_list(reader, index, T::element_size(), lim) {
        Ok(reader) => Ok(NumbersReader {
            reader,
            of: PhantomData,
        }),
        Err(kind) => Err(kind),
    }
}

/// Returns the list of texts that a pointer of a struct leads to; a list without elements if the
/// pointer is null.
///
/// Refuses like `PointerReader::get_list`.
#[inline]
pub fn get_texts<'a, A: ReaderArena>(
    reader: &StructReader<'a, A>,
    index: usize,
    lim: &mut ReadLimiter,
) -> Result<TextsReader<'a, A>, ErrorKind> {
    match get_list(reader, index, ElementSize::Pointer, lim) {
        Ok(reader) => Ok(TextsReader { reader }),
        Err(kind) => Err(kind),
    }
}

/// Returns the list of data that a pointer of a struct leads to; a list without elements if the
/// pointer is null.
///
/// Refuses like `PointerReader::get_list`.
#[inline]
pub fn get_data_list<'a, A: ReaderArena>(
    reader: &StructReader<'a, A>,
    index: usize,
    lim: &mut ReadLimiter,
) -> Result<DataListReader<'a, A>, ErrorKind> {
    match get_list(reader, index, ElementSize::Pointer, lim) {
        Ok(reader) => Ok(DataListReader { reader }),
        Err(kind) => Err(kind),
    }
}

/// Returns the list of pointers that a pointer of a struct leads to; a list without elements if the
/// pointer is null.
///
/// Refuses like `PointerReader::get_list`.
#[inline]
pub fn get_pointers<'a, A: ReaderArena>(
    reader: &StructReader<'a, A>,
    index: usize,
    lim: &mut ReadLimiter,
) -> Result<PointersReader<'a, A>, ErrorKind> {
    match get_list(reader, index, ElementSize::Pointer, lim) {
        Ok(reader) => Ok(PointersReader { reader }),
        Err(kind) => Err(kind),
    }
}

/// # Preconditions
///
/// ```text
/// requires { length default.now / 8 < 2 ^ 32 }
/// ```
// The list that a pointer of a struct leads to; that of `default` if the pointer is null.
#[inline]
fn get_list_or<'a, A: ReaderArena>(
    reader: &StructReader<'a, A>,
    index: usize,
    expected: ElementSize,
    default: &'a [u8],
    lim: &mut ReadLimiter,
) -> Result<ListReader<'a, A>, ErrorKind> {
    if is_null(reader, index) {
        return match PointerReader::from_default(default) {
            Ok(field) => field.get_list(lim, expected, None),
            Err(kind) => Err(kind),
        };
    }
    get_list(reader, index, expected, lim)
}

/// Returns the list of structs that a pointer of a struct leads to, like `get_structs`; that of
/// `default`, which is one segment with its pointer in the first word, if the pointer is null.
/// Reading the default charges nothing. Precondition: `default` has fewer than 2^32 words.
///
/// # Preconditions
///
/// ```text
/// requires { length default.now / 8 < 2 ^ 32 }
/// ```
#[inline]
pub fn get_structs_or<'a, A: ReaderArena>(
    reader: &StructReader<'a, A>,
    index: usize,
    default: &'a [u8],
    lim: &mut ReadLimiter,
) -> Result<StructsReader<'a, A>, ErrorKind> {
    match get_list_or(reader, index, ElementSize::InlineComposite, default, lim) {
        Ok(list) => Ok(StructsReader { reader: list }),
        Err(kind) => Err(kind),
    }
}

/// Returns the list of numbers that a pointer of a struct leads to, like `get_numbers`; that of
/// `default`, which is one segment with its pointer in the first word, if the pointer is null.
/// Reading the default charges nothing. Precondition: `default` has fewer than 2^32 words.
///
/// # Preconditions
///
/// ```text
/// requires { length default.now / 8 < 2 ^ 32 }
/// ```
#[inline]
pub fn get_numbers_or<'a, A: ReaderArena, T: PrimitiveElement>(
    reader: &StructReader<'a, A>,
    index: usize,
    default: &'a [u8],
    lim: &mut ReadLimiter,
) -> Result<NumbersReader<'a, A, T>, ErrorKind> {
    match get_list_or(reader, index, T::element_size(), default, lim) {
        Ok(reader) => Ok(NumbersReader {
            reader,
            of: PhantomData,
        }),
        Err(kind) => Err(kind),
    }
}

/// Returns the list of texts that a pointer of a struct leads to, like `get_texts`; that of
/// `default`, which is one segment with its pointer in the first word, if the pointer is null.
/// Reading the default charges nothing. Precondition: `default` has fewer than 2^32 words.
///
/// # Preconditions
///
/// ```text
/// requires { length default.now / 8 < 2 ^ 32 }
/// ```
#[inline]
pub fn get_texts_or<'a, A: ReaderArena>(
    reader: &StructReader<'a, A>,
    index: usize,
    default: &'a [u8],
    lim: &mut ReadLimiter,
) -> Result<TextsReader<'a, A>, ErrorKind> {
    match get_list_or(reader, index, ElementSize::Pointer, default, lim) {
        Ok(list) => Ok(TextsReader { reader: list }),
        Err(kind) => Err(kind),
    }
}

/// Returns the list of data that a pointer of a struct leads to, like `get_data_list`; that of
/// `default`, which is one segment with its pointer in the first word, if the pointer is null.
/// Reading the default charges nothing. Precondition: `default` has fewer than 2^32 words.
///
/// # Preconditions
///
/// ```text
/// requires { length default.now / 8 < 2 ^ 32 }
/// ```
#[inline]
pub fn get_data_list_or<'a, A: ReaderArena>(
    reader: &StructReader<'a, A>,
    index: usize,
    default: &'a [u8],
    lim: &mut ReadLimiter,
) -> Result<DataListReader<'a, A>, ErrorKind> {
    match get_list_or(reader, index, ElementSize::Pointer, default, lim) {
        Ok(list) => Ok(DataListReader { reader: list }),
        Err(kind) => Err(kind),
    }
}

/// Returns the list of pointers that a pointer of a struct leads to, like `get_pointers`; that of
/// `default`, which is one segment with its pointer in the first word, if the pointer is null.
/// Reading the default charges nothing. Precondition: `default` has fewer than 2^32 words.
///
/// # Preconditions
///
/// ```text
/// requires { length default.now / 8 < 2 ^ 32 }
/// ```
#[inline]
pub fn get_pointers_or<'a, A: ReaderArena>(
    reader: &StructReader<'a, A>,
    index: usize,
    default: &'a [u8],
    lim: &mut ReadLimiter,
) -> Result<PointersReader<'a, A>, ErrorKind> {
    match get_list_or(reader, index, ElementSize::Pointer, default, lim) {
        Ok(list) => Ok(PointersReader { reader: list }),
        Err(kind) => Err(kind),
    }
}
