//! Counts the words and capabilities of a value, without reading its data.

use crate::proved::capnp_arena_traits::arena::ReaderArena;
use crate::proved::capnp_pointers::object::{rows_of_object, Object, Place, PointerWord};
use crate::proved::capnp_pointers::pointers::walk::{Stopped, Walk};
use crate::proved::capnp_pointers::pointers::Pointer;
use crate::proved::capnp_words::error::ErrorKind;
use crate::proved::capnp_words::read_limiter::ReadLimiter;
use crate::proved::capnp_words::wire_pointer::{
    is_primitive_list, words_for_elements, WirePointer, WirePointerKind,
};

/// The size of a value: of its object and all objects below it, without landing pads.
#[derive(Clone, Copy, Debug, PartialEq, Eq)]
pub struct MessageSize {
    /// The number of words.
    pub word_count: u64,
    /// The number of capabilities.
    pub cap_count: u32,
}

impl<'a, A: ReaderArena> Pointer<'a, A> {
    /// Counts the words and the capabilities of the value that the pointer leads to, with all
    /// objects below it and without landing pads (encoding specification, "Structs" and "Lists").
    ///
    /// A null pointer has no words and no capabilities. A list of structs counts its tag and its
    /// elements, even if its pointer claims more words. Each pointer that isn't null takes a level,
    /// even one to a capability. Counts each such pointer in `lim` as followed, and charges the
    /// words of its landing pads and the words that its object claims, each before it is read. A
    /// list of void may be outside of its segment, and elements without width aren't charged; so
    /// the call can return a size even if reading the value would be refused. If the pointer is in
    /// a default value, or in an arena that doesn't charge, such as one being built, `lim` is
    /// unchanged.
    ///
    /// Refuses with the first fault found: `MessageIsTooDeeplyNested`, `InvalidSegmentId`,
    /// `MessageContainsOutOfBoundsPointer`, `MalformedDoubleFarPointer`, `UnknownPointerType`,
    /// `CantHandleNonStructInlineComposite`, `InlineCompositeListsElementsOverrunItsWordCount`,
    /// `TriedToReadFromNullArena` for a far pointer in a default value, `ReadLimitExceeded`, or
    /// `MessageTooLarge(usize::MAX)` if the number of words doesn't fit 64 bits, or that of
    /// capabilities doesn't fit 32 bits. What was charged before stays charged.
    #[inline]
    pub fn total_size(&self, lim: &mut ReadLimiter) -> Result<MessageSize, ErrorKind> {
        let mut walk = Walk::begin(0, lim);
        match add_object(self, self.place.at, self.nesting_limit, &mut walk) {
            Ok(()) => {
                *lim = walk.lim;
                Ok(walk.sums.size)
            }
            Err(Stopped) => {
                *lim = walk.lim;
                Err(walk.sums.refusal)
            }
        }
    }

    /// Counts the size of an object and of all objects below it. The object has `own_words` words,
    /// and its `count` consecutive pointers start with `self`. Precondition: the segment has at
    /// least `self.place.at + count` words.
    ///
    /// The sum of words starts at `own_words`, which aren't charged; the object itself takes no
    /// level. Counts, charges and refuses each of its pointers like `total_size`, in order.
    ///
    /// # Preconditions
    ///
    /// ```text
    /// requires inside { self.now.place.at + count
    ///     ≤ length (segment_read (reading A.ReaderArena self.now)) }
    /// ```
    #[inline]
    pub fn total_size_of(
        &self,
        count: u32,
        own_words: u64,
        lim: &mut ReadLimiter,
    ) -> Result<MessageSize, ErrorKind> {
        let mut walk = Walk::begin(own_words, lim);
        match add_pointers(self, self.place.at, count, self.nesting_limit, &mut walk) {
            Ok(()) => {
                *lim = walk.lim;
                Ok(walk.sums.size)
            }
            Err(Stopped) => {
                *lim = walk.lim;
                Err(walk.sums.refusal)
            }
        }
    }
}

/// # Preconditions
///
/// ```text
/// requires inside { at + count ≤ length (segment_read (reading A.ReaderArena from.now)) }
/// ```
// Adds the sizes of `count` consecutive pointers from position `at` on. Enters a struct in the same
// segment with its position only, and the same reader of the segment.
#[inline(never)]
fn add_pointers<A: ReaderArena>(
    from: &Pointer<'_, A>,
    at: u32,
    count: u32,
    nesting_limit: i32,
    walk: &mut Walk,
) -> Result<(), Stopped> {
    add_element_pointers(from, at, count, nesting_limit, walk)
}

/// # Preconditions
///
/// ```text
/// requires inside { at + count ≤ length (segment_read (reading A.ReaderArena from.now)) }
/// ```
// Like `add_pointers`, but inlined: the loop over a list's elements calls nothing for pointers to
// bits or bytes.
#[inline(always)]
fn add_element_pointers<A: ReaderArena>(
    from: &Pointer<'_, A>,
    at: u32,
    count: u32,
    nesting_limit: i32,
    walk: &mut Walk,
) -> Result<(), Stopped> {
    for i in 0..count {
        add_pointer(from, at + i, nesting_limit, walk)?;
    }
    Ok(())
}

// Adds the size of what the pointer at `at` leads to.
#[inline(always)]
fn add_pointer<A: ReaderArena>(
    from: &Pointer<'_, A>,
    at: u32,
    nesting_limit: i32,
    walk: &mut Walk,
) -> Result<(), Stopped> {
    let word = Place { at, ..from.place }.word();
    if word.is_null() {
        return Ok(());
    }
    match word.kind() {
        WirePointerKind::Struct => add_struct(from, at, word, nesting_limit, walk),
        WirePointerKind::List if is_primitive_list(word) => {
            add_primitive_list(from, at, word, nesting_limit, walk)
        }
        _ => add_object(from, at, nesting_limit, walk),
    }
}

/// # Preconditions
///
/// ```text
/// requires word { IsWordAt word.0 (reading_on A.ReaderArena from.now at nesting_limit) }
/// requires is_struct { kind word.0 ≡ 0 }
/// ```
// Adds the size of the struct that the word at `at` describes.
#[inline(always)]
fn add_struct<A: ReaderArena>(
    from: &Pointer<'_, A>,
    at: u32,
    word: WirePointer,
    nesting_limit: i32,
    walk: &mut Walk,
) -> Result<(), Stopped> {
    let pointer = PointerWord {
        place: Place { at, ..from.place },
        word,
        nesting_limit,
    };
    let words = word.struct_word_size();
    let start = match from.source.measure_near(pointer, words, &mut walk.lim) {
        Ok(start) => start,
        Err(k) => {
            walk.sums.refusal = k;
            return Err(Stopped);
        }
    };
    walk.sums.add_words(u64::from(words))?;
    let size = word.struct_size();
    let first = start + u32::from(size.data_words);
    let count = u32::from(size.pointers);
    if count == 0 {
        return Ok(());
    }
    add_pointers(from, first, count, nesting_limit - 1, walk)
}

/// # Preconditions
///
/// ```text
/// requires word { IsWordAt word.0 (reading_on A.ReaderArena from.now at nesting_limit) }
/// requires is_list { kind word.0 ≡ 1 }
/// requires of_bits { (0 < element_size word.0) × (element_size word.0 ≤ 5) }
/// ```
// Adds the size of the list of bits or bytes that the word at `at` describes.
#[inline(always)]
fn add_primitive_list<A: ReaderArena>(
    from: &Pointer<'_, A>,
    at: u32,
    word: WirePointer,
    nesting_limit: i32,
    walk: &mut Walk,
) -> Result<(), Stopped> {
    let pointer = PointerWord {
        place: Place { at, ..from.place },
        word,
        nesting_limit,
    };
    let words = words_for_elements(word.list_element_size(), word.list_element_count());
    match from.source.measure_near(pointer, words, &mut walk.lim) {
        Ok(_) => walk.sums.add_words(u64::from(words)),
        Err(k) => {
            walk.sums.refusal = k;
            Err(Stopped)
        }
    }
}

// Adds the size of what the pointer at `at` leads to, near or far, and of any kind. Apart from the
// loop over pointers, so that a level in the same segment takes little stack.
#[inline(never)]
fn add_object<A: ReaderArena>(
    from: &Pointer<'_, A>,
    at: u32,
    nesting_limit: i32,
    walk: &mut Walk,
) -> Result<(), Stopped> {
    let place = Place { at, ..from.place };
    let object = match from
        .source
        .measure_object(place, nesting_limit, &mut walk.lim)
    {
        Ok(object) => object,
        Err(k) => {
            walk.sums.refusal = k;
            return Err(Stopped);
        }
    };
    walk.sums.add_words(words_of_object(object))?;
    if let Object::Capability(_) = object {
        return walk.sums.add_capability();
    }
    let Some(rows) = rows_of_object(object) else {
        return Ok(());
    };
    let inner = Pointer {
        source: from.source,
        place: rows.start,
        nesting_limit: nesting_limit - 1,
    };
    add_elements(&inner, rows.data_words, rows.pointers, rows.count, walk)
}

/// # Preconditions
///
/// ```text
/// requires inside { from.now.place.at + count * (data_words + pointers)
///     ≤ length (segment_read (reading A.ReaderArena from.now)) }
/// ```
// Adds the sizes of the pointers of `count` consecutive elements, each of `data_words` data words
// and `pointers` pointers.
#[inline]
fn add_elements<A: ReaderArena>(
    from: &Pointer<'_, A>,
    data_words: u32,
    pointers: u32,
    count: u32,
    walk: &mut Walk,
) -> Result<(), Stopped> {
    if pointers == 0 {
        return Ok(());
    }
    let width = u64::from(data_words) + u64::from(pointers);
    for i in 0..count {
        let at = u64::from(from.place.at) + u64::from(i) * width + u64::from(data_words);
        add_element_pointers(from, at as u32, pointers, from.nesting_limit, walk)?;
    }
    Ok(())
}

/// # Preconditions
///
/// ```text
/// requires { IsFew object }
/// ```
// The number of words of its own that an object counts; for a list of structs, its tag and its
// elements.
#[inline]
fn words_of_object(object: Object) -> u64 {
    match object {
        Object::Null | Object::Capability(_) => 0,
        Object::Flat { size, count, .. } => u64::from(words_for_elements(size, count)),
        Object::Struct { size, .. } => u64::from(size.total()),
        Object::Pointers { count, .. } => u64::from(count),
        Object::Structs { size, count, .. } => 1 + u64::from(count) * u64::from(size.total()),
    }
}
