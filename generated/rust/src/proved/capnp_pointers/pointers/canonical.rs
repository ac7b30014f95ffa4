//! The test for canonical form, in place.

use crate::proved::capnp_arena_traits::arena::ReaderArena;
use crate::proved::capnp_pointers::nesting::one_level_less;
use crate::proved::capnp_pointers::object::{Object, Place, PointerWord};
use crate::proved::capnp_pointers::pointers::canonical_answer::{
    reason_of, stop_with_fault, stop_with_refusal, Answer, Stopped, Test,
};
use crate::proved::capnp_pointers::pointers::canonical_fault::{
    CanonicalFault, CanonicalFaultReason,
};
use crate::proved::capnp_pointers::pointers::Pointer;
use crate::proved::capnp_pointers::source::Source;
use crate::proved::capnp_words::error::ErrorKind;
use crate::proved::capnp_words::lanes;
use crate::proved::capnp_words::read_limiter::ReadLimiter;
use crate::proved::capnp_words::wire_pointer::{
    data_bits_per_element, is_primitive_list, words_for_elements, ElementSize, StructSize,
    WirePointer, WirePointerKind,
};
use crate::proved::capnp_words::words::word_at;

impl<'a, A: ReaderArena> Pointer<'a, A> {
    /// Tests whether the pointer leads to a value in canonical form whose first object starts at
    /// `head`, a position in words in the pointer's segment (encoding specification,
    /// "Canonicalization"). Returns `None` if it does, otherwise where and why it doesn't.
    ///
    /// Returns `None` exactly if the words from `head` on are the canonical words of a value, and
    /// the pointer is the canonical pointer to that value. Then there are no far pointers and no
    /// capabilities, and objects are in the order of their pointers. Sections and elements are no
    /// larger than needed, and zeros follow the last element of a list. Words after the value, and
    /// other segments, don't matter. A null pointer is canonical; a place without a word isn't.
    /// After `None`, `head` is past the canonical words; otherwise it is unchanged.
    ///
    /// Tests the pointers in order. Counts in `lim` each pointer that isn't null. Charges the words
    /// that the pointer's object claims, and one word for each list element without width. Each
    /// struct and each list takes a level.
    ///
    /// Never refuses if all of this holds: for some `head`, this one or another, the test would
    /// return `None` without limits; `lim` covers these charges; and the nesting limit is at least
    /// the value's depth. Otherwise it may refuse, with the first error found. After a fault or a
    /// refusal, what was charged before stays charged.
    ///
    /// Returns the first fault found; the fault's reason holds for the word that the fault names.
    /// If both sections of a struct, or of the elements of a list, are wider than needed, the fault
    /// is the data section's.
    #[inline]
    pub fn canonical_fault(
        &self,
        lim: &mut ReadLimiter,
        head: &mut u32,
    ) -> Result<Option<CanonicalFault>, ErrorKind> {
        let mut test = Test::begin(lim);
        let (at, nesting_limit) = (self.place.at, self.nesting_limit);
        match test_place(self, at, nesting_limit, *head, &mut test) {
            Ok(end) => {
                *lim = test.lim;
                *head = end;
                Ok(None)
            }
            Err(Stopped) => {
                *lim = test.lim;
                Ok(Some(test.answer?))
            }
        }
    }

    /// Tests whether `count` consecutive pointers, from `self` on, lead to values in canonical form
    /// whose first object starts at `head`. Precondition: the segment has at least `self.place.at +
    /// count` words.
    ///
    /// If so, returns `true` and moves `head` past the values' words. Otherwise returns `false` and
    /// leaves `head`. Tests, counts, charges and refuses each pointer like `canonical_fault`.
    ///
    /// # Preconditions
    ///
    /// ```text
    /// requires inside { self.now.place.at + count
    ///     ≤ length (segment_read (reading A.ReaderArena self.now)) }
    /// ```
    #[inline]
    pub fn are_canonical(
        &self,
        count: u32,
        lim: &mut ReadLimiter,
        head: &mut u32,
    ) -> Result<bool, ErrorKind> {
        let mut test = Test::begin(lim);
        let (at, nesting_limit) = (self.place.at, self.nesting_limit);
        match test_children(self, at, count, nesting_limit, *head, &mut test) {
            Ok(behind) => {
                *lim = test.lim;
                *head = behind;
                Ok(true)
            }
            Err(Stopped) => {
                *lim = test.lim;
                test.answer?;
                Ok(false)
            }
        }
    }
}

/// Tests the pointer at position `at` of the segment of `from`. The pointer's first object has to
/// start at `head`. Returns the position after the canonical words. All objects have to be in this
/// segment, so every level is tested with the same `from`.
#[inline(always)]
fn test_place<A: ReaderArena>(
    from: &Pointer<'_, A>,
    at: u32,
    nesting_limit: i32,
    head: u32,
    test: &mut Test,
) -> Result<u32, Stopped> {
    let word = Place { at, ..from.place }.word();
    if at as usize >= whole_words(from.place.bytes) {
        return Err(stop_with_fault(
            &mut test.answer,
            from.place,
            at,
            CanonicalFaultReason::NoPointer,
        ));
    }
    if !word.is_positional() {
        return Err(stop_with_fault(
            &mut test.answer,
            from.place,
            at,
            reason_of(word),
        ));
    }
    if word.is_null() {
        return Ok(head);
    }
    match word.kind() {
        WirePointerKind::Struct => test_struct(from, at, word, nesting_limit, head, test),
        _ if is_primitive_list(word) => {
            test_near_primitive_list(from, at, word, nesting_limit, head, test)
        }
        _ => test_list(from, at, word, nesting_limit, head, test),
    }
}

/// Tests `count` consecutive pointers from position `at` on. Their first object has to start at
/// `first`. Returns the position after the canonical words.
///
/// # Preconditions
///
/// ```text
/// requires inside { at + count ≤ length (segment_read (reading A.ReaderArena from.now)) }
/// ```
#[inline]
fn test_children<A: ReaderArena>(
    from: &Pointer<'_, A>,
    at: u32,
    count: u32,
    nesting_limit: i32,
    first: u32,
    test: &mut Test,
) -> Result<u32, Stopped> {
    let mut head = first;
    for i in 0..count {
        head = test_place(from, at + i, nesting_limit, head, test)?;
    }
    Ok(head)
}

/// Tests the struct that the word at `at` describes. The struct has to start at `head`; a struct
/// without words, at `at`. Returns the position after the canonical words.
///
/// # Preconditions
///
/// ```text
/// requires tested { IsTestedWord word.0 (reading_on A.ReaderArena from.now at nesting_limit) }
/// requires some { word.0 ≢ 0 }
/// requires is_struct { kind word.0 ≡ 0 }
/// ```
#[inline(always)]
fn test_struct<A: ReaderArena>(
    from: &Pointer<'_, A>,
    at: u32,
    word: WirePointer,
    nesting_limit: i32,
    head: u32,
    test: &mut Test,
) -> Result<u32, Stopped> {
    let pointer = PointerWord {
        place: Place { at, ..from.place },
        word,
        nesting_limit,
    };
    let start = match from.source.read_near_struct(pointer, &mut test.lim) {
        Ok(start) => start,
        Err(kind) => return Err(stop_with_refusal(&mut test.answer, word, kind)),
    };
    let size = word.struct_size();
    if size.total() == 0 {
        if start == at {
            return Ok(head);
        }
        return Err(stop_with_fault(
            &mut test.answer,
            from.place,
            at,
            CanonicalFaultReason::EmptyStructPlace,
        ));
    }
    if start != head {
        return Err(stop_with_fault(
            &mut test.answer,
            from.place,
            at,
            CanonicalFaultReason::ObjectPlace,
        ));
    }
    test_sections(from, start, size, one_level_less(nesting_limit), test)
}

/// Tests the sections of a struct that starts at `start`. The first object that the struct's
/// pointers lead to has to start right after the struct.
///
/// # Preconditions
///
/// ```text
/// requires inside { start + (size.data_words + size.pointers)
///     ≤ length (segment_read (reading A.ReaderArena from.now)) }
/// ```
#[inline(always)]
fn test_sections<A: ReaderArena>(
    from: &Pointer<'_, A>,
    start: u32,
    size: StructSize,
    nesting_limit: i32,
    test: &mut Test,
) -> Result<u32, Stopped> {
    let data_words = u32::from(size.data_words);
    let pointers = u32::from(size.pointers);
    let first = start + data_words;
    let behind = first + pointers;
    let end = test_element_pointers(from, first, pointers, nesting_limit, behind, test)?;
    if !is_last_word_used(from.place, start, data_words) {
        return Err(stop_with_fault(
            &mut test.answer,
            from.place,
            first - 1,
            CanonicalFaultReason::DataSection,
        ));
    }
    if !is_last_word_used(from.place, first, pointers) {
        return Err(stop_with_fault(
            &mut test.answer,
            from.place,
            behind - 1,
            CanonicalFaultReason::PointerSection,
        ));
    }
    Ok(end)
}

/// Tests the list of bits or numbers that the word at `at` describes, like `test_list`.
///
/// # Preconditions
///
/// ```text
/// requires tested { IsTestedWord word.0 (reading_on A.ReaderArena from.now at nesting_limit) }
/// requires is_list { kind word.0 ≡ 1 }
/// requires of_bits { (0 < element_size word.0) × (element_size word.0 ≤ 5) }
/// ```
#[inline(always)]
fn test_near_primitive_list<A: ReaderArena>(
    from: &Pointer<'_, A>,
    at: u32,
    word: WirePointer,
    nesting_limit: i32,
    head: u32,
    test: &mut Test,
) -> Result<u32, Stopped> {
    let size = word.list_element_size();
    let count = word.list_element_count();
    let pointer = PointerWord {
        place: Place { at, ..from.place },
        word,
        nesting_limit,
    };
    let words = words_for_elements(size, count);
    let start = match from
        .source
        .read_near_primitive_list(pointer, words, &mut test.lim)
    {
        Ok(start) => start,
        Err(kind) => return Err(stop_with_refusal(&mut test.answer, word, kind)),
    };
    if start != head {
        return Err(stop_with_fault(
            &mut test.answer,
            from.place,
            at,
            CanonicalFaultReason::ObjectPlace,
        ));
    }
    let first = Place {
        at: start,
        ..from.place
    };
    test_primitive_list(first, size, count, &mut test.answer)
}

/// Tests the list that the word at `at` describes.
///
/// # Preconditions
///
/// ```text
/// requires tested { IsTestedWord word.0 (reading_on A.ReaderArena from.now at nesting_limit) }
/// requires is_list { kind word.0 ≡ 1 }
/// ```
#[inline(never)]
fn test_list<A: ReaderArena>(
    from: &Pointer<'_, A>,
    at: u32,
    word: WirePointer,
    nesting_limit: i32,
    head: u32,
    test: &mut Test,
) -> Result<u32, Stopped> {
    let place = Place { at, ..from.place };
    let object = match from.source.read_object(place, nesting_limit, &mut test.lim) {
        Ok(object) => object,
        Err(kind) => return Err(stop_with_refusal(&mut test.answer, word, kind)),
    };
    if !starts_canonically(object, at, head) {
        return Err(stop_with_fault(
            &mut test.answer,
            from.place,
            at,
            CanonicalFaultReason::ObjectPlace,
        ));
    }
    match object {
        Object::Flat { start, size, count } => {
            test_primitive_list(start, size, count, &mut test.answer)
        }
        Object::Pointers { start, count } => {
            let end = start.at + count;
            test_children(
                from,
                start.at,
                count,
                one_level_less(nesting_limit),
                end,
                test,
            )
        }
        Object::Structs { start, size, count } => {
            let claimed = word.list_inline_composite_word_count();
            let inner = one_level_less(nesting_limit);
            test_struct_list(from, start.at, size, count, inner, claimed, test)
        }
        _ => Err(stop_with_fault(
            &mut test.answer,
            from.place,
            at,
            CanonicalFaultReason::ObjectPlace,
        )),
    }
}

/// Tests the elements, from position `start` on, of a list of structs whose pointer claims
/// `claimed` words for them.
///
/// # Preconditions
///
/// ```text
/// requires inside { start + claimed ≤ length (segment_read (reading A.ReaderArena from.now)) }
/// requires tagged { 0 < start }
/// ```
#[inline]
fn test_struct_list<A: ReaderArena>(
    from: &Pointer<'_, A>,
    start: u32,
    size: StructSize,
    count: u32,
    nesting_limit: i32,
    claimed: u32,
    test: &mut Test,
) -> Result<u32, Stopped> {
    if u64::from(count) * u64::from(size.total()) != u64::from(claimed) {
        return Err(stop_with_fault(
            &mut test.answer,
            from.place,
            start - 1,
            CanonicalFaultReason::ElementWords,
        ));
    }
    if size.total() == 0 {
        return Ok(start);
    }
    test_elements(from, start, size, count, nesting_limit, test)
}

/// Tests `count` consecutive elements of a list of structs from `start` on. The first object that
/// their pointers lead to has to start right after the elements.
///
/// # Preconditions
///
/// ```text
/// requires inside { start + count * (size.data_words + size.pointers)
///     ≤ length (segment_read (reading A.ReaderArena from.now)) }
/// requires tagged { 0 < start }
/// ```
fn test_elements<A: ReaderArena>(
    from: &Pointer<'_, A>,
    start: u32,
    size: StructSize,
    count: u32,
    nesting_limit: i32,
    test: &mut Test,
) -> Result<u32, Stopped> {
    let data_words = u32::from(size.data_words);
    let pointers = u32::from(size.pointers);
    let width = data_words + pointers;
    let mut head = start + count * width;
    let mut is_data_used = data_words == 0;
    let mut are_pointers_used = pointers == 0;
    for i in 0..count {
        let at = start + i * width;
        let first = at + data_words;
        head = test_element_pointers(from, first, pointers, nesting_limit, head, test)?;
        is_data_used = is_data_used || is_last_word_used(from.place, at, data_words);
        are_pointers_used = are_pointers_used || is_last_word_used(from.place, first, pointers);
    }
    if !is_data_used {
        return Err(stop_with_fault(
            &mut test.answer,
            from.place,
            start - 1,
            CanonicalFaultReason::ElementData,
        ));
    }
    if !are_pointers_used {
        return Err(stop_with_fault(
            &mut test.answer,
            from.place,
            start - 1,
            CanonicalFaultReason::ElementPointers,
        ));
    }
    Ok(head)
}

/// Tests `count` consecutive pointers of a struct from position `at` on, like `test_children`, but
/// calls nothing if `count` is 0.
///
/// # Preconditions
///
/// ```text
/// requires inside { at + count ≤ length (segment_read (reading A.ReaderArena from.now)) }
/// ```
#[inline(always)]
fn test_element_pointers<A: ReaderArena>(
    from: &Pointer<'_, A>,
    at: u32,
    count: u32,
    nesting_limit: i32,
    first: u32,
    test: &mut Test,
) -> Result<u32, Stopped> {
    if count == 0 {
        return Ok(first);
    }
    test_children(from, at, count, nesting_limit, first, test)
}

/// Tests a list of `count` numbers that starts at `start`: the bits after the last number, up to
/// the end of its word, have to be zero. Returns the position after the list.
///
/// # Preconditions
///
/// ```text
/// requires inside { start.at + words_for (size_number size) count
///     ≤ length (words_of start.bytes.now) }
/// requires small { length (words_of start.bytes.now) < 2 ^ 32 }
/// requires is_flat { size_number size ≤ 5 }
/// requires few { count < 2 ^ 29 }
/// ```
#[inline(always)]
fn test_primitive_list(
    start: Place,
    size: ElementSize,
    count: u32,
    answer: &mut Answer,
) -> Result<u32, Stopped> {
    match padded_end(start.bytes, start.at, size, count) {
        Ok(end) => Ok(end),
        Err(word) => Err(stop_with_fault(
            answer,
            start,
            word,
            CanonicalFaultReason::Padding,
        )),
    }
}

/// Returns the position after a list of `count` numbers that starts at `start`. If the bits after
/// the last number aren't all zero, returns, as an error, the position of the word with these bits.
///
/// # Preconditions
///
/// ```text
/// requires inside { start + words_for (size_number size) count ≤ length (words_of bytes.now) }
/// requires small { length (words_of bytes.now) < 2 ^ 32 }
/// requires is_flat { size_number size ≤ 5 }
/// requires few { count < 2 ^ 29 }
/// ```
#[inline(always)]
fn padded_end(bytes: &[u8], start: u32, size: ElementSize, count: u32) -> Result<u32, u32> {
    let bits = u64::from(count) * u64::from(data_bits_per_element(size));
    let end = start + (bits / 64) as u32;
    let rest = bits % 64;
    if rest == 0 {
        return Ok(end);
    }
    if !is_zero_from(word_at(bytes, end as usize), rest) {
        return Err(end);
    }
    Ok(end + 1)
}

/// Whether the bits of a word from `position` on are zero.
///
/// # Preconditions
///
/// ```text
/// requires { position < 64 }
/// ```
#[inline(always)]
fn is_zero_from(word: u64, position: u64) -> bool {
    lanes::is_zero((word >> position).to_le_bytes().as_slice())
}

/// The number of whole words in `bytes`, each a word of 64 bits.
#[inline]
fn whole_words(bytes: &[u8]) -> usize {
    bytes.len() / 8
}

/// Whether the last of the `count` words from position `at` on isn't zero, or `count` is 0.
/// Precondition: `at + count` is below 2^32.
///
/// # Preconditions
///
/// ```text
/// requires { at + count < 2 ^ 32 }
/// ```
#[inline]
pub fn is_last_word_used(place: Place, at: u32, count: u32) -> bool {
    if count == 0 {
        return true;
    }
    let last = Place {
        at: at + count - 1,
        ..place
    };
    !last.word().is_null()
}

/// Whether `object`, to which the pointer at `at` leads, starts where canonical form requires: a
/// struct without words at `at` itself, any other object at `head`. A list of structs starts with
/// its tag.
#[inline]
fn starts_canonically(object: Object, at: u32, head: u32) -> bool {
    match object {
        Object::Null => true,
        Object::Capability(_) => false,
        Object::Struct { start, size } if size.total() == 0 => start.at == at,
        Object::Struct { start, .. } => start.at == head,
        Object::Flat { start, .. } => start.at == head,
        Object::Pointers { start, .. } => start.at == head,
        Object::Structs { start, .. } => u64::from(start.at) == u64::from(head) + 1,
    }
}
