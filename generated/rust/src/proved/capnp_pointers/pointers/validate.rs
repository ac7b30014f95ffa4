//! Finds out whether a value can be read: reads all of its objects, but not their data.

use crate::proved::capnp_arena_traits::arena::ReaderArena;
use crate::proved::capnp_pointers::nesting::{levels_left, one_level_less};
use crate::proved::capnp_pointers::object::{rows_of_object, Object, Place, PointerWord};
use crate::proved::capnp_pointers::pointers::walk::Stopped;
use crate::proved::capnp_pointers::pointers::Pointer;
use crate::proved::capnp_words::error::ErrorKind;
use crate::proved::capnp_words::read_limiter::ReadLimiter;
use crate::proved::capnp_words::wire_pointer::{
    is_primitive_list, words_for_elements, WirePointer, WirePointerKind,
};
use core::mem;

/// How deep a value is, and how much it holds. A part that several pointers lead to counts for each
/// of them.
#[derive(Clone, Copy, Debug, PartialEq, Eq)]
pub struct Extent {
    /// The number of structs and lists that are nested in each other, at most: the least nesting
    /// limit within which the value can be read.
    pub depth: u32,
    /// The number of words of all objects, without landing pads; `u64::MAX` if there are more.
    pub words: u64,
    /// The number of capabilities; `u64::MAX` if there are more.
    pub capabilities: u64,
}

// What a walk has found so far.
#[derive(Clone, Copy)]
struct Tally {
    // The fewest levels that were left inside of a struct or a list.
    lowest: u32,
    // The number of words, at most `u64::MAX`.
    words: u64,
    // The number of capabilities, at most `u64::MAX`.
    capabilities: u64,
}

// A walk over the objects of a value: what it has found, and the limiter that it charges.
struct Validation {
    // What it has found so far.
    tally: Tally,
    // Why the walk stopped. Before that, it has no meaning.
    refusal: ErrorKind,
    // The limiter, moved here during the walk.
    lim: ReadLimiter,
}

impl Tally {
    // Adds the words of an object that was entered, with `levels` levels left inside of it.
    #[inline]
    fn add_words(&mut self, levels: u32, words: u32) {
        self.lowest = self.lowest.min(levels);
        self.words = self.words.saturating_add(u64::from(words));
    }

    /// # Preconditions
    ///
    /// ```text
    /// requires { IsFew object }
    /// ```
    // Adds an object, without its children. If it is a struct or a list, `levels` levels are left
    // inside of it.
    #[inline]
    fn add(&mut self, levels: u32, object: Object) {
        match object {
            Object::Null => {}
            Object::Capability(_) => self.capabilities = self.capabilities.saturating_add(1),
            Object::Struct { size, .. } => self.add_words(levels, size.total()),
            Object::Flat { size, count, .. } => {
                self.add_words(levels, words_for_elements(size, count))
            }
            Object::Pointers { count, .. } => self.add_words(levels, count),
            Object::Structs { size, count, .. } => {
                self.add_words(levels, 1 + count * size.total());
            }
        }
    }
}

impl Validation {
    // Begins a walk with `levels` levels, and moves the limiter from `lim` into it.
    #[inline]
    fn begin(levels: u32, lim: &mut ReadLimiter) -> Self {
        Validation {
            tally: Tally {
                lowest: levels,
                words: 0,
                capabilities: 0,
            },
            refusal: ErrorKind::ReadLimitExceeded,
            lim: mem::replace(lim, ReadLimiter::new(None)),
        }
    }
}

impl<'a, A: ReaderArena> Pointer<'a, A> {
    /// Tests whether the whole value that the pointer leads to can be read, with all objects below
    /// it. Returns how deep it is and how much it holds. Takes no memory, and doesn't read the data
    /// of structs and lists. A value may have capabilities.
    ///
    /// Reads each object like `read_object`: counts each pointer that isn't null, and charges the
    /// words of its landing pads, the words that its object claims, and one word for each list
    /// element without width. So what is charged in all is the cost of reading the value once.
    ///
    /// Refuses with the first fault found, like any reading of the value: `InvalidSegmentId`,
    /// `MessageContainsOutOfBoundsPointer`, `MalformedDoubleFarPointer`, `UnknownPointerType`,
    /// `MessageIsTooDeeplyNestedOrContainsCycles`,
    /// `InlineCompositeListsOfNonStructTypeAreNotSupported`,
    /// `InlineCompositeListsElementsOverrunItsWordCount`, `TriedToReadFromNullArena` for a far
    /// pointer in a default value, or `ReadLimitExceeded`. What was charged before stays charged.
    #[inline]
    pub fn validate(&self, lim: &mut ReadLimiter) -> Result<Extent, ErrorKind> {
        let levels = levels_left(self.nesting_limit);
        let mut walk = Validation::begin(levels, lim);
        match validate_object(self, self.place.at, self.nesting_limit, &mut walk) {
            Ok(()) => {
                *lim = walk.lim;
                Ok(Extent {
                    depth: levels - walk.tally.lowest,
                    words: walk.tally.words,
                    capabilities: walk.tally.capabilities,
                })
            }
            Err(Stopped) => {
                *lim = walk.lim;
                Err(walk.refusal)
            }
        }
    }
}

/// # Preconditions
///
/// ```text
/// requires inside { at + count ≤ length (segment_read (reading A.ReaderArena from.now)) }
/// ```
// Validates `count` consecutive pointers from position `at` on. Enters a struct in the same segment
// with its position only, and the same reader of the segment.
#[inline(never)]
fn validate_pointers<A: ReaderArena>(
    from: &Pointer<'_, A>,
    at: u32,
    count: u32,
    nesting_limit: i32,
    walk: &mut Validation,
) -> Result<(), Stopped> {
    for i in 0..count {
        validate_pointer(from, at + i, nesting_limit, walk)?;
    }
    Ok(())
}

// Validates what the pointer at `at` leads to.
#[inline(always)]
fn validate_pointer<A: ReaderArena>(
    from: &Pointer<'_, A>,
    at: u32,
    nesting_limit: i32,
    walk: &mut Validation,
) -> Result<(), Stopped> {
    let word = Place { at, ..from.place }.word();
    if word.is_null() {
        return Ok(());
    }
    match word.kind() {
        WirePointerKind::Struct => validate_struct(from, at, word, nesting_limit, walk),
        WirePointerKind::List if is_primitive_list(word) => {
            validate_primitive_list(from, at, word, nesting_limit, walk)
        }
        _ => validate_object(from, at, nesting_limit, walk),
    }
}

/// # Preconditions
///
/// ```text
/// requires word { IsWordAt word.0 (reading_on A.ReaderArena from.now at nesting_limit) }
/// requires is_struct { kind word.0 ≡ 0 }
/// ```
// Validates the struct that the word at `at` describes.
#[inline(always)]
fn validate_struct<A: ReaderArena>(
    from: &Pointer<'_, A>,
    at: u32,
    word: WirePointer,
    nesting_limit: i32,
    walk: &mut Validation,
) -> Result<(), Stopped> {
    let pointer = PointerWord {
        place: Place { at, ..from.place },
        word,
        nesting_limit,
    };
    let start = match from.source.read_near_struct(pointer, &mut walk.lim) {
        Ok(start) => start,
        Err(k) => {
            walk.refusal = k;
            return Err(Stopped);
        }
    };
    let size = word.struct_size();
    let inner = one_level_less(nesting_limit);
    walk.tally.add_words(levels_left(inner), size.total());
    let first = start + u32::from(size.data_words);
    let count = u32::from(size.pointers);
    if count == 0 {
        return Ok(());
    }
    validate_pointers(from, first, count, inner, walk)
}

/// # Preconditions
///
/// ```text
/// requires word { IsWordAt word.0 (reading_on A.ReaderArena from.now at nesting_limit) }
/// requires is_list { kind word.0 ≡ 1 }
/// requires of_bits { (0 < element_size word.0) × (element_size word.0 ≤ 5) }
/// ```
// Validates the list of bits or numbers that the word at `at` describes.
#[inline(always)]
fn validate_primitive_list<A: ReaderArena>(
    from: &Pointer<'_, A>,
    at: u32,
    word: WirePointer,
    nesting_limit: i32,
    walk: &mut Validation,
) -> Result<(), Stopped> {
    let pointer = PointerWord {
        place: Place { at, ..from.place },
        word,
        nesting_limit,
    };
    let words = words_for_elements(word.list_element_size(), word.list_element_count());
    match from
        .source
        .read_near_primitive_list(pointer, words, &mut walk.lim)
    {
        Ok(_) => {
            walk.tally
                .add_words(levels_left(one_level_less(nesting_limit)), words);
            Ok(())
        }
        Err(k) => {
            walk.refusal = k;
            Err(Stopped)
        }
    }
}

// Validates what the pointer at `at` leads to, near or far, and of any kind. Apart from the loop
// over pointers, so that a level in the same segment takes little stack.
#[inline(never)]
fn validate_object<A: ReaderArena>(
    from: &Pointer<'_, A>,
    at: u32,
    nesting_limit: i32,
    walk: &mut Validation,
) -> Result<(), Stopped> {
    let place = Place { at, ..from.place };
    let object = match from.source.read_object(place, nesting_limit, &mut walk.lim) {
        Ok(object) => object,
        Err(k) => {
            walk.refusal = k;
            return Err(Stopped);
        }
    };
    let inner = one_level_less(nesting_limit);
    walk.tally.add(levels_left(inner), object);
    let Some(rows) = rows_of_object(object) else {
        return Ok(());
    };
    let first = Pointer {
        source: from.source,
        place: rows.start,
        nesting_limit: inner,
    };
    validate_elements(&first, rows.data_words, rows.pointers, rows.count, walk)
}

/// # Preconditions
///
/// ```text
/// requires inside { from.now.place.at + count * (data_words + pointers)
///     ≤ length (segment_read (reading A.ReaderArena from.now)) }
/// ```
// Validates the pointers of `count` consecutive elements, each of `data_words` data words and
// `pointers` pointers.
#[inline]
fn validate_elements<A: ReaderArena>(
    from: &Pointer<'_, A>,
    data_words: u32,
    pointers: u32,
    count: u32,
    walk: &mut Validation,
) -> Result<(), Stopped> {
    if pointers == 0 {
        return Ok(());
    }
    let width = u64::from(data_words) + u64::from(pointers);
    for i in 0..count {
        let at = u64::from(from.place.at) + u64::from(i) * width + u64::from(data_words);
        validate_pointers(from, at as u32, pointers, from.nesting_limit, walk)?;
    }
    Ok(())
}
