//! What readers read from: an arena, a field's default value, or nothing. A pointer is read in two
//! steps, each with its checks and charges: following the pointer, and entering the object that it
//! leads to.

mod expected;
mod landing;
mod measure;
mod types;

use crate::proved::capnp_arena_traits::arena::ReaderArena;
use crate::proved::capnp_pointers::nesting::levels_left;
use crate::proved::capnp_pointers::object::{Object, Place, PointerWord, Purpose};
use crate::proved::capnp_words::error::ErrorKind;
use crate::proved::capnp_words::read_limiter::ReadLimiter;
use crate::proved::capnp_words::wire_pointer::{WirePointer, WirePointerKind};
use landing::Entrance;

/// What a reader reads from.
pub enum Source<'a, A> {
    /// A message.
    Arena(&'a A),
    /// The bytes of a field's default value, which are one segment. Reading them charges nothing,
    /// and a far pointer in them is refused.
    Default(&'a [u8]),
    /// Nothing: a field that its struct doesn't have.
    Nothing,
}

impl<'a, A> Clone for Source<'a, A> {
    #[inline]
    fn clone(&self) -> Self {
        *self
    }
}

impl<'a, A> Copy for Source<'a, A> {}

// What following a pointer finds, with its landing pads read.
#[derive(Clone, Copy)]
struct Found<'a> {
    // The word that describes the object: the pointer itself, its landing pad, or the pad's tag.
    word: WirePointer,
    // Where the object starts.
    start: Place<'a>,
    // The number of words of the landing pads.
    pads: u32,
}

impl<'a, A: ReaderArena> Source<'a, A> {
    /// Reads the object that the pointer at `place` leads to, but none of its children (encoding
    /// specification, "Structs", "Lists", "Inter-Segment Pointers" and "Capabilities
    /// (Interfaces)"). Precondition: `place.bytes` has exactly the whole words of segment
    /// `place.segment` of `self`, fewer than 2^32.
    ///
    /// If the word at `place` is zero, or `place` is outside of its segment, returns
    /// `Object::Null`, and counts and charges nothing in `lim`. Otherwise counts the pointer in
    /// `lim` as followed, and charges words, each before it is read: those of its landing pads,
    /// those that the object claims, and one for each list element without width. If the source is
    /// a default value, or an arena that doesn't charge, such as one being built, `lim` is
    /// unchanged. A struct and a list take a level, and are refused if `nesting_limit` is below 1.
    /// A capability takes no level, and only the words of its landing pads are charged.
    ///
    /// Refuses with the first fault found: `InvalidSegmentId`, `MessageContainsOutOfBoundsPointer`,
    /// `MalformedDoubleFarPointer`, `UnknownPointerType`,
    /// `MessageIsTooDeeplyNestedOrContainsCycles`,
    /// `InlineCompositeListsOfNonStructTypeAreNotSupported`,
    /// `InlineCompositeListsElementsOverrunItsWordCount`, `TriedToReadFromNullArena` for a far
    /// pointer in a default value, or `ReadLimitExceeded`. What was charged before stays charged.
    ///
    /// # Preconditions
    ///
    /// ```text
    /// requires held { IsHeld (source_start A.ReaderArena self).segments place }
    /// ```
    #[inline(always)]
    pub fn read_object(
        self,
        place: Place<'a>,
        nesting_limit: i32,
        lim: &mut ReadLimiter,
    ) -> Result<Object<'a>, ErrorKind> {
        self.read_for_purpose(Purpose::Value, place, nesting_limit, lim)
    }

    /// # Preconditions
    ///
    /// ```text
    /// requires { IsHeld (source_start A.ReaderArena self).segments place }
    /// ```
    // Reads the object that the pointer at a place leads to, for its value or only for its size.
    #[inline(always)]
    pub(in crate::proved::capnp_pointers) fn read_for_purpose(
        self,
        purpose: Purpose,
        place: Place<'a>,
        nesting_limit: i32,
        lim: &mut ReadLimiter,
    ) -> Result<Object<'a>, ErrorKind> {
        let word = place.word();
        if word.is_null() {
            return Ok(Object::Null);
        }
        let depth = levels_left(nesting_limit);
        if !has_level(purpose, depth) {
            return Err(ErrorKind::MessageIsTooDeeplyNested);
        }
        let pointer = PointerWord {
            place,
            word,
            nesting_limit,
        };
        let found = self.follow(pointer, lim)?;
        let entrance = Entrance {
            source: self,
            found,
            depth,
        };
        entrance.enter(purpose, lim)
    }

    /// Reads the struct that `pointer` leads to, like `read_object`. Returns the position, in
    /// words, where the struct starts in the pointer's segment. Preconditions: `pointer.word` is
    /// the word at `pointer.place`, and itself a struct pointer, neither far nor null;
    /// `pointer.place` is as for `read_object`.
    ///
    /// # Preconditions
    ///
    /// ```text
    /// requires word { IsWordRead (pointer_at A.ReaderArena self pointer) pointer }
    /// requires is_struct { kind pointer.word.0 ≡ 0 }
    /// ```
    #[inline(always)]
    pub fn read_near_struct(
        self,
        pointer: PointerWord<'a>,
        lim: &mut ReadLimiter,
    ) -> Result<u32, ErrorKind> {
        self.enter_near(pointer, pointer.word.struct_word_size(), lim)
    }

    /// Reads the list of bits or numbers that `pointer` leads to, like `read_object`. Returns the
    /// position, in words, where the elements start in the pointer's segment. Preconditions:
    /// `pointer.word` is the word at `pointer.place`, and itself the pointer to such a list, not a
    /// far one; the list claims `words` words; `pointer.place` is as for `read_object`.
    ///
    /// # Preconditions
    ///
    /// ```text
    /// requires word { IsWordRead (pointer_at A.ReaderArena self pointer) pointer }
    /// requires is_list { kind pointer.word.0 ≡ 1 }
    /// requires of_bits { (0 < element_size pointer.word.0)
    ///     × (element_size pointer.word.0 ≤ 5) }
    /// requires claimed { words ≡ claimed_words pointer.word.0 }
    /// ```
    #[inline(always)]
    pub fn read_near_primitive_list(
        self,
        pointer: PointerWord<'a>,
        words: u32,
        lim: &mut ReadLimiter,
    ) -> Result<u32, ErrorKind> {
        self.enter_near(pointer, words, lim)
    }

    /// # Preconditions
    ///
    /// ```text
    /// requires word { IsWordRead (pointer_at A.ReaderArena self pointer) pointer }
    /// requires near { kind pointer.word.0 < 2 }
    /// requires claimed { words ≡ claimed_words pointer.word.0 }
    /// ```
    // Enters the object that a near pointer leads to, whose number of elements isn't charged, and
    // returns where it starts in the pointer's own segment, in words. The object claims `words`
    // words.
    #[inline(always)]
    fn enter_near(
        self,
        pointer: PointerWord<'a>,
        words: u32,
        lim: &mut ReadLimiter,
    ) -> Result<u32, ErrorKind> {
        let found = self.follow(pointer, lim)?;
        let entrance = Entrance {
            source: self,
            found,
            depth: levels_left(pointer.nesting_limit),
        };
        entrance.charge_claim(words, lim)?;
        Ok(found.start.at)
    }

    // Counts a pointer as followed, if the source is an arena that charges.
    #[inline]
    fn count_pointer(self, lim: &mut ReadLimiter) {
        match self {
            Source::Arena(arena) => {
                if arena.charges() {
                    lim.count();
                }
            }
            Source::Default(_) | Source::Nothing => {}
        }
    }

    // Charges words, if the source is an arena.
    #[inline]
    fn charge(self, words: u64, lim: &mut ReadLimiter) -> Result<(), ErrorKind> {
        match self {
            Source::Arena(arena) => arena.amplified_read(words, lim),
            Source::Default(_) | Source::Nothing => Ok(()),
        }
    }

    // Charges the number of a list's elements if these have no width, unless for the size.
    #[inline]
    fn charge_elements(
        self,
        purpose: Purpose,
        width: u32,
        count: u32,
        lim: &mut ReadLimiter,
    ) -> Result<(), ErrorKind> {
        if width > 0 {
            return Ok(());
        }
        match purpose {
            Purpose::Value => self.charge(u64::from(count), lim),
            Purpose::Size => Ok(()),
        }
    }

    /// # Preconditions
    ///
    /// ```text
    /// requires { IsWordRead (pointer_at A.ReaderArena self pointer) pointer }
    /// ```
    // Follows a pointer word, and counts it. Precondition: it isn't zero. A default has no segment
    // that a far pointer could name.
    #[inline(always)]
    fn follow(
        self,
        pointer: PointerWord<'a>,
        lim: &mut ReadLimiter,
    ) -> Result<Found<'a>, ErrorKind> {
        self.count_pointer(lim);
        let PointerWord { place, word, .. } = pointer;
        if word.kind() == WirePointerKind::Far {
            return match self {
                Source::Arena(arena) => follow_far(arena, word, lim),
                Source::Default(_) | Source::Nothing => Err(ErrorKind::TriedToReadFromNullArena),
            };
        }
        match word.target(place.at, place.length()) {
            Some(at) => Ok(Found {
                word,
                start: Place { at, ..place },
                pads: 0,
            }),
            None => Err(ErrorKind::MessageContainsOutOfBoundsPointer),
        }
    }
}

/// # Preconditions
///
/// ```text
/// requires some { 0 < length (message (A.segments arena.now)) }
/// requires is_far { kind far.0 ≡ 2 }
/// ```
// Follows a far pointer of a message.
#[inline(never)]
fn follow_far<'a, A: ReaderArena>(
    arena: &'a A,
    far: WirePointer,
    lim: &mut ReadLimiter,
) -> Result<Found<'a>, ErrorKind> {
    let pad = landing_pad(arena, far, lim)?;
    let word = pad.word();
    if far.is_double_far() {
        let tag = Place {
            at: pad.at + 1,
            ..pad
        };
        let id = word.far_segment_id();
        let bytes = arena.get_segment(id)?;
        Ok(Found {
            word: tag.word(),
            start: Place {
                segment: u64::from(id),
                bytes,
                at: word.far_position_in_segment(),
            },
            pads: 2,
        })
    } else {
        match word.target(pad.at, pad.length()) {
            Some(at) => Ok(Found {
                word,
                start: Place { at, ..pad },
                pads: 1,
            }),
            None => Err(ErrorKind::MessageContainsOutOfBoundsPointer),
        }
    }
}

/// # Preconditions
///
/// ```text
/// requires some { 0 < length (message (A.segments arena.now)) }
/// requires is_far { kind far.0 ≡ 2 }
/// ```
// The landing pad of a far pointer, one word or two, checked and charged.
#[inline]
fn landing_pad<'a, A: ReaderArena>(
    arena: &'a A,
    far: WirePointer,
    lim: &mut ReadLimiter,
) -> Result<Place<'a>, ErrorKind> {
    let id = far.far_segment_id();
    let bytes = arena.get_segment(id)?;
    let at = far.far_position_in_segment();
    let words = landing_pad_words(far);
    if (at + words) as usize > bytes.len() / 8 {
        return Err(ErrorKind::MessageContainsOutOfBoundsPointer);
    }
    arena.amplified_read(u64::from(words), lim)?;
    Ok(Place {
        segment: u64::from(id),
        bytes,
        at,
    })
}

// The number of words of the landing pad of a far pointer.
#[inline]
fn landing_pad_words(far: WirePointer) -> u32 {
    if far.is_double_far() {
        2
    } else {
        1
    }
}

// Whether a level is left, as far as it is checked before the pointer is followed.
#[inline]
fn has_level(purpose: Purpose, depth: u32) -> bool {
    match purpose {
        Purpose::Value => true,
        Purpose::Size => depth > 0,
    }
}
