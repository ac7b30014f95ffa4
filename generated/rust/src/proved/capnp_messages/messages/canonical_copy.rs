//! Makes a copy in canonical form (encoding specification, "Canonicalization"), in one segment. The
//! first try requests one word more than the source message has. If that is too small, counts the
//! words of the copy, and requests exactly as many for a second and last try. No try requests more
//! than 536,870,911 words. During a try the message has no allocator, so the copy can't get a second
//! segment.

use super::copy_size::copy_size;
use super::path::Reached;
use crate::proved::capnp_arena::arena::{
    Allocator, BuilderArena, BuilderArenaImpl, ReaderArena, MAX_SEGMENT_WORDS,
};
use crate::proved::capnp_arena_traits::arena::WordPlace;
use crate::proved::capnp_copies::copy::{copy_in_form, copy_struct};
use crate::proved::capnp_copies::form::{CopyForm, Destination};
use crate::proved::capnp_pointers::pointers::Pointer;
use crate::proved::capnp_pointers::source::Source;
use crate::proved::capnp_words::error::ErrorKind;
use crate::proved::capnp_words::read_limiter::ReadLimiter;
use crate::proved::support::alloc::Global;

/// Whether `kind` says that the room is too small, or that memory ran out.
fn is_lack_of_room(kind: ErrorKind) -> bool {
    matches!(
        kind,
        ErrorKind::AllocationFailed | ErrorKind::MessageTooLarge(_)
    )
}

/// Copies what `from` leads to in canonical form to the null pointer at `to`. After a refusal the
/// objects that were made before it stay.
///
/// # Preconditions
///
/// ```text
/// requires { IsNullPlace (A.view arena.old).words to.segment to.at }
/// ```
fn canonicalize_to_pointer<A: BuilderArena, B: ReaderArena>(
    arena: &mut A,
    to: WordPlace,
    from: Reached<'_, B>,
    lim: &mut ReadLimiter,
) -> Result<(), ErrorKind> {
    let form = CopyForm::Canonical;
    let to = Destination { place: to, form };
    match from {
        Reached::Pointer(pointer) => copy_in_form(arena, to, pointer, lim),
        Reached::Element(element) => copy_struct(arena, to, element.first, element.size, lim),
    }
}

/// Copies what `from` leads to in canonical form to the root of a message whose only word is the
/// root, a null pointer. Charges the copy to a new limiter with `left` words left, and returns this
/// limiter. The copy has to fit in the message's only segment, which has room for at least `room`
/// words: refuses with `MessageTooLarge(room)` if it doesn't, or if the allocator grants another
/// segment for words that don't fit.
///
/// # Preconditions
///
/// ```text
/// requires root { (⟦<BuilderArenaImpl<A> as BuilderArena>⟧.view arena.old).words ≡ (0 ∷ []) ∷ [] }
/// requires room { room ≤ (⟦<BuilderArenaImpl<A> as BuilderArena>⟧.view arena.old).room 0 }
/// ```
fn canonicalize_to_segment<A: Allocator, B: ReaderArena>(
    arena: &mut BuilderArenaImpl<A>,
    from: Reached<'_, B>,
    left: Option<usize>,
    room: u32,
) -> Result<ReadLimiter, ErrorKind> {
    let too_large = ErrorKind::MessageTooLarge(room as usize);
    let root = WordPlace { segment: 0, at: 0 };
    let mut lim = ReadLimiter::new(left);
    match canonicalize_to_pointer(arena, root, from, &mut lim) {
        Ok(()) => {
            if arena.len() == 1 {
                Ok(lim)
            } else {
                Err(too_large)
            }
        }
        Err(kind) => {
            if is_lack_of_room(kind) {
                Err(too_large)
            } else {
                Err(kind)
            }
        }
    }
}

/// Makes the first segment of `made`, with room for at least `room` words. Allocates the segment's
/// first word: the root, a null pointer. Precondition: `made` has no segment yet.
///
/// # Preconditions
///
/// ```text
/// requires none { ⟦<BuilderArenaImpl<A> as ReaderArena>⟧.segments made.old ≡ [] }
/// requires room { IsSegmentRoom room }
/// ```
fn allocate_root<A: Allocator>(made: &mut BuilderArenaImpl<A>, room: u32) -> Result<(), ErrorKind> {
    made.allocate_segment(room)?;
    let _root = made.allocate(0, 1);
    Ok(())
}

/// Makes `lim` count `pointers` more pointers as followed.
fn count_pointers(lim: &mut ReadLimiter, pointers: u64) {
    for _ in 0..pointers {
        lim.count();
    }
}

/// Charges `lim` what a copy has charged to `own`, and makes `lim` count the pointers that the copy
/// followed. Precondition: before the copy, `own` had as many words left as `lim`, and had counted
/// no pointers. If `lim` has counted no pointers either, replaces `lim` by `own`, which has the
/// same result.
///
/// # Preconditions
///
/// ```text
/// requires { IsLeftOf own.left lim.old.left }
/// ```
fn charge_copy(lim: &mut ReadLimiter, own: ReadLimiter) {
    let pointers = own.followed();
    if lim.followed() == 0 {
        *lim = own;
        return;
    }
    if let (Some(left), Some(after)) = (lim.left(), own.left()) {
        let _ = lim.can_read(left - after);
    }
    count_pointers(lim, pointers);
}

/// Copies what `from` leads to in canonical form into a new message with one segment, for which it
/// requests `room` words. During the copy, the message has no allocator that could grant another
/// segment. If refused, returns the allocator, and leaves `lim` unchanged.
///
/// # Preconditions
///
/// ```text
/// requires room { IsSegmentRoom room }
/// ```
fn canonicalize_to_message<A: Allocator, B: ReaderArena>(
    alloc: Global,
    allocator: A,
    from: Reached<'_, B>,
    lim: &mut ReadLimiter,
    room: u32,
) -> Result<BuilderArenaImpl<A>, (ErrorKind, A)> {
    let mut made = BuilderArenaImpl::new(alloc, allocator);
    if let Err(kind) = allocate_root(&mut made, room) {
        return Err((kind, made.into_allocator()));
    }
    let (mut segments, allocator) = made.without_allocator();
    let copied = canonicalize_to_segment(&mut segments, from, lim.left(), room);
    let made = segments.with_allocator(allocator);
    match copied {
        Ok(own) => {
            charge_copy(lim, own);
            Ok(made)
        }
        Err(kind) => Err((kind, made.into_allocator())),
    }
}

/// Whether `kind` is `MessageTooLarge`.
fn is_too_large(kind: ErrorKind) -> bool {
    matches!(kind, ErrorKind::MessageTooLarge(_))
}

/// The number of words that the first try requests for a source of `words` words: one more than
/// these, but at most 536,870,911.
fn first_room(words: usize) -> u32 {
    if words < MAX_SEGMENT_WORDS as usize {
        words as u32 + 1
    } else {
        MAX_SEGMENT_WORDS
    }
}

/// The number of words in the arena of `from`; 0 if `from` has no arena.
fn arena_words<B: ReaderArena>(from: &Pointer<'_, B>) -> usize {
    match from.source {
        Source::Arena(arena) => arena.size_in_words(),
        _ => 0,
    }
}

/// The number of words in the arena of what `from` leads to; 0 if it has no arena.
fn arena_words_of_reached<B: ReaderArena>(from: &Reached<'_, B>) -> usize {
    match from {
        Reached::Pointer(pointer) => arena_words(pointer),
        Reached::Element(element) => arena_words(&element.first),
    }
}

/// Copies what `from` leads to in canonical form into `made`, in one segment, for which it requests
/// `room` words, and returns `true`. Returns `false` if the copy doesn't fit the segment, or there
/// is no memory for the segment. `left` is the number of words that reading may cost. Precondition:
/// `made` has no segment yet.
///
/// # Preconditions
///
/// ```text
/// requires none { ⟦<BuilderArenaImpl<A> as ReaderArena>⟧.segments made.old ≡ [] }
/// requires room { IsSegmentRoom room }
/// ```
pub(super) fn canonicalize_reached_into<A: Allocator, B: ReaderArena>(
    made: &mut BuilderArenaImpl<A>,
    from: Reached<'_, B>,
    left: Option<usize>,
    room: u32,
) -> Result<bool, ErrorKind> {
    if allocate_root(made, room).is_err() {
        return Ok(false);
    }
    match canonicalize_to_segment(made, from, left, room) {
        Ok(_) => Ok(true),
        Err(kind) => {
            if is_too_large(kind) {
                Ok(false)
            } else {
                Err(kind)
            }
        }
    }
}

/// The number `words`, but at most 536,870,911.
fn at_most_a_segment(words: u32) -> u32 {
    words.min(MAX_SEGMENT_WORDS)
}

/// The number of words to request for the copy of what `from` leads to: as many as the copy has, but
/// at most 536,870,911. Reads the value once, which may cost `left` words, and takes no memory.
/// Refuses with the first refusal met while reading.
fn measured_room<B: ReaderArena>(
    from: Reached<'_, B>,
    left: Option<usize>,
) -> Result<u32, ErrorKind> {
    match copy_size(from, left) {
        Ok(words) => Ok(at_most_a_segment(words)),
        Err(kind) => {
            if is_too_large(kind) {
                Ok(MAX_SEGMENT_WORDS)
            } else {
                Err(kind)
            }
        }
    }
}

/// Copies what `from` leads to like `canonicalize_pointer`, but counts the words of the copy first,
/// and so needs one try.
fn canonicalize_measured<A: Allocator, B: ReaderArena>(
    alloc: Global,
    allocator: A,
    from: Reached<'_, B>,
    lim: &mut ReadLimiter,
) -> Result<BuilderArenaImpl<A>, (ErrorKind, A)> {
    match measured_room(from, lim.left()) {
        Ok(room) => canonicalize_to_message(alloc, allocator, from, lim, room),
        Err(kind) => Err((kind, allocator)),
    }
}

/// Copies what `from` leads to like `canonicalize_pointer`.
pub(super) fn canonicalize_reached<A: Allocator, B: ReaderArena>(
    alloc: Global,
    allocator: A,
    from: Reached<'_, B>,
    lim: &mut ReadLimiter,
) -> Result<BuilderArenaImpl<A>, (ErrorKind, A)> {
    let room = first_room(arena_words_of_reached(&from));
    match canonicalize_to_message(alloc, allocator, from, lim, room) {
        Ok(made) => Ok(made),
        Err((kind, returned)) => {
            if room == MAX_SEGMENT_WORDS || !is_too_large(kind) {
                return Err((kind, returned));
            }
            canonicalize_measured(alloc, returned, from, lim)
        }
    }
}

/// Makes the canonical copy of the value that the pointer `from` leads to (encoding specification,
/// "Canonicalization"): a message of one segment, whose memory `allocator` grants. If refused,
/// returns the allocator, and leaves `lim` unchanged.
///
/// Requests one word more than the source message has for the segment. If the copy doesn't fit,
/// counts its words, and makes it once more in a segment of exactly as many; so there are at most two
/// requests, for at most 536,870,911 words each. `lim` is charged for one copy in either case, and
/// counts each non-null pointer once.
///
/// Refusals: the first one met while reading `from`; `MessageTooLarge(536870911)` if the copy has
/// more than 536,870,911 words; `AllocationFailed`, which the allocator counts, if memory ran out.
pub fn canonicalize_pointer<A: Allocator, B: ReaderArena>(
    alloc: Global,
    allocator: A,
    from: Pointer<'_, B>,
    lim: &mut ReadLimiter,
) -> Result<BuilderArenaImpl<A>, (ErrorKind, A)> {
    canonicalize_reached(alloc, allocator, Reached::Pointer(from), lim)
}
