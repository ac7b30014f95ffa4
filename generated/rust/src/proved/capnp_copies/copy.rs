//! Copies a pointer's value, plain or in canonical form, into a message of any number of segments
//! (encoding specification, "Structs", "Lists", "Inter-Segment Pointers" and "Canonicalization").
//!
//! Makes each object before its children: in the segment of the object's pointer if the object fits
//! there, otherwise after a landing pad. So at any time during a copy, the pointer that is copied
//! to is null or leads to a well-formed value.

mod children;
mod elements;
mod flat;
mod lists;
mod places;
mod refusals;
mod structs;

use crate::proved::capnp_arena_traits::arena::{set_word, BuilderArena, ReaderArena, WordPlace};
use crate::proved::capnp_copies::form::{CopyForm, Destination};
use crate::proved::capnp_copies::widths::StructList;
use crate::proved::capnp_pointers::object::Object;
use crate::proved::capnp_pointers::pointers::Pointer;
use crate::proved::capnp_words::error::ErrorKind;
use crate::proved::capnp_words::read_limiter::ReadLimiter;
use crate::proved::capnp_words::wire_pointer::{words_for_elements, WirePointer};
use crate::proved::capnp_words::words::word_range;
pub use children::copy_children;
pub use elements::put_words;
pub use flat::copy_primitive_list;
pub use lists::{copy_pointer_list, copy_struct_list};
pub use places::place_past;
pub use refusals::clear_if_refused;
pub use structs::copy_struct;

/// Copies the value of `from` to the null pointer at `to`, in canonical form if `canonicalize`,
/// otherwise plain. Does what `copy_in_form` does. Precondition: the word at `to` is allocated and
/// zero.
///
/// # Preconditions
///
/// ```text
/// requires { IsNullPlace (A.view arena.old).words to.segment to.at }
/// ```
pub fn copy_value<A: BuilderArena, B: ReaderArena>(
    arena: &mut A,
    to: WordPlace,
    from: Pointer<'_, B>,
    lim: &mut ReadLimiter,
    canonicalize: bool,
) -> Result<(), ErrorKind> {
    let form = CopyForm::of(canonicalize);
    copy_in_form(arena, Destination { place: to, form }, from, lim)
}

/// Copies the value of `from` to the null pointer at `to.place`, in the form `to.form`.
/// Precondition: the word at `to.place` is allocated and zero.
///
/// If all words of the copy fit the pointer's segment, or the message has one segment afterwards,
/// the copy comes after the other words of the pointer's segment, in the canonical order of
/// objects. In this case, of the words that the message had before, only the pointer changes. A
/// plain copy has all words of the sections and elements; a canonical copy leaves out the zero
/// words and null pointers that "Canonicalization" cuts off the ends of sections.
///
/// Allocates at most as many words as reading the value costs, plus one landing pad for each object
/// that has no room in its pointer's segment. If the copy is refused, this bound has the cost of
/// reading up to the refused object instead. The bound also holds if `lim` has no limit, or if
/// reading the source isn't charged.
///
/// Refusals: those of reading the value; for a capability, the refusal that `CopyForm` documents
/// for the form `to.form` (`Plain` refuses none); `AllocationFailed` or `MessageTooLarge` from the
/// arena. The arena refuses an object only if the object's words, together with the words that were
/// read before it, don't fit after the words of the pointer's segment. After a refusal the pointer
/// is null, the words that were allocated are zero, and what was charged to `lim` stays charged.
///
/// # Preconditions
///
/// ```text
/// requires { IsNullPlace (A.view arena.old).words to.place.segment to.place.at }
/// ```
pub fn copy_in_form<A: BuilderArena, B: ReaderArena>(
    arena: &mut A,
    to: Destination,
    from: Pointer<'_, B>,
    lim: &mut ReadLimiter,
) -> Result<(), ErrorKind> {
    let copied = copy_object(arena, to.place, from, lim, to.form);
    clear_if_refused(arena, to.place, copied)
}

/// Like `copy_in_form`, but doesn't clear anything after a refusal: the objects that were made
/// before it stay.
///
/// # Preconditions
///
/// ```text
/// requires { IsNullPlace (A.view arena.old).words to.segment to.at }
/// ```
#[inline(never)]
fn copy_object<A: BuilderArena, B: ReaderArena>(
    arena: &mut A,
    to: WordPlace,
    from: Pointer<'_, B>,
    lim: &mut ReadLimiter,
    form: CopyForm,
) -> Result<(), ErrorKind> {
    let source = from.source;
    let object = source.read_object(from.place, from.nesting_limit, lim)?;
    let destination = Destination { place: to, form };
    match object {
        Object::Null => Ok(()),
        Object::Capability(index) => copy_capability(arena, destination, index),
        Object::Struct { start, size } => {
            let inner = from.inside(start);
            structs::copy_struct(arena, destination, inner, size, lim)
        }
        Object::Flat { start, size, count } => {
            let words = words_for_elements(size, count);
            let elements = word_range(start.bytes, start.at as usize, words as usize);
            flat::copy_primitive_list(arena, to, size, count, elements)
        }
        Object::Pointers { start, count } => {
            let inner = from.inside(start);
            lists::copy_pointer_list(arena, destination, inner, count, lim)
        }
        Object::Structs { start, size, count } => {
            let inner = from.inside(start);
            lists::copy_struct_list(arena, destination, inner, StructList { size, count }, lim)
        }
    }
}

/// Makes the pointer at `to.place` the capability with index `index`. If `to.form` doesn't allow
/// capabilities, refuses and changes nothing.
///
/// # Preconditions
///
/// ```text
/// requires { IsPlace (A.view arena.old).words to.place.segment to.place.at }
/// ```
#[inline(always)]
fn copy_capability<A: BuilderArena>(
    arena: &mut A,
    to: Destination,
    index: u32,
) -> Result<(), ErrorKind> {
    match to.form {
        CopyForm::Plain => {
            let WordPlace { segment, at } = to.place;
            set_word(arena, segment, at, WirePointer::new_capability(index).0);
            Ok(())
        }
        CopyForm::Canonical => Err(ErrorKind::CannotCreateACanonicalMessageWithACapability),
        CopyForm::OfDefault => Err(ErrorKind::UnknownPointerType),
    }
}
