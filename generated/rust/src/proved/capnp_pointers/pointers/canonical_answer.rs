//! The answer of a test for canonical form that stops before its end (encoding specification,
//! "Canonicalization").

use crate::proved::capnp_pointers::object::Place;
use crate::proved::capnp_pointers::pointers::canonical_fault::{
    CanonicalFault, CanonicalFaultReason,
};
use crate::proved::capnp_words::error::ErrorKind;
use crate::proved::capnp_words::read_limiter::ReadLimiter;
use crate::proved::capnp_words::wire_pointer::{WirePointer, WirePointerKind};
use core::mem;

/// The answer of a test that stops: the fault that it found, or the refusal of an object that can't
/// be read.
pub(in crate::proved::capnp_pointers) type Answer = Result<CanonicalFault, ErrorKind>;

/// States that a test has stopped. The test's answer is in the field `answer` of its `Test`.
/// `Stopped` has no content, so a `Result` with it is returned in a register; a `Result` with the
/// answer would be written to memory at each level.
#[derive(Clone, Copy)]
pub(in crate::proved::capnp_pointers) struct Stopped;

/// A test: the limiter that it charges, and its answer once it has stopped.
pub(in crate::proved::capnp_pointers) struct Test {
    /// The limiter, moved here while the test runs.
    pub(in crate::proved::capnp_pointers) lim: ReadLimiter,
    /// The answer, once the test has stopped. Before that, it has no meaning.
    pub(in crate::proved::capnp_pointers) answer: Answer,
}

impl Test {
    /// Begins a test, and moves the limiter from `lim` into it. The caller moves the limiter back
    /// at the end.
    #[inline]
    pub(in crate::proved::capnp_pointers) fn begin(lim: &mut ReadLimiter) -> Self {
        Test {
            lim: mem::replace(lim, ReadLimiter::new(None)),
            answer: Err(ErrorKind::ReadLimitExceeded),
        }
    }
}

/// Stores in `answer` a fault at position `word` of the segment of `place`, so that the test stops.
#[cold]
pub(in crate::proved::capnp_pointers) fn stop_with_fault(
    answer: &mut Answer,
    place: Place,
    word: u32,
    reason: CanonicalFaultReason,
) -> Stopped {
    *answer = Ok(CanonicalFault {
        segment: place.segment,
        word,
        reason,
    });
    Stopped
}

/// Stores in `answer` the refusal of the object that `word` points to, so that the test stops.
/// Reading the object was refused with `kind`; for a list, `answer` has `NestingLimitExceeded` in
/// place of `MessageIsTooDeeplyNestedOrContainsCycles`.
#[cold]
pub(in crate::proved::capnp_pointers) fn stop_with_refusal(
    answer: &mut Answer,
    word: WirePointer,
    kind: ErrorKind,
) -> Stopped {
    *answer = Err(refusal_for_word(word, kind));
    Stopped
}

/// Returns why `word`, which is a pointer to neither a struct nor a list, isn't canonical.
#[inline]
pub(in crate::proved::capnp_pointers) fn reason_of(word: WirePointer) -> CanonicalFaultReason {
    if word.kind() == WirePointerKind::Far {
        CanonicalFaultReason::FarPointer
    } else if word.is_capability() {
        CanonicalFaultReason::Capability
    } else {
        CanonicalFaultReason::UnknownPointer
    }
}

// The refusal if the object of a word can't be read.
#[inline]
fn refusal_for_word(word: WirePointer, kind: ErrorKind) -> ErrorKind {
    match kind {
        ErrorKind::MessageIsTooDeeplyNestedOrContainsCycles
            if word.kind() == WirePointerKind::List =>
        {
            ErrorKind::NestingLimitExceeded
        }
        kind => kind,
    }
}
