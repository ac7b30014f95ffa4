//! The forms of a copy (encoding specification, "Canonicalization").

use crate::proved::capnp_arena_traits::arena::WordPlace;

/// What a copy keeps of a value, and whether the value may have capabilities.
#[derive(Clone, Copy)]
pub enum CopyForm {
    /// The plain value, with its capabilities.
    Plain,
    /// The canonical form of the value. A capability is refused with
    /// `CannotCreateACanonicalMessageWithACapability`.
    Canonical,
    /// The plain value of a field's default. A capability is refused with `UnknownPointerType`.
    OfDefault,
}

/// Where a copy goes, and its form.
#[derive(Clone, Copy)]
pub struct Destination {
    /// The place of the pointer that is copied to, or of the first one of several pointers.
    pub place: WordPlace,
    /// The form of the copy.
    pub form: CopyForm,
}

impl CopyForm {
    /// Returns `Canonical` if `canonicalize`, otherwise `Plain`.
    pub fn of(canonicalize: bool) -> Self {
        if canonicalize {
            CopyForm::Canonical
        } else {
            CopyForm::Plain
        }
    }
}
