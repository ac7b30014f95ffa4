//! Finds the path to the pointer at which a check of a whole message stopped.

use crate::error::{Error, Reason};
use crate::proved::capnp_readers::readers::{ListReader, PointerReader, StructReader, Target};
use crate::proved::capnp_words::error::ErrorKind;
use crate::proved::capnp_words::read_limiter::ReadLimiter;
use crate::proved::capnp_words::wire_pointer::ElementSize;
use crate::segments::Arena;
use core::fmt::Write;
use rust_alloc::string::String;
use rust_alloc::vec::Vec;

type From<'a> = PointerReader<'a, Arena<'a>>;

/// A step of a path.
enum Step {
    Pointer(u32),
    Element(u32),
}

/// The place of the refused pointer: its segment, and its position there in words.
type Refused = (u64, u32);

/// A search, with the path from the root to the pointer that is read.
struct Search<'l> {
    lim: &'l mut ReadLimiter,
    /// Whether a capability is refused.
    refuses_capabilities: bool,
    /// A pointer that is refused.
    refuses: Option<Refused>,
    path: Vec<Step>,
}

impl Search<'_> {
    /// Reads the value of a pointer, and leaves the path at the first pointer that is refused.
    fn pointer(&mut self, from: From<'_>) -> Result<(), Refused> {
        let place = (from.place.segment, from.place.at);
        if self.refuses == Some(place) {
            return Err(place);
        }
        match from.next(self.lim) {
            Ok(Target::Struct(found)) => self.structure(found),
            Ok(Target::List(found)) => self.list(found),
            Ok(Target::Null) => Ok(()),
            Ok(Target::Cap(_)) if !self.refuses_capabilities => Ok(()),
            _ => Err(place),
        }
    }

    fn structure(&mut self, from: StructReader<'_, Arena<'_>>) -> Result<(), Refused> {
        for index in 0..from.pointer_count() {
            self.path.push(Step::Pointer(index.into()));
            self.pointer(from.get_pointer_field(index.into()))?;
            self.path.pop();
        }
        Ok(())
    }

    fn list(&mut self, from: ListReader<'_, Arena<'_>>) -> Result<(), Refused> {
        let has_pointers = match from.get_element_size() {
            ElementSize::Pointer => true,
            ElementSize::InlineComposite => from.struct_size().pointers > 0,
            _ => false,
        };
        for index in 0..if has_pointers { from.len() } else { 0 } {
            self.path.push(Step::Element(index));
            match from.get_element_size() {
                ElementSize::Pointer => self.pointer(from.get_pointer_element(index))?,
                _ => self.structure(from.get_struct_element(index))?,
            }
            self.path.pop();
        }
        Ok(())
    }
}

fn text_of(path: &[Step]) -> String {
    let mut text = String::new();
    for step in path {
        let dot = if text.is_empty() { "" } else { "." };
        // a String takes all that is written to it
        let _ = match step {
            Step::Pointer(index) => write!(text, "{dot}{index}"),
            Step::Element(index) => write!(text, "{dot}[{index}]"),
        };
    }
    if path.is_empty() {
        text.push_str("root");
    }
    text
}

/// The error of a check of `root` that was refused with `kind`. `lim` is as it was before the
/// check.
#[cold]
pub fn error_of(kind: ErrorKind, root: From<'_>, lim: &mut ReadLimiter) -> Error {
    let refuses_capabilities = kind == ErrorKind::CannotCreateACanonicalMessageWithACapability;
    let mut search = Search {
        lim,
        refuses_capabilities,
        refuses: None,
        path: Vec::new(),
    };
    match search.pointer(root) {
        Err(place) => Error::at(
            Reason::Layout(kind),
            Some(text_of(&search.path)),
            place,
            None,
        ),
        Ok(()) => kind.into(),
    }
}

/// The error of a check of `root` against a schema that refused the pointer at `place`, which is the
/// field of this name. `lim` is as it was before the check.
#[cold]
pub fn misfit(
    reason: Reason,
    root: From<'_>,
    place: Refused,
    field: Option<String>,
    lim: &mut ReadLimiter,
) -> Error {
    let mut search = Search {
        lim,
        refuses_capabilities: false,
        refuses: Some(place),
        path: Vec::new(),
    };
    let is_found = search.pointer(root) == Err(place);
    let path = is_found.then(|| text_of(&search.path));
    Error::at(reason, path, place, field)
}
