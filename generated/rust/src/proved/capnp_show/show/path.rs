//! The path from the root of a message to what is shown, as text: `0.2.[7].1`, or `root` for the root.

use super::text::{Ended, Text};
use crate::proved::support::vec::Vec;

/// A step from an object to one of its pointers or elements.
#[derive(Clone, Copy)]
pub(super) struct PathStep {
    /// Whether it is to an element of a list, and not to a pointer of a struct.
    pub(super) is_element: bool,
    /// The index of the pointer or the element.
    pub(super) index: u32,
}

/// Adds a step to a path.
pub(super) fn enter(path: &mut Vec<PathStep>, step: PathStep) -> Result<(), Ended> {
    match path.push(step) {
        Ok(()) => Ok(()),
        Err(_) => Err(Ended::NoMemory),
    }
}

/// Adds the text of the path of these steps.
pub(super) fn push_path(text: &mut Text, steps: &[PathStep]) -> Result<(), Ended> {
    if steps.is_empty() {
        return text.push(b"root");
    }
    for (i, step) in steps.iter().enumerate() {
        if 0 < i {
            text.push(b".")?;
        }
        push_step(text, *step)?;
    }
    Ok(())
}

/// Adds a step: the index, in brackets if it is that of an element.
fn push_step(text: &mut Text, step: PathStep) -> Result<(), Ended> {
    if !step.is_element {
        return text.push_number(u64::from(step.index));
    }
    text.push_keyed(b"[", u64::from(step.index))?;
    text.push(b"]")
}
