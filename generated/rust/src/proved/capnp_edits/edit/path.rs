//! Where the paths of edits lead in a message.

use crate::proved::capnp_arena::arena::BuilderArena;
use crate::proved::capnp_edits::edit::Step;
use crate::proved::capnp_in_place::existing;
use crate::proved::capnp_in_place::existing::{ExistingList, ExistingStruct};
use crate::proved::capnp_readers::readers::PointerPlace;
use crate::proved::capnp_words::wire_pointer::ElementSize;

/// Where a path leads.
#[derive(Clone, Copy)]
pub(in crate::proved::capnp_edits) enum PathEnd {
    /// To a pointer.
    Pointer(PointerPlace),
    /// To an element of a list of structs.
    Element(ExistingStruct),
}

/// Whether segment `id` has at least `words` words.
pub(in crate::proved::capnp_edits) fn has_words<A: BuilderArena>(
    arena: &A,
    id: u32,
    words: u64,
) -> bool {
    match arena.get_segment(id) {
        Ok(bytes) => words <= (bytes.len() / 8) as u64,
        Err(_) => words == 0,
    }
}

/// Where pointer `i` of the struct `parent` is; `None` if the struct has no such pointer.
fn child_of<A: BuilderArena>(arena: &A, parent: ExistingStruct, i: u16) -> Option<PathEnd> {
    let at = u64::from(parent.start) + u64::from(parent.size.data_words) + u64::from(i);
    if i < parent.size.pointers && has_words(arena, parent.segment, at + 1) {
        Some(PathEnd::Pointer(PointerPlace {
            segment: parent.segment,
            word: at as u32,
        }))
    } else {
        None
    }
}

/// Where element `i` of `list` is; `None` if the list has no such element, or the element is
/// neither a pointer nor a struct.
fn element_of<A: BuilderArena>(arena: &A, list: ExistingList, i: u32) -> Option<PathEnd> {
    match list.size {
        ElementSize::Pointer => {
            let at = u64::from(list.start) + u64::from(i);
            if has_words(arena, list.segment, at + 1) {
                Some(PathEnd::Pointer(PointerPlace {
                    segment: list.segment,
                    word: at as u32,
                }))
            } else {
                None
            }
        }
        ElementSize::InlineComposite => {
            let words = u64::from(list.struct_size.total());
            let start = u64::from(list.start) + u64::from(i) * words;
            if has_words(arena, list.segment, start + words) {
                Some(PathEnd::Element(ExistingStruct {
                    segment: list.segment,
                    start: start as u32,
                    size: list.struct_size,
                }))
            } else {
                None
            }
        }
        _ => None,
    }
}

/// Where `step` leads from `here`; `None` if it leads nowhere.
fn step_from<A: BuilderArena>(arena: &A, here: PathEnd, step: Step) -> Option<PathEnd> {
    match (here, step) {
        (PathEnd::Pointer(place), Step::Child(i)) => {
            match existing::get_struct(arena, place.segment, place.word) {
                Some(parent) => child_of(arena, parent, i),
                None => None,
            }
        }
        (PathEnd::Pointer(place), Step::Element(i)) => {
            match existing::get_list(arena, place.segment, place.word, ElementSize::Void) {
                Ok(Some(list)) if i < list.count => element_of(arena, list, i),
                _ => None,
            }
        }
        (PathEnd::Element(parent), Step::Child(i)) => child_of(arena, parent, i),
        (PathEnd::Element(_), Step::Element(_)) => None,
    }
}

/// Where `path` leads from the root pointer; `None` if it leads nowhere. Precondition: the first
/// segment has at least one word: its first word is the root pointer.
///
/// # Preconditions
///
/// ```text
/// requires { IsPlace (A.view arena.now).words 0 0 }
/// ```
pub(in crate::proved::capnp_edits) fn follow_path<A: BuilderArena>(
    arena: &A,
    path: &[Step],
) -> Option<PathEnd> {
    let mut here = PathEnd::Pointer(PointerPlace {
        segment: 0,
        word: 0,
    });
    for step in path {
        match step_from(arena, here, *step) {
            Some(next) => here = next,
            None => return None,
        }
    }
    Some(here)
}
