//! A message as one line of JSON.

use super::objects::{bytes_are_below_256, bytes_at};
use super::path::{enter, PathStep};
use super::text::{Ended, Text, CUT_OBJECT};
use crate::proved::capnp_arena_traits::arena::ReaderArena;
use crate::proved::capnp_messages::messages::{ElementPlace, Reached};
use crate::proved::capnp_pointers::object::{Object, Place, Purpose};
use crate::proved::capnp_pointers::pointers::Pointer;
use crate::proved::capnp_words::error::ErrorKind;
use crate::proved::capnp_words::read_limiter::ReadLimiter;
use crate::proved::capnp_words::wire_pointer::{StructSize, WirePointerKind};
use crate::proved::support::alloc::Global;
use crate::proved::support::vec::Vec;

/// A byte of a line that is looked for, and the innermost object whose text has it. An element of a
/// list of structs counts as an object.
pub(super) struct Search {
    /// The position of the byte.
    at: usize,
    /// Where the text of the object begins at the latest.
    latest: usize,
    /// The path to the object that is being written; in the end, to the object that was found.
    pub(super) path: Vec<PathStep>,
    /// Where the text of the object that was found begins; 0, where the root's does, until then.
    pub(super) start: usize,
}

impl Search {
    /// Looks for the byte at position `at` in the text of an object that begins at `latest` at the
    /// latest.
    pub(super) fn new(alloc: Global, at: usize, latest: usize) -> Self {
        Search {
            at,
            latest,
            path: Vec::new(alloc),
            start: 0,
        }
    }
}

/// The line of a message so far, and what the rest needs.
pub(super) struct Json {
    /// The line so far.
    pub(super) text: Text,
    /// Whether the line has no fault.
    pub(super) is_sound: bool,
    /// What is left of the traversal limit.
    pub(super) lim: ReadLimiter,
    has_places: bool,
    /// What is looked for. The line ends at the end of the object that is found.
    pub(super) search: Option<Search>,
}

impl Json {
    /// Makes an empty line.
    pub(super) fn new(alloc: Global, lim: ReadLimiter, has_places: bool) -> Self {
        Json {
            text: Text::new(alloc),
            is_sound: true,
            lim,
            has_places,
            search: None,
        }
    }

    /// Begins piece `step.index` of an array: writes a comma before it, if it isn't the first one, and
    /// adds the step to the path, if something is looked for.
    fn begin_piece(&mut self, step: PathStep) -> Result<(), Ended> {
        self.text.push_comma_unless_first(step.index)?;
        self.enter(step)
    }

    /// Adds a step to the path, if something is looked for.
    fn enter(&mut self, step: PathStep) -> Result<(), Ended> {
        match &mut self.search {
            None => Ok(()),
            Some(search) => enter(&mut search.path, step),
        }
    }

    /// Takes back the last step.
    fn leave(&mut self) {
        if let Some(search) = &mut self.search {
            let _ = search.path.pop();
        }
    }

    /// Ends the text of an object, which began at `start`. Ends the line, too, if this text has the
    /// byte that is looked for.
    fn stop_if_found(&mut self, start: usize) -> Result<(), Ended> {
        let end = self.text.len();
        match &mut self.search {
            Some(search) if start <= search.latest && search.at < end => {
                search.start = start;
                Err(Ended::Found)
            }
            _ => Ok(()),
        }
    }

    /// Begins element `index` of a list of structs. Returns where its text begins.
    fn begin_element(&mut self, index: u32) -> Result<usize, Ended> {
        self.begin_piece(PathStep {
            is_element: true,
            index,
        })?;
        let start = self.text.len();
        self.text.push(b"{")?;
        Ok(start)
    }

    /// Ends an element, whose text began at `start`.
    fn end_element(&mut self, start: usize) -> Result<(), Ended> {
        self.stop_if_found(start)?;
        self.leave();
        Ok(())
    }

    /// Writes what comes before the root: the number of the message, and its size.
    pub(super) fn write_head(
        &mut self,
        number: u64,
        segments: u64,
        words: u64,
    ) -> Result<(), Ended> {
        if !self.has_places {
            return Ok(());
        }
        self.write_message(number, segments, words)
    }

    /// Writes the number of the message, and its size, as the first members of an object.
    fn write_message(&mut self, number: u64, segments: u64, words: u64) -> Result<(), Ended> {
        self.text.push_keyed(b"{\"message\":", number)?;
        self.text.push_keyed(b",\"segments\":", segments)?;
        self.text.push_keyed(b",\"words\":", words)?;
        self.text.push(b",\"root\":")
    }

    /// Writes what comes after the root.
    pub(super) fn write_tail(&mut self) -> Result<(), Ended> {
        if self.has_places {
            return self.text.push_last_bytes(b"}\n");
        }
        self.text.push_last_bytes(b"\n")
    }

    /// Replaces the line by one that says that it is cut.
    pub(super) fn write_cut(&mut self) -> Result<(), Ended> {
        self.text.truncate(0);
        self.text.push(CUT_OBJECT)
    }

    /// Writes the object for a root pointer that can't be read.
    pub(super) fn write_no_root(&mut self, name: &str) -> Result<(), Ended> {
        self.text.push(b"{")?;
        self.write_refusal(name)
    }

    /// Writes why a pointer can't be read, and ends the object.
    fn write_refusal(&mut self, name: &str) -> Result<(), Ended> {
        self.is_sound = false;
        self.text.push_refusal(name.as_bytes())
    }

    /// Writes a key and a word of a segment.
    fn write_place(&mut self, key: &[u8], segment: u64, word: u32) -> Result<(), Ended> {
        self.text.push_keyed(key, segment)?;
        self.text.push_keyed(b",", u64::from(word))?;
        self.text.push(b"],")
    }

    /// Begins the object of a pointer: where the pointer is, unless places are left out, and its
    /// landing pad if it is a far pointer.
    fn write_pointer(&mut self, place: Place) -> Result<(), Ended> {
        self.text.push(b"{")?;
        if !self.has_places {
            return Ok(());
        }
        self.write_pointer_place(place)
    }

    /// Writes where a pointer is, and its landing pad if it is a far pointer.
    fn write_pointer_place(&mut self, place: Place) -> Result<(), Ended> {
        self.write_place(b"\"pointer\":[", place.segment, place.at)?;
        let word = place.word();
        if word.kind() != WirePointerKind::Far {
            return Ok(());
        }
        let (pad, at) = (
            u64::from(word.far_segment_id()),
            word.far_position_in_segment(),
        );
        if word.is_double_far() {
            self.write_place(b"\"double_far\":[", pad, at)
        } else {
            self.write_place(b"\"far\":[", pad, at)
        }
    }

    /// Writes where an object starts, unless places are left out.
    fn write_start(&mut self, start: Place) -> Result<(), Ended> {
        if !self.has_places {
            return Ok(());
        }
        self.write_place(b"\"at\":[", start.segment, start.at)
    }

    /// Writes where a struct or a list starts, unless places are left out.
    fn write_start_of(&mut self, object: Object) -> Result<(), Ended> {
        match object {
            Object::Struct { start, .. }
            | Object::Flat { start, .. }
            | Object::Pointers { start, .. }
            | Object::Structs { start, .. } => self.write_start(start),
            Object::Null | Object::Capability(_) => Ok(()),
        }
    }
}

/// Writes what is at the end of a path, and what is at most `depth` pointers below it; or why there
/// is nothing.
pub(super) fn write_path_end<A: ReaderArena>(
    end: Result<Reached<'_, A>, ErrorKind>,
    depth: u32,
    json: &mut Json,
) -> Result<(), Ended> {
    match end {
        Ok(reached) => write_reached(reached, depth, json),
        Err(kind) => json.write_no_root(kind.name()),
    }
}

/// Writes what a path leads to, and what is at most `depth` pointers below it.
fn write_reached<A: ReaderArena>(
    reached: Reached<'_, A>,
    depth: u32,
    json: &mut Json,
) -> Result<(), Ended> {
    match reached {
        Reached::Pointer(root) => write_pointed_value(root, depth, json),
        Reached::Element(element) => write_element(element, depth, json),
    }
}

/// Writes `element`, and what its pointers lead to, at most `depth` pointers below it.
fn write_element<A: ReaderArena>(
    element: ElementPlace<'_, A>,
    depth: u32,
    json: &mut Json,
) -> Result<(), Ended> {
    json.text.push(b"{")?;
    json.write_start(element.first.place)?;
    write_sections(element.first, element.size, depth, json)
}

/// Writes what the pointer `from` leads to, at most `depth` pointers below it.
pub(super) fn write_pointed_value<A: ReaderArena>(
    from: Pointer<'_, A>,
    depth: u32,
    json: &mut Json,
) -> Result<(), Ended> {
    let start = json.text.len();
    write_null_or_object(from, depth, json)?;
    json.stop_if_found(start)
}

/// Writes the text of what the pointer `from` leads to.
fn write_null_or_object<A: ReaderArena>(
    from: Pointer<'_, A>,
    depth: u32,
    json: &mut Json,
) -> Result<(), Ended> {
    if from.is_null() {
        return json.text.push(b"null");
    }
    json.write_pointer(from.place)?;
    match from.read(Purpose::Value, &mut json.lim) {
        Ok(object) => write_object(from, object, depth, json),
        Err(kind) => json.write_refusal(kind.name()),
    }
}

/// Writes the rest of the text of `object`, which was read from the pointer `from`.
///
/// # Preconditions
///
/// ```text
/// requires { IsObjectRead Value (reading A.ReaderArena from) object }
/// ```
fn write_object<A: ReaderArena>(
    from: Pointer<'_, A>,
    object: Object<'_>,
    depth: u32,
    json: &mut Json,
) -> Result<(), Ended> {
    json.write_start_of(object)?;
    match object {
        Object::Null => json.text.push(b"}"),
        Object::Capability(index) => json.text.push_capability(index),
        Object::Flat { start, size, count } => json.text.push_primitive_list(start, size, count),
        Object::Struct { start, size } => write_sections(from.inside(start), size, depth, json),
        Object::Pointers { start, count } => {
            write_pointer_array(true, from.inside(start), count, depth, json)
        }
        Object::Structs { start, size, count } => {
            write_struct_list(from.inside(start), size, count, depth, json)
        }
    }
}

/// Writes the two sections of a struct that starts at `start`, and ends the object.
///
/// # Preconditions
///
/// ```text
/// requires inside { start.place.at + (size.data_words + size.pointers)
///     ≤ length (segment_read (reading A.ReaderArena start)) }
/// ```
fn write_sections<A: ReaderArena>(
    start: Pointer<'_, A>,
    size: StructSize,
    depth: u32,
    json: &mut Json,
) -> Result<(), Ended> {
    let words = u32::from(size.data_words);
    let data = bytes_at(start.place, 8 * words as usize);
    bytes_are_below_256(data);
    json.text.push_data_member(data)?;
    let first = start.past(words);
    write_pointer_array(false, first, u32::from(size.pointers), depth, json)
}

/// Writes the key and the array of what `count` pointers of a struct lead to, or of a list if
/// `are_elements` is set, `first` the first of them, and ends the object.
///
/// # Preconditions
///
/// ```text
/// requires inside { first.place.at + count ≤ length (segment_read (reading A.ReaderArena first)) }
/// ```
fn write_pointer_array<A: ReaderArena>(
    are_elements: bool,
    first: Pointer<'_, A>,
    count: u32,
    depth: u32,
    json: &mut Json,
) -> Result<(), Ended> {
    if depth == 0 {
        return json.text.push_unfollowed_pointers(are_elements, count);
    }
    json.text.push_array_start(are_elements)?;
    for i in 0..count {
        json.begin_piece(PathStep {
            is_element: are_elements,
            index: i,
        })?;
        write_pointed_value(first.past(i), depth - 1, json)?;
        json.leave();
    }
    json.text.push(b"]}")
}

/// Writes the rest of the text of a list of structs, whose elements start at `first`.
///
/// # Preconditions
///
/// ```text
/// requires inside { first.place.at + count * (size.data_words + size.pointers)
///     ≤ length (segment_read (reading A.ReaderArena first)) }
/// ```
fn write_struct_list<A: ReaderArena>(
    first: Pointer<'_, A>,
    size: StructSize,
    count: u32,
    depth: u32,
    json: &mut Json,
) -> Result<(), Ended> {
    json.text.push_sizes(size)?;
    if size.total() == 0 {
        return json.text.push_count(count);
    }
    json.text.push(b"\"structs\":[")?;
    write_struct_elements(first, size, count, depth, json)?;
    json.text.push(b"]}")
}

/// Writes the elements of a list of structs, which start at `first`.
///
/// # Preconditions
///
/// ```text
/// requires inside { first.place.at + count * (size.data_words + size.pointers)
///     ≤ length (segment_read (reading A.ReaderArena first)) }
/// ```
fn write_struct_elements<A: ReaderArena>(
    first: Pointer<'_, A>,
    size: StructSize,
    count: u32,
    depth: u32,
    json: &mut Json,
) -> Result<(), Ended> {
    for i in 0..count {
        let start = json.begin_element(i)?;
        let element = first.past(i * size.total());
        write_sections(element, size, depth, json)?;
        json.end_element(start)?;
    }
    Ok(())
}
