//! A message as lines of text, one for each object.

use super::message::Showing;
use super::objects::{bytes_at, number_at, place_past};
use super::path::{enter, push_path, PathStep};
use super::text::{as_text, text_prefix, Ended, Text, CUT_COLORED_LINE, CUT_LINE};
use crate::proved::capnp_arena_traits::arena::ReaderArena;
use crate::proved::capnp_messages::messages::ElementPlace;
use crate::proved::capnp_pointers::object::{Object, Place, Purpose};
use crate::proved::capnp_pointers::pointers::Pointer;
use crate::proved::capnp_words::read_limiter::ReadLimiter;
use crate::proved::capnp_words::wire_pointer::{ElementSize, StructSize, WirePointerKind};
use crate::proved::support::alloc::Global;
use crate::proved::support::vec::Vec;

/// How many elements of a list are shown, and how many words of a data section.
const MOST_ELEMENTS: u32 = 64;

/// What says that only these elements are shown.
const CUT_ELEMENTS: &[u8] = b"cut after 64 elements";

/// A part of a line that has a color.
#[derive(Clone, Copy)]
enum LinePart {
    /// The path with which the line begins: bold.
    Path,
    /// A word of a segment: dim.
    Place,
    /// Text in quotes: green.
    Text,
    /// Why a pointer can't be read: red.
    Refusal,
    /// What says that there is more: yellow.
    Cut,
}

impl LinePart {
    /// The number in the control sequence of a terminal that begins the part.
    fn color(self) -> u64 {
        match self {
            LinePart::Path => 1,
            LinePart::Place => 2,
            LinePart::Text => 32,
            LinePart::Refusal => 31,
            LinePart::Cut => 33,
        }
    }
}

/// The control sequence of a terminal that ends a part with a color.
const PLAIN: &[u8] = b"\x1b[0m";

/// The lines of a message so far, and what the next ones need. Once something couldn't be written,
/// nothing more is.
pub(super) struct Lines {
    /// The lines so far.
    pub(super) text: Text,
    /// Whether no line has a fault.
    pub(super) is_sound: bool,
    /// Why the lines end before their end.
    ended: Result<(), Ended>,
    path: Vec<PathStep>,
    /// What is left of the traversal limit.
    pub(super) lim: ReadLimiter,
    has_places: bool,
    has_colors: bool,
    /// How many pointers below the first one are followed.
    pub(super) depth: u32,
}

impl Lines {
    /// Makes the lines of a message before the first one, in the form that `showing` describes.
    pub(super) fn new(alloc: Global, lim: ReadLimiter, showing: Showing) -> Self {
        Lines {
            text: Text::new(alloc),
            is_sound: true,
            ended: Ok(()),
            path: Vec::new(alloc),
            lim,
            has_places: !showing.values,
            has_colors: showing.colors,
            depth: showing.depth,
        }
    }

    /// Ends the lines, with one that says that the text is cut if the next one didn't fit. Refuses if
    /// memory ran out.
    pub(super) fn finish(&mut self) -> Result<(), Ended> {
        match self.ended {
            Err(Ended::Full) if self.has_colors => self.text.push_into_kept(CUT_COLORED_LINE),
            Err(Ended::Full) => self.text.push_into_kept(CUT_LINE),
            ended => ended,
        }
    }

    /// Writes `bytes`.
    fn push(&mut self, bytes: &[u8]) {
        if self.ended.is_ok() {
            self.ended = self.text.push(bytes);
        }
    }

    /// Writes a key, which has what comes before it, and a number.
    fn push_keyed(&mut self, key: &[u8], n: u64) {
        if self.ended.is_ok() {
            self.ended = self.text.push_keyed(key, n);
        }
    }

    /// Begins a part of a line.
    fn begin(&mut self, part: LinePart) {
        if self.has_colors {
            self.push_keyed(b"\x1b[", part.color());
            self.push(b"m");
        }
    }

    /// Ends a part of a line.
    fn end(&mut self) {
        if self.has_colors {
            self.push(PLAIN);
        }
    }

    /// Writes a part of a line, which is in `bytes`.
    fn write_part(&mut self, part: LinePart, bytes: &[u8]) {
        self.begin(part);
        self.push(bytes);
        self.end();
    }

    /// Adds a step to the path.
    fn enter(&mut self, step: PathStep) {
        if self.ended.is_ok() {
            self.ended = enter(&mut self.path, step);
        }
    }

    /// Takes back the last step.
    fn leave(&mut self) {
        let _ = self.path.pop();
    }

    /// Begins the path of each line with the indexes in `path`.
    pub(super) fn begin_path(&mut self, path: &[u32]) {
        for index in path {
            self.enter(PathStep {
                is_element: false,
                index: *index,
            });
        }
    }

    /// Writes the first line: the number of the message, and its size.
    pub(super) fn write_head(&mut self, number: u64, segments: u64, words: u64) {
        self.push_keyed(b"message ", number);
        if self.has_places {
            self.push_keyed(b": segments ", segments);
            self.push_keyed(b", words ", words);
        }
        self.push(b"\n");
    }

    /// Writes the line for a root pointer that can't be read.
    pub(super) fn write_no_root(&mut self, name: &str) {
        self.write_path();
        self.write_refusal(name);
    }

    /// Writes the path with which each line begins.
    fn write_path(&mut self) {
        self.begin(LinePart::Path);
        if self.ended.is_ok() {
            self.ended = push_path(&mut self.text, self.path.as_slice());
        }
        self.end();
    }

    /// Writes a word of a segment.
    fn write_place(&mut self, segment: u64, word: u32) {
        self.push(b" ");
        self.begin(LinePart::Place);
        self.push_keyed(b"[", segment);
        self.push_keyed(b":", u64::from(word));
        self.push(b"]");
        self.end();
    }

    /// Writes where an object starts, unless places are left out.
    fn write_start(&mut self, start: Place) {
        if self.has_places {
            self.push(b" at");
            self.write_place(start.segment, start.at);
        }
    }

    /// Writes the beginning of the line for the pointer at `place`: the path, the place, and the
    /// landing pad if the pointer is a far pointer.
    fn write_pointer(&mut self, place: Place) {
        self.write_path();
        if self.has_places {
            self.write_place(place.segment, place.at);
            self.write_pad(place);
        }
    }

    /// Writes the landing pad of the pointer at `place`, if it is a far pointer.
    fn write_pad(&mut self, place: Place) {
        let word = place.word();
        if word.kind() != WirePointerKind::Far {
            return;
        }
        if word.is_double_far() {
            self.push(b" double");
        }
        self.push(b" far");
        self.write_place(
            u64::from(word.far_segment_id()),
            word.far_position_in_segment(),
        );
    }

    /// Writes why a pointer can't be read, and ends the line.
    fn write_refusal(&mut self, name: &str) {
        self.is_sound = false;
        self.push(b" ");
        self.begin(LinePart::Refusal);
        self.push(b"refused ");
        self.push(name.as_bytes());
        self.end();
        self.push(b"\n");
    }

    /// Writes the rest of the line for an object.
    fn write_object(&mut self, object: Object) {
        match object {
            Object::Null => self.push(b" null"),
            Object::Capability(index) => self.push_keyed(b" capability ", u64::from(index)),
            Object::Flat { start, size, count } => self.write_primitive_list(start, size, count),
            Object::Struct { start, size } => self.write_struct(start, size),
            Object::Pointers { start, count } => self.write_pointer_list(start, count),
            Object::Structs { start, size, count } => self.write_struct_list(start, size, count),
        }
        self.push(b"\n");
    }

    /// Writes the line for element `index` of a list of structs, which starts at `start`.
    fn write_element(&mut self, index: u32, start: Place, size: StructSize) {
        self.enter(PathStep {
            is_element: true,
            index,
        });
        self.write_path();
        self.write_struct(start, size);
        self.push(b"\n");
    }

    /// Writes the sizes of the two sections of a struct.
    fn write_sizes(&mut self, size: StructSize) {
        self.push_keyed(b", data ", u64::from(size.data_words));
        self.push_keyed(b", pointers ", u64::from(size.pointers));
    }

    /// Writes the rest of the line of a struct.
    fn write_struct(&mut self, start: Place, size: StructSize) {
        self.push(b" struct");
        self.write_start(start);
        self.write_sizes(size);
        self.write_data(start, u32::from(size.data_words));
    }

    /// Writes the rest of the line of a list of pointers.
    fn write_pointer_list(&mut self, start: Place, count: u32) {
        self.push_keyed(b" pointers ", u64::from(count));
        self.write_start(start);
    }

    /// Writes the rest of the line of a list of structs.
    fn write_struct_list(&mut self, start: Place, size: StructSize, count: u32) {
        self.push_keyed(b" structs ", u64::from(count));
        self.write_start(start);
        self.write_sizes(size);
    }

    /// Writes the words of a data section as numbers.
    fn write_data(&mut self, start: Place, words: u32) {
        for i in 0..words.min(MOST_ELEMENTS) {
            self.push(if i == 0 { b": 0x" } else { b" 0x" });
            self.push_hex_number(place_past(start, i).word().0);
        }
        self.write_dots(words > MOST_ELEMENTS);
    }

    /// Writes a number in hex digits.
    fn push_hex_number(&mut self, n: u64) {
        if self.ended.is_ok() {
            self.ended = self.text.push_hex_number(n);
        }
    }

    /// Writes two dots if there is more than is shown.
    fn write_dots(&mut self, is_cut: bool) {
        if is_cut {
            self.push(b" ");
            self.write_part(LinePart::Cut, b"..");
        }
    }

    /// Writes the rest of the line of a list of bits or numbers.
    fn write_primitive_list(&mut self, start: Place, size: ElementSize, count: u32) {
        self.push_keyed(list_kind_name(size), u64::from(count));
        self.write_start(start);
        match size {
            ElementSize::Void => {}
            ElementSize::Byte => self.write_bytes(bytes_at(start, count as usize)),
            _ => self.write_numbers(start, size, count),
        }
    }

    /// Writes the elements of a list of bits or numbers.
    fn write_numbers(&mut self, start: Place, size: ElementSize, count: u32) {
        for i in 0..count.min(MOST_ELEMENTS) {
            self.push_keyed(if i == 0 { b": " } else { b" " }, number_at(start, size, i));
        }
        self.write_dots(count > MOST_ELEMENTS);
    }

    /// Writes bytes: as text if they read as text, and otherwise as hex digits.
    fn write_bytes(&mut self, bytes: &[u8]) {
        if bytes.is_empty() {
            return;
        }
        self.push(b": ");
        match as_text(bytes) {
            Some(text) => self.write_text(text.as_bytes()),
            None => self.write_hex(bytes),
        }
    }

    /// Writes UTF-8 bytes in quotes.
    fn write_text(&mut self, bytes: &[u8]) {
        let front = text_prefix(bytes);
        self.begin(LinePart::Text);
        if self.ended.is_ok() {
            self.ended = self.text.push_quoted(front);
        }
        self.end();
        self.write_dots(front.len() < bytes.len());
    }

    /// Writes bytes as hex digits, two for each.
    fn write_hex(&mut self, bytes: &[u8]) {
        let front = &bytes[..bytes.len().min(MOST_ELEMENTS as usize)];
        if self.ended.is_ok() {
            self.ended = self.text.push_hex(front);
        }
        self.write_dots(front.len() < bytes.len());
    }

    /// Writes a line that says that only the first elements of a list are shown, if `is_cut` is set.
    fn write_list_cut(&mut self, is_cut: bool) {
        if is_cut {
            self.write_path();
            self.push(b" ");
            self.write_part(LinePart::Cut, CUT_ELEMENTS);
            self.push(b"\n");
        }
    }

    /// Writes a line that says that the `count` pointers or elements of an object aren't followed, if
    /// there are any.
    fn write_depth_cut(&mut self, count: u32) {
        if count > 0 {
            self.write_path();
            self.push(b" ");
            self.begin(LinePart::Cut);
            self.push_keyed(b"cut at depth ", u64::from(self.depth));
            self.end();
            self.push(b"\n");
        }
    }
}

/// The name of a list of bits or numbers of this size, between spaces.
fn list_kind_name(size: ElementSize) -> &'static [u8] {
    match size {
        ElementSize::Void => b" void ",
        ElementSize::Bit => b" bits ",
        ElementSize::Byte => b" bytes ",
        ElementSize::TwoBytes => b" u16 ",
        ElementSize::FourBytes => b" u32 ",
        _ => b" u64 ",
    }
}

/// Writes the line of `element`, and the lines of what its pointers lead to, at most `depth` pointers
/// below it.
pub(super) fn show_element<A: ReaderArena>(
    element: ElementPlace<'_, A>,
    depth: u32,
    lines: &mut Lines,
) {
    let size = element.size;
    lines.write_path();
    lines.write_struct(element.first.place, size);
    lines.push(b"\n");
    let first = element.first.past(u32::from(size.data_words));
    show_pointers(first, u32::from(size.pointers), false, depth, lines);
}

/// Writes the line of the pointer `from`, and the lines of what it leads to, at most `depth` pointers
/// below it.
pub(super) fn show_pointer<A: ReaderArena>(from: Pointer<'_, A>, depth: u32, lines: &mut Lines) {
    lines.write_pointer(from.place);
    if lines.ended.is_err() {
        return;
    }
    match from.read(Purpose::Value, &mut lines.lim) {
        Ok(object) => {
            lines.write_object(object);
            show_below(from, object, depth, lines);
        }
        Err(kind) => lines.write_refusal(kind.name()),
    }
}

/// Writes the lines below `object`, which was read from the pointer `from`.
///
/// # Preconditions
///
/// ```text
/// requires { IsObjectHeld (source_start A.ReaderArena from.source).segments object }
/// ```
fn show_below<A: ReaderArena>(
    from: Pointer<'_, A>,
    object: Object<'_>,
    depth: u32,
    lines: &mut Lines,
) {
    match object {
        Object::Struct { start, size } => {
            let first = from.inside(start).past(u32::from(size.data_words));
            show_pointers(first, u32::from(size.pointers), false, depth, lines);
        }
        Object::Pointers { start, count } => {
            show_pointers(from.inside(start), count, true, depth, lines);
        }
        Object::Structs { start, size, count } => {
            show_elements(from.inside(start), size, count, depth, lines);
        }
        _ => {}
    }
}

/// Writes the lines of `count` pointers of a struct, or of a list if `are_elements` is set, `first` the
/// first of them, and of what they lead to.
fn show_pointers<A: ReaderArena>(
    first: Pointer<'_, A>,
    count: u32,
    are_elements: bool,
    depth: u32,
    lines: &mut Lines,
) {
    if depth == 0 {
        lines.write_depth_cut(count);
        return;
    }
    let is_cut = are_elements && count > MOST_ELEMENTS;
    let shown = if is_cut { MOST_ELEMENTS } else { count };
    for i in 0..shown {
        let step = PathStep {
            is_element: are_elements,
            index: i,
        };
        show_step(first.past(i), step, depth - 1, lines);
    }
    lines.write_list_cut(is_cut);
}

/// Writes the line of a pointer to which `step` leads, and the lines of what it leads to. A null pointer
/// has no line.
fn show_step<A: ReaderArena>(
    pointer: Pointer<'_, A>,
    step: PathStep,
    depth: u32,
    lines: &mut Lines,
) {
    if !pointer.is_null() {
        lines.enter(step);
        show_pointer(pointer, depth, lines);
        lines.leave();
    }
}

/// Writes the lines of the elements of a list of structs, which start at `first`, and the lines below
/// them. Elements without words have no lines.
fn show_elements<A: ReaderArena>(
    first: Pointer<'_, A>,
    size: StructSize,
    count: u32,
    depth: u32,
    lines: &mut Lines,
) {
    let words = size.total();
    if words == 0 {
        return;
    }
    if depth == 0 {
        lines.write_depth_cut(count);
        return;
    }
    for i in 0..count.min(MOST_ELEMENTS) {
        let element = first.past(i.saturating_mul(words));
        lines.write_element(i, element.place, size);
        let pointers = element.past(u32::from(size.data_words));
        show_pointers(pointers, u32::from(size.pointers), false, depth, lines);
        lines.leave();
    }
    lines.write_list_cut(count > MOST_ELEMENTS);
}
