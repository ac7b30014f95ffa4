//! The entries of a list of objects.

use crate::proved::capnp_pointers::object::{Object, Place};
use crate::proved::capnp_words::wire_pointer::ElementSize;

/// The kind of a struct in a `WalkedObject`.
pub const STRUCT: u32 = 8;

/// The kind of a capability in a `WalkedObject`.
pub const CAPABILITY: u32 = 9;

/// The parent of the object that the root pointer leads to.
pub const NO_PARENT: u64 = u64::MAX;

/// An object of a message: its kind and place, and the place of the pointer that leads to it.
#[repr(C)]
#[derive(Clone, Copy, Debug, PartialEq, Eq)]
pub struct WalkedObject {
    /// The index of the object that the pointer is in; `NO_PARENT` for the root pointer.
    pub parent: u64,
    /// The number of the pointer's segment.
    pub pointer_segment: u64,
    /// The number of the object's segment; 0 for a capability.
    pub segment: u64,
    /// The position of the pointer in its segment, in words.
    pub pointer_word: u32,
    /// The position of the object in its segment, in words: of its first word; in a list of
    /// structs, of the first word after the tag; 0 for a capability.
    pub word: u32,
    /// What the object is: 0 to 7 for a list, which is the format's number of its element size,
    /// `STRUCT`, or `CAPABILITY`.
    pub kind: u32,
    /// The number of elements of a list; otherwise 0.
    pub count: u32,
    /// The index of a capability; otherwise 0.
    pub capability: u32,
    /// The number of data words of a struct, or of each element of a list of structs; otherwise 0.
    pub data_words: u16,
    /// The number of pointers of a struct, or of each element of a list of structs; otherwise 0.
    pub pointers: u16,
}

// Returns the entry of the object that the pointer at `pointer` leads to; `None` for a null
// pointer.
fn walked_object(parent: u64, pointer: Place<'_>, object: Object<'_>) -> Option<WalkedObject> {
    let entry = WalkedObject {
        parent,
        pointer_segment: pointer.segment,
        segment: 0,
        pointer_word: pointer.at,
        word: 0,
        kind: CAPABILITY,
        count: 0,
        capability: 0,
        data_words: 0,
        pointers: 0,
    };
    match object {
        Object::Null => None,
        Object::Capability(capability) => Some(WalkedObject {
            capability,
            ..entry
        }),
        Object::Struct { start, size } => Some(WalkedObject {
            segment: start.segment,
            word: start.at,
            kind: STRUCT,
            data_words: size.data_words,
            pointers: size.pointers,
            ..entry
        }),
        Object::Flat { start, size, count } => Some(WalkedObject {
            segment: start.segment,
            word: start.at,
            kind: size_code(size),
            count,
            ..entry
        }),
        Object::Pointers { start, count } => Some(WalkedObject {
            segment: start.segment,
            word: start.at,
            kind: 6,
            count,
            ..entry
        }),
        Object::Structs { start, size, count } => Some(WalkedObject {
            segment: start.segment,
            word: start.at,
            kind: 7,
            count,
            data_words: size.data_words,
            pointers: size.pointers,
            ..entry
        }),
    }
}

// The number by which an element size is encoded.
fn size_code(size: ElementSize) -> u32 {
    match size {
        ElementSize::Void => 0,
        ElementSize::Bit => 1,
        ElementSize::Byte => 2,
        ElementSize::TwoBytes => 3,
        ElementSize::FourBytes => 4,
        ElementSize::EightBytes => 5,
        ElementSize::Pointer => 6,
        ElementSize::InlineComposite => 7,
    }
}

/// Adds the object that the pointer at `pointer` leads to, which is in the object with index
/// `parent`: writes its entry to `objects` at index `count`, if there is room, and counts it. Adds
/// nothing for a null pointer.
pub(in crate::proved::capnp_walks) fn add_object(
    parent: u64,
    pointer: Place<'_>,
    object: Object<'_>,
    objects: &mut [WalkedObject],
    count: &mut u64,
) {
    match walked_object(parent, pointer, object) {
        Some(entry) => put_entry(entry, objects, count),
        None => {}
    }
}

// Writes `entry` to `objects` at index `count`, if there is room, and counts it.
fn put_entry(entry: WalkedObject, objects: &mut [WalkedObject], count: &mut u64) {
    let at = *count as usize;
    if at < objects.len() {
        objects[at] = entry;
    }
    *count = count.saturating_add(1);
}
