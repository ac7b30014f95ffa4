//! The objects of a message.
use crate::Broken;
use alloc::vec::Vec;
use capnp_layout::proved::capnp_walks::walks::{WalkedObject, CAPABILITY, NO_PARENT, STRUCT};

/// What an object of a message is.
#[derive(Clone, Copy, Debug, PartialEq, Eq, Hash)]
#[non_exhaustive]
pub enum Kind {
    /// A list whose elements have no words.
    ListOfVoid,
    /// A list of bits.
    ListOfBits,
    /// A list of elements of one byte.
    ListOfBytes,
    /// A list of elements of two bytes.
    ListOfTwoBytes,
    /// A list of elements of four bytes.
    ListOfFourBytes,
    /// A list of elements of eight bytes that aren't pointers.
    ListOfEightBytes,
    /// A list of pointers.
    ListOfPointers,
    /// A list of structs.
    ListOfStructs,
    /// A struct.
    Struct,
    /// A capability.
    Capability,
}

impl Kind {
    /// The kind with this number of `enum capnp_canonical_kind`.
    fn of(number: u32) -> Self {
        match number {
            0 => Kind::ListOfVoid,
            1 => Kind::ListOfBits,
            2 => Kind::ListOfBytes,
            3 => Kind::ListOfTwoBytes,
            4 => Kind::ListOfFourBytes,
            5 => Kind::ListOfEightBytes,
            6 => Kind::ListOfPointers,
            7 => Kind::ListOfStructs,
            STRUCT => Kind::Struct,
            CAPABILITY => Kind::Capability,
            _ => unreachable!("no kind has the number {number}"),
        }
    }
}

/// An object of a message: its kind and place, and the pointer that leads to it.
#[derive(Clone, Copy, Debug, PartialEq, Eq, Hash)]
#[non_exhaustive]
pub struct Object {
    /// What it is.
    pub kind: Kind,
    /// The index of the object that the pointer is in; `None` for the root pointer.
    pub parent: Option<usize>,
    /// The number of the pointer's segment.
    pub pointer_segment: u64,
    /// The position of the pointer in its segment, in words.
    pub pointer_word: u32,
    /// The number of the object's segment; 0 for a capability.
    pub segment: u64,
    /// The position of the object in its segment, in words; that of the first word after the tag for a list of structs; 0
    /// for a capability.
    pub word: u32,
    /// The number of elements of a list; otherwise 0.
    pub count: u32,
    /// The index of a capability; otherwise 0.
    pub capability: u32,
    /// The number of data words of a struct, or of each element of a list of structs; otherwise 0.
    pub data_words: u16,
    /// The number of pointers of a struct, or of each element of a list of structs; otherwise 0.
    pub pointers: u16,
}

/// The objects of a message.
#[derive(Clone, Debug, PartialEq, Eq)]
#[non_exhaustive]
pub struct Walk {
    /// Each object before those that its own pointers lead to. Null pointers and elements of lists of structs aren't among
    /// them.
    pub objects: Vec<Object>,
    /// The number of all objects, which may be more than `most`.
    pub count: usize,
    /// The pointer at which the message is broken; the objects are then those before it.
    pub broken: Option<Broken>,
}

/// What is in a list of objects before they are found.
pub(crate) const NO_OBJECT: WalkedObject = WalkedObject {
    parent: NO_PARENT,
    pointer_segment: 0,
    segment: 0,
    pointer_word: 0,
    word: 0,
    kind: STRUCT,
    count: 0,
    capability: 0,
    data_words: 0,
    pointers: 0,
};

impl Object {
    pub(crate) fn of(found: &WalkedObject) -> Self {
        Object {
            kind: Kind::of(found.kind),
            parent: (found.parent != NO_PARENT).then_some(found.parent as usize),
            pointer_segment: found.pointer_segment,
            pointer_word: found.pointer_word,
            segment: found.segment,
            word: found.word,
            count: found.count,
            capability: found.capability,
            data_words: found.data_words,
            pointers: found.pointers,
        }
    }
}
