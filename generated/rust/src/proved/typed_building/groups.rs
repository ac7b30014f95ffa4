//! Makes parts of a struct zero, to begin a group.

use crate::proved::capnp_arena_traits::arena::BuilderArena;
use crate::proved::capnp_builders::fields;
use crate::proved::capnp_readers::readers::StructPlace;
use crate::proved::typed_building::slots::Slot;
use crate::proved::typed_building::tag::UnionTag;
use crate::proved::typed_building::value;

/// Makes a part of a struct zero, or null, and zeroes what a pointer held. Preconditions: `place`
/// is inside the message and aligned; `slot` is inside the struct.
///
/// # Preconditions
///
/// ```text
/// requires aligned { IsAligned place }
/// requires inside { IsStructPlace (A.view arena.old).words place }
/// requires slot { HoldsSlot place slot }
/// ```
#[inline]
pub fn zero_slot<A: BuilderArena>(arena: &mut A, place: StructPlace, slot: Slot) {
    match slot {
        Slot::Bit(offset) => fields::set_bool(arena, place, offset, false),
        Slot::Byte(offset) => fields::set_number(arena, place, offset, 0u8),
        Slot::TwoBytes(offset) => fields::set_number(arena, place, offset, 0u16),
        Slot::FourBytes(offset) => fields::set_number(arena, place, offset, 0u32),
        Slot::EightBytes(offset) => fields::set_number(arena, place, offset, 0u64),
        Slot::Pointer(index) => value::clear(arena, place, index),
    }
}

/// Makes parts of a struct zero, or null, in their order, and zeroes what pointers held.
/// Preconditions: `place` is inside the message and aligned; each of `slots` is inside the struct.
///
/// # Preconditions
///
/// ```text
/// requires aligned { IsAligned place }
/// requires inside { IsStructPlace (A.view arena.old).words place }
/// requires slots { HoldsSlots place slots.now }
/// ```
#[inline]
pub fn zero_slots<A: BuilderArena>(arena: &mut A, place: StructPlace, slots: &[Slot]) {
    for slot in slots {
        zero_slot(arena, place, *slot);
    }
}

/// Sets the member of a union that is a group: writes its tag, and makes the parts of the struct
/// that the group has zero or null. Preconditions: `place` is inside the message and aligned; `tag`
/// is inside the data section; each of `slots` is inside the struct.
///
/// # Preconditions
///
/// ```text
/// requires aligned { IsAligned place }
/// requires inside { IsStructPlace (A.view arena.old).words place }
/// requires tag { IsInside place.bits 16 tag.offset }
/// requires slots { HoldsSlots place slots.now }
/// ```
#[inline]
pub fn zero_slots_member<A: BuilderArena>(
    arena: &mut A,
    place: StructPlace,
    tag: UnionTag,
    slots: &[Slot],
) {
    value::set_tag(arena, place, tag);
    zero_slots(arena, place, slots);
}
