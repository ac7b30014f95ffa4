//! The places that builders have, made from structs and lists that were found in a message.

use crate::proved::capnp_in_place::existing::{ExistingList, ExistingStruct};
use crate::proved::capnp_readers::readers::{ListPlace, StructPlace};

/// Returns the place for a `StructBuilder` of the struct `found`.
///
/// If the pointer section of `found` starts at word 2^32 or later, the place has word 2^32 - 1
/// instead. This doesn't happen for a struct of a message.
#[inline(always)]
pub fn struct_place(found: ExistingStruct) -> StructPlace {
    let data_words = u32::from(found.size.data_words);
    StructPlace {
        segment: found.segment,
        byte: 8 * u64::from(found.start),
        bits: 64 * data_words,
        pointers_at: found.start.saturating_add(data_words),
        pointers: found.size.pointers,
    }
}

/// Returns the place for a `ListBuilder` of the list `found`.
#[inline(always)]
pub fn list_place(found: ExistingList) -> ListPlace {
    ListPlace {
        segment: found.segment,
        byte: 8 * u64::from(found.start),
        size: found.size,
        struct_size: found.struct_size,
        count: found.count,
    }
}
