//! The fault of a message that isn't canonical, in the form for C.

use crate::proved::capnp_pointers::pointers::{CanonicalFault, CanonicalFaultReason};

/// Why and where a message isn't canonical.
#[repr(C)]
#[derive(Clone, Copy)]
pub struct Fault {
    /// The number of the reason; 0 if there is no fault.
    pub reason: u32,
    /// The position of the faulty word in its segment, counted in words from 0.
    pub word: u32,
    /// The number of the faulty word's segment.
    pub segment: u64,
}

/// No fault.
pub const NO_FAULT: Fault = Fault {
    reason: 0,
    word: 0,
    segment: 0,
};

/// The number of a reason.
fn number_of(reason: CanonicalFaultReason) -> u32 {
    match reason {
        CanonicalFaultReason::SegmentCount => 1,
        CanonicalFaultReason::NoPointer => 2,
        CanonicalFaultReason::FarPointer => 3,
        CanonicalFaultReason::Capability => 4,
        CanonicalFaultReason::UnknownPointer => 5,
        CanonicalFaultReason::EmptyStructPlace => 6,
        CanonicalFaultReason::ObjectPlace => 7,
        CanonicalFaultReason::Padding => 8,
        CanonicalFaultReason::DataSection => 9,
        CanonicalFaultReason::PointerSection => 10,
        CanonicalFaultReason::ElementWords => 11,
        CanonicalFaultReason::ElementData => 12,
        CanonicalFaultReason::ElementPointers => 13,
        CanonicalFaultReason::WordsBehind => 14,
    }
}

impl Fault {
    /// Returns the fault `found` with its reason as a number; `NO_FAULT` for `None`.
    pub fn of(found: Option<CanonicalFault>) -> Self {
        match found {
            Some(fault) => Fault {
                reason: number_of(fault.reason),
                word: fault.word,
                segment: fault.segment,
            },
            None => NO_FAULT,
        }
    }
}
