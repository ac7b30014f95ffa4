//! Edits of the data section of a struct.

use crate::proved::capnp_arena::arena::BuilderArena;
use crate::proved::capnp_edits::edit::tasks::Number;
use crate::proved::capnp_in_place::existing::ExistingStruct;
use crate::proved::capnp_in_place::numbers::{set_bit, set_number};
use crate::proved::capnp_words::error::ErrorKind;
use crate::proved::capnp_words::primitive::Primitive;
use crate::proved::capnp_words::wire_pointer::ElementSize;

/// Writes `value` into the data section of `parent`, at index `index`, counted in numbers of the
/// same width. Refuses with `NoSuchPlace` if that place isn't inside the section.
///
/// # Preconditions
///
/// ```text
/// requires { IsStructInside (A.view arena.old).words parent }
/// ```
fn put_number<A: BuilderArena, T: Primitive>(
    arena: &mut A,
    parent: ExistingStruct,
    index: u32,
    value: T,
) -> Result<(), ErrorKind> {
    let bytes = T::BYTES as u64;
    let byte = u64::from(index) * bytes;
    if byte + bytes > 8 * u64::from(parent.size.data_words) {
        return Err(ErrorKind::NoSuchPlace);
    }
    set_number(
        arena,
        parent.segment,
        8 * u64::from(parent.start) + byte,
        value,
    );
    Ok(())
}

/// Writes `value` to bit `index` of the data section of `parent`. Refuses with `NoSuchPlace` if
/// that bit isn't inside the section.
///
/// # Preconditions
///
/// ```text
/// requires { IsStructInside (A.view arena.old).words parent }
/// ```
fn put_bit<A: BuilderArena>(
    arena: &mut A,
    parent: ExistingStruct,
    index: u32,
    value: bool,
) -> Result<(), ErrorKind> {
    if u64::from(index) >= 64 * u64::from(parent.size.data_words) {
        return Err(ErrorKind::NoSuchPlace);
    }
    let bit = 64 * u64::from(parent.start) + u64::from(index);
    set_bit(arena, parent.segment, bit, value);
    Ok(())
}

/// Writes `number`, which may be a bit, into the data section of `parent`. Refuses with
/// `NoSuchPlace` if the place of `number` isn't inside the section.
///
/// # Preconditions
///
/// ```text
/// requires inside { IsStructInside (A.view arena.old).words parent }
/// requires range { is_number number.size number.value ≡ true }
/// ```
pub(in crate::proved::capnp_edits) fn put_field<A: BuilderArena>(
    arena: &mut A,
    parent: ExistingStruct,
    number: Number,
) -> Result<(), ErrorKind> {
    match number.size {
        ElementSize::Bit => put_bit(arena, parent, number.index, number.value != 0),
        ElementSize::Byte => put_number(arena, parent, number.index, number.value as u8),
        ElementSize::TwoBytes => put_number(arena, parent, number.index, number.value as u16),
        ElementSize::FourBytes => put_number(arena, parent, number.index, number.value as u32),
        _ => put_number(arena, parent, number.index, number.value),
    }
}
