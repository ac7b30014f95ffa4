//! The types that elements of a list can have.

use crate::list::List;
use crate::meter::sealed::Closed;
use crate::meter::Meter;
use crate::proved::capnp_readers::readers::{ListReader, PrimitiveElement, StructReader};
use crate::proved::capnp_words::primitive::Primitive;
use crate::proved::capnp_words::wire_pointer::ElementSize;
use crate::proved::capnp_words::zero::Zero;
use crate::reading::{Pointer, Struct};
use crate::segments::Arena;
use core::fmt;
use core::marker::PhantomData;

/// A number that a struct or a list can hold.
pub trait Number: Copy + Closed + Element {
    /// The integer of the same size that is stored.
    #[doc(hidden)]
    type Bits: Primitive + PrimitiveElement + Zero;
    #[doc(hidden)]
    fn from_bits(bits: Self::Bits) -> Self;
    #[doc(hidden)]
    fn into_bits(self) -> Self::Bits;
    /// The exclusive or of two numbers.
    #[doc(hidden)]
    fn masked(self, mask: Self) -> Self;
}

/// What a [`List`] can be a list of: `u8`, `u16`, `u32`, `u64`, `i8`, `i16`, `i32`, `i64`, `f32`,
/// `f64`, `bool`, `()`, `str`, `[u8]` (data), [`Structs`], [`Lists`] of these, and [`Pointers`] of
/// any kind.
pub trait Element: Closed {
    /// The least size of the elements.
    #[doc(hidden)]
    const SIZE: ElementSize;
    /// What an element is read as. For texts, data and lists it is what a getter of a generated type
    /// returns: a `Result`, unless the message was checked against its schema.
    type Item<'a, M: Meter>: fmt::Debug;
    /// Element `index`, which the list has.
    #[doc(hidden)]
    fn read<'a, M: Meter>(
        list: &ListReader<'a, Arena<'a>>,
        meter: M,
        index: u32,
    ) -> Self::Item<'a, M>;
}

macro_rules! numbers {
    ($($t:ty, $bits:ty, $size:ident, $from:expr, $into:expr;)*) => {
        $(
            impl Closed for $t {}

            impl Element for $t {
                const SIZE: ElementSize = ElementSize::$size;
                type Item<'a, M: Meter> = $t;

                #[inline(always)]
                fn read<'a, M: Meter>(list: &ListReader<'a, Arena<'a>>, _: M, index: u32) -> $t {
                    $from(<$bits as PrimitiveElement>::get(list, index))
                }
            }

            impl Number for $t {
                type Bits = $bits;

                #[inline(always)]
                fn from_bits(bits: $bits) -> Self {
                    $from(bits)
                }

                #[inline(always)]
                fn into_bits(self) -> $bits {
                    $into(self)
                }

                #[inline(always)]
                fn masked(self, mask: Self) -> Self {
                    $from($into(self) ^ $into(mask))
                }
            }
        )*
    };
}

numbers! {
    u8, u8, Byte, u8::from, u8::from;
    u16, u16, TwoBytes, u16::from, u16::from;
    u32, u32, FourBytes, u32::from, u32::from;
    u64, u64, EightBytes, u64::from, u64::from;
    i8, i8, Byte, i8::from, i8::from;
    i16, i16, TwoBytes, i16::from, i16::from;
    i32, i32, FourBytes, i32::from, i32::from;
    i64, i64, EightBytes, i64::from, i64::from;
    f32, u32, FourBytes, f32::from_bits, f32::to_bits;
    f64, u64, EightBytes, f64::from_bits, f64::to_bits;
}

macro_rules! flat {
    ($($t:ty: $size:ident),*) => {
        $(
            impl Closed for $t {}

            impl Element for $t {
                const SIZE: ElementSize = ElementSize::$size;
                type Item<'a, M: Meter> = $t;

                #[inline(always)]
                fn read<'a, M: Meter>(list: &ListReader<'a, Arena<'a>>, _: M, index: u32) -> $t {
                    <$t as PrimitiveElement>::get(list, index)
                }
            }
        )*
    };
}

flat!(bool: Bit, (): Void);

/// Elements that are structs.
#[derive(Debug)]
pub enum Structs {}

/// Elements that are lists of `T`.
#[derive(Debug)]
pub struct Lists<T: ?Sized>(PhantomData<fn() -> T>);

/// Elements that are pointers of any kind.
#[derive(Debug)]
pub enum Pointers {}

impl Closed for Structs {}
impl Closed for Pointers {}
impl Closed for str {}
impl Closed for [u8] {}
impl<T: ?Sized> Closed for Lists<T> {}

impl Element for Structs {
    const SIZE: ElementSize = ElementSize::InlineComposite;
    type Item<'a, M: Meter> = Struct<'a, M>;

    #[inline(always)]
    fn read<'a, M: Meter>(list: &ListReader<'a, Arena<'a>>, meter: M, index: u32) -> Struct<'a, M> {
        let raw = match list.get_element_size() {
            ElementSize::InlineComposite => list.get_struct_element(index),
            _ => narrow_element(*list, index),
        };
        Struct { raw, meter }
    }
}

/// An element that isn't a struct, as a struct. Takes the list itself: what a call borrows, rustc
/// keeps in memory, and with it the iterator that holds it.
#[cold]
#[inline(never)]
fn narrow_element<'a>(list: ListReader<'a, Arena<'a>>, index: u32) -> StructReader<'a, Arena<'a>> {
    list.get_struct_element(index)
}

#[inline(always)]
fn pointer<'a, M: Meter>(list: &ListReader<'a, Arena<'a>>, meter: M, index: u32) -> Pointer<'a, M> {
    Pointer {
        raw: list.get_pointer_element(index),
        meter,
    }
}

macro_rules! pointers {
    ($([$($generic:tt)*] $t:ty, $item:ty, $read:expr;)*) => {
        $(
            impl<$($generic)*> Element for $t {
                const SIZE: ElementSize = ElementSize::Pointer;
                type Item<'a, M: Meter> = $item;

                #[inline(always)]
                fn read<'a, M: Meter>(
                    list: &ListReader<'a, Arena<'a>>,
                    meter: M,
                    index: u32,
                ) -> $item {
                    $read(pointer(list, meter, index))
                }
            }
        )*
    };
}

pointers! {
    [] str, M::Out<&'a str>, |it: Pointer<'a, M>| M::give(it.as_text());
    [] [u8], M::Out<&'a [u8]>, |it: Pointer<'a, M>| M::give(it.as_data());
    [] Pointers, Pointer<'a, M::Plain>, |it: Pointer<'a, M>| it.plain();
    [T: Element + ?Sized] Lists<T>, M::Out<List<'a, T, M>>,
        |it: Pointer<'a, M>| M::give(it.as_list());
}
