//! Plain values of structs and lists: what code generated with `--values` is made of.

use crate::element::{Element, Lists};
use crate::generated::has_or_default;
use crate::list::List;
use crate::list_building::ListBuilder;
use crate::meter::Typed;
use crate::proved::capnp_readers::readers::StructReader;
use crate::reading::Struct;
use crate::typed::Enum;
use rust_alloc::boxed::Box;
use rust_alloc::string::String;
use rust_alloc::vec::Vec;

/// Elements that have plain values.
pub trait Owned: Element {
    /// The value of an element.
    type Value;

    /// The value of an element that is read.
    fn own(item: Self::Item<'_, Typed>) -> Self::Value;

    /// Writes element `index`.
    fn write(list: &mut ListBuilder<'_, Self>, index: usize, value: &Self::Value);

    /// Makes element `index` of a list of lists a new list of `count` elements.
    fn init<'s>(
        lists: &'s mut ListBuilder<'_, Lists<Self>>,
        index: usize,
        count: usize,
    ) -> ListBuilder<'s, Self> {
        lists.init(index, count)
    }
}

macro_rules! copied {
    ($($t:ty),*) => {
        $(
            impl Owned for $t {
                type Value = $t;

                fn own(item: $t) -> $t {
                    item
                }

                fn write(list: &mut ListBuilder<'_, $t>, index: usize, value: &$t) {
                    list.set(index, *value);
                }
            }
        )*
    };
}

copied!(u8, u16, u32, u64, i8, i16, i32, i64, f32, f64, bool);

impl<T: Enum> Owned for T {
    type Value = T;

    fn own(item: T) -> T {
        item
    }

    fn write(list: &mut ListBuilder<'_, T>, index: usize, value: &T) {
        list.set(index, *value);
    }
}

impl Owned for () {
    type Value = ();

    fn own(_: ()) {}

    fn write(_: &mut ListBuilder<'_, ()>, _: usize, _: &()) {}
}

impl Owned for str {
    type Value = String;

    fn own(item: &str) -> String {
        item.into()
    }

    fn write(list: &mut ListBuilder<'_, str>, index: usize, value: &String) {
        list.set(index, value);
    }
}

impl Owned for [u8] {
    type Value = Vec<u8>;

    fn own(item: &[u8]) -> Vec<u8> {
        item.into()
    }

    fn write(list: &mut ListBuilder<'_, [u8]>, index: usize, value: &Vec<u8>) {
        list.set(index, value);
    }
}

impl<T: Owned + ?Sized> Owned for Lists<T> {
    type Value = Vec<T::Value>;

    fn own(item: List<'_, T, Typed>) -> Vec<T::Value> {
        own_list(item)
    }

    fn write(list: &mut ListBuilder<'_, Lists<T>>, index: usize, value: &Vec<T::Value>) {
        fill(T::init(list, index, value.len()), value);
    }
}

/// The values of a list.
pub fn own_list<T: Owned + ?Sized>(list: List<'_, T, Typed>) -> Vec<T::Value> {
    list.iter().map(|item| T::own(item)).collect()
}

/// Writes values into a new list of as many elements.
pub fn fill<T: Owned + ?Sized>(mut list: ListBuilder<'_, T>, values: &[T::Value]) {
    for (index, value) in values.iter().enumerate() {
        T::write(&mut list, index, value);
    }
}

/// The value of a struct, unless its pointer is null.
pub fn boxed<T, V: From<T>>(is_set: bool, reader: T) -> Option<Box<V>> {
    is_set.then(|| Box::new(reader.into()))
}

/// The value of a struct with a default value, unless its pointer is null in a default value.
pub fn boxed_or_default<T, V: From<T>>(
    fields: &Struct<'_, Typed>,
    index: usize,
    reader: T,
) -> Option<Box<V>> {
    boxed(has_or_default(fields, index), reader)
}

/// The values of a list with a default value; none if its pointer is null in a default value.
pub fn own_list_or_default<T: Owned + ?Sized>(
    fields: &Struct<'_, Typed>,
    index: usize,
    list: List<'_, T, Typed>,
) -> Vec<T::Value> {
    if has_or_default(fields, index) {
        own_list(list)
    } else {
        Vec::new()
    }
}

/// A reader of a struct without fields: each has its default value.
pub fn no_struct<'a, T: From<Struct<'a, Typed>>>() -> T {
    Struct {
        raw: StructReader::new_default(),
        meter: Typed::NEW,
    }
    .into()
}
