//! Lists of messages that are being built.

use crate::builder::{Builder, BuiltArena};
use crate::building::StructBuilder;
use crate::element::{Element, Lists, Number, Structs};
use crate::list::no_element;
use crate::proved::capnp_builders::builders::element_place;
use crate::proved::capnp_readers::readers::ListPlace;
use crate::proved::capnp_words::wire_pointer::{ElementSize, StructSize};
use crate::proved::typed_building::list;
use core::marker::PhantomData;

/// The place of a list that was refused.
const NO_LIST: ListPlace = ListPlace {
    segment: 0,
    byte: 0,
    size: ElementSize::Void,
    struct_size: StructSize {
        data_words: 0,
        pointers: 0,
    },
    count: 0,
};

/// A list of a message that is being built: of numbers, `bool`, `str`, `[u8]` (data), [`Structs`],
/// or [`Lists`] of these. It borrows the message mutably, like a [`StructBuilder`].
///
/// An element that the list doesn't have is a mistake of the program, and panics; but a list that
/// was refused takes every element, and keeps none.
pub struct ListBuilder<'b, T: ?Sized> {
    message: &'b mut Builder,
    list: ListPlace,
    next: u32,
    of: PhantomData<fn() -> *const T>,
}

impl<'b, T: ?Sized> ListBuilder<'b, T> {
    #[inline(always)]
    pub(crate) fn of(message: &'b mut Builder, list: Option<ListPlace>) -> Self {
        ListBuilder {
            message,
            list: list.unwrap_or(NO_LIST),
            next: 0,
            of: PhantomData,
        }
    }

    /// The place of the list. If rustc knows the segment, it leaves out the code for others.
    #[inline(always)]
    fn place(&self) -> ListPlace {
        debug_assert_eq!(self.list.segment, 0, "a built message has one segment");
        ListPlace {
            segment: 0,
            ..self.list
        }
    }

    /// The same list, with elements of another type.
    #[inline(always)]
    pub(crate) fn retyped<U: ?Sized>(self) -> ListBuilder<'b, U> {
        ListBuilder {
            message: self.message,
            list: self.list,
            next: self.next,
            of: PhantomData,
        }
    }

    /// The number of elements; none after a refusal.
    #[inline]
    pub fn len(&self) -> usize {
        self.list.count as usize
    }

    /// Whether there are no elements.
    #[inline]
    pub fn is_empty(&self) -> bool {
        self.len() == 0
    }

    /// Whether there is an element `index`. Panics if there is none, unless something was refused.
    #[inline(always)]
    #[track_caller]
    fn has(&self, index: usize) -> bool {
        let is_inside = index < self.len();
        if !is_inside && self.message.refused().is_none() {
            no_element(index, self.len());
        }
        is_inside
    }

    /// The arena, to change element `index`, which the list has to have; `None` after a refusal.
    #[inline(always)]
    #[track_caller]
    fn changeable(&mut self, index: usize) -> Option<&mut BuiltArena> {
        if self.has(index) {
            self.message.changeable()
        } else {
            None
        }
    }

    /// Struct `index` of a list of structs. Panics if there is no such element.
    #[inline]
    #[track_caller]
    pub(crate) fn struct_at(&mut self, index: usize) -> StructBuilder<'_> {
        if !self.has(index) {
            return StructBuilder::of(self.message, None);
        }
        debug_assert!(self.list.size == ElementSize::InlineComposite);
        let list = ListPlace {
            size: ElementSize::InlineComposite,
            ..self.place()
        };
        StructBuilder::of(self.message, Some(element_place(list, index as u32)))
    }

    /// The next struct of a list of structs; `None` after the last.
    #[inline]
    pub(crate) fn next_struct(&mut self) -> Option<StructBuilder<'_>> {
        if self.next >= self.list.count {
            return None;
        }
        let index = self.next;
        self.next += 1;
        Some(self.struct_at(index as usize))
    }

    /// Makes element `index` of a list of lists a new list of `count` structs.
    #[track_caller]
    pub(crate) fn new_list_of_structs<U: ?Sized>(
        &mut self,
        index: usize,
        count: usize,
        size: StructSize,
    ) -> ListBuilder<'_, U> {
        let made = self.new_structs(index, count, size);
        ListBuilder::of(self.message, made)
    }

    #[track_caller]
    fn new_structs(&mut self, index: usize, count: usize, size: StructSize) -> Option<ListPlace> {
        let place = self.place();
        let count = self.message.count_of(count, size.total() as usize)?;
        let arena = self.changeable(index)?;
        let made = list::init_struct_list(arena, place, index as u32, count, size);
        self.message.keep(made)
    }
}

/// Refuses, when it is compiled, elements that are structs: only `init_structs` is told their size.
pub(crate) const fn check_element(size: ElementSize) {
    assert!(
        !matches!(size, ElementSize::InlineComposite),
        "init_structs makes lists of structs"
    );
}

impl<T: Number> ListBuilder<'_, T> {
    /// Writes element `index`. Panics if there is no such element.
    #[inline]
    #[track_caller]
    pub fn set(&mut self, index: usize, number: T) {
        let place = self.place();
        if self.has(index) {
            list::set_element(
                self.message.arena(),
                place,
                index as u32,
                number.into_bits(),
            );
        }
    }

    /// Writes an element for each number: the first elements if there are fewer numbers, the first
    /// numbers if there are more.
    pub fn fill(&mut self, numbers: impl IntoIterator<Item = T>) {
        for (index, number) in (0..self.len()).zip(numbers) {
            self.set(index, number);
        }
    }
}

impl ListBuilder<'_, bool> {
    /// Writes element `index`. Panics if there is no such element.
    #[inline]
    #[track_caller]
    pub fn set(&mut self, index: usize, bit: bool) {
        let place = self.place();
        if self.has(index) {
            list::set_bool(self.message.arena(), place, index as u32, bit);
        }
    }
}

impl ListBuilder<'_, str> {
    /// Writes text `index`. Panics if there is no such element.
    #[inline]
    #[track_caller]
    pub fn set(&mut self, index: usize, text: &str) {
        self.write(index, text);
    }

    #[inline(always)]
    #[track_caller]
    fn write(&mut self, index: usize, text: &str) -> Option<()> {
        let place = self.place();
        self.message.count_of(text.len() + 1, 1)?;
        let made = list::set_text(
            self.changeable(index)?,
            place,
            index as u32,
            text.as_bytes(),
        );
        self.message.keep(made)
    }
}

impl ListBuilder<'_, [u8]> {
    /// Writes data `index`. Panics if there is no such element.
    #[inline]
    #[track_caller]
    pub fn set(&mut self, index: usize, data: &[u8]) {
        self.write(index, data);
    }

    #[inline(always)]
    #[track_caller]
    fn write(&mut self, index: usize, data: &[u8]) -> Option<()> {
        let place = self.place();
        self.message.count_of(data.len(), 1)?;
        let made = list::set_data(self.changeable(index)?, place, index as u32, data);
        self.message.keep(made)
    }
}

impl<T: Element + ?Sized> ListBuilder<'_, Lists<T>> {
    /// Makes element `index` a new list of `count` elements, all zero or null. Panics if there is
    /// no such element.
    #[track_caller]
    pub fn init(&mut self, index: usize, count: usize) -> ListBuilder<'_, T> {
        const { check_element(T::SIZE) };
        let made = self.new_list(index, count);
        ListBuilder::of(self.message, made)
    }

    #[track_caller]
    fn new_list(&mut self, index: usize, count: usize) -> Option<ListPlace> {
        let place = self.place();
        let count = self.message.count_of(count, 1)?;
        let made = list::init_list(self.changeable(index)?, place, index as u32, T::SIZE, count);
        self.message.keep(made)
    }
}

impl ListBuilder<'_, Lists<Structs>> {
    /// Makes element `index` a new list of `count` structs, all zero and null. Panics if there is
    /// no such element.
    #[track_caller]
    pub fn init_structs(
        &mut self,
        index: usize,
        count: usize,
        size: StructSize,
    ) -> ListBuilder<'_, Structs> {
        self.new_list_of_structs(index, count, size)
    }
}

impl ListBuilder<'_, Structs> {
    /// Struct `index`. Panics if there is no such element, like `[]` of a slice.
    #[inline]
    #[track_caller]
    pub fn at(&mut self, index: usize) -> StructBuilder<'_> {
        self.struct_at(index)
    }

    /// Struct `index`; `None` if there is no such element, or after a refusal.
    pub fn get(&mut self, index: usize) -> Option<StructBuilder<'_>> {
        if index < self.len() {
            Some(self.at(index))
        } else {
            None
        }
    }

    /// The next struct, from the first on; `None` after the last. For `while let Some(mut person) =
    /// people.next()`.
    #[inline]
    #[allow(clippy::should_implement_trait)] // each struct borrows the list
    pub fn next(&mut self) -> Option<StructBuilder<'_>> {
        self.next_struct()
    }

    /// Calls `write` with a struct for each item: the first structs if there are fewer items, the
    /// first items if there are more.
    pub fn fill<I: IntoIterator>(
        &mut self,
        items: I,
        mut write: impl FnMut(StructBuilder<'_>, I::Item),
    ) {
        for (index, item) in (0..self.len()).zip(items) {
            write(self.at(index), item);
        }
    }
}
