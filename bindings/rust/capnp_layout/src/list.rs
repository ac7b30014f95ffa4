//! Readers of lists.

use crate::element::Element;
use crate::meter::{Meter, Sound};
use crate::proved::capnp_readers::readers::ListReader;
use crate::segments::Arena;
use core::fmt;
use core::iter::FusedIterator;
use core::marker::PhantomData;

/// A list of a message that is read.
///
/// ```
/// # use capnp_layout::{Builder, StructSize};
/// # let mut built = Builder::new();
/// # let mut root = built.init_root(StructSize { data_words: 0, pointers: 1 });
/// # let mut list = root.init_list::<str>(0, 2);
/// # list.set(0, "a");
/// # list.set(1, "b");
/// # let message = built.as_message()?;
/// let names = message.sound()?.get_list::<str>(0)?;
/// assert_eq!(names.len(), 2);
/// assert_eq!(names.at(1)?, "b"); // panics if there is no such element
/// assert!(names.get(2).is_none());
/// let names: Vec<&str> = names.iter().collect::<Result<_, _>>()?;
/// # assert_eq!(names, ["a", "b"]);
/// # Ok::<(), capnp_layout::Error>(())
/// ```
pub struct List<'a, T: ?Sized, M = Sound> {
    pub(crate) raw: ListReader<'a, Arena<'a>>,
    pub(crate) meter: M,
    of: PhantomData<fn() -> *const T>,
}

impl<T: ?Sized, M: Copy> Clone for List<'_, T, M> {
    #[inline(always)]
    fn clone(&self) -> Self {
        *self
    }
}

impl<T: ?Sized, M: Copy> Copy for List<'_, T, M> {}

impl<'a, T: Element + ?Sized, M: Meter> List<'a, T, M> {
    #[inline(always)]
    pub(crate) fn of(raw: ListReader<'a, Arena<'a>>, meter: M) -> Self {
        List {
            raw,
            meter,
            of: PhantomData,
        }
    }

    /// The number of elements.
    #[inline(always)]
    pub fn len(&self) -> usize {
        self.raw.len() as usize
    }

    /// Whether there are no elements.
    #[inline(always)]
    pub fn is_empty(&self) -> bool {
        self.len() == 0
    }

    /// Element `index`; `None` if there is no such element.
    #[inline(always)]
    pub fn get(&self, index: usize) -> Option<T::Item<'a, M>> {
        if index < self.len() {
            Some(T::read(&self.raw, self.meter, index as u32))
        } else {
            None
        }
    }

    /// Element `index`. Panics if there is no such element, like `[]` of a slice.
    #[inline(always)]
    #[track_caller]
    pub fn at(&self, index: usize) -> T::Item<'a, M> {
        match self.get(index) {
            Some(item) => item,
            None => no_element(index, self.len()),
        }
    }

    /// The elements, in order.
    #[inline(always)]
    pub fn iter(&self) -> Iter<'a, T, M> {
        Iter {
            list: *self,
            next: 0,
            end: self.raw.len(),
        }
    }
}

/// Says which element a list doesn't have.
#[cold]
#[inline(never)]
#[track_caller]
pub(crate) fn no_element(index: usize, count: usize) -> ! {
    panic!("index {index} of a list of {count} elements")
}

impl<'a, T: Element + ?Sized, M: Meter> IntoIterator for List<'a, T, M> {
    type Item = T::Item<'a, M>;
    type IntoIter = Iter<'a, T, M>;

    #[inline(always)]
    fn into_iter(self) -> Iter<'a, T, M> {
        self.iter()
    }
}

impl<'a, T: Element + ?Sized, M: Meter> IntoIterator for &List<'a, T, M> {
    type Item = T::Item<'a, M>;
    type IntoIter = Iter<'a, T, M>;

    #[inline(always)]
    fn into_iter(self) -> Iter<'a, T, M> {
        self.iter()
    }
}

impl<T: Element + ?Sized, M: Meter> fmt::Debug for List<'_, T, M> {
    fn fmt(&self, f: &mut fmt::Formatter<'_>) -> fmt::Result {
        f.debug_list().entries(self).finish()
    }
}

/// Element by element; so two lists of structs are equal if their values are.
impl<'a, 'b, T: Element + ?Sized, M: Meter, N: Meter> PartialEq<List<'b, T, N>> for List<'a, T, M>
where
    T::Item<'a, M>: PartialEq<T::Item<'b, N>>,
{
    fn eq(&self, other: &List<'b, T, N>) -> bool {
        self.len() == other.len() && self.iter().zip(other).all(|(a, b)| a == b)
    }
}

/// The elements of a [`List`].
pub struct Iter<'a, T: ?Sized, M = Sound> {
    list: List<'a, T, M>,
    next: u32,
    end: u32,
}

impl<T: ?Sized, M: Copy> Clone for Iter<'_, T, M> {
    fn clone(&self) -> Self {
        Iter { ..*self }
    }
}

impl<T: Element + ?Sized, M: Meter> fmt::Debug for Iter<'_, T, M> {
    fn fmt(&self, f: &mut fmt::Formatter<'_>) -> fmt::Result {
        f.debug_list().entries(self.clone()).finish()
    }
}

impl<'a, T: Element + ?Sized, M: Meter> Iterator for Iter<'a, T, M> {
    type Item = T::Item<'a, M>;

    #[inline(always)]
    fn next(&mut self) -> Option<Self::Item> {
        if self.next == self.end {
            return None;
        }
        let index = self.next;
        self.next += 1;
        Some(T::read(&self.list.raw, self.list.meter, index))
    }

    #[inline(always)]
    fn size_hint(&self) -> (usize, Option<usize>) {
        let left = (self.end - self.next) as usize;
        (left, Some(left))
    }

    #[inline(always)]
    fn nth(&mut self, n: usize) -> Option<Self::Item> {
        self.next += n.min((self.end - self.next) as usize) as u32;
        self.next()
    }
}

impl<T: Element + ?Sized, M: Meter> DoubleEndedIterator for Iter<'_, T, M> {
    #[inline(always)]
    fn next_back(&mut self) -> Option<Self::Item> {
        if self.next == self.end {
            return None;
        }
        self.end -= 1;
        Some(T::read(&self.list.raw, self.list.meter, self.end))
    }
}

impl<T: Element + ?Sized, M: Meter> ExactSizeIterator for Iter<'_, T, M> {}
impl<T: Element + ?Sized, M: Meter> FusedIterator for Iter<'_, T, M> {}
