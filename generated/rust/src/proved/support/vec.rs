//! Lists whose calls are refused if memory runs out.

use super::alloc::{AllocError, AllocFailed, Global};
use super::rust_alloc::vec;
use core::ops::{Deref, DerefMut};

/// A list; Rust's `Vec`, with calls that can fail.
#[derive(Debug, PartialEq, Eq)]
pub struct Vec<T>(vec::Vec<T>);

impl<T> Vec<T> {
    #[inline]
    pub const fn new(_alloc: Global) -> Self {
        Vec(vec::Vec::new())
    }

    #[inline]
    pub fn with_capacity(_alloc: Global, n: usize) -> Result<Self, AllocError> {
        let mut list = vec::Vec::new();
        list.try_reserve_exact(n).map_err(|_| AllocError)?;
        Ok(Vec(list))
    }

    #[inline]
    pub fn from_elem(_alloc: Global, value: T, n: usize) -> Result<Self, AllocError>
    where
        T: Clone,
    {
        let mut list = vec::Vec::new();
        list.try_reserve_exact(n).map_err(|_| AllocError)?;
        list.resize(n, value);
        Ok(Vec(list))
    }

    #[inline]
    pub fn reserve(&mut self, more: usize) -> Result<(), AllocError> {
        self.0.try_reserve(more).map_err(|_| AllocError)
    }

    #[inline]
    pub fn push(&mut self, value: T) -> Result<(), AllocFailed<T>> {
        if self.0.len() == self.0.capacity() && self.0.try_reserve(1).is_err() {
            return Err(AllocFailed { value });
        }
        self.0.push(value);
        Ok(())
    }

    #[inline]
    pub fn pop(&mut self) -> Option<T> {
        self.0.pop()
    }

    #[inline]
    pub fn resize(&mut self, n: usize, value: T) -> Result<(), AllocError>
    where
        T: Clone,
    {
        if n > self.0.len() {
            self.0
                .try_reserve(n - self.0.len())
                .map_err(|_| AllocError)?;
        }
        self.0.resize(n, value);
        Ok(())
    }

    #[inline]
    pub fn extend_from_slice(&mut self, from: &[T]) -> Result<(), AllocError>
    where
        T: Copy,
    {
        self.0.try_reserve(from.len()).map_err(|_| AllocError)?;
        self.0.extend_from_slice(from);
        Ok(())
    }

    #[inline]
    pub fn truncate(&mut self, n: usize) {
        self.0.truncate(n);
    }

    #[inline]
    pub fn clear(&mut self) {
        self.0.clear();
    }

    #[inline]
    pub fn capacity(&self) -> usize {
        self.0.capacity()
    }

    #[inline]
    pub fn as_slice(&self) -> &[T] {
        &self.0
    }

    #[inline]
    pub fn as_mut_slice(&mut self) -> &mut [T] {
        &mut self.0
    }

    #[inline]
    pub fn allocator(&self) -> &Global {
        &Global
    }

    /// Drops a list without elements.
    #[inline]
    pub fn destroy_empty(self) {}

    /// Rust's list of the same elements.
    #[inline]
    pub fn into_vec(self) -> vec::Vec<T> {
        self.0
    }
}

impl<T> From<vec::Vec<T>> for Vec<T> {
    #[inline]
    fn from(list: vec::Vec<T>) -> Self {
        Vec(list)
    }
}

impl<T> Deref for Vec<T> {
    type Target = [T];

    #[inline]
    fn deref(&self) -> &[T] {
        &self.0
    }
}

impl<T> DerefMut for Vec<T> {
    #[inline]
    fn deref_mut(&mut self) -> &mut [T] {
        &mut self.0
    }
}

impl<T> IntoIterator for Vec<T> {
    type Item = T;
    type IntoIter = vec::IntoIter<T>;

    #[inline]
    fn into_iter(self) -> vec::IntoIter<T> {
        self.0.into_iter()
    }
}

impl<'a, T> IntoIterator for &'a Vec<T> {
    type Item = &'a T;
    type IntoIter = core::slice::Iter<'a, T>;

    #[inline]
    fn into_iter(self) -> core::slice::Iter<'a, T> {
        self.0.iter()
    }
}
