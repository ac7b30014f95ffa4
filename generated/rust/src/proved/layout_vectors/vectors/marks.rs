//! Marks of the words of a message.

use crate::proved::support::alloc::{AllocError, Global};
use crate::proved::support::vec::Vec;

/// A byte for each word of a message: 1 if the word is marked, otherwise 0.
pub(in crate::proved::layout_vectors) struct Marks {
    pub(in crate::proved::layout_vectors) rows: Vec<Vec<u8>>,
}

/// Whether none of the `n` words from `start` on is marked in `row`.
///
/// # Preconditions
///
/// ```text
/// requires { start + n ≤ length row.now }
/// ```
fn are_free(row: &[u8], start: usize, n: usize) -> bool {
    for i in start..start + n {
        if row[i] != 0 {
            return false;
        }
    }
    true
}

/// Marks the `n` words from `start` on in `row`.
///
/// # Preconditions
///
/// ```text
/// requires { start + n ≤ length row.old }
/// ```
fn mark_words(row: &mut [u8], start: usize, n: usize) {
    row[start..start + n].fill(1);
}

impl Marks {
    /// Makes a mark, not set, for each word of `segments`.
    pub(in crate::proved::layout_vectors) fn new(
        alloc: Global,
        segments: &[&[u8]],
    ) -> Result<Self, AllocError> {
        let mut rows = Vec::new(alloc);
        for segment in segments {
            let row = Vec::from_elem(alloc, 0u8, segment.len() / 8)?;
            rows.push(row)?;
        }
        Ok(Marks { rows })
    }

    /// The number of words of segment `id`; 0 if there is no such segment.
    fn segment_length(&self, id: u32) -> usize {
        match self.rows.get(id as usize) {
            Some(row) => row.len(),
            None => 0,
        }
    }

    /// Marks the `n` words of segment `id` from `start` on and returns `true`. If one of them
    /// doesn't exist or is marked already, marks none and returns `false`.
    pub(in crate::proved::layout_vectors) fn try_mark(
        &mut self,
        id: u32,
        start: u32,
        n: u32,
    ) -> bool {
        if start as usize + n as usize > self.segment_length(id) {
            return false;
        }
        if n == 0 {
            return true;
        }
        self.try_mark_nonempty(id, start as usize, n as usize)
    }

    /// Marks the `n` words of segment `id` from `start` on and returns `true`. If one of them is
    /// marked already, marks none and returns `false`. Preconditions: the words exist; `n` isn't 0.
    ///
    /// # Preconditions
    ///
    /// ```text
    /// requires some { 0 < n }
    /// requires inside { start + n ≤ length (segment (rows_of self.old) id) }
    /// ```
    fn try_mark_nonempty(&mut self, id: u32, start: usize, n: usize) -> bool {
        let row = &mut self.rows[id as usize];
        if !are_free(row.as_slice(), start, n) {
            return false;
        }
        mark_words(row.as_mut_slice(), start, n);
        true
    }
}
