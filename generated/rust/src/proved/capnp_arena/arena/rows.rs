//! The rows of a builder arena whose allocator returns `true` from `keeps_first_in_arena`. A row is
//! a segment with the number of its allocated words. The first row is in the struct `Rows` itself,
//! so it takes no memory from the heap; the others are in a list. Any other builder arena uses
//! module `listed`.
//!
//! Most messages have one segment, and most words are written in it. So the code for row 0 is
//! inlined, and the code for other rows is in functions that aren't inlined.

use crate::proved::capnp_arena::arena::row::Row;
use crate::proved::capnp_arena::arena::{bounds, Segment, WordPlace};
use crate::proved::support::alloc::Global;
use crate::proved::support::vec::Vec;
use core::mem::replace;

/// Allocates `amount` words after the allocated ones of row `id`, and returns their position.
/// Precondition: the row has room for them.
///
/// # Preconditions
///
/// ```text
/// requires there { id < length rows.old }
/// requires fits { length (segment (message (shown S.Segment rows.old)) id) + amount
///     ≤ capacity_at S.Segment rows.old id }
/// ```
#[cold]
#[inline(never)]
fn allocate_fitting_in<S: Segment>(rows: &mut [Row<S>], id: usize, amount: u32) -> u32 {
    let row = &mut rows[id];
    row.allocate_fitting(amount)
}

/// Allocates `amount` words after the allocated ones of row `id`, and returns their position;
/// `None` if the row has no room for them.
///
/// # Preconditions
///
/// ```text
/// requires { id < length rows.old }
/// ```
#[cold]
#[inline(never)]
fn allocate_in<S: Segment>(rows: &mut [Row<S>], id: usize, amount: u32) -> Option<u32> {
    if rows[id].has_room(amount) {
        Some(allocate_fitting_in(rows, id, amount))
    } else {
        None
    }
}

/// Word `at` of row `id`.
///
/// # Preconditions
///
/// ```text
/// requires { IsPlace (message (shown S.Segment rows.now)) id at }
/// ```
#[cold]
#[inline(never)]
fn word_in<S: Segment>(rows: &[Row<S>], id: usize, at: u32) -> u64 {
    rows[id].word(at)
}

/// Writes `word` over word `at` of row `id`.
///
/// # Preconditions
///
/// ```text
/// requires { IsPlace (message (shown S.Segment rows.old)) id at }
/// ```
#[cold]
#[inline(never)]
fn put_word_in<S: Segment>(rows: &mut [Row<S>], id: usize, at: u32, word: u64) {
    let row = &mut rows[id];
    row.put_word(at, word);
}

/// A place in a list of rows: a row, by its index in the list, and a position in that row, in
/// words.
#[derive(Clone, Copy)]
pub(in crate::proved::capnp_arena) struct At {
    pub(in crate::proved::capnp_arena) row: usize,
    pub(in crate::proved::capnp_arena) at: u32,
}

/// Copies `n` words from position `from` of `row` to place `to` of `rows`.
///
/// # Preconditions
///
/// ```text
/// requires row { to.row < length rows.old }
/// requires there { from + n ≤ row.now.used }
/// requires inside { to.at + n
///     ≤ length (segment (message (shown S.Segment rows.old)) to.row) }
/// ```
#[inline(never)]
fn copy_in<S: Segment>(rows: &mut [Row<S>], to: At, row: &Row<S>, from: u32, n: u32) {
    let written = &mut rows[to.row];
    written.copy_from(to.at, row, from, n);
}

/// Copies `n` words from place `from` to place `to`. Precondition: the two places are in different
/// rows.
///
/// # Preconditions
///
/// ```text
/// requires rows { (from.row < length rows.old) × (to.row < length rows.old) }
/// requires apart { from.row ≢ to.row }
/// requires there { from.at + n
///     ≤ length (segment (message (shown S.Segment rows.old)) from.row) }
/// requires inside { to.at + n ≤ length (segment (message (shown S.Segment rows.old)) to.row) }
/// ```
#[inline]
pub(in crate::proved::capnp_arena) fn copy_across_in<S: Segment>(
    rows: &mut [Row<S>],
    from: At,
    to: At,
    n: u32,
) {
    if from.row < to.row {
        let (front, back) = rows.split_at_mut(to.row);
        let row = &mut back[0];
        row.copy_from(to.at, &front[from.row], from.at, n);
    } else {
        let (front, back) = rows.split_at_mut(from.row);
        let row = &mut front[to.row];
        row.copy_from(to.at, &back[0], from.at, n);
    }
}

/// The allocated words of row `id`; `None` if there is no such row.
#[inline(always)]
pub(in crate::proved::capnp_arena) fn allocated_in<S: Segment>(
    rows: &[Row<S>],
    id: usize,
) -> Option<&[u8]> {
    match rows.get(id) {
        Some(row) => Some(row.allocated()),
        None => None,
    }
}

/// The rows of an arena: the first one, outside of the list, and a list of the others.
pub(in crate::proved::capnp_arena) struct Rows<S: Segment> {
    pub(in crate::proved::capnp_arena) first: Row<S>,
    /// Whether there is a first row; if not, `first` has no words, and there are no others.
    pub(in crate::proved::capnp_arena) there: bool,
    pub(in crate::proved::capnp_arena) others: Vec<Row<S>>,
}

impl<S: Segment> Rows<S> {
    /// Makes the rows of an arena that has no segment yet. Takes no memory.
    #[inline]
    pub(in crate::proved::capnp_arena) fn new(alloc: Global) -> Self {
        Rows {
            first: Row {
                segment: S::empty(alloc),
                used: 0,
                bound: 0,
            },
            there: false,
            others: Vec::new(alloc),
        }
    }

    /// The number of rows.
    #[inline]
    pub(in crate::proved::capnp_arena) fn len(&self) -> usize {
        if self.there {
            self.others.len() + 1
        } else {
            0
        }
    }

    /// Allocates `amount` words after the allocated ones of row `id`, and returns their position.
    /// Precondition: the row has room for them.
    ///
    /// # Preconditions
    ///
    /// ```text
    /// requires there { id < length (all S.Segment self.old) }
    /// requires fits { length (segment (message (shown S.Segment (all S.Segment self.old))) id)
    ///     + amount ≤ capacity_at S.Segment (all S.Segment self.old) id }
    /// ```
    #[inline(always)]
    pub(in crate::proved::capnp_arena) fn allocate_fitting(&mut self, id: u32, amount: u32) -> u32 {
        if id == 0 {
            self.first.allocate_fitting(amount)
        } else {
            allocate_fitting_in(&mut self.others, id as usize - 1, amount)
        }
    }

    /// Allocates `amount` words after the allocated ones of row `id`, and returns their position;
    /// `None` if the row has no room for them.
    ///
    /// # Preconditions
    ///
    /// ```text
    /// requires { id < length (all S.Segment self.old) }
    /// ```
    #[inline(always)]
    pub(in crate::proved::capnp_arena) fn allocate(&mut self, id: u32, amount: u32) -> Option<u32> {
        if id == 0 {
            if self.first.has_room(amount) {
                Some(self.first.allocate_fitting(amount))
            } else {
                None
            }
        } else {
            allocate_in(&mut self.others, id as usize - 1, amount)
        }
    }

    /// Word `at` of row `id`.
    ///
    /// # Preconditions
    ///
    /// ```text
    /// requires { IsPlace (message (shown S.Segment (all S.Segment self.now))) id at }
    /// ```
    #[inline(always)]
    pub(in crate::proved::capnp_arena) fn word(&self, id: u32, at: u32) -> u64 {
        if id == 0 {
            self.first.word(at)
        } else {
            word_in(&self.others, id as usize - 1, at)
        }
    }

    /// Writes `word` over word `at` of row `id`.
    ///
    /// # Preconditions
    ///
    /// ```text
    /// requires { IsPlace (message (shown S.Segment (all S.Segment self.old))) id at }
    /// ```
    #[inline(always)]
    pub(in crate::proved::capnp_arena) fn put_word(&mut self, id: u32, at: u32, word: u64) {
        if id == 0 {
            self.first.put_word(at, word);
        } else {
            put_word_in(&mut self.others, id as usize - 1, at, word);
        }
    }

    /// Copies `n` words from place `from` to place `to`. Precondition: the two places are in
    /// different rows.
    ///
    /// # Preconditions
    ///
    /// ```text
    /// requires rows { (from.segment < length (all S.Segment self.old))
    ///     × (to.segment < length (all S.Segment self.old)) }
    /// requires apart { from.segment ≢ to.segment }
    /// requires there { from.at + n
    ///     ≤ length (segment (message (shown S.Segment (all S.Segment self.old))) from.segment) }
    /// requires inside { to.at + n
    ///     ≤ length (segment (message (shown S.Segment (all S.Segment self.old))) to.segment) }
    /// ```
    #[inline]
    pub(in crate::proved::capnp_arena) fn copy_across(
        &mut self,
        from: WordPlace,
        to: WordPlace,
        n: u32,
    ) {
        if from.segment == 0 {
            let new = At {
                row: to.segment as usize - 1,
                at: to.at,
            };
            copy_in(&mut self.others, new, &self.first, from.at, n);
        } else if to.segment == 0 {
            self.first
                .copy_from(to.at, &self.others[from.segment as usize - 1], from.at, n);
        } else {
            let old = At {
                row: from.segment as usize - 1,
                at: from.at,
            };
            let new = At {
                row: to.segment as usize - 1,
                at: to.at,
            };
            copy_across_in(&mut self.others, old, new, n);
        }
    }

    /// The allocated words of row `id`; `None` if there is no such row.
    #[inline(always)]
    pub(in crate::proved::capnp_arena) fn allocated(&self, id: u32) -> Option<&[u8]> {
        if id > 0 {
            return allocated_in(&self.others, id as usize - 1);
        }
        if self.there {
            Some(self.first.allocated())
        } else {
            None
        }
    }

    /// Lends the allocated words of the first row, for writing.
    #[inline(always)]
    fn first_mut(&mut self) -> &mut [u8] {
        self.first.allocated_mut()
    }

    /// Lends the allocated words of row `id`, for writing. Precondition: it isn't the first row.
    ///
    /// # Preconditions
    ///
    /// ```text
    /// requires some { 0 < id }
    /// requires there { id < length (all S.Segment self.old) }
    /// ```
    #[cold]
    #[inline(never)]
    fn other_mut(&mut self, id: u32) -> &mut [u8] {
        let row = &mut self.others[id as usize - 1];
        row.allocated_mut()
    }

    /// Lends the allocated words of row `id`, for writing.
    ///
    /// # Preconditions
    ///
    /// ```text
    /// requires { id < length (all S.Segment self.old) }
    /// ```
    #[inline(always)]
    pub(in crate::proved::capnp_arena) fn allocated_mut(&mut self, id: u32) -> &mut [u8] {
        if id == 0 {
            self.first_mut()
        } else {
            self.other_mut(id)
        }
    }

    /// The first row with room for `amount` more words. If it is row 0, as in most messages, looks
    /// at no bound.
    #[inline(always)]
    pub(in crate::proved::capnp_arena) fn first_fit(&mut self, amount: u32) -> Option<u32> {
        if self.there {
            if self.first.has_room(amount) {
                return Some(0);
            }
            match bounds::first_fit_by_bounds(&mut self.others, amount) {
                Some(k) => Some(k + 1),
                None => None,
            }
        } else {
            None
        }
    }
}

impl<S: Segment> Rows<S> {
    /// Adds the first row, for `segment`, with none of its words allocated. Precondition: there are
    /// no rows yet.
    ///
    /// # Preconditions
    ///
    /// ```text
    /// requires none { length (all S.Segment self.old) ≡ 0 }
    /// requires fresh { IsFresh 0 (S.Segment.content segment) }
    /// ```
    #[inline]
    pub(in crate::proved::capnp_arena) fn push_first(&mut self, segment: S) {
        let empty = replace(&mut self.first, Row::new(segment));
        self.there = true;
        let Row {
            segment,
            used: _,
            bound: _,
        } = empty;
        drop(segment);
    }
}
