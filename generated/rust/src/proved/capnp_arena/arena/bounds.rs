//! Finds the first row of a builder arena (one for each segment) with room for `amount` more words,
//! without looking at each row.
//!
//! The rows are cut into ranges as in a Fenwick tree: counted from 1, row i is the last of a range
//! whose length is the greatest power of two that divides i. So the rows up to row i form at most
//! as many ranges as i has binary digits. Each row stores a bound: no row of its range has more
//! room than this bound. So a range without room is skipped with one look at its bound.
//!
//! The room of a row only shrinks, so allocating words leaves the bounds correct. A new row starts
//! with the greatest bound possible, 536,870,911. If a bound is greater than needed, the search may
//! look at a row without room; it then lowers the bound.

use crate::proved::capnp_arena::arena::row::Row;
use crate::proved::capnp_arena::arena::Segment;

/// Skips ranges of rows, from row `from` on, while their bounds say that none of their rows has
/// room for `amount` words. Returns the first row that isn't skipped, which may have no room
/// either; `None` if all are skipped.
///
/// # Preconditions
///
/// ```text
/// requires few { length rows.now ≤ max_segments }
/// requires bounded { HasBounds S.Segment rows.now }
/// requires inside { from ≤ length rows.now }
/// ```
#[inline]
fn skip_full_ranges<S: Segment>(rows: &[Row<S>], from: usize, amount: u32) -> Option<usize> {
    // The ranges that start at `from` are narrower than the greatest power of two that divides it.
    let mut rest = from;
    let mut width = 1;
    'widen: while width <= rows.len() && rest % 2 == 0 {
        rest /= 2;
        width *= 2;
    }
    let mut at = from;
    'narrow: while width > 1 {
        width /= 2;
        if width <= rows.len() - at && rows[at + width - 1].bound < amount {
            at += width;
        }
    }
    if at < rows.len() {
        Some(at)
    } else {
        None
    }
}

/// The most room that a row of the range that ends with row `at` can have: the maximum of the room
/// of row `at` and of the bounds of the ranges that the range's other rows form.
///
/// # Preconditions
///
/// ```text
/// requires there { at < length rows.now }
/// requires bounded { HasBounds S.Segment rows.now }
/// ```
#[inline]
fn greatest_room<S: Segment>(rows: &[Row<S>], at: usize) -> u32 {
    let mut greatest = rows[at].room();
    let mut rest = at + 1;
    let mut width = 1;
    'widen: while rest % 2 == 0 {
        greatest = greatest.max(rows[at - width].bound);
        rest /= 2;
        width *= 2;
    }
    greatest
}

/// Lowers the bound of row `at` to its `greatest_room`.
///
/// # Preconditions
///
/// ```text
/// requires there { at < length rows.old }
/// requires bounded { HasBounds S.Segment rows.old }
/// ```
#[inline]
fn tighten_bound<S: Segment>(rows: &mut [Row<S>], at: usize) {
    let greatest = greatest_room(rows, at);
    let row = &mut rows[at];
    row.bound = greatest;
}

/// Finds the first row with room for `amount` more words, by the bounds of the rows; `None` if no
/// row has room for them.
///
/// # Preconditions
///
/// ```text
/// requires few { length rows.old ≤ max_segments }
/// requires bounded { HasBounds S.Segment rows.old }
/// ```
#[inline(never)]
pub(in crate::proved::capnp_arena) fn first_fit_by_bounds<S: Segment>(
    rows: &mut [Row<S>],
    amount: u32,
) -> Option<u32> {
    let mut from = 0;
    while let Some(at) = skip_full_ranges(rows, from, amount) {
        if rows[at].has_room(amount) {
            return Some(at as u32);
        }
        tighten_bound(rows, at);
        from = at + 1;
    }
    None
}

/// The first row with room for `amount` more words. If it is row 0, as in most messages, looks at
/// no bound.
///
/// # Preconditions
///
/// ```text
/// requires few { length rows.old ≤ max_segments }
/// requires bounded { HasBounds S.Segment rows.old }
/// ```
#[inline(always)]
pub(in crate::proved::capnp_arena) fn first_fit<S: Segment>(
    rows: &mut [Row<S>],
    amount: u32,
) -> Option<u32> {
    if !rows.is_empty() && rows[0].has_room(amount) {
        return Some(0);
    }
    first_fit_by_bounds(rows, amount)
}
