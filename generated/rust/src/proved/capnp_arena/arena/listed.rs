//! The rows of a builder arena, one for each segment, all in one list.

use crate::proved::capnp_arena::arena::row::Row;
use crate::proved::capnp_arena::arena::rows::{allocated_in, copy_across_in, At};
use crate::proved::capnp_arena::arena::{bounds, Segment, WordPlace};
use crate::proved::support::alloc::Global;
use crate::proved::support::vec::Vec;

/// Rows that are all in a list.
pub(in crate::proved::capnp_arena) struct Listed<S: Segment> {
    pub(in crate::proved::capnp_arena) rows: Vec<Row<S>>,
}

impl<S: Segment> Listed<S> {
    /// Makes the rows of an arena that has no segment yet. Takes no memory.
    #[inline(always)]
    pub(in crate::proved::capnp_arena) fn new(alloc: Global) -> Self {
        Listed {
            rows: Vec::new(alloc),
        }
    }

    /// The number of rows.
    #[inline(always)]
    pub(in crate::proved::capnp_arena) fn len(&self) -> usize {
        self.rows.len()
    }

    /// Whether row `id` has room for `amount` more words.
    ///
    /// # Preconditions
    ///
    /// ```text
    /// requires { id < length self.now.rows.items }
    /// ```
    #[inline(always)]
    fn has_room(&self, id: u32, amount: u32) -> bool {
        self.rows[id as usize].has_room(amount)
    }

    /// Allocates `amount` words after the allocated ones of row `id`, and returns their position.
    /// Precondition: the row has room for them.
    ///
    /// # Preconditions
    ///
    /// ```text
    /// requires there { id < length self.old.rows.items }
    /// requires fits { length (segment (message (shown S.Segment self.old.rows.items)) id)
    ///     + amount ≤ capacity_at S.Segment self.old.rows.items id }
    /// ```
    #[inline(always)]
    pub(in crate::proved::capnp_arena) fn allocate_fitting(&mut self, id: u32, amount: u32) -> u32 {
        let row = &mut self.rows[id as usize];
        row.allocate_fitting(amount)
    }

    /// Allocates `amount` words after the allocated ones of row `id`, and returns their position;
    /// `None` if the row has no room for them.
    ///
    /// # Preconditions
    ///
    /// ```text
    /// requires { id < length self.old.rows.items }
    /// ```
    #[inline(always)]
    pub(in crate::proved::capnp_arena) fn allocate(&mut self, id: u32, amount: u32) -> Option<u32> {
        if self.has_room(id, amount) {
            Some(self.allocate_fitting(id, amount))
        } else {
            None
        }
    }

    /// Word `at` of row `id`.
    ///
    /// # Preconditions
    ///
    /// ```text
    /// requires { IsPlace (message (shown S.Segment self.now.rows.items)) id at }
    /// ```
    #[inline(always)]
    pub(in crate::proved::capnp_arena) fn word(&self, id: u32, at: u32) -> u64 {
        self.rows[id as usize].word(at)
    }

    /// Writes `word` over word `at` of row `id`.
    ///
    /// # Preconditions
    ///
    /// ```text
    /// requires { IsPlace (message (shown S.Segment self.old.rows.items)) id at }
    /// ```
    #[inline(always)]
    pub(in crate::proved::capnp_arena) fn put_word(&mut self, id: u32, at: u32, word: u64) {
        let row = &mut self.rows[id as usize];
        row.put_word(at, word);
    }

    /// Copies `n` words from place `from` to place `to`. Precondition: the two places are in
    /// different rows.
    ///
    /// # Preconditions
    ///
    /// ```text
    /// requires rows { (from.segment < length self.old.rows.items)
    ///     × (to.segment < length self.old.rows.items) }
    /// requires apart { from.segment ≢ to.segment }
    /// requires there { from.at + n
    ///     ≤ length (segment (message (shown S.Segment self.old.rows.items)) from.segment) }
    /// requires inside { to.at + n
    ///     ≤ length (segment (message (shown S.Segment self.old.rows.items)) to.segment) }
    /// ```
    #[inline(always)]
    pub(in crate::proved::capnp_arena) fn copy_across(
        &mut self,
        from: WordPlace,
        to: WordPlace,
        n: u32,
    ) {
        let old = At {
            row: from.segment as usize,
            at: from.at,
        };
        let new = At {
            row: to.segment as usize,
            at: to.at,
        };
        copy_across_in(&mut self.rows, old, new, n);
    }

    /// The allocated words of row `id`; `None` if there is no such row.
    #[inline(always)]
    pub(in crate::proved::capnp_arena) fn allocated(&self, id: u32) -> Option<&[u8]> {
        allocated_in(&self.rows, id as usize)
    }

    /// Lends the allocated words of row `id`, for writing.
    ///
    /// # Preconditions
    ///
    /// ```text
    /// requires { id < length self.old.rows.items }
    /// ```
    #[inline(always)]
    pub(in crate::proved::capnp_arena) fn allocated_mut(&mut self, id: u32) -> &mut [u8] {
        let row = &mut self.rows[id as usize];
        row.allocated_mut()
    }

    /// The first row with room for `amount` more words.
    #[inline(always)]
    pub(in crate::proved::capnp_arena) fn first_fit(&mut self, amount: u32) -> Option<u32> {
        bounds::first_fit(&mut self.rows, amount)
    }
}
