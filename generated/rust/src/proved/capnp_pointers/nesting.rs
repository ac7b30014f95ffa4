//! Levels of nesting: how many structs and lists may still be entered within a nesting limit.

/// The number of levels that a nesting limit leaves.
#[inline(always)]
pub fn levels_left(nesting_limit: i32) -> u32 {
    nesting_limit.max(0) as u32
}

/// The nesting limit with one level less.
#[inline(always)]
pub fn one_level_less(nesting_limit: i32) -> i32 {
    nesting_limit.saturating_sub(1)
}
