//! Tests of `capnp_edits` by its public calls. They show what the cases of
//! `tests/cases/edits_worked.jsonl` can't show.

mod applied;
pub mod messages;
mod returned;
