//! Answers whether a message is one that a builder can have made.

use crate::output::Output;
use crate::parse::{self, Fault};
use capnp_proved::capnp_arena::arena::SegmentArray;
use capnp_proved::layout_vectors::vectors::audit;
use capnp_proved::support::alloc::Global;

/// Answers a line of segments.
pub fn answer(line: &str) -> Result<String, Fault> {
    let segments = parse::segments(line, ',', "")?;
    let segments = parse::slices(&segments);
    answer_audit(&segments)
}

/// Answers for a message of these segments: 1 if a builder can have made it, otherwise 0; or the
/// name of the refusal. `Unfit` if segment 0 has no word, or there are too many segments or words.
fn answer_audit(segments: &[&[u8]]) -> Result<String, Fault> {
    let has_root = segments.first().is_some_and(|first| first.len() >= 8);
    if !has_root || SegmentArray::new(segments).is_none() {
        return Err(Fault::Unfit);
    }
    let mut out = Output::new();
    match audit(Global, segments) {
        Ok(is_built) => out.push_flag(is_built),
        Err(kind) => out.push(kind),
    }
    Ok(out.into_text())
}
