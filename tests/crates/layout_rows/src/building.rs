//! Lines of a message being built.

use crate::memory::{self, Memory};
use crate::output::Output;
use crate::parse::{self, Fault};
use crate::{builds, edits};
use capnp_proved::capnp_arena::arena::{Allocator, BuilderArena, BuilderArenaImpl};
use capnp_proved::support::alloc::Global;

/// What a line has to build its message.
#[derive(Clone, Copy)]
pub enum Task {
    /// One word with edits.
    Edits,
    /// Calls of builders, one in each word.
    Calls,
}

/// Answers a line: the least number of words of a segment, the number of segments that are granted,
/// and the edits or calls that build the message.
pub fn answer(task: Task, line: &str) -> Result<String, Fault> {
    let words = parse::words(line);
    let [size, segments, calls @ ..] = &words[..] else {
        return Err(Fault::Malformed);
    };
    let memory = Memory::parse(size, segments)?;
    match memory.allocate_scratch() {
        Some(mut scratch) => {
            let allocator = memory.scratch_allocator(&mut scratch);
            build_with(allocator, task, calls)
        }
        None => build_with(memory.heap_allocator(), task, calls),
    }
}

/// Builds a message in the memory of `allocator`, in a segment whose first word is for the root
/// pointer. Returns the outcome of each edit or call, and
/// then the message's words.
fn build_with<A: Allocator>(allocator: A, task: Task, calls: &[&str]) -> Result<String, Fault> {
    let mut arena = BuilderArenaImpl::new(Global, allocator);
    arena.allocate_segment(1)?;
    let _root = arena.allocate(0, 1);
    let mut out = Output::new();
    match task {
        Task::Edits => edits::apply_edits(&mut arena, calls, &mut out)?,
        Task::Calls => builds::make_calls(&mut arena, calls, &mut out)?,
    }
    memory::push_words(&arena, &mut out);
    Ok(out.into_text())
}
