//! Room on the stack for the levels of a message.
//!
//! A level takes up to 620 bytes of stack in a build with optimization, at any level, so 1,024 levels fit in the 2 MiB
//! that a thread of Rust has. Without optimization it takes up to 19.3 KB. So in builds with debug assertions, which
//! those without optimization have, a call for more levels than usual gets a thread with a stack that is large enough.

/// Calls on a stack with room for so many levels.
#[cfg(not(all(feature = "std", debug_assertions)))]
#[inline(always)]
pub(crate) fn with_room<T>(_levels: i32, call: impl FnOnce() -> T) -> T {
    call()
}

/// Calls on a stack with room for so many levels.
#[cfg(all(feature = "std", debug_assertions))]
pub(crate) fn with_room<T: Send>(levels: i32, call: impl FnOnce() -> T + Send) -> T {
    /// The levels that fit in a thread of 2 MiB.
    const FEW: i32 = 64;
    /// Room for `Limits::MAX_NESTING` levels, of 32 KiB each.
    const STACK: usize = 32 << 20;
    if levels <= FEW {
        return call();
    }
    std::thread::scope(|scope| {
        let deep = std::thread::Builder::new().stack_size(STACK);
        let deep = deep.spawn_scoped(scope, call).expect("a thread");
        deep.join()
            .unwrap_or_else(|panic| std::panic::resume_unwind(panic))
    })
}
