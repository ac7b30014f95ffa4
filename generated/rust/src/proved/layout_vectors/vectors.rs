//! An audit, which checks all segments of a built message, and an allocator that refuses requests
//! beyond a limit.

mod landing;
mod limits;
mod marks;
mod objects;
mod pending;
mod walk;

pub use limits::LimitedAllocator;
pub use walk::audit;
