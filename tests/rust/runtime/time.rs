//! The clock that never goes back.

use super::io::Result;
use super::rt::HostRuntime;
use std::time::Duration;

/// A reading of the clock.
#[derive(Clone, Copy)]
pub struct Instant(std::time::Instant);

impl Instant {
    pub fn now(_rt: &HostRuntime) -> Result<Instant> {
        Ok(Instant(std::time::Instant::now()))
    }

    pub fn elapsed(&self, _rt: &HostRuntime) -> Result<Duration> {
        Ok(self.0.elapsed())
    }
}
