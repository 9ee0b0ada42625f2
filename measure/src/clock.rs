//! The clock.
use std::io;
use std::rt::Runtime;
use std::time::Instant;

/// The seconds since then.
pub fn seconds_since(rt: &impl Runtime, start: io::Result<Instant>) -> io::Result<f64> {
    Ok(start?.elapsed(rt)?.as_secs_f64())
}
