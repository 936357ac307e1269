//! Time as it is: a number of nanoseconds counts from the first use. Right for sums below 2^62.

use std::sync::OnceLock;
pub use std::time::{Duration, Instant};

fn base() -> Instant {
    static BASE: OnceLock<Instant> = OnceLock::new();
    *BASE.get_or_init(Instant::now)
}

/// The instant of a card's number.
pub fn at(nanos: u64) -> Instant {
    base() + Duration::from_nanos(nanos)
}

/// The card's number of an instant.
pub fn nanos(at: Instant) -> u128 {
    at.duration_since(base()).as_nanos()
}
