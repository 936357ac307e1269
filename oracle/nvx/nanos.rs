//! Time as the scope has it: u64 nanoseconds, and a sum past 2^64 - 1 is no instant.

pub use std::time::Duration;

/// Stands in for `std::time::Instant`.
#[derive(Clone, Copy, Debug, PartialEq, Eq, PartialOrd, Ord)]
pub struct Instant(u64);

impl Instant {
    pub fn checked_add(self, duration: Duration) -> Option<Self> {
        let nanos = u64::try_from(duration.as_nanos()).ok()?;
        self.0.checked_add(nanos).map(Self)
    }
}

/// The instant of a card's number.
pub fn at(nanos: u64) -> Instant {
    Instant(nanos)
}

/// The card's number of an instant.
pub fn nanos(at: Instant) -> u128 {
    at.0.into()
}
