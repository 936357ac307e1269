//! The room of a loop, for both sides.

use std::time::{Duration, Instant};

/// What a loop is lent. It is cleared before each loop, and not between the turns.
pub struct Room {
    pub store: Box<[u8; 49152]>,
    pub lengths: Box<[u32; 1024]>,
    pub bytes: Vec<u8>,
    pub buffer: Box<[u8; 16384]>,
    pub chunk: u32,
    /// The input's window, in bytes or, for the line of frames, in frames.
    pub window: u32,
    pub timeout: u64,
    /// The instant of time 0, and those of the times 0 to 63.
    pub zero: Instant,
    pub instants: Vec<Instant>,
}

impl Room {
    pub fn new(zero: Instant, length: usize) -> Self {
        Self {
            store: Box::new([0; 49152]),
            lengths: Box::new([0; 1024]),
            bytes: (0..length).map(|i| (i * 7 + 1) as u8).collect(),
            buffer: Box::new([0; 16384]),
            chunk: if length == 1 { 16 } else { 16384 },
            window: if length == 1 { 1024 } else { 16384 },
            timeout: 1_000_000,
            zero,
            instants: (0..64).map(|i| zero + Duration::from_nanos(i)).collect(),
        }
    }
}
