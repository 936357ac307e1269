//! The published module `exec` as a library, and the time that the card's numbers stand for.

pub mod exec;
pub mod time;
