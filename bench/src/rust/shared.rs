//! What the Rust's loops share. A loop returns the sum of the answers and of the work between the turns.

use std::time::{Duration, Instant};

use crate::exec::runner::{Message, Runner};
use crate::exec::{Key, Limits, Pool, Receipt, Timers, Violation, Window};
use room::Room;

pub const KEY: Key = Key::new(7, 2);

pub fn work(start: u64, steps: u64) -> u64 {
    let mut x = start;
    for _ in 0..steps {
        x = (x % 4294967291) * 1664525 + 1013904223;
    }
    x
}

pub fn of_received(received: Result<Receipt, Violation>) -> u64 {
    match received {
        Ok(Receipt::Applied) => 1,
        Ok(Receipt::Stale) => 2,
        Ok(Receipt::Late) => 3,
        Err(_) => 4,
    }
}

pub fn of_said(said: Option<Message>) -> u64 {
    match said {
        None => 1,
        Some(Message::Credit { units }) => units.into(),
        Some(Message::Started) => 5,
        Some(Message::Output { length, .. }) => length as u64,
        Some(Message::End(_)) => 6,
        Some(Message::InputClosed) => 7,
        Some(Message::Terminal(_)) => 8,
    }
}

/// Whether a deadline is the one expected.
pub fn of_deadline(deadline: Option<Instant>, due: Instant) -> u64 {
    match deadline {
        None => 2,
        Some(at) if at == due => 1,
        Some(_) => 3,
    }
}

/// The turns after which every loop has told the first credit and the start, and a turn is like the next. A loop makes them
/// first and forgets their sums, so that next_message has no other caller than the loop.
pub const FIRST: u64 = 3;

/// A runner whose workload runs, with so much of stdout's window granted.
pub fn running(limits: Limits, timeout: u64, now: Instant, granted: u32) -> Runner {
    let tick = Duration::from_nanos(1000);
    let timers = Timers::new(tick, tick).timeout(Duration::from_nanos(timeout));
    let mut runner = Runner::new(KEY, limits, timers, now);
    runner.launched(Ok(()));
    let _ = runner.credit(KEY, Pool::Stdout, granted);
    runner
}

pub fn in_bytes(room: &Room) -> Limits {
    Limits::new(
        room.chunk,
        Window::bytes(room.window),
        Window::bytes(u32::MAX),
    )
    .expect("no size is 0")
}

pub fn in_frames(room: &Room) -> Limits {
    let window = Window::frames(room.window);
    Limits::new(room.chunk, window, window).expect("no size is 0")
}
