//! The published runner's input, pending_input, input_written and next_message in a loop: what crates/bench_input does.

#[allow(dead_code, unused_imports)]
#[path = "../../target/exec/mod.rs"]
mod exec;
#[allow(dead_code)]
mod shared;

use room::Room;
use shared::{FIRST, KEY, in_bytes, of_received, of_said, running, work};

#[inline(never)]
pub fn input(room: &mut Room, turns: u64, steps: u64) -> u64 {
    let limits = in_bytes(room);
    let (bytes, buffer) = (&room.bytes[..], &mut room.buffer[..]);
    let mut r = running(limits, room.timeout, room.zero, u32::MAX);
    let (mut sum, mut other) = (0, 1);
    for turns in [FIRST, turns] {
        (sum, other) = (0, 1);
        for _ in 0..turns {
            sum += of_received(r.input(KEY, bytes));
            let waiting = r.pending_input().len();
            sum += waiting as u64;
            r.input_written(waiting);
            sum += of_said(r.next_message(buffer));
            other = work(other, steps);
        }
    }
    sum + other
}
