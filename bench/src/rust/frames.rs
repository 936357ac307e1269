//! The published runner's input, pending_input, input_written and next_message in a loop, with 1,024 messages a turn: what crates/bench_frames does.

#[allow(dead_code, unused_imports)]
#[path = "../../target/exec/mod.rs"]
mod exec;
#[allow(dead_code)]
mod shared;

use room::Room;
use shared::{FIRST, KEY, in_frames, of_received, of_said, running, work};

#[inline(never)]
pub fn frames(room: &mut Room, turns: u64, steps: u64) -> u64 {
    let limits = in_frames(room);
    let (bytes, buffer) = (&room.bytes[..], &mut room.buffer[..]);
    let mut r = running(limits, room.timeout, room.zero, 1024);
    let (mut sum, mut other) = (0, 1);
    for turns in [FIRST, turns] {
        (sum, other) = (0, 1);
        for _ in 0..turns {
            for _ in 0..1024 {
                sum += of_received(r.input(KEY, bytes));
            }
            let waiting = r.pending_input().len();
            sum += waiting as u64;
            r.input_written(waiting);
            // The frames that it came to: ours answers them, the Rust nothing.
            sum += 1024;
            sum += of_said(r.next_message(buffer));
            other = work(other, steps);
        }
    }
    sum + other
}
