//! The published runner's output and next_message in a loop: what crates/bench_output does.

#[allow(dead_code, unused_imports)]
#[path = "../../target/exec/mod.rs"]
mod exec;
#[allow(dead_code)]
mod shared;

use exec::Stream;
use room::Room;
use shared::{FIRST, in_bytes, of_said, running, work};

#[inline(never)]
pub fn output(room: &mut Room, turns: u64, steps: u64) -> u64 {
    let limits = in_bytes(room);
    let (bytes, buffer) = (&room.bytes[..], &mut room.buffer[..]);
    let mut r = running(limits, room.timeout, room.zero, u32::MAX);
    let (mut sum, mut other) = (0, 1);
    for turns in [FIRST, turns] {
        (sum, other) = (0, 1);
        for _ in 0..turns {
            sum += r.output(Stream::Stdout, bytes) as u64;
            sum += of_said(r.next_message(buffer));
            other = work(other, steps);
        }
    }
    sum + other
}
