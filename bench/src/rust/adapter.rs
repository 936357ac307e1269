//! A turn of an adapter with the published runner, in a loop: what crates/bench_adapter does.

#[allow(dead_code, unused_imports)]
#[path = "../../target/exec/mod.rs"]
mod exec;
#[allow(dead_code)]
mod shared;

use std::time::Duration;

use exec::{Pool, Stream};
use room::Room;
use shared::{FIRST, KEY, in_bytes, of_deadline, of_received, of_said, running, work};

#[inline(never)]
pub fn adapter(room: &mut Room, turns: u64, steps: u64) -> u64 {
    let limits = in_bytes(room);
    let due = room.zero + Duration::from_nanos(room.timeout);
    let (bytes, buffer) = (&room.bytes[..], &mut room.buffer[..]);
    let mut r = running(limits, room.timeout, room.zero, u32::MAX);
    let (mut sum, mut other) = (0, 1);
    for turns in [FIRST, turns] {
        (sum, other) = (0, 1);
        for i in 0..turns {
            r.tick(room.instants[(i % 64) as usize]);
            sum += 1;
            sum += of_received(r.input(KEY, bytes));
            let waiting = r.pending_input().len();
            sum += waiting as u64;
            r.input_written(waiting);
            let taken = r.output(Stream::Stdout, bytes);
            sum += taken as u64;
            for _ in 0..3 {
                sum += of_said(r.next_message(buffer));
            }
            sum += of_received(r.credit(KEY, Pool::Stdout, taken as u32));
            sum += of_deadline(r.deadline(), due);
            other = work(other, steps);
        }
    }
    sum + other
}
