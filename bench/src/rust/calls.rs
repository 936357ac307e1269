//! The published runner's calls in loops, one call a turn: what crates/bench does.

#[allow(dead_code, unused_imports)]
#[path = "../../target/exec/mod.rs"]
mod exec;
#[allow(dead_code)]
mod shared;

use std::time::Duration;

use exec::Pool;
use room::Room;
use shared::{FIRST, KEY, in_bytes, of_deadline, of_received, of_said, running, work};

#[inline(never)]
pub fn work_alone(_: &mut Room, turns: u64, steps: u64) -> u64 {
    let mut other = 1;
    for _ in 0..turns {
        other = work(other, steps);
    }
    other
}

#[inline(never)]
pub fn tick(room: &mut Room, turns: u64, steps: u64) -> u64 {
    let mut r = running(in_bytes(room), room.timeout, room.zero, u32::MAX);
    let (mut sum, mut other) = (0, 1);
    for i in 0..turns {
        r.tick(room.instants[(i % 64) as usize]);
        sum += 1;
        other = work(other, steps);
    }
    // The compiler is not to see that nothing reads the runner.
    std::hint::black_box(&r);
    sum + other
}

#[inline(never)]
pub fn credit(room: &mut Room, turns: u64, steps: u64) -> u64 {
    let mut r = running(in_bytes(room), room.timeout, room.zero, 1);
    let (mut sum, mut other) = (0, 1);
    for _ in 0..turns {
        sum += of_received(r.credit(KEY, Pool::Stdout, 1));
        other = work(other, steps);
    }
    sum + other
}

#[inline(never)]
pub fn idle(room: &mut Room, turns: u64, steps: u64) -> u64 {
    let limits = in_bytes(room);
    let buffer = &mut room.buffer[..];
    let mut r = running(limits, room.timeout, room.zero, u32::MAX);
    let (mut sum, mut other) = (0, 1);
    for turns in [FIRST, turns] {
        (sum, other) = (0, 1);
        for _ in 0..turns {
            sum += of_said(r.next_message(buffer));
            other = work(other, steps);
        }
    }
    sum + other
}

#[inline(never)]
pub fn deadline(room: &mut Room, turns: u64, steps: u64) -> u64 {
    let nanos = [1000, 2000, 3000, 4000];
    let due = nanos.map(|timeout| room.zero + Duration::from_nanos(timeout));
    let limits = in_bytes(room);
    let all = nanos.map(|timeout| running(limits, timeout, room.zero, u32::MAX));
    let (mut sum, mut other) = (0, 1);
    for i in 0..turns {
        let k = ((i / 3) % 4) as usize;
        sum += of_deadline(all[k].deadline(), due[k]);
        other = work(other, steps);
    }
    sum + other
}
