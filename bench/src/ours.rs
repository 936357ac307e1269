//! The loops of crates/bench*, linked from their static libraries. A lent slice goes as its address and length, a lent array as
//! its address.

use room::Room;

/// Declares a loop that is lent the bytes that it hands to the runner, and wraps it.
macro_rules! moving {
    ($($name:ident: $linked:ident),*) => {$(
        pub fn $name(room: &mut Room, turns: u64, steps: u64) -> u64 {
            unsafe extern "C" {
                fn $linked(
                    store: *mut u8, lengths: *mut u32, bytes: *const u8, count: usize, buffer: *mut u8,
                    chunk: u32, window: u32, timeout: u64, turns: u64, steps: u64,
                ) -> u64;
            }
            let (store, lengths) = (room.store.as_mut_ptr(), room.lengths.as_mut_ptr());
            let (bytes, count) = (room.bytes.as_ptr(), room.bytes.len());
            let buffer = room.buffer.as_mut_ptr();
            // SAFETY: the arrays have the lengths of their types in crates/bench*, and none overlaps another.
            unsafe {
                $linked(
                    store, lengths, bytes, count, buffer,
                    room.chunk, room.window, room.timeout, turns, steps,
                )
            }
        }
    )*};
}

/// The same for a loop that moves no bytes.
macro_rules! still {
    ($($name:ident: $linked:ident),*) => {$(
        pub fn $name(room: &mut Room, turns: u64, steps: u64) -> u64 {
            unsafe extern "C" {
                fn $linked(
                    store: *mut u8, lengths: *mut u32, buffer: *mut u8,
                    chunk: u32, window: u32, timeout: u64, turns: u64, steps: u64,
                ) -> u64;
            }
            let (store, lengths) = (room.store.as_mut_ptr(), room.lengths.as_mut_ptr());
            let buffer = room.buffer.as_mut_ptr();
            // SAFETY: as above.
            unsafe {
                $linked(
                    store, lengths, buffer,
                    room.chunk, room.window, room.timeout, turns, steps,
                )
            }
        }
    )*};
}

moving!(output: bench_output, input: bench_input, frames: bench_frames, adapter: bench_adapter);
still!(tick: bench_tick, credit: bench_credit, idle: bench_idle, deadline: bench_deadline);

pub fn work_alone(_: &mut Room, turns: u64, steps: u64) -> u64 {
    unsafe extern "C" {
        fn bench_work(turns: u64, steps: u64) -> u64;
    }
    // SAFETY: it takes any numbers.
    unsafe { bench_work(turns, steps) }
}
