//! Times the runner's calls beside the Rust's, in one run and on the same inputs.
//!
//!     bench                      prints the table
//!     bench LINE SIDE TURNS      runs one loop, for a counter of instructions: SIDE is rust or ours

mod ours;
/// The Rust's loops, each from its crate of src/rust.
mod rust {
    pub use rust_adapter::adapter;
    pub use rust_calls::{credit, deadline, idle, tick, work_alone};
    pub use rust_frames::frames;
    pub use rust_input::input;
    pub use rust_output::output;
}

use room::Room;
use std::time::Instant;

type Loop = fn(&mut Room, u64, u64) -> u64;

/// A line of the table: its word, its name, the bytes of a message, the turns of a loop, what a turn's time is divided by, and
/// the loop on both sides.
struct Line {
    word: &'static str,
    name: &'static str,
    length: usize,
    turns: u64,
    parts: u64,
    rust: Loop,
    ours: Loop,
}

macro_rules! lines {
    ($($word:literal $name:literal $length:literal $turns:literal $parts:literal $run:ident;)*) => {
        [$(Line {
            word: $word,
            name: $name,
            length: $length,
            turns: $turns,
            parts: $parts,
            rust: rust::$run,
            ours: ours::$run,
        }),*]
    };
}

const LINES: [Line; 11] = lines! {
    "output64" "output + next_message, 64 B" 64 100_000 1 output;
    "output1k" "output + next_message, 1 KiB" 1024 60_000 1 output;
    "output16k" "output + next_message, 16 KiB" 16384 10_000 1 output;
    "input64" "input + pending_input + input_written + Credit, 64 B" 64 60_000 1 input;
    "input16k" "input + pending_input + input_written + Credit, 16 KiB" 16384 10_000 1 input;
    "tick" "tick, nothing due" 0 200_000 1 tick;
    "deadline" "deadline" 0 200_000 1 deadline;
    "credit" "credit" 0 200_000 1 credit;
    "idle" "next_message, nothing waiting" 0 200_000 1 idle;
    "frames" "1,024 one-byte frames in and popped, a frame" 1 1_000 1024 frames;
    "adapter64" "an adapter's turn: ten calls, 64 B" 64 60_000 1 adapter;
};

/// The steps of work between two turns.
const STEPS: u64 = 20;
const ROUNDS: usize = 31;

fn main() {
    let zero = Instant::now();
    let words: Vec<String> = std::env::args().skip(1).collect();
    if let [word, side, turns] = &words[..] {
        let line = LINES
            .iter()
            .find(|line| line.word == word)
            .expect("the word of a line");
        let run = if side == "rust" { line.rust } else { line.ours };
        let turns = turns.parse().expect("a number of turns");
        println!("{}", run(&mut Room::new(zero, line.length), turns, 0));
        return;
    }
    println!("| a turn | back to back: Rust | ours | ratio | with work: Rust | ours | above |");
    println!("|---|---|---|---|---|---|---|");
    for line in &LINES {
        table_line(zero, line);
    }
}

/// The least of some numbers.
fn least(all: Vec<f64>) -> f64 {
    all.into_iter().fold(f64::INFINITY, f64::min)
}

/// The nanoseconds of a turn of a loop, and its sum.
fn time(zero: Instant, line: &Line, run: Loop, steps: u64, sends: bool) -> (f64, u64) {
    let mut room = Room::new(zero, line.length);
    let start = Instant::now();
    let sum = run(&mut room, line.turns, steps);
    let nanos = start.elapsed().as_nanos() as f64;
    // The last message's bytes stand in the buffer, as they were read; the work alone sends none.
    let moves = line.word.starts_with("output") || line.word.starts_with("adapter");
    if sends && moves {
        assert_eq!(
            room.buffer[..line.length],
            room.bytes[..],
            "{}: the bytes sent",
            line.word
        );
    }
    (nanos / line.turns as f64, sum)
}

fn table_line(zero: Instant, line: &Line) {
    let loops = [
        (line.rust, 0),
        (line.ours, 0),
        (line.rust, STEPS),
        (line.ours, STEPS),
        (rust::work_alone as Loop, STEPS),
        (ours::work_alone as Loop, STEPS),
    ];
    let mut times = loops.map(|_| Vec::new());
    for round in 0..=ROUNDS {
        let mut sums = [0; 6];
        for (i, (run, steps)) in loops.into_iter().enumerate() {
            let (nanos, sum) = time(zero, line, run, steps, i < 4);
            sums[i] = sum;
            // The first round warms up.
            if round > 0 {
                times[i].push(nanos);
            }
        }
        for pair in sums.chunks(2) {
            assert_eq!(pair[0], pair[1], "{}: the sums of the answers", line.word);
        }
    }
    let parts = line.parts as f64;
    let [rust, ours, rust_work, ours_work, rust_alone, ours_alone] =
        times.map(|all| least(all) / parts);
    let (rust_more, ours_more) = (rust_work - rust_alone, ours_work - ours_alone);
    println!(
        "| {} | {rust:.1} | {ours:.1} | {:.2} | {rust_more:.1} | {ours_more:.1} | {:+.1} |",
        line.name,
        ours / rust,
        ours_more - rust_more,
    );
}
