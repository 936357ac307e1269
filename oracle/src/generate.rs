//! Prints random session cards, each ended by a line `----`: one for each seed from SEED on, so
//! that a card can be had again by its own seed. The times and time sums of a card stay below
//! 2^62; with --far, each card has some past it. A rough model of the runner steers the lines
//! into deep states; weights of its own for each card, and lines that are plainly wrong, see to
//! it that no order is missed. Two counters stamp the lines, so that times fall in half the cards.

mod model;
mod random;

use std::fmt::Write as _;
use std::io::{self, Write as _};

use model::{HOUR, Model, Open, Stream, Timeout, Window};
use random::Random;

/// The line that ends a card.
const SEPARATOR: &str = "----";

/// What the program that reads the cards lends.
const BYTES: u64 = 65_536;
const LENGTHS: u64 = 1_024;

/// Past this, time is ours and not the Rust's. A near card's times and durations are at most the
/// latest and the longest here, so that a time and two durations stay below.
const FAR: u64 = 1 << 62;
const LATEST: u64 = 1 << 61;
const LONGEST: u64 = 1 << 59;

const STREAMS: [&str; 2] = ["Stdout", "Stderr"];
const POOLS: [&str; 4] = ["Stdout", "Stderr", "Output", "Input"];
const CAUSES: [&str; 5] = ["Cancelled", "Dropped", "TimedOut", "Reset", "Disconnected"];

/// The calls of a card after open, and one more: a line that is most likely bad.
const CALLS: &str = "credit input end_input cancel launched read_allowance output discarded \
    output_closed output_failed output_hung_up pending_input input_written input_closed exited \
    settled dropped reset disconnect tick deadline request message is_finished is_detached \
    awaits_settlement memory_bound buffered high_water bad";
const BAD: &str = "bad";

/// What a card may be about: calls that it makes much oftener than others.
const THEMES: [&str; 5] = [
    "",
    "",
    "output credit message",
    "input input_written message",
    "tick exited settled request deadline",
];

fn main() -> io::Result<()> {
    let arguments: Vec<String> = std::env::args().skip(1).collect();
    let (numbers, far) = match arguments.split_last() {
        Some((last, numbers)) if last == "--far" => (numbers, true),
        _ => (&arguments[..], false),
    };
    let numbers: Vec<u64> = numbers.iter().flat_map(|number| number.parse()).collect();
    let [seed, count] = numbers[..] else {
        eprintln!("usage: generate SEED COUNT [--far]");
        std::process::exit(2);
    };
    let mut output = io::BufWriter::new(io::stdout().lock());
    for seed in seed..seed + count {
        output.write_all(&Card::random(seed, far))?;
    }
    output.flush()
}

struct Card {
    random: Random,
    /// For the smallest grant alone, so that the rest of a card is the same whatever is drawn for it.
    grants: Random,
    far: bool,
    model: Model,
    /// The counters that stamp the lines, which go on alike: the second one stamps one line in
    /// four. Where they are apart, times fall.
    counters: [u64; 2],
    /// How much this card heeds, for each call, what its state asks for: 0 is not at all.
    moods: Vec<u64>,
    /// How rarely it makes calls that lead to its end.
    patience: u64,
    /// One line in so many has a wrong key, pool or length.
    slip: u64,
    /// One line in so many is followed by one that asks and does little else.
    probe: u64,
    /// The next bytes of stdout, stderr and input.
    bytes: [u8; 3],
    text: Vec<u8>,
}

impl Card {
    fn random(seed: u64, far: bool) -> Vec<u8> {
        let mut seeds = Random::new(seed);
        // Near and far cards of one seed have nothing in common.
        let [mut random, grants] = [(); 2].map(|()| Random::new(seeds.next() ^ u64::from(far)));
        let moods: &[u64] = match random.once_in(5) {
            true => &[0],
            false => &[0, 4, 8, 8, 8, 16],
        };
        let theme = random.pick(&THEMES);
        let mood = |call: &str| match theme.split(' ').any(|word| word == call) {
            true => 40,
            false => random.pick(moods),
        };
        let mut card = Card {
            moods: CALLS.split(' ').map(mood).collect(),
            patience: random.pick(&[1, 1, 4, 16]),
            slip: random.pick(&[5, 20, 100, 1000]),
            probe: random.pick(&[2, 5, 20, 1000]),
            bytes: [0x10, 0x80, 0xc0].map(|first| first + random.below(48) as u8),
            random,
            grants,
            far,
            model: Model::default(),
            counters: [0; 2],
            text: Vec::new(),
        };
        card.write();
        card.text
    }

    fn write(&mut self) {
        let opened = self.open();
        let lines = match opened {
            true => self.random.pick(&[6, 20, 40, 60, 80]),
            false => 4,
        };
        let lines = self.random.from_to(lines / 3, lines);
        // Where times fall they do so here, if nowhere else.
        let fall = self.random.below(lines);
        for line in 0..lines {
            if opened && line == fall {
                self.tick_by_both();
            }
            self.any_line();
        }
        if opened {
            match self.random.below(6) {
                0 => {}
                1 | 2 => self.wind_down_by_clock(),
                _ => self.wind_down_by_reports(),
            }
            self.drain();
        }
        self.line(SEPARATOR.into());
    }

    fn line(&mut self, line: String) {
        self.text.extend(line.as_bytes());
        self.text.push(b'\n');
    }

    /// The first line: false if it opens no runner.
    fn open(&mut self) -> bool {
        let mut open = self.limits();
        while {
            self.times(&mut open);
            self.far && !past(&open)
        } {}
        open.id = self.random.pick(&[0, 7, 7, 7, u64::MAX]);
        open.generation = self.random.pick(&[0, 1, 2, 2, 2, u64::MAX]);
        let area = if open.input.frames {
            open.input.size * open.chunk
        } else {
            open.input.size
        };
        let lengths = if open.input.frames {
            open.input.size
        } else {
            0
        };
        let stores = u128::from(area) + 2 * u128::from(open.chunk) <= BYTES.into();
        let good = open.chunk > 0 && open.input.size > 0 && open.output.size > 0;
        let opens = good && stores && lengths <= LENGTHS;
        let text = open_text(&open) + &self.smallest(open.input.size, opens);
        self.model = Model::new(open);
        self.start_counters();
        if self.random.once_in(150) {
            let mut bad = self.spoil(text);
            if is_uncompared(&bad) {
                // A field too many makes it bad.
                bad.extend(b",1");
            }
            self.text.extend(bad);
            self.text.push(b'\n');
            return false;
        }
        self.line(text);
        opens
    }

    /// The field of the smallest grant with its comma, or nothing. Where limits and stores open a runner,
    /// the field is 1 or refuses the line, and the card goes on as if it had not.
    fn smallest(&mut self, size: u64, opens: bool) -> String {
        let random = &mut self.grants;
        let most = u64::from(u32::MAX);
        let field = if opens && random.once_in(100) {
            random.pick(&[0, size + 1, most]).to_string()
        } else if !opens && random.once_in(5) {
            // Which refusal comes first is told by these.
            random.pick(&[0, size, size + 1, most]).to_string()
        } else if random.once_in(150) {
            random.pick(&["", "-", "4294967296", "1,1"]).into()
        } else if random.once_in(3) {
            "1".into()
        } else {
            return String::new();
        };
        format!(",{field}")
    }

    /// Mostly tiny chunks and windows; now and then as much as the stores hold, or one more.
    fn limits(&mut self) -> Open {
        let random = &mut self.random;
        let mut open = Open {
            chunk: random.to_one_of(&[1, 3, 6, 12, 64]),
            shared: random.once_in(3),
            ..Open::default()
        };
        for window in [&mut open.input, &mut open.output] {
            window.frames = random.once_in(3);
            window.size = random.to_one_of(&[1, 3, 8, 20, 100]);
        }
        if random.once_in(20) {
            open.output.size = u64::from(u32::MAX) - random.below(2);
        }
        if random.once_in(25) {
            open.chunk = random.to_one_of(&[8, 1000, 33_000]);
            let room = BYTES.saturating_sub(2 * open.chunk);
            open.input.size = match open.input.frames {
                true => (room / open.chunk).min(LENGTHS).max(1),
                false => room.max(1),
            } + random.below(2);
        }
        if random.once_in(60) {
            let sizes = [0, 1, 32_768, u64::from(u32::MAX)];
            let [chunk, input, output] = [(); 3].map(|()| random.pick(&sizes));
            (open.chunk, open.input.size, open.output.size) = (chunk, input, output);
        }
        open
    }

    /// The time of open and the timers.
    fn times(&mut self, open: &mut Open) {
        let random = &mut self.random;
        let scale = random.pick(&[0, 2, 6, 6, 20, 20, 1_000, 1_000_000_000, LONGEST]);
        let [now, grace, settlement, timeout] = [(); 4].map(|()| match random.below(4) {
            0 => random.from_to(0, scale.min(3)),
            _ => random.from_to(0, scale),
        });
        (open.now, open.grace, open.settlement) = (now, grace, settlement);
        open.timeout = match random.below(3) {
            0 => Timeout::Missing,
            1 => Timeout::Never,
            _ => Timeout::After(timeout.saturating_mul(3).min(LONGEST)),
        };
        if !self.far {
            return;
        }
        // The small numbers from above, pushed to the edge in one place.
        let edge = random.pick(&[FAR, 1 << 63, u64::MAX, u64::MAX, u64::MAX]);
        let near = edge - random.below(2 + 2 * scale.min(1_000_000));
        match random.below(8) {
            0..=2 => open.now = near,
            3 => open.grace = near - now.min(near),
            4 => open.settlement = near - now.min(near),
            5 => open.timeout = Timeout::After(near - now.min(near)),
            // The last times from which an hour ends, and the first from which it does not.
            6 => {
                open.now = u64::MAX - HOUR - 3 + random.below(7);
                open.timeout = Timeout::Missing;
            }
            _ => (open.now, open.grace) = (edge / 3, edge / 3 + random.below(3)),
        }
    }

    /// Both counters start at open's NOW; in eleven cards of twenty, one of them is ahead or behind.
    fn start_counters(&mut self) {
        let open = &self.model.open;
        self.counters = [open.now; 2];
        let random = &mut self.random;
        if random.below(20) >= 11 {
            return;
        }
        let both = open.grace.saturating_add(open.settlement);
        let apart = random.to_one_of(&[3, both.max(1), open.now.max(1)]);
        let counter = &mut self.counters[random.below(2) as usize];
        *counter = match *counter == 0 || random.once_in(2) {
            true => counter.saturating_add(apart),
            false => counter.saturating_sub(apart),
        };
    }

    /// One line of any kind, and then perhaps one that asks.
    fn any_line(&mut self) {
        let calls: Vec<&str> = CALLS.split(' ').collect();
        let weight = |(call, mood): (&&str, &u64)| mood * self.weight(call) + 1;
        let weights: Vec<u64> = calls.iter().zip(&self.moods).map(weight).collect();
        let call = calls[self.random.weighed(&weights)];
        self.call(call);
        if self.random.once_in(self.probe) {
            self.ask();
        }
    }

    fn ask(&mut self) {
        let asks = [
            "deadline",
            "deadline",
            "request",
            "message",
            "buffered",
            "read_allowance",
        ];
        let call = self.random.pick(&asks);
        self.call(call);
    }

    /// What the state asks for: calls that lead on are likelier where they are due.
    fn weight(&self, call: &str) -> u64 {
        let model = &self.model;
        let when = |due: bool, often: u64, seldom: u64| if due { often } else { seldom };
        let all = |test: fn(&Stream) -> bool| model.streams.iter().all(test);
        let closed = all(|stream| stream.closed);
        let room = |pool: usize| model.streams[pool].credit < model.open.output.size;
        let ending = model.begun || model.exited;
        // Once something ended, the rest follows soon.
        let end = |weight: u64| weight * 16 / if ending { 1 } else { self.patience };
        16 * match call {
            "message" => when(model.ready(), 60, 3),
            "output" => when(closed, 3, 40),
            "credit" => when(room(0) || !model.open.shared && room(1), 30, 3),
            "input" if model.input_closed || model.peer_ended => 3,
            "input" => when(model.granted > 0, 40, 10),
            "input_written" => when(model.waiting() > 0, 30, 2),
            "tick" => when(model.deadlines().is_empty(), 4, 16),
            "request" | "deadline" => when(ending, 12, 4),
            "pending_input" | "read_allowance" => 4,
            "launched" => when(model.launched, 1, 20),
            "exited" => return end(when(model.exited, 1, when(model.begun, 15, 5))),
            "settled" => when(model.exited && !model.settled, 15, 1),
            "output_closed" => return end(when(closed, 1, when(ending, 15, 4))),
            "output_hung_up" => when(closed, 1, 3),
            "output_failed" => return end(when(closed, 1, 2)),
            "discarded" => when(all(|stream| !stream.discarding), 1, 8),
            "cancel" => return end(when(model.begun, 2, 5)),
            "dropped" | "reset" | "disconnect" => return end(when(model.detached, 1, 2)),
            "end_input" => return end(when(model.input_closed || model.peer_ended, 1, 8)),
            "input_closed" => return end(when(model.input_closed, 1, 2)),
            _ => 1,
        }
    }

    /// Writes one call, and follows it in the model.
    fn call(&mut self, call: &str) {
        let slip = self.random.once_in(self.slip);
        let stream = self.random.below(2) as usize;
        let name = STREAMS[stream];
        let text = match call {
            "credit" => self.credit(stream, slip),
            "input" => {
                let chunk = self.model.open.chunk;
                let length = self.length(slip, chunk.min(self.model.granted).max(1), chunk);
                let (key, own) = self.key();
                if own {
                    self.model.input(length);
                }
                format!("input,{key},{}", self.hex(2, length))
            }
            "end_input" => {
                let (key, own) = self.key();
                if own {
                    self.model.end_input();
                }
                format!("end_input,{key}")
            }
            "cancel" => {
                let counters = self.counters;
                let now = self.time();
                let (key, own) = self.key();
                if own {
                    self.model.tick(now);
                    self.model.terminate();
                } else {
                    // It ticks nothing, so times go on from before it.
                    self.counters = counters;
                }
                let cause = self.random.pick(&CAUSES);
                format!("cancel,{now},{key},{cause}")
            }
            "launched" => {
                let started = !self.random.once_in(5);
                self.model.launch(started);
                match started {
                    true => "launched,0,-,-".into(),
                    false => {
                        let stage = self.random.pick(&[0, 1, 3, u32::MAX]);
                        let error = self.random.pick(&[0, 2, -2, i32::MIN, i32::MAX]);
                        format!("launched,1,{stage},{error}")
                    }
                }
            }
            "read_allowance" => format!("{call},{name}"),
            "output" => {
                let Stream {
                    queued, discarding, ..
                } = self.model.streams[stream];
                // What is discarded is often nothing.
                let room = match discarding && self.random.once_in(4) {
                    true => 0,
                    false => self.model.open.chunk - queued,
                };
                let length = self.length(slip, room, self.model.open.chunk);
                self.model.output(stream, length);
                format!("output,{name},{}", self.hex(stream, length))
            }
            "discarded" => {
                let count = self.random.pick(&[0, 0, 1, 5, u64::MAX]);
                format!("discarded,{name},{count}")
            }
            "output_closed" | "output_failed" => {
                self.model.streams[stream].closed = true;
                format!("{call},{name}")
            }
            "output_hung_up" => {
                self.model.streams[stream].hung_up = true;
                format!("{call},{name}")
            }
            "input_written" => {
                let waiting = self.model.waiting();
                let count = match self.random.below(8) {
                    0 => self.random.pick(&[0, waiting + 1, u64::MAX]),
                    1..=3 => waiting,
                    _ => self.random.from_to(0, waiting),
                };
                self.model.written(count);
                format!("input_written,{count}")
            }
            "input_closed" => {
                self.model.close_input();
                call.into()
            }
            "exited" => {
                let now = self.time();
                self.model.tick(now);
                self.model.exit();
                let statuses = [
                    "E0",
                    "E0",
                    "E3",
                    "S9",
                    "-",
                    "E-1",
                    "S-2147483648",
                    "E2147483647",
                ];
                format!("exited,{now},{}", self.random.pick(&statuses))
            }
            "settled" => {
                let fenced = self.random.once_in(3);
                self.model.settle(fenced);
                format!("settled,{}", if fenced { "Failed" } else { "Settled" })
            }
            "dropped" | "reset" | "disconnect" => {
                let now = self.time();
                self.model.tick(now);
                self.model.detach();
                format!("{call},{now}")
            }
            "tick" => {
                let now = self.time();
                self.model.tick(now);
                format!("tick,{now}")
            }
            "message" => {
                let chunk = self.model.open.chunk;
                let length = match self.random.below(10) {
                    0 => 0,
                    1 => self.random.from_to(1, 3),
                    2 => chunk.saturating_sub(self.random.below(2)),
                    3 => 16_384,
                    _ => chunk + 3,
                };
                let length = length.min(16_384);
                self.model.message(length);
                format!("message,{length}")
            }
            BAD => return self.bad_line(),
            _ => call.into(),
        };
        self.line(text);
    }

    fn credit(&mut self, stream: usize, slip: bool) -> String {
        let pool = self.model.pool_of(stream);
        let size = self.model.open.output.size;
        let room = size.saturating_sub(self.model.streams[pool].credit);
        let units = match self.random.below(8) {
            0 => room.max(1),
            1 if slip => self.random.pick(&[0, u64::from(u32::MAX)]),
            2 | 3 if slip => (room + 1).min(u32::MAX.into()),
            _ => self.random.from_to(1, room.clamp(1, 6)),
        };
        let right = if self.model.open.shared {
            "Output"
        } else {
            STREAMS[pool]
        };
        let name = match self.random.once_in(3) && slip {
            true => self.random.pick(&POOLS),
            false => right,
        };
        let (key, own) = self.key();
        if own && name == right {
            self.model.credit(pool, units);
        }
        format!("credit,{key},{name},{units}")
    }

    /// The two fields of a key, and whether it is the runner's own.
    fn key(&mut self) -> (String, bool) {
        let (own_id, own_generation) = (self.model.open.id, self.model.open.generation);
        let (mut id, mut generation) = (own_id, own_generation);
        if self.random.once_in(self.slip) {
            match self.random.below(4) {
                0 => id = self.random.pick(&[0, 7, 8, u64::MAX]),
                1 => generation = self.random.next(),
                2 => generation = generation.saturating_sub(1),
                _ => generation = generation.saturating_add(1),
            }
        }
        let own = (id, generation) == (own_id, own_generation);
        (format!("{id},{generation}"), own)
    }

    /// A length: mostly at most the room, seldom past it, and with a slip about the chunk.
    fn length(&mut self, slip: bool, room: u64, chunk: u64) -> u64 {
        let length = match self.random.below(8) {
            _ if slip => self.random.pick(&[0, chunk, chunk + 1]),
            0 => self.random.pick(&[0, room + 1, chunk]),
            1 | 2 => room,
            _ => self.random.from_to(room.min(1), room.min(20)),
        };
        // A line has at most 65,535 bytes, and long ones are dear.
        length.min(if self.random.once_in(20) { 32_000 } else { 100 })
    }

    /// The next bytes of a source, each one more than the last.
    fn hex(&mut self, source: usize, length: u64) -> String {
        let mut text = String::with_capacity(2 * length as usize);
        for _ in 0..length {
            let byte = self.bytes[source];
            self.bytes[source] = byte.wrapping_add(1);
            write!(text, "{byte:02x}").expect("a string takes all");
        }
        text
    }

    /// A time, from one of the counters: often one that is due, or beside it, or the last again.
    fn time(&mut self) -> u64 {
        let counter = self.counter();
        let (now, deadlines) = (self.counters[counter], self.model.deadlines());
        let (grace, settlement) = (self.model.open.grace, self.model.open.settlement);
        let random = &mut self.random;
        let begun = self.model.begun || self.model.exited;
        let early = !begun && !random.once_in(self.patience);
        let time = match random.below(20) {
            _ if early => now.saturating_add(random.below(2)),
            0..=5 => now,
            6..=9 => now.saturating_add(random.from_to(1, 3)),
            10 => now.saturating_add(random.from_to(0, grace.saturating_add(settlement))),
            11 => now.saturating_add(grace),
            12 if self.far => random.pick(&[FAR, 1 << 63, u64::MAX - 1, u64::MAX]),
            _ => match deadlines[..] {
                [] => now,
                [first, ..] if random.once_in(2) => first,
                _ => {
                    let at = random.pick(&deadlines);
                    let beside = [at.saturating_sub(1), at, at.saturating_add(1)];
                    random.pick(&beside)
                }
            },
        };
        self.stamp(counter, time)
    }

    /// The counter that stamps the next line.
    fn counter(&mut self) -> usize {
        usize::from(self.random.once_in(4))
    }

    /// A tick by each counter, where they are apart: the later time first, so that the other falls.
    fn tick_by_both(&mut self) {
        let [one, other] = self.counters;
        if one == other {
            return;
        }
        for now in [one.max(other), one.min(other)] {
            self.model.tick(now);
            self.line(format!("tick,{now}"));
        }
    }

    /// Lets both counters go on until one of them is at a time, unless it is past it already. Gives
    /// what it stamps.
    fn stamp(&mut self, counter: usize, time: u64) -> u64 {
        let now = self.counters[counter];
        let latest = if self.far { u64::MAX } else { LATEST };
        let time = time.min(latest).max(now);
        for counter in &mut self.counters {
            *counter = counter.saturating_add(time - now).min(latest);
        }
        time
    }

    /// Reports what is missing, in any order, with other lines between.
    fn wind_down_by_reports(&mut self) {
        let mut reports = vec!["launched", "exited"];
        for stream in 0..2 {
            if !self.model.streams[stream].closed {
                reports.push(STREAMS[stream]);
            }
        }
        self.random.shuffle(&mut reports);
        for report in reports {
            match report {
                "launched" if self.model.launched => {}
                "exited" if self.model.exited => {}
                "Stdout" | "Stderr" => {
                    let stream = usize::from(report == STREAMS[1]);
                    self.model.streams[stream].closed = true;
                    self.line(format!("output_closed,{report}"));
                }
                _ => self.call(report),
            }
            while self.random.once_in(3) {
                self.ask();
            }
        }
        if !self.model.settled {
            self.call("settled");
            self.ask();
        }
    }

    /// Lets the times fall due one by one, and what others they set.
    fn wind_down_by_clock(&mut self) {
        if !self.model.begun && !self.model.exited {
            let start = self.random.pick(&["cancel", "exited", "reset"]);
            self.call(start);
        }
        for _ in 0..6 {
            let Some(&first) = self.model.deadlines().first() else {
                break;
            };
            let early = u64::from(self.random.once_in(6));
            let counter = self.counter();
            let now = self.stamp(counter, first.saturating_sub(early));
            self.model.tick(now);
            self.line(format!("tick,{now}"));
            while self.random.once_in(2) {
                self.ask();
            }
        }
    }

    /// Takes messages until Terminal should have come, and then makes a few late calls.
    fn drain(&mut self) {
        for _ in 0..self.random.from_to(4, 24) {
            if self.model.finished {
                break;
            }
            let dry = |stream: &usize| {
                self.model.streams[*stream].queued > 0
                    && self.model.streams[self.model.pool_of(*stream)].credit == 0
            };
            match (0..2).find(dry) {
                Some(stream) if !self.model.detached => {
                    let text = self.credit(stream, false);
                    self.line(text);
                }
                _ => {}
            }
            self.call("message");
        }
        let late = [
            "credit",
            "input",
            "end_input",
            "cancel",
            "deadline",
            "message",
            "request",
        ];
        for _ in 0..self.random.from_to(0, 5) {
            match self.random.once_in(3) {
                true => self.any_line(),
                false => {
                    let call = self.random.pick(&late);
                    self.call(call);
                }
            }
        }
    }

    /// A line of the card, spoiled. Some stay good; the model does not follow these.
    fn bad_line(&mut self) {
        let Open { id, generation, .. } = self.model.open;
        let now = self.model.now;
        let line = match self.random.below(20) {
            0 => format!("credit,{id},{generation},{},1", self.random.pick(&POOLS)),
            1 => format!("input,{id},{generation},6a6b"),
            2 => format!("end_input,{id},{generation}"),
            3 => format!("cancel,{now},{id},{generation},Cancelled"),
            4 => "launched,0,-,-".into(),
            5 => "launched,1,3,-2".into(),
            6 => "output,Stdout,6c6d".into(),
            7 => "discarded,Stderr,1".into(),
            8 => format!(
                "{},Stdout",
                self.random.pick(&["output_closed", "read_allowance"])
            ),
            9 => "input_written,1".into(),
            10 => format!(
                "exited,{now},{}",
                self.random.pick(&["E0", "S9", "-", "E-1"])
            ),
            11 => format!("settled,{}", self.random.pick(&["Settled", "Failed"])),
            12 => format!(
                "{},{now}",
                self.random.pick(&["dropped", "reset", "disconnect"])
            ),
            13 | 14 => format!("tick,{now}"),
            15 => format!("message,{}", self.random.pick(&[16_384, 16_385])),
            16 => self
                .random
                .pick(&["deadline", "request", "buffered", "pending_input"])
                .into(),
            17 => self
                .random
                .pick(&["next_message,4", "next_request", "key", "limits", ""])
                .into(),
            18 => open_text(&self.model.open),
            _ => return self.long_line(),
        };
        let spoiled = self.spoil(line);
        self.text.extend(spoiled);
        self.text.push(b'\n');
    }

    /// A line at the edge of its length, if dear lines are not too many.
    fn long_line(&mut self) {
        if !self.random.once_in(30) {
            return self.line(String::new());
        }
        let now = self.model.now;
        let width = 65_530 + self.random.below(2) as usize;
        self.line(format!("tick,{now:0width$}"));
    }

    /// Changes one thing in a line; no line gets a byte 0a, or becomes the one between cards.
    fn spoil(&mut self, line: String) -> Vec<u8> {
        let random = &mut self.random;
        let mut fields: Vec<&str> = line.split(',').collect();
        let place = random.below(fields.len() as u64) as usize;
        let numbers = ",-,never,Never,nev,0,00,-0,-1,+1, 1,1 ,--1,0x1,1e3,2147483647,2147483648,\
            -2147483648,-2147483649,4294967295,4294967296,18446744073709551616,\
            99999999999999999999";
        let numbers: Vec<&str> = numbers.split(',').collect();
        match random.below(12) {
            0 | 1 => fields.insert(place, fields[place]),
            2 | 3 => _ = fields.remove(place),
            4..=6 => fields[place] = random.pick(&numbers),
            7 => fields.push(""),
            _ => {}
        }
        let mut line = fields.join(",").into_bytes();
        if !line.is_empty() && random.once_in(3) {
            let place = random.below(line.len() as u64) as usize;
            let byte = random.pick(b"\r\0 \t,-+0gA\x7f\xc3\xff");
            match random.below(5) {
                0 => line.insert(place, byte),
                1 => line[place] = byte,
                2 => line.push(byte),
                3 => line.make_ascii_uppercase(),
                _ => _ = line.remove(place),
            }
        }
        // A line that stays good may not carry a near card past 2^62.
        let late = |field: &[u8]| {
            let number = std::str::from_utf8(field)
                .ok()
                .and_then(|field| field.parse().ok());
            number.is_some_and(|number: u64| number > FAR / 4)
        };
        if line == SEPARATOR.as_bytes() || !self.far && line.split(|&byte| byte == b',').any(late) {
            line.clear();
        }
        line
    }
}

/// Whether a time of the opening, or a sum of it, is past 2^62.
fn past(open: &Open) -> bool {
    let sum = |more: &[u64]| {
        more.iter()
            .fold(open.now, |sum, &more| sum.saturating_add(more))
    };
    sum(&[open.grace, open.settlement]) >= FAR || sum(&[open.timeout.limit().unwrap_or(0)]) >= FAR
}

/// Whether a first line may open a runner with another smallest grant than 1, to which the Rust has no
/// answers.
fn is_uncompared(line: &[u8]) -> bool {
    let line = String::from_utf8_lossy(line);
    let fields: Vec<&str> = line.split(',').collect();
    fields.len() == 14 && fields[13].parse().is_ok_and(|smallest: u32| smallest > 1)
}

fn open_text(open: &Open) -> String {
    let window = |window: Window| {
        let unit = if window.frames { "F" } else { "B" };
        format!("{unit},{}", window.size)
    };
    format!(
        "open,{},{},{},{},{},{},{},{},{},{}",
        open.now,
        open.id,
        open.generation,
        open.chunk,
        window(open.input),
        window(open.output),
        u8::from(open.shared),
        match open.timeout {
            Timeout::Missing => "-".into(),
            Timeout::Never => "never".into(),
            Timeout::After(limit) => limit.to_string(),
        },
        open.grace,
        open.settlement,
    )
}
