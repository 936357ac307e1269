//! A session: the runner of one card, what the card asks beside it, and the text of each answer.

use nvx::exec::runner::{Message, Request};
use nvx::exec::{Limits, Outcome, Receipt, Runner, Status, Stream, Timers, Unit, Violation};
use nvx::time::{Duration, at, nanos};

use crate::Answers;
use crate::card::{Call, Open};
use crate::ring::Ring;

/// The stores that the card's program lends, in bytes and in lengths.
const BYTES: u64 = 65_536;
const LENGTHS: u64 = 1_024;

/// The answers with nothing to say but their word.
pub const OK: &str = "ok,-,-";
const NONE: &str = "none,-,-";

pub struct Session {
    runner: Runner,
    /// The input as our store would hold it, and whether pending shows that.
    ring: Ring,
    as_ring: bool,
}

impl Session {
    /// Opens the session, unless there are no such limits, the smallest grant is none or above the input's
    /// size in its own unit, or a store is short.
    pub fn open(open: Open, as_ring: bool) -> Result<Self, u32> {
        let limits = Limits::new(open.chunk, open.input, open.output).ok_or(10u32)?;
        let limits = if open.shared {
            limits.shared_output()
        } else {
            limits
        };
        if open.smallest == 0 || open.smallest > limits.input().size() {
            return Err(46);
        }
        let (area, lengths) = input_need(&limits);
        // The sum is at most 2^64 - 1.
        if 2 * u64::from(open.chunk) + area > BYTES || lengths > LENGTHS {
            return Err(11);
        }
        Ok(Self {
            runner: Runner::new(open.key, limits, timers(&open), at(open.now)),
            ring: Ring::new(area as usize, lengths > 0),
            as_ring,
        })
    }

    /// Answers a call, or gives the number that refuses it, and then nothing is written.
    pub fn call(&mut self, call: Call, answers: &mut Answers) -> Result<(), u32> {
        self.run(call, answers).map_err(refusal)?;
        if self.ring.waiting() > 0 && self.runner.pending_input().is_empty() {
            self.ring.clear();
        }
        Ok(())
    }

    /// Makes the call.
    fn run(&mut self, call: Call, answers: &mut Answers) -> Result<(), Violation> {
        let runner = &mut self.runner;
        match call {
            Call::Credit(key, pool, units) => receipt(runner.credit(key, pool, units)?, answers),
            Call::Input(key, bytes) => {
                let answer = runner.input(key, bytes)?;
                if answer == Receipt::Applied {
                    self.ring.push(bytes);
                }
                receipt(answer, answers);
            }
            Call::EndInput(key) => receipt(runner.end_input(key)?, answers),
            Call::Cancel(now, key, cause) => receipt(runner.cancel(at(now), key, cause)?, answers),
            Call::Launched(result) => ok(runner.launched(result), answers),
            Call::ReadAllowance(stream) => value(runner.read_allowance(stream), answers),
            Call::Output(stream, bytes) => counted("taken,", runner.output(stream, bytes), answers),
            Call::Discarded(stream, count) => ok(runner.discarded(stream, count), answers),
            Call::OutputClosed(stream) => ok(runner.output_closed(stream), answers),
            Call::OutputFailed(stream) => ok(runner.output_failed(stream), answers),
            Call::OutputHungUp(stream) => ok(runner.output_hung_up(stream), answers),
            Call::PendingInput => self.pending(answers),
            Call::InputWritten(count) => {
                let came = self.ring.pop(count);
                runner.input_written(count);
                counted("ok,", came, answers);
            }
            Call::InputClosed => ok(runner.input_closed(), answers),
            Call::Exited(now, status) => ok(runner.exited(at(now), status), answers),
            Call::Settled(result) => ok(runner.settled(result), answers),
            Call::Dropped(now) => ok(runner.dropped(at(now)), answers),
            Call::Reset(now) => ok(runner.reset(at(now)), answers),
            Call::Disconnect(now) => ok(runner.disconnect(at(now)), answers),
            Call::Tick(now) => ok(runner.tick(at(now)), answers),
            Call::Deadline => match runner.deadline() {
                Some(at) => answers.print(format_args!("value,{},-", nanos(at))),
                None => answers.word(NONE),
            },
            Call::Request => match runner.next_request() {
                Some(next) => request(next, answers),
                None => answers.word(NONE),
            },
            Call::Message(buffer) => match runner.next_message(buffer) {
                Some(next) => message(next, buffer, answers),
                None => answers.word(NONE),
            },
            Call::IsFinished => value(runner.is_finished().into(), answers),
            Call::IsDetached => value(runner.is_detached().into(), answers),
            Call::AwaitsSettlement => value(runner.awaits_settlement().into(), answers),
            Call::MemoryBound => value(runner.memory_bound(), answers),
            Call::Buffered => value(runner.buffered(), answers),
            Call::HighWater => value(runner.high_water(), answers),
        }
        Ok(())
    }

    /// The pending input: as far as the runner's queue is in one piece, or as far as our ring is.
    fn pending(&self, answers: &mut Answers) {
        let (queue, ring) = (self.runner.pending_input(), self.ring.pending());
        assert_eq!(queue.is_empty(), ring.is_empty());
        let both = queue.len().min(ring.len());
        assert!(queue[..both] == ring[..both]);
        let bytes = if self.as_ring { ring } else { queue };
        lent("pending,", bytes, answers);
    }
}

/// What the input needs of the stores: bytes and lengths.
fn input_need(limits: &Limits) -> (u64, u64) {
    let size = u64::from(limits.input().size());
    match limits.input().unit() {
        Unit::Bytes => (size, 0),
        Unit::Frames => (size * limits.chunk() as u64, size),
    }
}

fn timers(open: &Open) -> Timers {
    let [grace, settlement] = [open.grace, open.settlement].map(Duration::from_nanos);
    let timers = Timers::new(grace, settlement);
    match open.timeout {
        Some(timeout) => timers.timeout(Duration::from_nanos(timeout)),
        None => timers,
    }
}

/// The number of a refusal.
fn refusal(violation: Violation) -> u32 {
    match violation {
        Violation::Key => 1,
        Violation::Pool => 2,
        Violation::Credit => 3,
        Violation::Chunk => 4,
        Violation::Window => 5,
        Violation::Ended => 6,
        _ => unreachable!("the runner never gives {violation:?}"),
    }
}

// The text of each answer, from its word on. Names are the Rust's own, printed by its Debug; those
// that many lines have are spelled here, which is quicker.

/// The answer to a call with no result.
fn ok(_: (), answers: &mut Answers) {
    answers.word(OK);
}

fn value(number: usize, answers: &mut Answers) {
    counted("value,", number, answers);
}

fn counted(word: &str, number: usize, answers: &mut Answers) {
    answers.word(word);
    answers.number(number as u64);
    answers.word(",-");
}

/// A word, the number of the bytes, and the bytes.
fn lent(word: &str, bytes: &[u8], answers: &mut Answers) {
    answers.word(word);
    answers.number(bytes.len() as u64);
    answers.word(",");
    answers.hex(bytes);
}

fn receipt(receipt: Receipt, answers: &mut Answers) {
    match receipt {
        Receipt::Applied => answers.word("Applied,-,-"),
        _ => answers.print(format_args!("{receipt:?},-,-")),
    }
}

fn request(request: Request, answers: &mut Answers) {
    match request {
        Request::Terminate(cause) => answers.print(format_args!("Terminate,{cause:?},-")),
        Request::Discard(stream) => answers.print(format_args!("Discard,{stream:?},-")),
        _ => answers.print(format_args!("{request:?},-,-")),
    }
}

fn message(message: Message, buffer: &[u8], answers: &mut Answers) {
    match message {
        Message::Credit { units } => counted("Credit,", units as usize, answers),
        Message::Output { stream, length } => {
            let word = match stream {
                Stream::Stdout => "Stdout,",
                Stream::Stderr => "Stderr,",
            };
            lent(word, &buffer[..length], answers);
        }
        Message::End(stream) => answers.print(format_args!("End,{stream:?},-")),
        Message::Terminal(outcome) => {
            answers.word("Terminal,-,-,");
            terminal(outcome, answers);
        }
        _ => answers.print(format_args!("{message:?},-,-")),
    }
}

/// The five fields of an outcome.
fn terminal(outcome: Outcome, answers: &mut Answers) {
    match outcome.status() {
        Some(Status::Exited(code)) => answers.print(format_args!("E{code},")),
        Some(Status::Signaled(signal)) => answers.print(format_args!("S{signal},")),
        None => answers.word("-,"),
    }
    match outcome.cause() {
        Some(cause) => answers.print(format_args!("{cause:?},")),
        None => answers.word("-,"),
    }
    match outcome.launch_failure() {
        Some(failure) => {
            answers.print(format_args!("{}/{},", failure.stage(), failure.error()));
        }
        None => answers.word("-,"),
    }
    let [stdout, stderr] = Stream::ALL.map(|stream| u8::from(outcome.is_truncated(stream)));
    let reusable = u8::from(outcome.is_reusable());
    answers.print(format_args!("{stdout}{stderr},{reusable}"));
}
