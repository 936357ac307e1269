//! The lines of a session card: what each says, or nothing where it is no line of the card.

use nvx::exec::{Cause, Key, LaunchFailure, Pool, Settlement, Status, Stream, Window};

/// The longest line, and the largest message buffer, in bytes.
const LINE: usize = 65_535;
const BUFFER: usize = 16_384;

/// The room that a line may need beside it: for the bytes of its digits, or for a message.
pub const ROOM: usize = LINE / 2;

/// How long a program may run whose TIMEOUT is missing, in nanoseconds.
const HOUR: u64 = 3_600_000_000_000;

/// The line that opens a session. Times are nanoseconds.
pub struct Open {
    pub now: u64,
    pub key: Key,
    pub chunk: u32,
    pub input: Window,
    pub output: Window,
    pub shared: bool,
    /// None is no limit.
    pub timeout: Option<u64>,
    pub grace: u64,
    pub settlement: u64,
    /// The smallest grant, in units of the input's window.
    pub smallest: u32,
}

/// A call of the runner, in the order of its methods; a u64 in front is the call's time. Bytes are
/// lent, and so is a message's buffer.
pub enum Call<'a> {
    Credit(Key, Pool, u32),
    Input(Key, &'a [u8]),
    EndInput(Key),
    Cancel(u64, Key, Cause),
    Launched(Result<(), LaunchFailure>),
    ReadAllowance(Stream),
    Output(Stream, &'a [u8]),
    Discarded(Stream, usize),
    OutputClosed(Stream),
    OutputFailed(Stream),
    OutputHungUp(Stream),
    PendingInput,
    InputWritten(usize),
    InputClosed,
    Exited(u64, Option<Status>),
    Settled(Settlement),
    Dropped(u64),
    Reset(u64),
    Disconnect(u64),
    Tick(u64),
    Deadline,
    Request,
    Message(&'a mut [u8]),
    IsFinished,
    IsDetached,
    AwaitsSettlement,
    MemoryBound,
    Buffered,
    HighWater,
}

/// Reads the line that opens a session.
pub fn open(line: &[u8]) -> Option<Open> {
    let mut fields = Fields::of(line)?;
    if fields.next()? != b"open" {
        return None;
    }
    let now = number(fields.next()?)?;
    let key = key(fields.next()?, fields.next()?)?;
    let chunk = number(fields.next()?)?;
    let input = window(fields.next()?, fields.next()?)?;
    let output = window(fields.next()?, fields.next()?)?;
    let shared = truth(fields.next()?)?;
    let timeout = limit(fields.next()?)?;
    let grace = number(fields.next()?)?;
    // The smallest grant may be left out, and then it is 1.
    let (settlement, smallest) = match fields.next() {
        Some(settlement) => (number(settlement)?, number(fields.last())?),
        None => (number(fields.last())?, 1),
    };
    Some(Open {
        now,
        key,
        chunk,
        input,
        output,
        shared,
        timeout,
        grace,
        settlement,
        smallest,
    })
}

/// Reads a line that calls the runner. What it lends stands in the room.
pub fn call<'a>(line: &[u8], room: &'a mut [u8]) -> Option<Call<'a>> {
    let mut fields = Fields::of(line)?;
    let Some(word) = fields.next() else {
        return bare(line);
    };
    Some(match word {
        b"credit" => {
            let key = key(fields.next()?, fields.next()?)?;
            Call::Credit(key, pool(fields.next()?)?, number(fields.last())?)
        }
        b"input" => {
            let key = key(fields.next()?, fields.next()?)?;
            Call::Input(key, bytes(fields.last(), room)?)
        }
        b"end_input" => Call::EndInput(key(fields.next()?, fields.last())?),
        b"cancel" => {
            let now = number(fields.next()?)?;
            let key = key(fields.next()?, fields.next()?)?;
            Call::Cancel(now, key, cause(fields.last())?)
        }
        b"launched" => Call::Launched(launch(fields)?),
        b"read_allowance" => Call::ReadAllowance(stream(fields.last())?),
        b"output" => Call::Output(stream(fields.next()?)?, bytes(fields.last(), room)?),
        b"discarded" => Call::Discarded(stream(fields.next()?)?, number(fields.last())?),
        b"output_closed" => Call::OutputClosed(stream(fields.last())?),
        b"output_failed" => Call::OutputFailed(stream(fields.last())?),
        b"output_hung_up" => Call::OutputHungUp(stream(fields.last())?),
        b"input_written" => Call::InputWritten(number(fields.last())?),
        b"exited" => Call::Exited(number(fields.next()?)?, optional(fields.last(), status)?),
        b"settled" => Call::Settled(settlement(fields.last())?),
        b"dropped" => Call::Dropped(number(fields.last())?),
        b"reset" => Call::Reset(number(fields.last())?),
        b"disconnect" => Call::Disconnect(number(fields.last())?),
        b"tick" => Call::Tick(number(fields.last())?),
        b"message" => {
            let length = number(fields.last()).filter(|&length| length <= BUFFER)?;
            Call::Message(&mut room[..length])
        }
        _ => return None,
    })
}

/// Reads a line that has no comma.
fn bare(line: &[u8]) -> Option<Call<'static>> {
    Some(match line {
        b"pending_input" => Call::PendingInput,
        b"input_closed" => Call::InputClosed,
        b"deadline" => Call::Deadline,
        b"request" => Call::Request,
        b"is_finished" => Call::IsFinished,
        b"is_detached" => Call::IsDetached,
        b"awaits_settlement" => Call::AwaitsSettlement,
        b"memory_bound" => Call::MemoryBound,
        b"buffered" => Call::Buffered,
        b"high_water" => Call::HighWater,
        _ => return None,
    })
}

/// What is left of a line, parted at its commas. No field of a good line holds anything but ASCII.
struct Fields<'a>(&'a [u8]);

impl<'a> Fields<'a> {
    fn of(line: &'a [u8]) -> Option<Self> {
        (line.len() <= LINE).then_some(Self(line))
    }

    /// The next field, which a comma ends.
    fn next(&mut self) -> Option<&'a [u8]> {
        let comma = self.0.iter().position(|&byte| byte == b',')?;
        let field = &self.0[..comma];
        self.0 = &self.0[comma + 1..];
        Some(field)
    }

    /// The last field: all that is left. Whoever reads it takes no comma, so none is looked for.
    fn last(self) -> &'a [u8] {
        self.0
    }
}

/// Digits, at least one, within the type.
fn number<T: TryFrom<u64>>(field: &[u8]) -> Option<T> {
    if field.is_empty() {
        return None;
    }
    let mut number = 0u64;
    for byte in field {
        let digit = byte.wrapping_sub(b'0');
        if digit > 9 {
            return None;
        }
        number = number.checked_mul(10)?.checked_add(digit.into())?;
    }
    number.try_into().ok()
}

/// A number that may have a minus in front.
fn signed(field: &[u8]) -> Option<i32> {
    let number = match field {
        [b'-', digits @ ..] => -number::<i64>(digits)?,
        _ => number(field)?,
    };
    number.try_into().ok()
}

/// A field that "-" leaves out.
fn optional<T>(field: &[u8], read: fn(&[u8]) -> Option<T>) -> Option<Option<T>> {
    match field {
        b"-" => Some(None),
        _ => read(field).map(Some),
    }
}

/// How long a program may run, where there is a limit.
fn limit(field: &[u8]) -> Option<Option<u64>> {
    match field {
        b"-" => Some(Some(HOUR)),
        b"never" => Some(None),
        _ => number(field).map(Some),
    }
}

fn truth(field: &[u8]) -> Option<bool> {
    match field {
        b"0" => Some(false),
        b"1" => Some(true),
        _ => None,
    }
}

/// Two digits a byte; the bytes stand at the start of the room. No digit is a way out of the loop,
/// so the compiler takes many at once.
fn bytes<'a>(field: &[u8], room: &'a mut [u8]) -> Option<&'a [u8]> {
    let (pairs, []) = field.as_chunks() else {
        return None;
    };
    let bytes = &mut room[..pairs.len()];
    let mut worst = 0;
    for (byte, &pair) in bytes.iter_mut().zip(pairs) {
        let [high, low] = pair.map(digit);
        worst |= high | low;
        *byte = high << 4 | low;
    }
    (worst < 16).then_some(bytes)
}

/// What a hex digit stands for; 16 or more for any other byte.
fn digit(byte: u8) -> u8 {
    // Counted from the byte past '9', the digits are 246 to 255 and come to 0 to 9; any other byte
    // is 245 at most and comes to 16 or more.
    let number = byte
        .wrapping_sub(b'9' + 1)
        .saturating_sub(6)
        .wrapping_add(16);
    let letter = byte.wrapping_sub(b'a').saturating_add(10);
    number.min(letter)
}

fn key(id: &[u8], generation: &[u8]) -> Option<Key> {
    Some(Key::new(number(id)?, number(generation)?))
}

fn window(unit: &[u8], size: &[u8]) -> Option<Window> {
    match unit {
        b"B" => number(size).map(Window::bytes),
        b"F" => number(size).map(Window::frames),
        _ => None,
    }
}

fn status(field: &[u8]) -> Option<Status> {
    match field {
        [b'E', code @ ..] => signed(code).map(Status::Exited),
        [b'S', signal @ ..] => signed(signal).map(Status::Signaled),
        _ => None,
    }
}

/// The last three fields of launched.
fn launch(mut fields: Fields) -> Option<Result<(), LaunchFailure>> {
    match fields.next()? {
        b"0" => (fields.last() == b"-,-").then_some(Ok(())),
        b"1" => {
            let stage = number(fields.next()?)?;
            Some(Err(LaunchFailure::new(stage, signed(fields.last())?)))
        }
        _ => None,
    }
}

fn settlement(name: &[u8]) -> Option<Settlement> {
    match name {
        b"Settled" => Some(Settlement::Settled),
        b"Failed" => Some(Settlement::Failed),
        _ => None,
    }
}

fn stream(name: &[u8]) -> Option<Stream> {
    match name {
        b"Stdout" => Some(Stream::Stdout),
        b"Stderr" => Some(Stream::Stderr),
        _ => None,
    }
}

fn pool(name: &[u8]) -> Option<Pool> {
    match name {
        b"Input" => Some(Pool::Input),
        b"Stdout" => Some(Pool::Stdout),
        b"Stderr" => Some(Pool::Stderr),
        b"Output" => Some(Pool::Output),
        _ => None,
    }
}

fn cause(name: &[u8]) -> Option<Cause> {
    match name {
        b"Cancelled" => Some(Cause::Cancelled),
        b"Dropped" => Some(Cause::Dropped),
        b"TimedOut" => Some(Cause::TimedOut),
        b"Reset" => Some(Cause::Reset),
        b"Disconnected" => Some(Cause::Disconnected),
        _ => None,
    }
}
