//! Reads a session card from standard input, runs it on the published Rust runner, and prints
//! one answer a line. With --ring, pending shows what our ring of the input hands back. With
//! --many, the input holds card after card, each ended by a line `----`, and so do the answers. At
//! the first card that opens with another smallest grant than 1 it stops with status 3.

mod answers;
mod card;
mod lines;
mod ring;
mod session;

use std::io::{self, StdoutLock};

use lines::Lines;
use session::Session;

/// The number that refuses what is no line of the card.
const BAD_LINE: u32 = 30;

/// The status that says that a card is not compared.
const NOT_COMPARED: i32 = 3;

/// With --many, the line that ends a card and its answers.
const SEPARATOR: &str = "----";

type Answers = answers::Answers<StdoutLock<'static>>;

fn main() -> io::Result<()> {
    let (mut as_ring, mut many) = (false, false);
    for flag in std::env::args().skip(1) {
        match flag.as_str() {
            "--ring" => as_ring = true,
            "--many" => many = true,
            _ => {
                eprintln!("usage: oracle [--ring] [--many] <CARD");
                std::process::exit(2);
            }
        }
    }
    let mut lines = Lines::of(io::stdin().lock());
    let mut answers = Answers::to(io::stdout().lock());
    let mut room = vec![0; card::ROOM];
    let mut session = None;
    let mut number = 0u64;
    while let Some(line) = lines.next()? {
        if many && line == SEPARATOR.as_bytes() {
            (session, number) = (None, 0);
            answers.word(SEPARATOR);
            answers.end_line()?;
            continue;
        }
        number += 1;
        answers.number(number);
        answers.word(",");
        let answered = if number == 1 {
            open(&mut session, line, as_ring, &mut answers)
        } else {
            call(&mut session, line, &mut room, &mut answers)
        };
        if let Err(refusal) = answered {
            answers.word("refused,");
            answers.number(refusal.into());
            answers.word(",-");
        }
        answers.end_line()?;
    }
    answers.write_out()
}

/// Answers the first line, which alone opens the session.
fn open(
    session: &mut Option<Session>,
    line: &[u8],
    as_ring: bool,
    answers: &mut Answers,
) -> Result<(), u32> {
    let open = card::open(line).ok_or(BAD_LINE)?;
    let smallest = open.smallest;
    *session = Some(Session::open(open, as_ring)?);
    if smallest != 1 {
        not_compared(line, answers);
    }
    answers.word(session::OK);
    Ok(())
}

/// Stops at a card that opens with another smallest grant than 1: the Rust grants every unit at once,
/// so it has no answers to it. What was answered before is written out.
fn not_compared(line: &[u8], answers: &mut Answers) -> ! {
    let line = String::from_utf8_lossy(line);
    eprintln!("not compared, as the Rust grants every unit at once: {line}");
    // As where a call panics, there is nobody to tell.
    let _ = answers.write_out();
    std::process::exit(NOT_COMPARED)
}

/// Answers a later line, which is bad where the first opened nothing.
fn call(
    session: &mut Option<Session>,
    line: &[u8],
    room: &mut [u8],
    answers: &mut Answers,
) -> Result<(), u32> {
    let session = session.as_mut().ok_or(BAD_LINE)?;
    session.call(card::call(line, room).ok_or(BAD_LINE)?, answers)
}
