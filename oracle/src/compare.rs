//! Compares two files of answers to the same cards, each card's answers ended by a line `----`.
//! Answers agree if they are the same, or if both are pending, neither is empty unless both are,
//! and one has the bytes with which the other begins. Prints the first cards that differ and how
//! many do; with --list, only the positions of all that do, the first card being 0.

use std::fs::File;
use std::io::{self, BufRead, BufReader};

const SEPARATOR: &[u8] = b"----";
const SHOWN: u64 = 10;

fn main() -> io::Result<()> {
    let arguments: Vec<String> = std::env::args().skip(1).collect();
    let (list, one, other) = match &arguments[..] {
        [one, other] => (false, one, other),
        [flag, one, other] if flag == "--list" => (true, one, other),
        _ => {
            eprintln!("usage: compare [--list] ANSWERS ANSWERS");
            std::process::exit(2);
        }
    };
    let mut sides = [Answers::of(one)?, Answers::of(other)?];
    let (mut cards, mut answers, mut lengths, mut differ) = (0u64, 0u64, 0u64, 0u64);
    // Whether a difference was met in the card at hand.
    let mut met = false;
    loop {
        let ended = sides
            .iter()
            .any(|side| side.at_end() || side.line == SEPARATOR);
        let agree = agree(&sides[0].line, &sides[1].line);
        if !agree && !met {
            met = true;
            differ += 1;
            match list {
                true => println!("{cards}"),
                false if differ <= SHOWN => {
                    let [one, other] =
                        [0, 1].map(|side| String::from_utf8_lossy(&sides[side].line));
                    println!("card {cards}: {one} | {other}");
                }
                false => {}
            }
        }
        if !ended {
            answers += 1;
            lengths += u64::from(agree && sides[0].line != sides[1].line);
            sides.iter_mut().try_for_each(Answers::next)?;
            continue;
        }
        // At the end of one side's answers to a card, both go on to the next card.
        sides.iter_mut().try_for_each(Answers::skip)?;
        if sides.iter().any(Answers::at_end) {
            break;
        }
        sides.iter_mut().try_for_each(Answers::next)?;
        cards += 1;
        met = false;
        if sides.iter().all(Answers::at_end) {
            break;
        }
    }
    if !list {
        println!("{cards} cards, {answers} answers, {differ} cards differ");
        println!("{lengths} pending of another length");
        std::process::exit(i32::from(differ > 0));
    }
    Ok(())
}

/// One file of answers, at one of its lines. At its end the line is empty, without its 0a.
struct Answers {
    file: BufReader<File>,
    line: Vec<u8>,
    ended: bool,
}

impl Answers {
    fn of(name: &str) -> io::Result<Self> {
        let mut answers = Self {
            file: BufReader::new(File::open(name)?),
            line: Vec::new(),
            ended: false,
        };
        answers.next()?;
        Ok(answers)
    }

    fn next(&mut self) -> io::Result<()> {
        self.line.clear();
        self.ended = self.file.read_until(b'\n', &mut self.line)? == 0;
        self.line.pop_if(|byte| *byte == b'\n');
        Ok(())
    }

    fn at_end(&self) -> bool {
        self.ended
    }

    /// Goes on to the end of the card.
    fn skip(&mut self) -> io::Result<()> {
        while !self.ended && self.line != SEPARATOR {
            self.next()?;
        }
        Ok(())
    }
}

fn agree(one: &[u8], other: &[u8]) -> bool {
    if one == other {
        return true;
    }
    let (Some((line, bytes)), Some((other_line, other_bytes))) = (pending(one), pending(other))
    else {
        return false;
    };
    let begins = bytes.starts_with(other_bytes) || other_bytes.starts_with(bytes);
    line == other_line && bytes.is_empty() == other_bytes.is_empty() && begins
}

/// The number of the line and the bytes of an answer to pending_input that counts them rightly.
fn pending(answer: &[u8]) -> Option<(&[u8], &[u8])> {
    let fields: Vec<&[u8]> = answer.split(|&byte| byte == b',').collect();
    let [line, b"pending", count, bytes] = fields[..] else {
        return None;
    };
    (count == (bytes.len() / 2).to_string().as_bytes()).then_some((line, bytes))
}
