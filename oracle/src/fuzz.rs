//! Feeds a program that reads a session card with input that no card has, LINES lines of it in
//! all: random bytes, cards cut and damaged, lines joined, lines about the longest and far longer,
//! NULs, empty lines, no last 0a, written in pieces of any length. The cards to damage come from
//! standard input, each ended by a line `----`. Each run has to end with status 0 and one answer a
//! line, numbered in order and of a known form; the oracle, run on the same, has to say the same,
//! unless the smallest grant came to be another than 1, to which it has no answers.
//!     fuzz LINES SEED ORACLE PROGRAM [ARGUMENT...] <CARDS

#[allow(dead_code)] // shuffle is the generator's
mod random;

use std::io::{self, Read, Write};
use std::process::{Command, Stdio};
use std::time::Instant;

use random::Random;

/// The line that ends a card.
const SEPARATOR: &[u8] = b"----";

/// The longest line of a card.
const LONGEST: u64 = 65_535;

/// The status with which the oracle says that it has no answers.
const NOT_COMPARED: i32 = 3;

const REFUSALS: [&str; 10] = ["1", "2", "3", "4", "5", "6", "10", "11", "30", "46"];
const CAUSES: [&str; 5] = ["Cancelled", "Dropped", "TimedOut", "Reset", "Disconnected"];
const STREAMS: [&str; 2] = ["Stdout", "Stderr"];

fn main() -> io::Result<()> {
    let arguments: Vec<String> = std::env::args().skip(1).collect();
    let (Some(lines), Some(seed), [oracle, program, rest @ ..]) = (
        arguments.first().and_then(|number| number.parse().ok()),
        arguments.get(1).and_then(|number| number.parse().ok()),
        arguments.get(2..).unwrap_or(&[]),
    ) else {
        eprintln!("usage: fuzz LINES SEED ORACLE PROGRAM [ARGUMENT...] <CARDS");
        std::process::exit(2);
    };
    let cards = cards()?;
    let mut random = Random::new(seed);
    let mut totals = Totals::default();
    // By kind: how many runs, and how many lines.
    let mut kinds = [[0u64; 2]; KINDS.len()];
    while totals.lines < lines {
        let kind = random.weighed(&KINDS.map(|(_, weight, _)| weight));
        let input = KINDS[kind].2(&mut random, &cards);
        let run = run(program, rest, &input, Stdio::inherit(), &mut random)?;
        let fault = match run.ok {
            true => fault(&input, &run.answers),
            false => Some("it ended with another status than 0".into()),
        };
        let fault = match fault {
            None if !oracle.is_empty() => {
                let flags = ["--ring".into()];
                let told = self::run(oracle, &flags, &input, Stdio::null(), &mut random)?;
                match told.status {
                    Some(NOT_COMPARED) => {
                        totals.not_compared += 1;
                        None
                    }
                    _ => differs(&told.answers, &run.answers),
                }
            }
            fault => fault,
        };
        if let Some(fault) = fault {
            std::fs::write("target/fuzz.card", &input)?;
            println!(
                "{}: {fault}; the input is in target/fuzz.card",
                KINDS[kind].0
            );
            std::process::exit(1);
        }
        let added = count(&input);
        kinds[kind][0] += 1;
        kinds[kind][1] += added;
        totals.runs += 1;
        totals.lines += added;
        totals.bytes += input.len() as u64;
        totals.answered += refused_not(&run.answers);
        totals.seconds += run.seconds;
        totals.memory = totals.memory.max(run.memory);
    }
    for ((name, ..), [runs, lines]) in KINDS.iter().zip(kinds) {
        println!("{name}: {runs} runs, {lines} lines");
    }
    let Totals {
        runs,
        not_compared,
        lines,
        bytes,
        answered,
        seconds,
        memory,
    } = totals;
    println!(
        "{runs} runs, {lines} lines, {bytes} bytes: status 0, an answer a line, as the oracle's"
    );
    println!("{not_compared} runs have another smallest grant than 1: no answers of the oracle's");
    println!("{answered} answers are no refusal; {seconds:.0} s; at most {memory} kB resident");
    Ok(())
}

#[derive(Default)]
struct Totals {
    runs: u64,
    /// Runs to which the oracle has no answers.
    not_compared: u64,
    lines: u64,
    bytes: u64,
    /// Answers that are no refusal.
    answered: u64,
    /// In the program itself.
    seconds: f64,
    memory: u64,
}

/// The cards of standard input, without the lines between them.
fn cards() -> io::Result<Vec<Vec<Vec<u8>>>> {
    let mut text = Vec::new();
    io::stdin().lock().read_to_end(&mut text)?;
    let mut cards = vec![Vec::new()];
    for line in text.split(|&byte| byte == b'\n') {
        match line == SEPARATOR {
            true => cards.push(Vec::new()),
            false => cards.last_mut().expect("there is one").push(line.to_vec()),
        }
    }
    cards.retain(|card| card.len() > 1);
    Ok(cards)
}

type Cards = [Vec<Vec<u8>>];
type Kind = fn(&mut Random, &Cards) -> Vec<u8>;

/// The kinds of input, with how often each is made.
const KINDS: [(&str, u64, Kind); 6] = [
    ("random bytes", 10, random_bytes),
    ("cut cards", 25, cut_card),
    ("damaged cards", 40, damaged_card),
    ("long sessions", 10, long_session),
    ("long lines", 6, long_lines),
    ("empty lines and NULs", 4, empty_lines),
];

fn random_bytes(random: &mut Random, _: &Cards) -> Vec<u8> {
    let length = random.to_one_of(&[1, 100, 10_000, 200_000]);
    let all = random.once_in(2);
    let mut input = Vec::new();
    if random.once_in(2) {
        // After a line that opens.
        input.extend(b"open,0,7,2,4,B,8,B,8,0,-,10,5");
        input.extend(smallest(random));
        input.push(b'\n');
    }
    for _ in 0..length {
        let text = b"0123456789abcdef,,,-\n\n-FBES\0\rcreditoutput";
        let byte = if all {
            random.next() as u8
        } else {
            random.pick(text)
        };
        input.push(byte);
    }
    input
}

/// The field of the smallest grant, or nothing; one in eight to which the oracle has no answers.
fn smallest(random: &mut Random) -> &'static [u8] {
    match random.below(8) {
        0 => b",4",
        1..4 => b",1",
        _ => b"",
    }
}

fn a_card<'a>(random: &mut Random, cards: &'a Cards) -> &'a [Vec<u8>] {
    &cards[random.below(cards.len() as u64) as usize]
}

fn cut_card(random: &mut Random, cards: &Cards) -> Vec<u8> {
    let mut input = a_card(random, cards).join(&b'\n');
    input.push(b'\n');
    input.truncate(random.from_to(0, input.len() as u64) as usize);
    input
}

fn damaged_card(random: &mut Random, cards: &Cards) -> Vec<u8> {
    let card = a_card(random, cards);
    let rarely = random.pick(&[3, 20, 200]);
    let mut input = Vec::new();
    for (number, line) in card.iter().enumerate() {
        input.extend(line);
        end_line(random, &mut input, rarely);
        if number > 0 || random.once_in(4) {
            damage(random, &mut input, line.len() as u64 + 1, rarely);
        }
    }
    last_end(random, &mut input);
    input
}

/// A session of some thousand lines from many cards, with the key of its first where they have one.
fn long_session(random: &mut Random, cards: &Cards) -> Vec<u8> {
    let mut input = match random.once_in(4) {
        true => a_card(random, cards)[0].clone(),
        false => {
            let open = b"open,0,7,2,16384,B,16384,B,4294967295,0,-,1000,1000";
            [&open[..], smallest(random)].concat()
        }
    };
    input.push(b'\n');
    let fields: Vec<Vec<u8>> = input
        .split(|&byte| byte == b',')
        .map(<[u8]>::to_vec)
        .collect();
    let key = match &fields[..] {
        [_, _, id, generation, ..] => [&id[..], &generation[..]].join(&b','),
        _ => b"7,2".to_vec(),
    };
    let rarely = random.pick(&[20, 1_000]);
    for _ in 0..random.to_one_of(&[10, 100, 600]) {
        let card = a_card(random, cards);
        for line in &card[1..] {
            // What ends a session is mostly left out.
            let ends: [&[u8]; 7] = [
                b"cancel",
                b"exited",
                b"dropped",
                b"reset",
                b"disconnect",
                b"tick",
                b"end_input",
            ];
            if ends.iter().any(|word| line.starts_with(word)) && !random.once_in(400) {
                continue;
            }
            input.extend(with_key(line, &key));
            end_line(random, &mut input, rarely);
            damage(random, &mut input, line.len() as u64 + 1, rarely);
        }
    }
    last_end(random, &mut input);
    input
}

/// A line of credit or input with another key.
fn with_key(line: &[u8], key: &[u8]) -> Vec<u8> {
    let fields: Vec<&[u8]> = line.splitn(4, |&byte| byte == b',').collect();
    match &fields[..] {
        [word @ (b"credit" | b"input"), _, _, rest] => [word, key, rest].join(&b','),
        _ => line.to_vec(),
    }
}

fn long_lines(random: &mut Random, cards: &Cards) -> Vec<u8> {
    let mut input = match random.once_in(6) {
        true => Vec::new(),
        false => b"open,0,7,2,16384,B,32768,B,4294967295,0,-,10,5\ncredit,7,2,Stdout,4000000000\n"
            .to_vec(),
    };
    for _ in 0..random.to_one_of(&[4, 30]) {
        let length = match random.below(20) {
            0 => random.from_to(LONGEST, 4_000_000),
            1 => random.from_to(0, 70_000),
            2..8 => random.from_to(LONGEST - 2, LONGEST + 3),
            // Lengths about the ends of pieces that a program may read in.
            8 => random.from_to(131_070, 131_074),
            _ => random.from_to(0, 33_000),
        };
        let starts: [&[u8]; 8] = [
            b"output,Stdout,",
            b"output,Stderr,",
            b"input,7,2,",
            b"tick,",
            b"message,",
            b"",
            b",",
            b"credit,7,2,Stdout,",
        ];
        let start = random.pick(&starts);
        let fill = random.pick(b"0000aF,-\0 \r");
        let end = input.len() + length as usize;
        input.extend(start);
        input.resize(end.max(input.len()), fill);
        end_line(random, &mut input, 50);
        for line in a_card(random, cards)
            .iter()
            .skip(1)
            .take(random.below(4) as usize)
        {
            input.extend(with_key(line, b"7,2"));
            input.push(b'\n');
        }
        input.extend(b"pending_input\nmessage,16384\ninput_written,40000\nmessage,16384\n");
    }
    last_end(random, &mut input);
    input
}

fn empty_lines(random: &mut Random, cards: &Cards) -> Vec<u8> {
    let mut input = Vec::new();
    if random.once_in(2) {
        input.extend(&a_card(random, cards)[0]);
        input.push(b'\n');
    }
    let bytes: [u8; 4] = [
        b'\n',
        random.pick(b"\n\0\r,"),
        random.pick(b"\n\0 -"),
        b'\n',
    ];
    for _ in 0..random.to_one_of(&[1, 10, 1_000, 10_000]) {
        input.push(random.pick(&bytes));
    }
    input
}

/// Ends a line, or, once in so many, joins it with the next.
fn end_line(random: &mut Random, input: &mut Vec<u8>, rarely: u64) {
    match random.once_in(rarely) {
        true => {
            input.extend(random.pick(&[&b""[..], b",", b"\r\n", b"\n\n", b"\0", b"\0\n", b" \n"]))
        }
        false => input.push(b'\n'),
    }
}

/// Once in so many, damages a byte among the last `count`.
fn damage(random: &mut Random, input: &mut Vec<u8>, count: u64, rarely: u64) {
    if input.is_empty() || !random.once_in(rarely) {
        return;
    }
    let back = random.below(count.min(input.len() as u64)) as usize;
    let at = input.len() - 1 - back;
    match random.below(5) {
        0 => input[at] ^= 1 << random.below(8),
        1 => input[at] = random.next() as u8,
        2 => input.insert(at, random.pick(b"0129af,-\0\n")),
        3 => drop(input.remove(at)),
        _ => input[at] = random.pick(b"0129af,-\0\n"),
    }
}

/// Takes away the last 0a, or adds more.
fn last_end(random: &mut Random, input: &mut Vec<u8>) {
    match random.below(4) {
        0 => drop(input.pop()),
        1 => input.extend(b"\n\n"),
        _ => {}
    }
}

struct Run {
    answers: Vec<u8>,
    ok: bool,
    status: Option<i32>,
    seconds: f64,
    /// The most that was resident, in kB, when all input was written.
    memory: u64,
}

/// Runs a program on the input, written in pieces.
fn run(
    program: &str,
    arguments: &[String],
    input: &[u8],
    stderr: Stdio,
    random: &mut Random,
) -> io::Result<Run> {
    let piece = random
        .to_one_of(&[40, 5_000, 65_536, 400_000])
        .max(input.len() as u64 / 2_000) as usize;
    let began = Instant::now();
    let mut child = Command::new(program)
        .args(arguments)
        .stdin(Stdio::piped())
        .stdout(Stdio::piped())
        .stderr(stderr)
        .spawn()?;
    let status = format!("/proc/{}/status", child.id());
    let mut stdin = child.stdin.take().expect("it is piped");
    let (written, ended) = std::thread::scope(|scope| {
        let writer = scope.spawn(move || -> io::Result<u64> {
            for piece in input.chunks(piece.max(1)) {
                stdin.write_all(piece)?;
            }
            let status = std::fs::read_to_string(status)?;
            drop(stdin);
            let line = status.lines().find_map(|line| line.strip_prefix("VmHWM:"));
            let number = line.and_then(|rest| rest.trim().strip_suffix(" kB"));
            Ok(number.and_then(|number| number.parse().ok()).unwrap_or(0))
        });
        let ended = child.wait_with_output();
        (writer.join().expect("the writer does not panic"), ended)
    });
    let ended = ended?;
    let ok = ended.status.success() && written.is_ok();
    let seconds = began.elapsed().as_secs_f64();
    Ok(Run {
        answers: ended.stdout,
        ok,
        status: ended.status.code(),
        seconds,
        memory: written.unwrap_or(0),
    })
}

/// How many lines an input has: one for each 0a, and one more where it ends with another byte.
fn count(input: &[u8]) -> u64 {
    let ends = input.iter().filter(|&&byte| byte == b'\n').count() as u64;
    ends + u64::from(input.last().is_some_and(|&byte| byte != b'\n'))
}

/// What is wrong with the answers to an input, looked at alone.
fn fault(input: &[u8], answers: &[u8]) -> Option<String> {
    let Ok(text) = std::str::from_utf8(answers) else {
        return Some("an answer has other bytes than text".into());
    };
    if text.chars().last().is_some_and(|last| last != '\n') {
        return Some("the last answer has no end".into());
    }
    let mut number = 0u64;
    for line in text.lines() {
        number += 1;
        let fields: Vec<&str> = line.split(',').collect();
        if fields[0] != number.to_string() || !known(&fields[1..]) {
            return Some(format!("answer {number}: {line:.100}"));
        }
    }
    let lines = count(input);
    (number != lines).then(|| format!("{lines} lines have {number} answers"))
}

/// Whether the fields behind an answer's number are of a form that the card has.
fn known(fields: &[&str]) -> bool {
    match *fields {
        [
            "ok" | "Applied" | "Stale" | "Late" | "none" | "Started" | "InputClosed",
            "-",
            "-",
        ] => true,
        ["CloseInput" | "Settle", "-", "-"] => true,
        ["refused", number, "-"] => REFUSALS.contains(&number),
        // (An ok with a number is that of input_written.)
        ["taken" | "value" | "Credit" | "ok", number, "-"] => is_number(number),
        ["pending" | "Stdout" | "Stderr", number, hex] => {
            let lower = |byte| matches!(byte, b'0'..=b'9' | b'a'..=b'f');
            number == (hex.len() / 2).to_string() && hex.len() % 2 == 0 && hex.bytes().all(lower)
        }
        ["Terminate", cause, "-"] => CAUSES.contains(&cause),
        ["Discard" | "End", stream, "-"] => STREAMS.contains(&stream),
        [
            "Terminal",
            "-",
            "-",
            status,
            cause,
            failure,
            marks,
            reusable,
        ] => {
            let is_status = |text: &str| is_signed(text.trim_start_matches(['E', 'S']));
            let is_failure = |text: &str| {
                let parts = text.split_once('/');
                parts.is_some_and(|(stage, error)| is_number(stage) && is_signed(error))
            };
            (status == "-" || is_status(status))
                && (cause == "-" || CAUSES.contains(&cause))
                && (failure == "-" || is_failure(failure))
                && ["00", "01", "10", "11"].contains(&marks)
                && ["0", "1"].contains(&reusable)
        }
        _ => false,
    }
}

fn is_number(text: &str) -> bool {
    text.parse::<u64>()
        .is_ok_and(|number| number.to_string() == text)
}

fn is_signed(text: &str) -> bool {
    text.parse::<i32>()
        .is_ok_and(|number| number.to_string() == text)
}

/// Where the oracle says another thing.
fn differs(oracle: &[u8], answers: &[u8]) -> Option<String> {
    if oracle == answers {
        return None;
    }
    let [one, other] = [oracle, answers].map(|text| text.split(|&byte| byte == b'\n'));
    let (one, other) = one.zip(other).find(|(one, other)| one != other)?;
    let [one, other] = [one, other].map(String::from_utf8_lossy);
    Some(format!("the oracle says {one:.100}, not {other:.100}"))
}

fn refused_not(answers: &[u8]) -> u64 {
    let lines = answers
        .split(|&byte| byte == b'\n')
        .filter(|line| !line.is_empty());
    lines
        .filter(|line| line.split(|&byte| byte == b',').nth(1) != Some(b"refused"))
        .count() as u64
}
