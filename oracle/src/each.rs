//! Runs a program once for each card of the standard input, where a line `----` ends a card, and
//! prints its answers, each card's ended by the same line: each PROGRAM [ARGUMENT...].

use std::io::{self, BufRead, Write};
use std::process::{Command, Stdio};

const SEPARATOR: &[u8] = b"----\n";

fn main() -> io::Result<()> {
    let arguments: Vec<String> = std::env::args().skip(1).collect();
    let [program, arguments @ ..] = &arguments[..] else {
        eprintln!("usage: each PROGRAM [ARGUMENT...] <CARDS");
        std::process::exit(2);
    };
    let mut input = io::stdin().lock();
    let mut output = io::stdout().lock();
    let mut card = Vec::new();
    loop {
        let start = card.len();
        if input.read_until(b'\n', &mut card)? == 0 {
            return Ok(());
        }
        if &card[start..] != SEPARATOR {
            continue;
        }
        card.truncate(start);
        let mut child = Command::new(program)
            .args(arguments)
            .stdin(Stdio::piped())
            .stdout(Stdio::piped())
            .spawn()?;
        let mut stdin = child.stdin.take().expect("it is piped");
        // Cards may be longer than a pipe holds, and so may answers.
        let (written, answers) = std::thread::scope(|scope| {
            let writer = scope.spawn(|| {
                let written = stdin.write_all(&card);
                drop(stdin);
                written
            });
            let answers = child.wait_with_output();
            (writer.join().expect("the writer does not panic"), answers)
        });
        written?;
        output.write_all(&answers?.stdout)?;
        output.write_all(SEPARATOR)?;
        card.clear();
    }
}
