//! Reads a source file of the runner from standard input and prints it with a counter at every
//! branch: both sides of each condition, of each operand of && and ||, of each flag that is set
//! from one, of each `?` and each `let .. else`, of each sum of times, and every arm of a match.
//! The text of the branches goes to standard error, one a line: its number, its line, the branch.
//! It reads no Rust but what rustfmt makes of these files; what it misreads does not compile.
//! Left as they are: `const fn`, where no counter can run, and `fn fmt`, which is not ported.

use std::cmp::Reverse;
use std::io::{self, Read};

fn main() -> io::Result<()> {
    let arguments: Vec<String> = std::env::args().skip(1).collect();
    let [name, first] = &arguments[..] else {
        eprintln!("usage: branches NAME FIRST <SOURCE >COUNTED 2>BRANCHES");
        std::process::exit(2);
    };
    let mut source = String::new();
    io::stdin().read_to_string(&mut source)?;
    let mut counters = Counters {
        name,
        number: first.parse().expect("the number of the first branch"),
        line: 0,
    };
    let lines: Vec<&str> = source.lines().collect();
    let mut left_out = false;
    for (index, line) in lines.iter().enumerate() {
        counters.line = index + 1;
        if line.contains("const fn ") || line.contains("fn fmt(") {
            left_out = true;
        } else if *line == "    }" || line.trim_start().starts_with("fn ") {
            left_out = false;
        }
        let code = line.trim_start();
        if left_out || code.starts_with("//") || code.starts_with('#') {
            println!("{line}");
            continue;
        }
        let next = lines.get(index + 1).map_or("", |next| next.trim_start());
        let indent = &line[..line.len() - code.len()];
        println!("{indent}{}", counters.code(code, next));
    }
    Ok(())
}

struct Counters<'a> {
    name: &'a str,
    number: usize,
    line: usize,
}

impl Counters<'_> {
    /// Names a new branch; the result is the argument of its counter.
    fn branch(&mut self, text: &str) -> usize {
        eprintln!("{} {}:{} {text}", self.number, self.name, self.line);
        self.number += 1;
        self.number - 1
    }

    /// Wraps each part of the code in a counter of its two sides; a part may hold another.
    fn sides(&mut self, code: &str, mut parts: Vec<(usize, usize)>) -> String {
        parts.sort();
        parts.dedup();
        let mut inserts = Vec::new();
        for (start, end) in parts {
            let branch = self.branch(&code[start..end]);
            inserts.push((start, start, end, format!("crate::hits::side({branch}, ")));
            inserts.push((end, start, end, ")".to_string()));
        }
        // From the back, so that the places stay right; at one place the outer part opens first.
        inserts.sort_by_key(|&(place, start, end, _)| (place, place == start, Reverse(end)));
        let mut code = code.to_string();
        for (place, _, _, text) in inserts.iter().rev() {
            code.insert_str(*place, text);
        }
        code
    }

    fn code(&mut self, code: &str, next: &str) -> String {
        if let Some((pattern, rest)) = code.split_once(" => ") {
            let branch = self.branch(&format!("{pattern} =>"));
            return match rest.strip_suffix(',') {
                Some(value) => format!("{pattern} => {{ crate::hits::hit({branch}); {value} }}"),
                None => format!("{pattern} => {rest} crate::hits::hit({branch});"),
            };
        }
        if let Some(at) = code
            .find("if let ")
            .filter(|_| !code.contains('(') || ends_plain(code))
        {
            // A place that is matched, not a call: it may be matched twice.
            let (pattern, place) = code[at + 7..]
                .split_once(" = ")
                .expect("if let has a place");
            let place = place.trim_end_matches(" {");
            let branch = self.branch(&code[at..]);
            return code.replacen(
                "if let ",
                &format!("if crate::hits::side({branch}, matches!({place}, {pattern})) && let "),
                1,
            );
        }
        self.sides(code, parts(code, next))
    }
}

/// Whether what is matched is a place and not a call.
fn ends_plain(code: &str) -> bool {
    !code.trim_end_matches(" {").ends_with(')')
}

/// The parts of a line that have two sides.
fn parts(code: &str, next: &str) -> Vec<(usize, usize)> {
    let mut parts = Vec::new();
    // Where the line's whole expression starts and ends.
    let lead = [
        "if let ",
        "if ",
        "while ",
        "&& let ",
        "&& ",
        "|| ",
        "let Some(frame) = ",
    ];
    let mut start = 0;
    let mut whole = false;
    for word in lead {
        if let Some(at) = code.find(word).filter(|at| *at == 0 || word == "if ") {
            start = at + word.len();
            whole = true;
            break;
        }
    }
    let brace = code[start..].find(" {").map_or(code.len(), |at| start + at);
    let mut end = code[..brace]
        .trim_end_matches(" else")
        .trim_end_matches([';', ','])
        .len();
    if let Some(at) = code[start..end]
        .find(" = ")
        .or(code[start..end].find(" |= "))
    {
        let after = start + at + code[start + at..end].find("= ").expect("it is there") + 2;
        whole |= code[after..end].starts_with('!') || code[..after].ends_with("|= ");
        start = after;
    } else if code.starts_with("let ") && !whole {
        end = start;
    }
    whole |= next.starts_with("&& ") || next.starts_with("|| ");
    // `self` alone goes on in the next line, as a chain of calls.
    if whole && start < end && &code[start..end] != "self" {
        parts.push((start, end));
    }
    // The operands within the line.
    for operator in [" && ", " || "] {
        for (at, _) in code.match_indices(operator) {
            parts.push((operand_start(code, at), at));
            parts.push((at + 4, operand_end(code, at + 4)));
        }
    }
    if parts.len() > 1 && code.starts_with("if ") {
        parts.retain(|&part| part != (start, end));
    }
    // What ends early, sums that may not exist, and what is asked of a value that may be missing.
    for (at, _) in code.match_indices(")?") {
        let start = operand_start(code, at + 1);
        let negated = usize::from(code[start..].starts_with('!'));
        parts.push((start + negated, at + 1));
    }
    for (at, _) in code
        .match_indices("after(")
        .filter(|_| !code.starts_with("fn "))
    {
        parts.push((at, at + code[at..].find(')').expect("the call ends") + 1));
    }
    for test in ["now >= at", "(units > 0)"] {
        for (at, _) in code.match_indices(test) {
            parts.push((at, at + test.len()));
        }
    }
    parts
}

/// Where the operand that ends at `end` starts.
fn operand_start(code: &str, end: usize) -> usize {
    let mut depth = 0;
    for (at, byte) in code.bytes().enumerate().take(end).rev() {
        match byte {
            b')' => depth += 1,
            b'(' if depth == 0 => return at + 1,
            b'(' => depth -= 1,
            b' ' if depth == 0 => {
                let before = &code[..at + 1];
                let words = ["&& ", "|| ", "= ", "| ", "if "];
                if words.iter().any(|word| before.ends_with(word)) && !before.ends_with("== ") {
                    return at + 1;
                }
            }
            _ => {}
        }
    }
    0
}

/// Where the operand that starts at `start` ends.
fn operand_end(code: &str, start: usize) -> usize {
    let mut depth = 0;
    for (at, byte) in code.bytes().enumerate().skip(start) {
        match byte {
            b'(' => depth += 1,
            b')' if depth == 0 => return at,
            b')' => depth -= 1,
            b';' | b',' if depth == 0 => return at,
            b' ' if depth == 0 => {
                let rest = &code[at..];
                if [" && ", " || ", " {"]
                    .iter()
                    .any(|word| rest.starts_with(word))
                {
                    return at;
                }
            }
            _ => {}
        }
    }
    code.len()
}
