//! Applies a mutant to a copy of the published sources: mutate LIST NAME FOLDER. A list has one
//! mutant a block, with blank lines between:
//!
//!     name: what is wrong, in one word
//!     file: the file, below the folder
//!     in: part of one line of the file, and of no other
//!     old: the line to replace: the first such line from there on, whatever its indent
//!     new: what stands there instead
//!     why: for mutants that no card can tell apart, why not
//!
//! Without FOLDER it prints the mutant's block, and without NAME the names of the list.

use std::fs;

fn main() {
    let arguments: Vec<String> = std::env::args().skip(1).collect();
    let read = |name: &str| {
        fs::read_to_string(name).unwrap_or_else(|error| stop(name, &error.to_string()))
    };
    let [list, rest @ ..] = &arguments[..] else {
        stop("usage", "mutate LIST [NAME [FOLDER]]");
    };
    let list = read(list);
    let mut blocks = list.split("\n\n");
    let [name, rest @ ..] = rest else {
        return blocks.for_each(|block| println!("{}", field(block, "name")));
    };
    let block = blocks.find(|block| field(block, "name") == name);
    let block = block.unwrap_or_else(|| stop(name, "no such mutant"));
    let [folder] = rest else {
        return println!("{block}");
    };
    let file = format!("{folder}/{}", field(block, "file"));
    let source = read(&file);
    fs::write(&file, edit(block, &source)).expect("the copy can be written");
}

fn edit(block: &str, source: &str) -> String {
    let name = field(block, "name");
    let mut lines: Vec<String> = source.lines().map(String::from).collect();
    let held = |(_, line): &(usize, &String)| line.contains(field(block, "in"));
    let places: Vec<usize> = lines
        .iter()
        .enumerate()
        .filter(held)
        .map(|(at, _)| at)
        .collect();
    let [place] = places[..] else {
        stop(name, &format!("{} lines hold the text of in", places.len()));
    };
    let old = lines[place..]
        .iter_mut()
        .find(|line| line.trim() == field(block, "old"));
    let old = old.unwrap_or_else(|| stop(name, "no line is the old one"));
    *old = field(block, "new").into();
    lines.join("\n") + "\n"
}

fn field<'a>(block: &'a str, key: &str) -> &'a str {
    let value = |line: &'a str| line.strip_prefix(key)?.strip_prefix(':').map(str::trim);
    block
        .lines()
        .find_map(value)
        .unwrap_or_else(|| stop(block, &format!("no {key}")))
}

fn stop(what: &str, why: &str) -> ! {
    eprintln!("{what}: {why}");
    std::process::exit(1);
}
