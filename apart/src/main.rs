//! The card file system written apart from the library, to compare the two.

mod card;
mod cases;
mod compare;
mod count;
mod device;
mod format;
mod laws;
mod leaves;
mod make;
mod random;
mod refusal;
mod rule;
mod script;
mod store;

use std::io::{self, Read, Write};

/// Everything on standard input.
fn input() -> Vec<u8> {
    let mut bytes = Vec::new();
    io::stdin().read_to_end(&mut bytes).expect("standard input");
    bytes
}

/// The lines of a script: a last line without a newline is a line.
pub fn script_lines(script: &[u8]) -> Vec<&[u8]> {
    let mut lines: Vec<&[u8]> = script.split(|&b| b == b'\n').collect();
    if lines.last().is_some_and(|last| last.is_empty()) {
        lines.pop();
    }
    lines
}

/// What a script prints.
pub fn run(lines: &[&[u8]]) -> Vec<u8> {
    let mut session = script::Session::default();
    let mut out = Vec::new();
    for line in lines {
        if let Some(answer) = session.line(line) {
            out.extend_from_slice(answer.as_bytes());
            out.push(b'\n');
        }
    }
    out
}

/// Honest histories with any landing, until so many commands: do the laws hold?
fn laws(seed: u64, commands: usize) -> bool {
    let mut maker = make::Maker::new(seed, commands, true);
    maker.watch = Some(laws::Watch::default());
    maker.make();
    let watch = maker.watch.take().unwrap_or_default();
    let t = &watch.tally;
    println!("histories {}, commands {}, points {}, cuts {}", t.histories, maker.script.len(), t.points, t.cuts);
    println!("calls broken off {}, opens of a formatted card {}", t.broken_off, t.opens);
    println!("reads that were written {}, finds that were made {}", t.reads, t.finds);
    println!("settled files {}, found on their path {}, with leaves {}", t.promised, t.kept, t.leaves);
    match watch.broken {
        None => println!("the laws hold"),
        Some(ref text) => println!("a law does not hold: {text}"),
    }
    watch.broken.is_none()
}

fn count() {
    let mut count = count::Count::default();
    count.add(&script_lines(&input()));
    print!("{count}");
}

fn make(seed: u64, commands: usize) {
    let mut maker = make::Maker::new(seed, commands, false);
    maker.make();
    println!("{}", maker.script.join("\n"));
}

/// Prints a shorter script on which the program differs, if it does on the one given.
fn shrink(program: &str) -> bool {
    match compare::shrink(program, &input()) {
        Some(script) => {
            io::stdout().write_all(&script).expect("standard output");
            true
        }
        None => {
            eprintln!("the outputs are the same");
            false
        }
    }
}

/// A number of the command line.
fn number(word: &str) -> u64 {
    word.parse().unwrap_or_else(|_| usage())
}

fn usage() -> ! {
    eprintln!(
        "usage: apart run | apart count | apart make SEED COMMANDS | apart laws SEED COMMANDS\n\
         \x20      apart shrink PROGRAM | apart compare PROGRAM SECONDS SEED | apart store\n\
         \x20      apart leaves DRIVER FOLDER SECONDS SEED"
    );
    std::process::exit(2)
}

fn main() {
    let arguments: Vec<String> = std::env::args().skip(1).collect();
    let words: Vec<&str> = arguments.iter().map(String::as_str).collect();
    let mut good = true;
    match words[..] {
        ["run"] => io::stdout().write_all(&run(&script_lines(&input()))).expect("standard output"),
        ["count"] => count(),
        ["make", seed, commands] => make(number(seed), number(commands) as usize),
        ["laws", seed, commands] => good = laws(number(seed), number(commands) as usize),
        ["shrink", program] => good = shrink(program),
        ["compare", program, seconds, seed] => good = compare::compare(program, number(seconds), number(seed)),
        ["leaves", driver, folder, seconds, seed] => good = leaves::compare(driver, folder, number(seconds), number(seed)),
        ["store"] => print!("{}", store::stored()),
        _ => usage(),
    }
    std::process::exit(if good { 0 } else { 1 })
}
