//! Comparing the model with another program that obeys scripts.

use std::io::Write;
use std::process::{Command, Stdio};
use std::time::{Duration, Instant};

use crate::count::Count;
use crate::make::Maker;
use crate::{run, script_lines};

/// How long a shrink may take.
const SHRINK: Duration = Duration::from_secs(60);
/// How many lines a script of a comparison has, about.
const LINES: usize = 400;

/// What the other program prints for a script, with a line added if it does not end well.
fn other(program: &str, lines: &[&[u8]]) -> Vec<u8> {
    let mut script = lines.join(&b'\n');
    script.push(b'\n');
    let child = Command::new(program).stdin(Stdio::piped()).stdout(Stdio::piped()).stderr(Stdio::null()).spawn();
    let mut child = child.unwrap_or_else(|error| panic!("{program}: {error}"));
    let mut stdin = child.stdin.take().expect("a pipe");
    // a program that stops reading shows in its output
    let feeder = std::thread::spawn(move || drop(stdin.write_all(&script)));
    let output = child.wait_with_output().expect("output");
    feeder.join().expect("the script is fed");
    let mut printed = output.stdout;
    if !output.status.success() {
        printed.extend_from_slice(b"(the program did not end well)\n");
    }
    printed
}

fn differs(program: &str, lines: &[&[u8]]) -> bool {
    run(lines) != other(program, lines)
}

/// A shorter script on which the two differ: chunks are left out as long as they do.
pub fn shrink(program: &str, script: &[u8]) -> Option<Vec<u8>> {
    let start = Instant::now();
    let mut lines = script_lines(script);
    if !differs(program, &lines) {
        return None;
    }
    lines = cut_behind(program, lines);
    let mut chunk = lines.len().div_ceil(2).max(1);
    loop {
        let before = lines.len();
        let mut at = 0;
        while at < lines.len() && start.elapsed() < SHRINK {
            let mut fewer = lines[..at].to_vec();
            fewer.extend_from_slice(&lines[(at + chunk).min(lines.len())..]);
            if differs(program, &fewer) {
                lines = fewer;
            } else {
                at += chunk;
            }
        }
        if start.elapsed() >= SHRINK || (chunk == 1 && lines.len() == before) {
            break;
        }
        chunk = chunk.div_ceil(2).max(1);
    }
    let mut shorter = lines.join(&b'\n');
    shorter.push(b'\n');
    Some(shorter)
}

/// Leaves out what follows the first line with another answer.
fn cut_behind<'a>(program: &str, lines: Vec<&'a [u8]>) -> Vec<&'a [u8]> {
    let (ours, theirs) = (run(&lines), other(program, &lines));
    let same = script_lines(&ours).iter().zip(script_lines(&theirs)).take_while(|(a, b)| **a == *b).count();
    let mut printed = 0;
    for (at, line) in lines.iter().enumerate() {
        printed += usize::from(!crate::script::is_silent(line));
        if printed > same {
            let shorter = lines[..=at].to_vec();
            return if differs(program, &shorter) { shorter } else { lines };
        }
    }
    lines
}

/// Compares the two on scripts from a seed on, for so many seconds. True if they never differ.
pub fn compare(program: &str, seconds: u64, seed: u64) -> bool {
    let end = Instant::now() + Duration::from_secs(seconds);
    let mut count = Count::default();
    let mut at = seed;
    while Instant::now() < end {
        let mut maker = Maker::new(at, LINES, false);
        maker.make();
        let script = maker.script.join("\n") + "\n";
        let lines = script_lines(script.as_bytes());
        count.add(&lines);
        if differs(program, &lines) {
            report(program, at, script.as_bytes());
            print!("{count}");
            return false;
        }
        at += 1;
    }
    println!("seeds {seed} to {}: no difference", at.saturating_sub(1));
    print!("{count}");
    true
}

fn report(program: &str, seed: u64, script: &[u8]) {
    println!("the outputs differ: apart make {seed} {LINES}");
    let shorter = shrink(program, script).unwrap_or_else(|| script.to_vec());
    println!("--- script\n{}", String::from_utf8_lossy(&shorter));
    let lines = script_lines(&shorter);
    println!("--- apart\n{}", String::from_utf8_lossy(&run(&lines)));
    println!("--- {program}\n{}", String::from_utf8_lossy(&other(program, &lines)));
}
