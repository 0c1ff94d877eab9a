//! The stored script: parts chosen so that every refusal that can come up does so often.

use std::collections::BTreeMap;

use crate::count::Count;
use crate::make::Maker;
use crate::script_lines;

/// How many lines the stored script has, about, and how many one of its parts.
const LINES: usize = 3000;
const PART: usize = 250;
/// How many parts are tried.
const TRIED: u64 = 600;

/// A part of a script with how often each refusal comes up in it.
struct Part {
    lines: Vec<String>,
    refused: BTreeMap<u16, usize>,
}

fn part(seed: u64) -> Part {
    let mut maker = Maker::new(seed, PART, false);
    maker.make();
    let script = maker.script.join("\n");
    let mut count = Count::default();
    count.add(&script_lines(script.as_bytes()));
    Part { lines: maker.script, refused: count.refused }
}

/// What a part adds: a refusal seen seldom so far weighs more, and so do fewer bytes.
fn worth(part: &Part, so_far: &BTreeMap<u16, usize>) -> f64 {
    let mut sum = 0.0;
    for (number, times) in &part.refused {
        let had = so_far.get(number).copied().unwrap_or(0) as f64;
        sum += ((had + *times as f64 + 1.0) / (had + 1.0)).ln();
    }
    let bytes: usize = part.lines.iter().map(String::len).sum();
    sum / (bytes as f64 + 20_000.0)
}

/// The parts one after another; each begins with a card of its own.
pub fn stored() -> String {
    let mut parts: Vec<Part> = (1..=TRIED).map(part).filter(|part| part.lines[0].starts_with("card")).collect();
    let mut so_far = BTreeMap::new();
    let mut script = Vec::new();
    while script.len() < LINES {
        let values: Vec<f64> = parts.iter().map(|part| worth(part, &so_far)).collect();
        let best = (0..parts.len()).max_by(|&a, &b| values[a].total_cmp(&values[b])).expect("a part");
        let part = parts.swap_remove(best);
        for (number, times) in part.refused {
            *so_far.entry(number).or_default() += times;
        }
        script.extend(part.lines);
    }
    script.join("\n") + "\n"
}
