//! What a script asks and what it is answered.

use std::collections::BTreeMap;
use std::fmt;

use crate::script::{is_silent, Session};

/// Numbers over one or more scripts.
#[derive(Default)]
pub struct Count {
    pub scripts: usize,
    pub lines: usize,
    pub by_name: BTreeMap<String, usize>,
    pub accepted: usize,
    /// Power-ons that gave up an open card, and calls that met power gone first.
    pub cuts: usize,
    pub lost: usize,
    pub taken_back: usize,
    pub not_now: usize,
    pub bad: usize,
    pub refused: BTreeMap<u16, usize>,
}

impl Count {
    pub fn add(&mut self, lines: &[&[u8]]) {
        let mut session = Session::default();
        self.scripts += 1;
        for line in lines {
            self.line(&mut session, line);
        }
    }

    fn line(&mut self, session: &mut Session, line: &[u8]) {
        if is_silent(line) {
            return;
        }
        self.lines += 1;
        let word = String::from_utf8_lossy(line.split(|&b| b == b' ').next().unwrap_or(b"")).to_string();
        let open = session.card.is_some();
        let alive = session.card.as_ref().is_some_and(|card| card.ready.is_ok());
        let answer = session.line(line).unwrap_or_default();
        let words: Vec<&str> = answer.split(' ').collect();
        let dead = session.card.as_ref().is_some_and(|card| card.ready.is_err());
        self.lost += usize::from(alive && dead);
        match words[..] {
            ["bad", ..] => {
                self.bad += 1;
                return;
            }
            ["not", ..] => self.not_now += 1,
            ["refused", number, ..] => *self.refused.entry(number.parse().unwrap_or(0)).or_default() += 1,
            ["ok", number, "-"] if word == "screen" && number.len() == 4 => {
                *self.refused.entry(number.parse().unwrap_or(1000) - 1000).or_default() += 1;
            }
            _ => self.accepted += 1,
        }
        self.cuts += usize::from(open && session.card.is_none());
        self.taken_back += usize::from(word == "block" && words == ["ok"]);
        *self.by_name.entry(word).or_default() += 1;
    }
}

impl fmt::Display for Count {
    fn fmt(&self, f: &mut fmt::Formatter) -> fmt::Result {
        writeln!(f, "scripts {}, commands {}, accepted {}", self.scripts, self.lines, self.accepted)?;
        writeln!(f, "cuts {}, power lost in a call {}, blocks set {}", self.cuts, self.lost, self.taken_back)?;
        writeln!(f, "not now {}, bad command {}", self.not_now, self.bad)?;
        write!(f, "refused:")?;
        for number in 1..=19 {
            write!(f, " {number}:{}", self.refused.get(&number).unwrap_or(&0))?;
        }
        write!(f, "\ncommands:")?;
        for (name, count) in &self.by_name {
            write!(f, " {name}:{count}")?;
        }
        writeln!(f)
    }
}
