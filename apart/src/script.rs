//! The script: one line in, one line out.

use crate::card::{self, Card, Deed, Plan, Stage};
use crate::device::{Sort, Stack};
use crate::format::{Block, Handle, Kind, BLOCK};
use crate::refusal::Refusal;

/// A line that is a command.
#[derive(Clone, Debug)]
pub enum Command {
    Card(usize),
    Layers(Vec<Sort>),
    Block(usize, Box<Block>),
    Dump(usize),
    Power,
    Format(u16, u16),
    Open,
    Step,
    End,
    Find(Handle, Vec<u8>),
    Path(Vec<u8>),
    List(Handle, usize),
    Status(Handle),
    Damage(usize),
    Space,
    Read(Handle, u16, usize),
    Create(Handle, Vec<u8>, Kind),
    Write(Handle, u16, Vec<u8>),
    Shorten(Handle, u16),
    Remove(Handle, Vec<u8>),
    Sync,
    Screen(Vec<u8>, u16, usize),
}

/// A number of digits alone, up to a limit; zeros in front pass.
fn number(word: &[u8], limit: u64) -> Option<u64> {
    if word.is_empty() {
        return None;
    }
    let mut value = 0u64;
    for &digit in word {
        if !digit.is_ascii_digit() {
            return None;
        }
        value = value.saturating_mul(10).saturating_add(u64::from(digit - b'0'));
    }
    (value <= limit).then_some(value)
}

fn sixteen(word: &[u8]) -> Option<u16> {
    Some(number(word, 65_535)? as u16)
}

/// A number of lines, or of blocks in an image.
fn many(word: &[u8]) -> Option<usize> {
    Some(number(word, 4_096)? as usize)
}

fn digit(byte: u8) -> Option<u8> {
    match byte {
        b'0'..=b'9' => Some(byte - b'0'),
        b'a'..=b'f' => Some(byte - b'a' + 10),
        _ => None,
    }
}

/// Bytes in lowercase hex; none are `-`.
fn bytes(word: &[u8]) -> Option<Vec<u8>> {
    if word == b"-" {
        return Some(Vec::new());
    }
    if word.is_empty() || word.len() % 2 == 1 {
        return None;
    }
    word.chunks(2).map(|pair| Some(digit(pair[0])? * 16 + digit(pair[1])?)).collect()
}

/// Bytes as they are printed.
pub fn hex(bytes: &[u8]) -> String {
    if bytes.is_empty() {
        return "-".to_string();
    }
    bytes.iter().map(|byte| format!("{byte:02x}")).collect()
}

fn handle(slot: &[u8], identity: &[u8]) -> Option<Handle> {
    Some(Handle { slot: sixteen(slot)?, identity: number(identity, 4_294_967_295)? as u32 })
}

fn writes(word: &[u8]) -> Option<Sort> {
    Some(Sort::Failing(number(word, 4_294_967_295)? as u32))
}

fn layers(words: &[&[u8]]) -> Option<Vec<Sort>> {
    match words {
        [b"plain"] => Some(vec![]),
        [b"buffered"] => Some(vec![Sort::Buffered]),
        [b"failing", k] => Some(vec![writes(k)?]),
        [b"buffered", b"failing", k] => Some(vec![Sort::Buffered, writes(k)?]),
        [b"failing", k, b"buffered"] => Some(vec![writes(k)?, Sort::Buffered]),
        _ => None,
    }
}

fn kind(word: &[u8]) -> Option<Kind> {
    match word {
        b"file" => Some(Kind::File),
        b"folder" => Some(Kind::Folder),
        _ => None,
    }
}

/// A line as a command. Which blocks the image has is not looked at here.
fn parse(line: &[u8]) -> Option<Command> {
    let words: Vec<&[u8]> = line.split(|&b| b == b' ').collect();
    Some(match words[..] {
        [b"card", count] => Command::Card(many(count)?),
        [b"layers", ref rest @ ..] => Command::Layers(layers(rest)?),
        [b"block", b, content] => {
            let block: [u8; BLOCK] = bytes(content)?.try_into().ok()?;
            Command::Block(number(b, 65_535)? as usize, Box::new(block))
        }
        [b"dump", b] => Command::Dump(number(b, 65_535)? as usize),
        [b"power"] => Command::Power,
        [b"format", n, s] => Command::Format(sixteen(n)?, sixteen(s)?),
        [b"open"] => Command::Open,
        [b"step"] => Command::Step,
        [b"end"] => Command::End,
        [b"find", s, i, name] => Command::Find(handle(s, i)?, bytes(name)?),
        [b"path", path] => Command::Path(bytes(path)?),
        [b"list", s, i, lines] => Command::List(handle(s, i)?, many(lines)?),
        [b"status", s, i] => Command::Status(handle(s, i)?),
        [b"damage", lines] => Command::Damage(many(lines)?),
        [b"space"] => Command::Space,
        [b"read", s, i, leaf, room] => Command::Read(handle(s, i)?, sixteen(leaf)?, sixteen(room)?.into()),
        [b"create", s, i, name, k] => Command::Create(handle(s, i)?, bytes(name)?, kind(k)?),
        [b"write", s, i, leaf, content] => Command::Write(handle(s, i)?, sixteen(leaf)?, bytes(content)?),
        [b"shorten", s, i, n] => Command::Shorten(handle(s, i)?, sixteen(n)?),
        [b"remove", s, i, name] => Command::Remove(handle(s, i)?, bytes(name)?),
        [b"sync"] => Command::Sync,
        [b"screen", path, leaf, room] => Command::Screen(bytes(path)?, sixteen(leaf)?, sixteen(room)?.into()),
        _ => return None,
    })
}

/// Whether a line prints nothing.
pub fn is_silent(line: &[u8]) -> bool {
    line.first() == Some(&b'#') || line.iter().all(|&b| b == b' ')
}

/// What a changing call was to make, and what came of it.
pub struct Outcome {
    pub deed: Deed,
    pub broken_off: bool,
}

/// The image with its devices, and the card that is open.
pub struct Session {
    pub stack: Stack,
    pub sorts: Vec<Sort>,
    pub card: Option<Card>,
    /// What the last command made, if it was a changing call that counts as made.
    pub outcome: Option<Outcome>,
}

/// The answer of a command: what is printed, or what it prints instead.
type Answer = Result<String, String>;

fn not_now() -> String {
    "not now".to_string()
}

fn refused(refusal: Refusal) -> String {
    refusal.to_string()
}

fn at(handle: Handle) -> String {
    format!("ok {} {}", handle.slot, handle.identity)
}

/// A number, then the first lines behind it.
fn lines<L>(all: &[L], room: usize, line: impl Fn(&L) -> String) -> String {
    let mut text = format!("ok {}", all.len());
    for one in all.iter().take(room) {
        text.push(' ');
        text.push_str(&line(one));
    }
    text
}

impl Default for Session {
    fn default() -> Self {
        Session { stack: Stack::new(0), sorts: Vec::new(), card: None, outcome: None }
    }
}

impl Session {
    /// What a line of the script prints, if anything.
    pub fn line(&mut self, line: &[u8]) -> Option<String> {
        if is_silent(line) {
            return None;
        }
        self.outcome = None;
        self.stack.forget();
        let Some(command) = parse(line).filter(|command| self.has_block(command)) else {
            return Some("bad command".to_string());
        };
        Some(self.obey(command).unwrap_or_else(|other| other))
    }

    fn has_block(&self, command: &Command) -> bool {
        match command {
            Command::Block(b, _) | Command::Dump(b) => *b < self.stack.count(),
            _ => true,
        }
    }

    fn obey(&mut self, command: Command) -> Answer {
        match command {
            Command::Card(_) | Command::Layers(_) | Command::Power => self.power(command),
            Command::Dump(b) => Ok(format!("ok {}", hex(&self.stack.image[b]))),
            Command::Block(..) | Command::Format(..) | Command::Open | Command::Screen(..) => self.closed(command),
            Command::Step | Command::End => self.survey(command),
            Command::Create(..) | Command::Write(..) | Command::Shorten(..) | Command::Remove(..) => self.change(command),
            Command::Space | Command::Sync => self.surveyed(command),
            _ => self.ask(command),
        }
    }

    /// Commands after which the power has just come on.
    fn power(&mut self, command: Command) -> Answer {
        match command {
            Command::Card(count) => {
                self.stack = Stack::new(count);
                self.sorts.clear();
            }
            Command::Layers(sorts) => self.sorts = sorts,
            _ => {}
        }
        self.card = None;
        self.stack.power_on(&self.sorts);
        Ok("ok".to_string())
    }

    /// Commands for which no card may be open.
    fn closed(&mut self, command: Command) -> Answer {
        if self.card.is_some() {
            return Err(not_now());
        }
        match command {
            Command::Block(b, content) => self.stack.image[b] = *content,
            Command::Format(n, s) => card::format(&mut self.stack, n, s).map_err(refused)?,
            Command::Screen(path, leaf, room) => return Ok(self.screen(&path, leaf, room)),
            _ => self.card = Some(Card::open(&self.stack)),
        }
        Ok("ok".to_string())
    }

    /// The C call sees the raw image.
    fn screen(&self, path: &[u8], leaf: u16, room: usize) -> String {
        let mut plain = Stack::new(0);
        plain.image = self.stack.image.clone();
        match card::screen(&plain, path, leaf.into(), room) {
            Ok(content) => format!("ok {} {}", content.len(), hex(&content)),
            Err(refusal) => format!("ok {} -", 1_000 + refusal.number),
        }
    }

    /// The open card, if it is surveyed as wanted.
    fn card_at(&mut self, surveyed: bool) -> Result<(&mut Card, &mut Stack), String> {
        let card = self.card.as_mut().ok_or_else(not_now)?;
        if matches!(card.stage, Stage::Surveyed(_)) != surveyed {
            return Err(not_now());
        }
        Ok((card, &mut self.stack))
    }

    fn survey(&mut self, command: Command) -> Answer {
        let (card, stack) = self.card_at(false)?;
        if let Command::End = command {
            card.end(stack);
            return Ok("ok".to_string());
        }
        let (remain, highest) = card.step(stack).map_err(refused)?;
        Ok(format!("ok {remain} {highest}"))
    }

    fn surveyed(&mut self, command: Command) -> Answer {
        let (card, stack) = self.card_at(true)?;
        if let Command::Sync = command {
            card.sync(stack).map_err(refused)?;
            return Ok("ok".to_string());
        }
        let (bodies, slots) = card.space(stack).map_err(refused)?;
        Ok(format!("ok {bodies} {slots}"))
    }

    /// Reading calls of every open card.
    fn ask(&mut self, command: Command) -> Answer {
        let card = self.card.as_ref().ok_or_else(not_now)?;
        let stack = &self.stack;
        Ok(match command {
            Command::Find(folder, name) => at(card.find(stack, folder, &name).map_err(refused)?),
            Command::Path(path) => at(card.path(stack, &path).map_err(|refused| refused.to_string())?),
            Command::List(folder, room) => {
                let entries = card.list(stack, folder).map_err(refused)?;
                lines(&entries, room, |e| format!("{}:{}:{}", hex(&e.name), e.child.slot, e.child.identity))
            }
            Command::Status(handle) => {
                let status = card.status(stack, handle).map_err(refused)?;
                let kind = if status.kind == Kind::File { "file" } else { "folder" };
                format!("ok {kind} {} {} {}", status.count, status.parent.slot, status.parent.identity)
            }
            Command::Damage(room) => {
                let bad = card.damage(stack).map_err(refused)?;
                lines(&bad, room, |(slot, leaf)| format!("{slot}:{leaf}"))
            }
            Command::Read(file, leaf, room) => {
                let content = card.read(stack, file, leaf.into(), room).map_err(refused)?;
                format!("ok {} {}", content.len(), hex(&content))
            }
            other => unreachable!("{other:?} is no reading call"),
        })
    }

    /// The plan of a changing call.
    fn plan(card: &Card, stack: &Stack, command: &Command) -> Result<Plan, Refusal> {
        match command {
            Command::Create(folder, name, kind) => card.plan_create(stack, *folder, name, *kind),
            Command::Write(file, leaf, content) => card.plan_write(stack, *file, *leaf, content),
            Command::Shorten(file, n) => card.plan_shorten(stack, *file, *n),
            Command::Remove(folder, name) => card.plan_remove(stack, *folder, name),
            other => unreachable!("{other:?} changes nothing"),
        }
    }

    fn change(&mut self, command: Command) -> Answer {
        let (card, stack) = self.card_at(true)?;
        let plan = Self::plan(card, stack, &command).map_err(refused)?;
        let done = card.carry_out(stack, &plan);
        let answer = match plan.deed {
            Deed::Created { child, .. } => at(child),
            _ => "ok".to_string(),
        };
        self.outcome = Some(Outcome { deed: plan.deed, broken_off: done.is_err() });
        done.map_err(refused)?;
        Ok(answer)
    }
}
