//! Scripts made at random, with the model run alongside so that most commands mean something.
//!
//! A script is made of scenes. A scene is one card that lives several lives: a power-on, where a cut may have
//! landed any mixture of old and new blocks; some strange blocks, unless the maker is honest; a survey; calls.

use std::collections::BTreeMap;

use crate::card::Stage;
use crate::format::*;
use crate::laws::Watch;
use crate::random::Random;
use crate::rule::Shown;
use crate::script::{hex, Session};

/// How large a scene's card is.
#[derive(Clone, Copy)]
struct Shape {
    /// Blocks of the image.
    count: usize,
    blocks: usize,
    slots: usize,
}

/// Calls to an open card.
#[derive(Clone, Copy)]
enum Call {
    Create,
    Write,
    Shorten,
    Remove,
    Read,
    Find,
    Path,
    List,
    Status,
    Damage,
    Space,
    Sync,
    Dump,
    Noise,
    FillFolder,
    FillFile,
}

/// Where the blocks of a cut land.
#[derive(Clone, Copy)]
enum Landing {
    AsBelow,
    Newest,
    Oldest,
    Any,
    OnlyOne,
    AllButOne,
}

/// Ways to spoil the image.
#[derive(Clone, Copy)]
enum Spoil {
    Noise,
    Flip,
    Swap,
    Copy,
    Slot,
    Body,
    Cell,
    Unnamed,
    Cover,
    ManyLeaves,
    LastIdentity,
    Teller,
}

pub struct Maker {
    random: Random,
    pub session: Session,
    pub script: Vec<String>,
    /// Whether blocks change only by the card's own writes.
    honest: bool,
    /// Handles that were answered, also stale ones.
    pool: Vec<Handle>,
    /// Each block's content when last settled, and what was written there since.
    settled: Vec<Block>,
    since: BTreeMap<u16, Vec<Block>>,
    /// Makes each content written a new one.
    serial: u32,
    limit: usize,
    pub watch: Option<Watch>,
}

const NAMES: [&[u8]; 6] = [b"a", b"b", b"alto", b"bass", b"\xff\x01 .", b"tenor"];

const BAD_LINES: [&str; 28] = [
    "frob", "open now", " open", "open ", "find 0 1", "find 0 1 6", "find 0 1 6G", "find 0 1 6A", "find  0 1 61",
    "find 65536 1 61", "find 0 4294967296 61", "status 0", "status 0 -1", "read 0 1 0", "read 0 1 65536 496",
    "read 0 1 0 65536", "card 4097", "list 0 1 4097", "damage 99999999999999999999999", "block 0 00", "dump 65535",
    "layers failing", "layers plain buffered", "create 0 1 61 link", "status 0 18446744073709551617",
    "card 18446744073709551620", "find 0 1 61 ", "read 0 1 0x0 496",
];

const MISPLACED: [&str; 14] = [
    "open", "step", "end", "format 8 3", "format 3 2", "screen 61 0 496", "space", "sync", "create 0 1 61 file",
    "write 0 1 0 -", "shorten 0 1 0", "remove 0 1 61", "path -", "damage 1",
];

impl Maker {
    pub fn new(seed: u64, limit: usize, honest: bool) -> Maker {
        Maker {
            random: Random::new(seed),
            session: Session::default(),
            script: Vec::new(),
            honest,
            pool: Vec::new(),
            settled: Vec::new(),
            since: BTreeMap::new(),
            serial: 0,
            limit,
            watch: None,
        }
    }

    /// Makes scenes until the script is long enough.
    pub fn make(&mut self) {
        if !self.honest && self.random.chance(10) {
            self.before_the_first_card();
        }
        while !self.is_full() {
            if !self.honest && self.random.chance(12) {
                self.sweep();
            } else if self.random.chance(2) {
                self.longest_file();
            } else {
                self.scene();
            }
        }
    }

    fn is_full(&self) -> bool {
        self.script.len() >= self.limit
    }

    /// Adds a line, runs it in the model, and keeps up with what it did.
    fn emit(&mut self, line: String) {
        let before = self.session.card.as_ref().map(|card| card.ready.is_ok());
        let answer = self.session.line(line.as_bytes());
        let accepted = answer.as_deref().is_some_and(|text| text.starts_with("ok"));
        let word = line.split(' ').next().unwrap_or("");
        for (block, bytes) in &self.session.stack.asked {
            self.since.entry(*block).or_default().push(*bytes);
        }
        match word {
            "card" if accepted => {
                self.settled = self.session.stack.image.clone();
                self.since.clear();
            }
            "sync" | "format" if accepted => self.settle(),
            "block" if accepted => {
                let block: usize = line.split(' ').nth(1).unwrap_or("0").parse().unwrap_or(0);
                self.settled[block] = self.session.stack.image[block];
            }
            "create" | "find" | "path" if accepted => self.keep_handle(answer.as_deref().unwrap_or("")),
            _ => {}
        }
        if let Some(watch) = &mut self.watch {
            watch.see(word, accepted, before, &self.session);
        }
        self.script.push(line);
    }

    fn keep_handle(&mut self, answer: &str) {
        let numbers: Vec<u32> = answer.split(' ').skip(1).filter_map(|word| word.parse().ok()).collect();
        if let [slot, identity] = numbers[..] {
            let handle = Handle { slot: slot as u16, identity };
            if !self.pool.contains(&handle) {
                self.pool.push(handle);
            }
        }
    }

    /// What is shown is all that may stand.
    fn settle(&mut self) {
        for block in std::mem::take(&mut self.since).into_keys() {
            if (block as usize) < self.settled.len() {
                self.settled[block as usize] = *self.session.stack.shown(block);
            }
        }
    }

    // Scenes

    fn before_the_first_card(&mut self) {
        for line in ["dump 0", "screen 61 0 496", "format 4 2", "open", "step", "path -", "end", "space", "sync", "list 0 1 3"] {
            if self.random.chance(60) {
                self.emit(line.to_string());
            }
        }
    }

    fn shape(&mut self) -> Shape {
        let r = &mut self.random;
        let (slots, bodies) = match r.below(100) {
            0..=24 => (r.between(2, 4), r.between(1, 8)),
            25..=54 => (r.between(3, 8), r.between(3, 18)),
            55..=74 => (r.between(18, 45), r.between(4, 30)),
            75..=89 => (r.between(8, 20), r.between(8, 30)),
            90..=97 => (r.between(2, 5), r.between(66, 80)),
            _ => (r.between(200, 256), r.between(200, 600)),
        };
        let blocks = slots + 1 + bodies;
        let count = match r.below(100) {
            0..=84 => blocks,
            85..=95 => blocks + r.between(1, 4),
            _ if self.honest => blocks,
            96..=98 => blocks - 1,
            _ => 0,
        };
        Shape { count, blocks, slots }
    }

    fn scene(&mut self) {
        let shape = self.shape();
        self.pool.clear();
        self.emit(format!("card {}", shape.count));
        if self.random.chance(25) {
            let most = shape.blocks + 10;
            let k = if self.random.chance(50) { self.random.between(0, most) } else { most };
            self.set_layers(k);
        }
        self.format(shape);
        let lives = self.random.between(2, 7);
        for life in 0..lives {
            if self.is_full() {
                return;
            }
            if life > 0 || self.random.chance(30) {
                self.power_on(shape);
            }
            self.live(shape);
        }
    }

    fn format(&mut self, shape: Shape) {
        while !self.honest && self.random.chance(15) {
            let (n, s) = *self.random.pick(&[
                (3, 2),
                (4, 1),
                (300, 257),
                (300, 256),
                (4097, 3),
                (4096, 256),
                (0, 0),
                (65535, 2),
                (9, 8),
                (8, 65535),
            ]);
            self.emit(format!("format {n} {s}"));
        }
        self.emit(format!("format {} {}", shape.blocks, shape.slots));
    }

    /// A cut and power again, with a landing; then perhaps strange blocks, or a new format.
    fn power_on(&mut self, shape: Shape) {
        let bad = self.session.card.as_ref().is_some_and(|card| card.ready.is_err_and(|refusal| refusal.number != 1));
        if self.random.chance(55) {
            let k = if self.random.chance(75) { self.random.below(9) } else { self.random.between(8, 50) };
            self.set_layers(k);
        } else {
            self.emit("power".to_string());
        }
        self.land();
        if bad && self.random.chance(60) || self.random.chance(4) {
            self.format(shape);
        }
        if !self.honest && self.random.chance(35) {
            for _ in 0..self.random.between(1, 3) {
                self.spoil();
            }
        }
    }

    fn set_layers(&mut self, k: usize) {
        let line = match self.random.below(10) {
            0 | 1 => "layers plain".to_string(),
            2 => "layers buffered".to_string(),
            3..=6 => format!("layers failing {k}"),
            7 | 8 => format!("layers buffered failing {k}"),
            _ => format!("layers failing {k} buffered"),
        };
        self.emit(line);
    }

    /// Lets a cut land: each block written since the last settled sync shows one content that may stand.
    fn land(&mut self) {
        let since = std::mem::take(&mut self.since);
        let landing = if since.len() > 60 {
            Landing::AsBelow
        } else {
            self.random.weighted(&[
                (3, Landing::AsBelow),
                (2, Landing::Newest),
                (1, Landing::Oldest),
                (6, Landing::Any),
                (2, Landing::OnlyOne),
                (2, Landing::AllButOne),
            ])
        };
        let one = self.random.below(since.len());
        for (place, (block, written)) in since.into_iter().enumerate() {
            let b = block as usize;
            if b >= self.session.stack.count() {
                continue;
            }
            let newest = *written.last().unwrap_or(&self.settled[b]);
            let oldest = self.settled[b];
            let content = match landing {
                Landing::AsBelow => self.session.stack.image[b],
                Landing::Newest => newest,
                Landing::Oldest => oldest,
                Landing::OnlyOne => if place == one { newest } else { oldest },
                Landing::AllButOne => if place == one { oldest } else { newest },
                Landing::Any => match self.random.below(written.len() + 2) {
                    at if at < written.len() => written[at],
                    _ => oldest,
                },
            };
            if content != self.session.stack.image[b] {
                self.emit(format!("block {block} {}", hex(&content)));
            }
            self.settled[b] = self.session.stack.image[b];
        }
    }

    /// Opens, surveys and calls.
    fn live(&mut self, shape: Shape) {
        while self.random.chance(25) {
            self.closed_call(shape);
        }
        self.emit("open".to_string());
        self.survey(shape);
        if self.random.chance(4) {
            return;
        }
        self.emit("end".to_string());
        let mut calls = self.random.between(4, 28);
        while calls > 0 && !self.is_full() {
            calls -= 1;
            let powerless = self.session.card.as_ref().is_none_or(|card| card.ready.is_err());
            if powerless {
                calls = calls.min(4);
            }
            self.call();
        }
        if self.random.chance(25) {
            self.dump_touched();
        }
    }

    fn closed_call(&mut self, shape: Shape) {
        let line = match self.random.below(10) {
            0..=5 => {
                let path = self.path();
                let leaf = self.random.weighted(&[(6, 0), (2, 1), (1, 63), (1, 65535)]);
                let room = self.random.weighted(&[(8, 496), (1, 495), (1, 65535), (1, 0)]);
                format!("screen {} {leaf} {room}", hex(&path))
            }
            6 => format!("dump {}", self.random.below(shape.count.max(1))),
            7 => self.random.pick(&BAD_LINES).to_string(),
            _ => self.random.pick(&["step", "end", "space", "sync", "path -", "create 0 1 61 file", "list 0 1 3"]).to_string(),
        };
        self.emit(line);
    }

    fn survey(&mut self, shape: Shape) {
        let steps = match self.random.below(10) {
            0..=4 => 0,
            5..=8 => self.random.between(1, 6),
            _ => (shape.blocks + 2).min(40),
        };
        for _ in 0..steps {
            self.emit("step".to_string());
            if self.random.chance(25) {
                let line = self.reading_line();
                self.emit(line);
            }
        }
        if self.random.chance(30) {
            self.emit("damage 4096".to_string());
        }
        while self.random.chance(40) {
            let line = self.reading_line();
            self.emit(line);
        }
    }

    fn dump_touched(&mut self) {
        let touched: Vec<u16> = self.since.keys().copied().collect();
        for _ in 0..3.min(touched.len()) {
            let block = *self.random.pick(&touched);
            if (block as usize) < self.session.stack.count() {
                self.emit(format!("dump {block}"));
            }
        }
    }

    /// A file up to its last leaf, and beyond.
    pub fn longest_file(&mut self) {
        self.emit("card 75".to_string());
        self.emit("format 75 3".to_string());
        for line in ["open", "end", "create 0 1 6c6f6e67 file"] {
            self.emit(line.to_string());
        }
        for leaf in 0..66 {
            self.emit(format!("write 1 2 {leaf} {:02x}", leaf));
        }
        for line in ["write 1 2 63 -", "space", "status 1 2", "read 1 2 63 496", "read 1 2 64 496", "shorten 1 2 65", "shorten 1 2 64"] {
            self.emit(line.to_string());
        }
    }

    /// One run of calls, with the power lost at each of its writes in turn.
    fn sweep(&mut self) {
        let slots = self.random.between(3, 6);
        let blocks = slots + 1 + self.random.between(3, 8);
        let shape = Shape { count: blocks, blocks, slots };
        let sort = self.random.below(3);
        self.pool.clear();
        self.emit(format!("card {blocks}"));
        self.format(shape);
        self.emit("open".to_string());
        self.emit("end".to_string());
        let start = self.script.len();
        for _ in 0..self.random.between(6, 12) {
            self.call();
        }
        let calls = self.script[start..].to_vec();
        for k in 0..self.random.between(6, 16) {
            if self.is_full() {
                return;
            }
            self.emit(format!("card {blocks}"));
            self.format(shape);
            self.emit(match sort {
                0 => format!("layers failing {k}"),
                1 => format!("layers buffered failing {k}"),
                _ => format!("layers failing {k} buffered"),
            });
            for line in ["open", "end"] {
                self.emit(line.to_string());
            }
            for line in &calls {
                self.emit(line.clone());
            }
            self.emit("power".to_string());
            self.land();
            for line in ["open", "damage 9", "end", "list 0 1 40", "space"] {
                self.emit(line.to_string());
            }
            for _ in 0..3 {
                self.call();
            }
        }
    }

    // Calls

    /// A view of the card, if its geometry is known, also without power.
    fn shown(&self) -> Option<Shown<'_>> {
        let stack = &self.session.stack;
        if stack.count() == 0 {
            return None;
        }
        let geometry = parse_cover(stack.shown(0)).filter(|g| g.blocks as usize <= stack.count())?;
        Some(Shown { stack, geometry })
    }

    /// Whether the open card is surveyed.
    fn is_surveyed(&self) -> bool {
        matches!(&self.session.card, Some(card) if matches!(card.stage, Stage::Surveyed(_)))
    }

    fn call(&mut self) {
        let call = self.random.weighted(&[
            (20, Call::Create),
            (22, Call::Write),
            (6, Call::Shorten),
            (12, Call::Remove),
            (9, Call::Read),
            (4, Call::Find),
            (5, Call::Path),
            (3, Call::List),
            (3, Call::Status),
            (2, Call::Damage),
            (4, Call::Space),
            (3, Call::Sync),
            (1, Call::Dump),
            (3, Call::Noise),
            (1, Call::FillFolder),
            (1, Call::FillFile),
        ]);
        match self.fitting(call) {
            Call::FillFolder => self.fill_folder(),
            Call::FillFile => self.fill_file(),
            call => {
                let line = self.call_line(call);
                self.emit(line);
            }
        }
    }

    /// Mostly another call in place of one that cannot be accepted now: a file call without a file, a create
    /// without a free slot.
    fn fitting(&mut self, call: Call) -> Call {
        let files = self.handles_of(Kind::File).len();
        let full = self.shown().is_none_or(|shown| shown.free_slot(0).is_none());
        match call {
            Call::Write | Call::Shorten | Call::Read | Call::FillFile if files == 0 && self.random.chance(85) => Call::Create,
            Call::Create | Call::FillFolder if full && self.random.chance(70) => {
                self.random.weighted(&[(3, Call::Remove), (4, Call::Write), (2, Call::Read)])
            }
            call => call,
        }
    }

    /// Creates many names in one folder, past its first leaf.
    fn fill_folder(&mut self) {
        let folder = self.handle(Kind::Folder);
        for i in 0..self.random.between(4, 34) {
            let name = format!("n{i}");
            self.emit(format!("create {} {} {} file", folder.slot, folder.identity, hex(name.as_bytes())));
            if self.session.outcome.is_none() && self.random.chance(60) {
                return;
            }
        }
    }

    /// Appends to one file, at times to its limit.
    fn fill_file(&mut self) {
        let file = self.handle(Kind::File);
        let most = if self.random.chance(30) { 66 } else { 8 };
        let mut leaf = self.leaves(file);
        for _ in 0..most {
            let content = self.content();
            self.emit(format!("write {} {} {leaf} {}", file.slot, file.identity, hex(&content)));
            if self.session.outcome.as_ref().is_none_or(|outcome| outcome.broken_off) {
                return;
            }
            leaf += 1;
        }
    }

    fn reading_line(&mut self) -> String {
        let call = self.random.weighted(&[
            (4, Call::Read),
            (3, Call::Find),
            (3, Call::Path),
            (2, Call::List),
            (2, Call::Status),
            (2, Call::Damage),
            (1, Call::Noise),
        ]);
        self.call_line(call)
    }

    fn call_line(&mut self, call: Call) -> String {
        match call {
            Call::Create => {
                let folder = self.handle(Kind::Folder);
                let name = self.name();
                let kind = if self.random.chance(30) { "folder" } else { "file" };
                format!("create {} {} {} {kind}", folder.slot, folder.identity, hex(&name))
            }
            Call::Write => {
                let (file, leaf) = self.file_leaf(40);
                let content = self.content();
                format!("write {} {} {leaf} {}", file.slot, file.identity, hex(&content))
            }
            Call::Shorten => {
                let file = self.handle(Kind::File);
                let leaves = self.leaves(file);
                let n = if self.random.chance(10) { self.random.between(leaves, leaves + 2) } else { self.random.below(leaves + 1) };
                format!("shorten {} {} {n}", file.slot, file.identity)
            }
            Call::Remove => {
                let folder = self.handle(Kind::Folder);
                let name = self.taken_name(folder);
                format!("remove {} {} {}", folder.slot, folder.identity, hex(&name))
            }
            Call::Read => {
                let (file, leaf) = self.file_leaf(10);
                let room = self.random.weighted(&[(18, 496), (1, 495), (1, 0), (1, 65535)]);
                format!("read {} {} {leaf} {room}", file.slot, file.identity)
            }
            Call::Find => {
                let folder = self.handle(Kind::Folder);
                let name = self.taken_name(folder);
                format!("find {} {} {}", folder.slot, folder.identity, hex(&name))
            }
            Call::Path => format!("path {}", hex(&self.path())),
            Call::List => {
                let folder = self.handle(Kind::Folder);
                let lines = self.random.weighted(&[(4, 4096), (2, 2), (1, 0), (2, 16)]);
                format!("list {} {} {lines}", folder.slot, folder.identity)
            }
            Call::Status => {
                let kind = if self.random.chance(50) { Kind::File } else { Kind::Folder };
                let handle = self.handle(kind);
                format!("status {} {}", handle.slot, handle.identity)
            }
            Call::Damage => format!("damage {}", self.random.weighted(&[(4, 4096), (1, 1), (1, 0)])),
            Call::Dump => format!("dump {}", self.random.below(self.session.stack.count().max(1))),
            Call::Sync => "sync".to_string(),
            Call::Noise if self.random.chance(50) => self.random.pick(&BAD_LINES).to_string(),
            Call::Noise => {
                let line = self.random.pick(&MISPLACED).to_string();
                if line == "end" && !self.is_surveyed() { "open".to_string() } else { line }
            }
            _ => "space".to_string(),
        }
    }

    // What calls are given

    fn handles_of(&self, kind: Kind) -> Vec<Handle> {
        let Some(shown) = self.shown() else { return Vec::new() };
        let slots = shown.reached_slots().into_iter().filter(|(_, slot)| slot.kind == kind);
        slots.map(|(number, slot)| Handle { slot: number, identity: slot.identity }).collect()
    }

    /// Mostly a file or folder that is there; at times a stale, wrong or made-up handle.
    fn handle(&mut self, kind: Kind) -> Handle {
        let other = if kind == Kind::File { Kind::Folder } else { Kind::File };
        let from = match self.random.below(100) {
            0..=79 => self.handles_of(kind),
            80..=89 => self.pool.clone(),
            90..=95 => self.handles_of(other),
            _ => Vec::new(),
        };
        if !from.is_empty() {
            let crowd = if kind == Kind::Folder && self.random.chance(40) { 1 } else { from.len() };
            return from[self.random.below(crowd)];
        }
        match self.random.below(4) {
            0 | 1 => ROOT,
            2 => Handle { slot: self.random.below(6) as u16, identity: self.random.below(6) as u32 },
            _ => *self.random.pick(&[
                Handle { slot: 65535, identity: 4294967295 },
                Handle { slot: 0, identity: 0 },
                Handle { slot: 256, identity: 1 },
                Handle { slot: 1, identity: 4294967295 },
            ]),
        }
    }

    /// How many leaves a handle has.
    fn leaves(&self, handle: Handle) -> usize {
        self.shown().and_then(|shown| shown.fits(handle)).map_or(0, |slot| slot.numbers.len())
    }

    /// A file and a leaf of it: in so many of a hundred the one behind its last. Damaged leaves are sought out.
    fn file_leaf(&mut self, behind: usize) -> (Handle, usize) {
        let damage = self.shown().map_or(Vec::new(), |shown| shown.damage());
        if !damage.is_empty() && self.random.chance(25) {
            let (slot, leaf) = *self.random.pick(&damage);
            let identity = self.shown().and_then(|shown| shown.slot(slot)).map_or(0, |slot| slot.identity);
            return (Handle { slot, identity }, leaf as usize);
        }
        let file = self.handle(Kind::File);
        let leaves = self.leaves(file);
        let leaf = match self.random.below(100) {
            0..=2 => leaves + 1,
            3..=5 => *self.random.pick(&[63, 64, 65535, leaves + 2]),
            at if at < behind + 6 => leaves,
            _ => self.random.below(leaves.max(1)),
        };
        (file, leaf)
    }

    fn content(&mut self) -> Vec<u8> {
        self.serial += 1;
        let length = match self.random.below(60) {
            0 => 496,
            1 => return vec![7; *self.random.pick(&[497, 498, 512, 600])],
            2 | 3 => 0,
            _ => self.random.between(3, 7),
        };
        let mut content = self.serial.to_be_bytes()[1..].to_vec();
        content.resize(length, 0xa5);
        content
    }

    fn name(&mut self) -> Vec<u8> {
        match self.random.below(100) {
            0..=69 => self.random.pick(&NAMES).to_vec(),
            70..=84 => format!("n{}", self.random.below(40)).into_bytes(),
            85..=89 => vec![b'z'; 24],
            90..=92 => [vec![b'z'; 23], vec![b'y']].concat(),
            93 => vec![b'z'; 25],
            94 => vec![b'q'; self.random.between(26, 300)],
            95 => Vec::new(),
            96 => b"a/b".to_vec(),
            97 => vec![0],
            98 => b"a\0".to_vec(),
            _ => vec![0xff; 24],
        }
    }

    /// Mostly a name that the folder has.
    fn taken_name(&mut self, folder: Handle) -> Vec<u8> {
        let entries = self.shown().and_then(|shown| Some(shown.sound_entries(folder.slot, &shown.fits(folder)?)));
        match entries {
            Some(entries) if !entries.is_empty() && self.random.chance(75) => self.random.pick(&entries).name.clone(),
            _ => self.name(),
        }
    }

    /// A path: mostly down the tree, at times beyond it or ill formed.
    fn path(&mut self) -> Vec<u8> {
        let mut names: Vec<Vec<u8>> = Vec::new();
        let mut at = ROOT;
        while names.len() < 12 && self.random.chance(if names.is_empty() { 92 } else { 60 }) {
            let name = self.taken_name(at);
            let next = self.shown().and_then(|shown| {
                let slot = shown.fits(at)?;
                Some(shown.find(at.slot, &slot, &name)?.1.child)
            });
            names.push(name);
            match next {
                Some(child) => at = child,
                None if self.random.chance(70) => break,
                None => {}
            }
        }
        let mut path = names.join(&b'/');
        match self.random.below(40) {
            0 => path.push(b'/'),
            1 => path.insert(0, b'/'),
            2 => path.extend_from_slice(b"//a"),
            _ => {}
        }
        path
    }

    // Strange blocks

    fn put_block(&mut self, block: usize, content: &Block) {
        self.emit(format!("block {block} {}", hex(content)));
    }

    /// A block that is not blank, mostly.
    fn some_block(&mut self) -> usize {
        let image = &self.session.stack.image;
        let full: Vec<usize> = (1..image.len()).filter(|&b| image[b][0] != 0).collect();
        if full.is_empty() || self.random.chance(5) {
            return self.random.below(image.len());
        }
        *self.random.pick(&full)
    }

    /// A block whose first byte is one of these.
    fn block_of(&mut self, first: &[u8]) -> Option<usize> {
        let image = &self.session.stack.image;
        let those: Vec<usize> = (0..image.len()).filter(|&b| first.contains(&image[b][0])).collect();
        if those.is_empty() { None } else { Some(*self.random.pick(&those)) }
    }

    fn spoil(&mut self) {
        if self.session.stack.count() == 0 {
            return;
        }
        let way = self.random.weighted(&[
            (1, Spoil::Noise),
            (5, Spoil::Flip),
            (2, Spoil::Swap),
            (2, Spoil::Copy),
            (6, Spoil::Slot),
            (5, Spoil::Body),
            (7, Spoil::Cell),
            (2, Spoil::Unnamed),
            (1, Spoil::Cover),
            (3, Spoil::ManyLeaves),
            (2, Spoil::LastIdentity),
            (6, Spoil::Teller),
        ]);
        match way {
            Spoil::Noise => self.spoil_noise(),
            Spoil::Flip => self.spoil_flip(),
            Spoil::Swap => self.spoil_swap(),
            Spoil::Copy => self.spoil_copy(),
            Spoil::Slot => self.spoil_slot(),
            Spoil::Body => self.spoil_body(),
            Spoil::Cell => self.spoil_cell(),
            Spoil::Unnamed => self.spoil_unnamed(),
            Spoil::Cover => self.spoil_cover(),
            Spoil::ManyLeaves => self.spoil_many_leaves(),
            Spoil::LastIdentity => self.spoil_last_identity(),
            Spoil::Teller => self.spoil_teller(),
        }
    }

    fn spoil_noise(&mut self) {
        let block = self.some_block();
        let mut content = ZEROS;
        for byte in &mut content {
            *byte = self.random.next() as u8;
        }
        content[0] %= 7;
        self.put_block(block, &content);
    }

    fn spoil_flip(&mut self) {
        let block = self.some_block();
        let mut content = self.session.stack.image[block];
        let byte = self.random.weighted(&[(6, 16), (2, 48), (1, 512)]);
        content[self.random.below(byte)] ^= 1 << self.random.below(8);
        self.put_block(block, &content);
    }

    fn spoil_swap(&mut self) {
        let (one, other) = (self.some_block(), self.some_block());
        let (first, second) = (self.session.stack.image[one], self.session.stack.image[other]);
        self.put_block(one, &second);
        self.put_block(other, &first);
    }

    fn spoil_copy(&mut self) {
        let (one, other) = (self.some_block(), self.some_block());
        let content = self.session.stack.image[one];
        self.put_block(other, &content);
    }

    /// Two bytes for a field: an edge, or a number in use.
    fn odd_number(&mut self) -> [u8; 2] {
        let count = self.session.stack.count() as u16;
        let near = self.random.below(count as usize + 2) as u16;
        (*self.random.pick(&[0, 1, 2, near, near, near, count, count.wrapping_sub(1), 63, 64, 65, 256, 65535])).to_le_bytes()
    }

    fn odd_identity(&mut self) -> [u8; 4] {
        let near = self.random.below(8) as u32;
        (*self.random.pick(&[0, 1, near, near, near, 4294967294, 4294967295])).to_le_bytes()
    }

    fn spoil_slot(&mut self) {
        let Some(block) = self.block_of(&[2, 3]) else { return };
        let mut content = self.session.stack.image[block];
        match self.random.below(7) {
            0 => content[2..4].copy_from_slice(&self.odd_number()),
            1 => content[4..8].copy_from_slice(&self.odd_identity()),
            2 => content[8..12].copy_from_slice(&self.odd_identity()),
            3 => content[12..14].copy_from_slice(&self.odd_number()),
            4 => content[0] ^= 1,
            _ => {
                let at = 16 + 2 * self.random.below(4);
                content[at..at + 2].copy_from_slice(&self.odd_number());
                if self.random.chance(50) {
                    content[2] = content[2].max(self.random.below(5) as u8);
                }
            }
        }
        self.put_block(block, &content);
    }

    fn spoil_body(&mut self) {
        let Some(block) = self.block_of(&[4, 5]) else { return };
        let mut content = self.session.stack.image[block];
        match self.random.below(5) {
            0 => content[2..4].copy_from_slice(&self.odd_number()),
            1 => content[4..8].copy_from_slice(&self.odd_identity()),
            2 => content[8..10].copy_from_slice(&self.odd_number()),
            3 => content[10..12].copy_from_slice(&[*self.random.pick(&[0, 0xdf, 0xe0, 0xe1, 0xf0, 0xf1]), 1]),
            _ => content[0] ^= 1,
        }
        self.put_block(block, &content);
    }

    fn spoil_cell(&mut self) {
        let Some(block) = self.block_of(&[5]) else { return };
        let mut content = self.session.stack.image[block];
        let at = HEAD + CELL * self.random.below(3);
        match self.random.below(8) {
            0 => content[at] = *self.random.pick(&[0, 1, 23, 24, 25, 255]),
            7 => content[at + 2..at + 8].copy_from_slice(&[0, 0, 1, 0, 0, 0]),
            1 => content[at + 2..at + 4].copy_from_slice(&self.odd_number()),
            2 => content[at + 4..at + 8].copy_from_slice(&self.odd_identity()),
            3 => content[at + 8] = *self.random.pick(&[0, 47, 46, 48]),
            4 => content[at + 1] = 9,
            5 => content[at + 31] = *self.random.pick(&[0, 47, 1]),
            _ => {
                let to = HEAD + CELL * self.random.below(CELLS);
                content.copy_within(at..at + CELL, to);
            }
        }
        self.put_block(block, &content);
    }

    /// Bytes that have no name: they are not looked at, and a block written again has zeros there.
    fn spoil_unnamed(&mut self) {
        let folder = if self.random.chance(60) { self.block_of(&[5]) } else { None };
        let block = folder.unwrap_or_else(|| self.some_block());
        let mut content = self.session.stack.image[block];
        let inside = HEAD + CELL * self.random.below(CELLS);
        for at in [1, 14, 15, 150, 496, 511, inside + 1, inside + 31] {
            content[at] ^= self.random.next() as u8;
        }
        self.put_block(block, &content);
    }

    fn spoil_cover(&mut self) {
        let mut content = self.session.stack.image[0];
        let at = *self.random.pick(&[0, 1, 2, 4, 5, 3, 6, 511]);
        content[at] = content[at].wrapping_add(*self.random.pick(&[1, 255, 2]));
        self.put_block(0, &content);
    }

    /// A folder or file with 64 leaves, few of them good.
    fn spoil_many_leaves(&mut self) {
        let kinds: &[u8] = if self.random.chance(75) { &[3] } else { &[2] };
        let Some(block) = self.block_of(kinds) else { return };
        let Some(geometry) = parse_cover(&self.session.stack.image[0]) else { return };
        let mut content = self.session.stack.image[block];
        let have = content[2] as usize;
        content[2] = *self.random.pick(&[64, 64, 64, 63]);
        for k in have..64 {
            let bodies = (geometry.blocks - geometry.first_body()) as usize;
            let number = geometry.first_body() + self.random.below(bodies) as u16;
            content[16 + 2 * k..18 + 2 * k].copy_from_slice(&number.to_le_bytes());
        }
        if self.random.chance(70) {
            // no leaf has a place left
            content[16..18].copy_from_slice(&(geometry.blocks - 1).to_le_bytes());
        }
        self.put_block(block, &content);
    }

    /// A block that tells a high identity, if it is well formed: one field is at an edge of its range.
    fn spoil_teller(&mut self) {
        let Some(geometry) = parse_cover(&self.session.stack.image[0]) else { return };
        let (blocks, slots) = (geometry.blocks as usize, geometry.slots as usize);
        if blocks > self.session.stack.count() {
            return;
        }
        let high = 500 + self.random.below(500) as u32;
        let (block, content) = match self.random.below(3) {
            0 => (1 + self.random.between(1, slots - 1), self.telling_slot(high, geometry)),
            1 => (slots + 1 + self.random.below(blocks - slots - 1), self.telling_body(high, geometry)),
            _ => (slots + 1 + self.random.below(blocks - slots - 1), self.telling_cell(high, geometry)),
        };
        self.put_block(block, &content);
    }

    fn telling_slot(&mut self, high: u32, geometry: Geometry) -> Block {
        let kind = *self.random.pick(&[2, 3, 4, 1]);
        let parent_slot = *self.random.pick(&[0, geometry.slots - 1, geometry.slots]);
        let (identity, parent_identity) = *self.random.pick(&[(high, 1), (1, high), (high, 0), (0, high)]);
        let count = *self.random.pick(&[0, 1, 64, 65]);
        let number = *self.random.pick(&[geometry.slots, geometry.slots + 1, geometry.blocks - 1, geometry.blocks]);
        let numbers = vec![geometry.slots + 1; 64];
        let parent = Handle { slot: parent_slot, identity: parent_identity };
        let mut content = slot_block(&Slot { kind: Kind::File, identity, parent, numbers });
        content[0] = kind;
        content[2] = count;
        if self.random.chance(40) {
            content[16..18].copy_from_slice(&number.to_le_bytes());
        }
        content
    }

    fn telling_body(&mut self, high: u32, geometry: Geometry) -> Block {
        let slot = *self.random.pick(&[0, geometry.slots - 1, geometry.slots - 1, geometry.slots]);
        let leaf = *self.random.pick(&[0, 63, 63, 64]);
        let owner = Handle { slot, identity: high };
        let mut content = body_block(&Body { kind: Kind::File, owner, leaf, bytes: vec![5; 3] });
        content[0] = *self.random.pick(&[4, 4, 5, 2]);
        if self.random.chance(70) {
            let used: u16 = *self.random.pick(&[0, 479, 480, 481, 496, 497]);
            content[10..12].copy_from_slice(&used.to_le_bytes());
        }
        content
    }

    fn telling_cell(&mut self, high: u32, geometry: Geometry) -> Block {
        let child = Handle { slot: *self.random.pick(&[0, 1, geometry.slots - 1, geometry.slots]), identity: high };
        let mut cell = entry_cell(&Entry { name: vec![b'x'; 24], child });
        cell[0] = *self.random.pick(&[0, 1, 24, 24, 25]);
        cell[8 + self.random.below(24)] = *self.random.pick(&[b'y', b'y', 0, b'/']);
        let mut bytes = vec![0; CELLS * CELL];
        let at = CELL * self.random.below(CELLS);
        bytes[at..at + CELL].copy_from_slice(&cell);
        body_block(&Body { kind: Kind::Folder, owner: ROOT, leaf: 60, bytes })
    }

    fn spoil_last_identity(&mut self) {
        let Some(geometry) = parse_cover(&self.session.stack.image[0]) else { return };
        let block = geometry.blocks as usize - 1;
        if block >= self.session.stack.count() {
            return;
        }
        let last = *self.random.pick(&[4294967295, 4294967295, 4294967294]);
        let body = Body { kind: Kind::File, owner: Handle { slot: 1, identity: last }, leaf: 0, bytes: vec![1] };
        self.put_block(block, &body_block(&body));
    }
}
