//! The call for programs in C, compared with the model on images of every sort.

use std::collections::BTreeMap;
use std::fmt;
use std::io::Write;
use std::path::{Path, PathBuf};
use std::process::{Command, Stdio};
use std::time::{Duration, Instant};

use crate::card;
use crate::device::Stack;
use crate::format::*;
use crate::make::Maker;
use crate::random::Random;
use crate::rule::Shown;
use crate::script::hex;

/// How many questions are asked of one image.
const QUESTIONS: usize = 60;
/// What a device has at most; what an image has beyond is not looked at.
const MOST_BLOCKS: usize = 4096;

/// Where an image comes from.
#[derive(Clone, Copy, PartialEq, Eq, PartialOrd, Ord, Debug)]
enum Sort {
    /// What a card's own calls and cuts left.
    Good,
    /// What they left of a card whose blocks were spoilt between its power-ons, and again after the last.
    Damaged,
    /// A good one with its end cut off, anywhere.
    Truncated,
    /// Bytes at random, at times behind a cover and a root that are good.
    Random,
}

/// The sorts in turn: what is cut off or random is mostly refused as a whole.
const SORTS: [Sort; 8] = [
    Sort::Good,
    Sort::Damaged,
    Sort::Good,
    Sort::Damaged,
    Sort::Truncated,
    Sort::Good,
    Sort::Damaged,
    Sort::Random,
];

/// What the call is given beside the image.
struct Question {
    path: Vec<u8>,
    leaf: u32,
    room: usize,
}

impl fmt::Display for Question {
    fn fmt(&self, f: &mut fmt::Formatter) -> fmt::Result {
        write!(f, "{} {} {}", hex(&self.path), self.leaf, self.room)
    }
}

/// What was asked and answered.
#[derive(Default)]
struct Tally {
    images: BTreeMap<Sort, usize>,
    questions: usize,
    leaves: usize,
    refused: BTreeMap<u16, usize>,
}

impl fmt::Display for Tally {
    fn fmt(&self, f: &mut fmt::Formatter) -> fmt::Result {
        write!(f, "images:")?;
        for (sort, count) in &self.images {
            write!(f, " {sort:?}:{count}")?;
        }
        write!(f, "\nquestions {}, leaves shown {}\nrefused:", self.questions, self.leaves)?;
        for (number, count) in &self.refused {
            write!(f, " {number}:{count}")?;
        }
        writeln!(f)
    }
}

/// The whole blocks of an image as a plain card.
fn blocks_of(image: &[u8]) -> Stack {
    let mut stack = Stack::new(0);
    stack.image = image.chunks_exact(BLOCK).take(MOST_BLOCKS).map(|block| block.try_into().expect("a block")).collect();
    stack
}

/// Makes images and questions.
struct Asker {
    random: Random,
}

impl Asker {
    fn image(&mut self, sort: Sort) -> Vec<u8> {
        let mut image = match sort {
            Sort::Random => self.noise(),
            Sort::Damaged => self.card(false),
            _ => self.card(true),
        };
        match sort {
            Sort::Damaged => (0..self.random.between(1, 6)).for_each(|_| self.spoil(&mut image)),
            Sort::Truncated => image.truncate(self.random.below(image.len())),
            _ => {}
        }
        if self.random.chance(10) {
            let more = self.random.between(1, 1500);
            image.extend((0..more).map(|_| self.random.next() as u8));
        }
        image
    }

    /// What the scenes of a script leave; at times a file with all of its leaves.
    fn card(&mut self, honest: bool) -> Vec<u8> {
        let lines = self.random.between(20, 160);
        let mut maker = Maker::new(self.random.next(), lines, honest);
        if self.random.chance(5) {
            maker.longest_file();
        } else {
            maker.make();
        }
        maker.session.stack.image.concat()
    }

    /// Blocks at random; half of them begin as a block of a card does.
    fn noise(&mut self) -> Vec<u8> {
        let blocks = if self.random.chance(5) { 258 } else { self.random.between(0, 24) };
        let mut image: Vec<u8> = (0..blocks * BLOCK).map(|_| self.random.next() as u8).collect();
        for block in image.chunks_exact_mut(BLOCK) {
            if self.random.chance(50) {
                block[0] = self.random.below(7) as u8;
                block[1..16].fill(0);
                for at in [2, 4, 8, 10, 12] {
                    block[at] = self.random.below(6) as u8;
                }
            }
        }
        if blocks >= 4 && self.random.chance(60) {
            let slots = if self.random.chance(25) { blocks - 2 } else { self.random.between(2, blocks - 2) };
            let geometry = Geometry { blocks: blocks as u16, slots: slots as u16 };
            image[..BLOCK].copy_from_slice(&cover(geometry));
            let root = Slot { kind: Kind::Folder, identity: 1, parent: ROOT, numbers: vec![geometry.first_body()] };
            image[BLOCK..2 * BLOCK].copy_from_slice(&slot_block(&root));
        }
        image
    }

    /// One change of an image: a bit, a small number, or a block that takes another's place.
    fn spoil(&mut self, image: &mut [u8]) {
        let blocks: Vec<usize> = (0..image.len() / BLOCK).filter(|block| image[block * BLOCK] != 0).collect();
        if blocks.is_empty() {
            return;
        }
        let (one, other) = (*self.random.pick(&blocks), *self.random.pick(&blocks));
        let at = one * BLOCK + self.random.weighted(&[(6, 16), (3, 64), (1, BLOCK)]).min(BLOCK);
        let at = one * BLOCK + self.random.below(at - one * BLOCK);
        match self.random.below(5) {
            0 | 1 => image[at] ^= 1 << self.random.below(8),
            2 => image[at] = self.random.below(6) as u8,
            3 => image.copy_within(other * BLOCK..(other + 1) * BLOCK, one * BLOCK),
            _ => image[one * BLOCK..(one + 1) * BLOCK].fill(0),
        }
    }

    fn question(&mut self, image: &Stack, files: &[File]) -> Question {
        let file = if files.is_empty() || self.random.chance(40) { None } else { Some(self.random.pick(files)) };
        let path = file.map_or_else(|| self.path(image), |file| file.path.clone());
        let count = file.map_or(1, |file| file.count);
        let leaf = match self.random.below(20) {
            0..=15 => self.random.below(count) as u32,
            16 => count as u32,
            17 => self.random.below(66) as u32,
            18 => *self.random.pick(&[63, 64, 65_535]),
            _ => *self.random.pick(&[65_536, 65_537, 1 << 24, u32::MAX]),
        };
        let room = self.random.weighted(&[(30, 496), (1, 495), (1, 0), (1, 497), (1, 512), (1, 70_000)]);
        Question { path, leaf, room }
    }

    /// A path: mostly down the tree that the image shows, at times beyond it or ill formed.
    fn path(&mut self, image: &Stack) -> Vec<u8> {
        let mut names: Vec<Vec<u8>> = Vec::new();
        let mut at = Some(ROOT);
        while names.len() < 8 && self.random.chance(if names.is_empty() { 97 } else { 55 }) {
            let entries = at.map_or(Vec::new(), |folder| entries_of(image, folder));
            if entries.is_empty() || self.random.chance(12) {
                names.push(self.random.pick(&[&b"a"[..], b"alto", b"n1", b"long", b"\xff", &[b'z'; 24]]).to_vec());
                at = None;
            } else {
                let entry = self.random.pick(&entries);
                names.push(entry.name.clone());
                at = Some(entry.child);
            }
        }
        let mut path = names.join(&b'/');
        match self.random.below(40) {
            0 => path.push(b'/'),
            1 => path.insert(0, b'/'),
            2 => path.extend_from_slice(b"/\0"),
            3 => path.extend_from_slice(&[b'q'; 25]),
            _ => {}
        }
        path
    }
}

/// A view of the image, if its cover is good and it is whole.
fn shown(image: &Stack) -> Option<Shown<'_>> {
    let geometry = image.image.first().and_then(parse_cover).filter(|g| g.blocks as usize <= image.count())?;
    Some(Shown { stack: image, geometry })
}

/// The sound entries of a folder, if the image is a card that has it.
fn entries_of(image: &Stack, folder: Handle) -> Vec<Entry> {
    let entries = shown(image).and_then(|shown| {
        let slot = shown.fits(folder).filter(|slot| slot.kind == Kind::Folder)?;
        Some(shown.sound_entries(folder.slot, &slot))
    });
    entries.unwrap_or_default()
}

/// A file that has leaves, on its path.
struct File {
    path: Vec<u8>,
    count: usize,
}

/// The files with leaves that the image shows, down to some depth.
fn files_of(image: &Stack) -> Vec<File> {
    let mut files = Vec::new();
    let mut folders = vec![(ROOT, Vec::new())];
    for _ in 0..6 {
        for (folder, path) in std::mem::take(&mut folders) {
            for entry in entries_of(image, folder) {
                let path = if path == b"" { entry.name } else { [&path[..], b"/", &entry.name].concat() };
                match shown(image).and_then(|shown| shown.fits(entry.child)) {
                    Some(slot) if slot.kind == Kind::Folder => folders.push((entry.child, path)),
                    Some(slot) if !slot.numbers.is_empty() => files.push(File { path, count: slot.numbers.len() }),
                    _ => {}
                }
            }
        }
    }
    files
}

/// What the model answers, as the driver prints it.
fn answer(image: &Stack, question: &Question, tally: &mut Tally) -> String {
    tally.questions += 1;
    match card::screen(image, &question.path, question.leaf, question.room) {
        Ok(content) => {
            tally.leaves += 1;
            format!("{} {}", content.len(), hex(&content))
        }
        Err(refusal) => {
            *tally.refused.entry(refusal.number).or_default() += 1;
            format!("{} -", 1_000 + refusal.number)
        }
    }
}

/// What the program in C prints for an image and its questions, with a line added if it does not end well.
fn driven(driver: &str, image: &Path, questions: &[Question]) -> Vec<String> {
    let child = Command::new(driver).arg(image).stdin(Stdio::piped()).stdout(Stdio::piped()).spawn();
    let mut child = child.unwrap_or_else(|error| panic!("{driver}: {error}"));
    let mut stdin = child.stdin.take().expect("a pipe");
    let asked: String = questions.iter().map(|question| format!("{question}\n")).collect();
    let feeder = std::thread::spawn(move || drop(stdin.write_all(asked.as_bytes())));
    let output = child.wait_with_output().expect("output");
    feeder.join().expect("the questions are fed");
    let mut lines: Vec<String> = String::from_utf8_lossy(&output.stdout).lines().map(str::to_string).collect();
    if !output.status.success() {
        lines.push("(the program did not end well)".to_string());
    }
    lines
}

/// The first question that is answered otherwise; one past the last if only the end differs.
fn first_difference(ours: &[String], theirs: &[String]) -> Option<usize> {
    let same = ours.iter().zip(theirs).take_while(|(a, b)| a == b).count();
    (ours != theirs).then_some(same)
}

fn report(seed: u64, image: &Path, at: usize, questions: &[Question], ours: &[String], theirs: &[String]) {
    let none = String::new();
    println!("the answers differ: seed {seed}, image {}", image.display());
    println!("--- question\n{}", questions.get(at).map_or(none.clone(), Question::to_string));
    println!("--- apart\n{}", ours.get(at).unwrap_or(&none));
    println!("--- the call for C\n{}", theirs.get(at).unwrap_or(&none));
}

/// Compares the call for C with the model, on images from a seed on, for so many seconds. True if they never differ and
/// every sort of image was there. The image of a difference stays in the folder.
pub fn compare(driver: &str, folder: &str, seconds: u64, seed: u64) -> bool {
    let end = Instant::now() + Duration::from_secs(seconds);
    let file: PathBuf = Path::new(folder).join("leaf.img");
    let mut tally = Tally::default();
    let mut at = seed;
    while Instant::now() < end {
        let sort = SORTS[(at % 8) as usize];
        let mut asker = Asker { random: Random::new(at) };
        let image = asker.image(sort);
        std::fs::write(&file, &image).unwrap_or_else(|error| panic!("{}: {error}", file.display()));
        let card = blocks_of(&image);
        let files = files_of(&card);
        let questions: Vec<Question> = (0..QUESTIONS).map(|_| asker.question(&card, &files)).collect();
        let ours: Vec<String> = questions.iter().map(|question| answer(&card, question, &mut tally)).collect();
        let theirs = driven(driver, &file, &questions);
        *tally.images.entry(sort).or_default() += 1;
        if let Some(place) = first_difference(&ours, &theirs) {
            report(at, &file, place, &questions, &ours, &theirs);
            print!("{tally}");
            return false;
        }
        at += 1;
    }
    println!("images of seeds {seed} to {}: no difference", at.saturating_sub(1));
    print!("{tally}");
    tally.images.len() == 4 && tally.leaves > 0
}
