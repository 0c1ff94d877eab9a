//! The calls of a card. Reading calls compute from the shown blocks; changing calls make a plan of blocks
//! to write, in a fixed order, and what the card keeps afterwards.

use crate::device::Stack;
use crate::format::*;
use crate::refusal::{Layer, PathRefusal, Refusal};
use crate::rule::Shown;

/// What a surveyed card keeps besides its geometry.
#[derive(Clone, Copy, PartialEq, Eq, Debug)]
pub struct Memory {
    pub highest: u32,
    pub next_slot: u16,
    pub next_body: u16,
}

/// How far a card is: only opened, or surveyed.
#[derive(Clone, Copy, PartialEq, Eq, Debug)]
pub enum Stage {
    /// The next block to examine and the highest identity so far.
    Opened { next: u16, highest: u32 },
    Surveyed(Memory),
}

/// An open card.
pub struct Card {
    /// The geometry, or what each call answers.
    pub ready: Result<Geometry, Refusal>,
    pub stage: Stage,
}

/// What a changing call makes, in the words of the laws.
#[derive(Clone, PartialEq, Eq, Debug)]
pub enum Deed {
    Created { child: Handle, folder: Handle, name: Vec<u8> },
    Wrote { file: Handle, leaf: u16, bytes: Vec<u8> },
    Shortened { file: Handle },
    Removed { child: Handle },
}

/// What a changing call is to do.
pub struct Plan {
    pub puts: Vec<(u16, Block)>,
    pub memory: Memory,
    pub deed: Deed,
}

/// Status of a file or folder.
pub struct Status {
    pub kind: Kind,
    pub count: usize,
    pub parent: Handle,
}

/// Writes a new card: cover, empty root, zeros; then a sync.
pub fn format(stack: &mut Stack, blocks: u16, slots: u16) -> Result<(), Refusal> {
    let geometry = Geometry::new(blocks, slots).ok_or(Refusal::card(18, blocks))?;
    if stack.count() < blocks as usize {
        return Err(Refusal::card(4, blocks));
    }
    let root = Slot { kind: Kind::Folder, identity: ROOT.identity, parent: ROOT, numbers: Vec::new() };
    stack.write(0, &cover(geometry))?;
    stack.write(1, &slot_block(&root))?;
    for block in 2..blocks {
        stack.write(block, &ZEROS)?;
    }
    stack.sync()
}

/// What opening finds: cover, size, root, in that order.
fn look(stack: &Stack) -> Result<Geometry, Refusal> {
    if stack.count() == 0 {
        return Err(Refusal::card(3, 0));
    }
    let geometry = parse_cover(stack.read(0)?).ok_or(Refusal::card(3, 0))?;
    if stack.count() < geometry.blocks as usize {
        return Err(Refusal::card(4, geometry.blocks));
    }
    let root = parse_slot(stack.read(1)?, geometry);
    match root {
        Some(root) if root.kind == Kind::Folder && root.identity == ROOT.identity && root.parent == ROOT => Ok(geometry),
        _ => Err(Refusal::card(3, 1)),
    }
}

/// The name, or the refusal of what is none.
fn check_name(name: &[u8]) -> Result<(), Refusal> {
    if is_name(name) { Ok(()) } else { Err(Refusal::length(11, name.len())) }
}

/// The components of a path; the empty path has none.
fn components(path: &[u8]) -> Vec<&[u8]> {
    if path.is_empty() { Vec::new() } else { path.split(|&b| b == b'/').collect() }
}

/// The block of a folder's leaf with one cell replaced; head and tail are written clean.
fn with_cell(shown: &Shown, block: u16, cell: usize, bytes: &[u8; CELL]) -> Block {
    let old = shown.stack.shown(block);
    let mut body = parse_body(old, shown.geometry).expect("a good leaf is well formed");
    body.bytes[cell * CELL..(cell + 1) * CELL].copy_from_slice(bytes);
    body_block(&body)
}

impl Card {
    /// Opens the card; what is wrong with it is answered by its calls.
    pub fn open(stack: &Stack) -> Card {
        Card { ready: look(stack), stage: Stage::Opened { next: 1, highest: 0 } }
    }

    fn shown<'a>(&self, stack: &'a Stack) -> Result<Shown<'a>, Refusal> {
        Ok(Shown { stack, geometry: self.ready? })
    }

    /// One survey step: how many blocks remain, and the highest identity so far.
    pub fn step(&mut self, stack: &Stack) -> Result<(u16, u32), Refusal> {
        let geometry = self.ready?;
        let Stage::Opened { next, highest } = &mut self.stage else { unreachable!("a surveyed card has no steps") };
        if *next < geometry.blocks {
            *highest = (*highest).max(highest_told(stack.read(*next)?, *next, geometry));
            *next += 1;
        }
        Ok((geometry.blocks - *next, *highest))
    }

    /// Ends the survey: the rest is examined, the cursors start.
    pub fn end(&mut self, stack: &Stack) {
        while self.step(stack).is_ok_and(|(remain, _)| remain > 0) {}
        let Stage::Opened { highest, .. } = self.stage else { unreachable!("a survey ends once") };
        let first_body = self.ready.map_or(0, Geometry::first_body);
        self.stage = Stage::Surveyed(Memory { highest, next_slot: 0, next_body: first_body });
    }

    /// The slot that a handle fits, as a folder.
    fn folder(&self, shown: &Shown, handle: Handle) -> Result<Slot, Refusal> {
        self.of_kind(shown, handle, Kind::Folder)
    }

    fn of_kind(&self, shown: &Shown, handle: Handle, kind: Kind) -> Result<Slot, Refusal> {
        let slot = shown.fits(handle).ok_or(Refusal::file(5, handle.slot))?;
        if slot.kind == kind { Ok(slot) } else { Err(Refusal::file(6, handle.slot)) }
    }

    /// The slot of a changing call: it must fit, be reached, and be of the kind wanted.
    fn to_change(&self, shown: &Shown, handle: Handle, kind: Kind) -> Result<Slot, Refusal> {
        let fits = shown.fits(handle).is_some();
        if !fits || !shown.reached()[handle.slot as usize] {
            return Err(Refusal::file(5, handle.slot));
        }
        self.of_kind(shown, handle, kind)
    }

    pub fn find(&self, stack: &Stack, folder: Handle, name: &[u8]) -> Result<Handle, Refusal> {
        check_name(name)?;
        let shown = self.shown(stack)?;
        let slot = self.folder(&shown, folder)?;
        let (_, entry) = shown.find(folder.slot, &slot, name).ok_or(Refusal::file(9, folder.slot))?;
        Ok(entry.child)
    }

    pub fn path(&self, stack: &Stack, path: &[u8]) -> Result<Handle, PathRefusal> {
        let names = components(path);
        for (component, name) in names.iter().enumerate() {
            check_name(name).map_err(|refusal| PathRefusal { refusal, component })?;
        }
        self.ready.map_err(|refusal| PathRefusal { refusal, component: 0 })?;
        let mut at = ROOT;
        for (component, name) in names.iter().enumerate() {
            at = self.find(stack, at, name).map_err(|refusal| PathRefusal { refusal, component })?;
        }
        Ok(at)
    }

    pub fn list(&self, stack: &Stack, folder: Handle) -> Result<Vec<Entry>, Refusal> {
        let shown = self.shown(stack)?;
        let slot = self.folder(&shown, folder)?;
        Ok(shown.sound_entries(folder.slot, &slot))
    }

    pub fn status(&self, stack: &Stack, handle: Handle) -> Result<Status, Refusal> {
        let slot = self.shown(stack)?.fits(handle).ok_or(Refusal::file(5, handle.slot))?;
        Ok(Status { kind: slot.kind, count: slot.numbers.len(), parent: slot.parent })
    }

    pub fn damage(&self, stack: &Stack) -> Result<Vec<(u16, u16)>, Refusal> {
        Ok(self.shown(stack)?.damage())
    }

    pub fn space(&self, stack: &Stack) -> Result<(usize, usize), Refusal> {
        Ok(self.shown(stack)?.space())
    }

    /// The leaf's number has its full width: it is compared with the count as it is.
    pub fn read(&self, stack: &Stack, file: Handle, leaf: u32, room: usize) -> Result<Vec<u8>, Refusal> {
        if room < LEAF_BYTES {
            return Err(Refusal::length(12, room));
        }
        let shown = self.shown(stack)?;
        let slot = self.of_kind(&shown, file, Kind::File)?;
        let past = Refusal { number: 7, layer: Layer::File, place: leaf.into() };
        let block = *slot.numbers.get(leaf as usize).ok_or(past)?;
        let body = shown.good(file.slot, &slot, leaf as u16).ok_or(Refusal::file(8, block))?;
        Ok(body.bytes)
    }

    fn memory(&self) -> Memory {
        match self.stage {
            Stage::Surveyed(memory) => memory,
            Stage::Opened { .. } => unreachable!("only a surveyed card is changed"),
        }
    }

    pub fn plan_create(&self, stack: &Stack, folder: Handle, name: &[u8], kind: Kind) -> Result<Plan, Refusal> {
        check_name(name)?;
        let shown = self.shown(stack)?;
        let mut slot = self.to_change(&shown, folder, Kind::Folder)?;
        if let Some((_, taken)) = shown.find(folder.slot, &slot, name) {
            return Err(Refusal::file(10, taken.child.slot));
        }
        let mut memory = self.memory();
        let number = shown.free_slot(memory.next_slot).ok_or(Refusal::card(14, shown.geometry.slots))?;
        memory.highest = memory.highest.checked_add(1).ok_or(Refusal::card(16, 0))?;
        memory.next_slot = number + 1;
        let child = Handle { slot: number, identity: memory.highest };
        let fresh = Slot { kind, identity: child.identity, parent: folder, numbers: Vec::new() };
        let cell = entry_cell(&Entry { name: name.to_vec(), child });
        let mut puts = vec![(number + 1, slot_block(&fresh))];
        if let Some(place) = shown.places(folder.slot, &slot).into_iter().find(|place| place.sound.is_none()) {
            puts.push((place.body, with_cell(&shown, place.body, place.cell, &cell)));
        } else {
            let leaf = slot.numbers.len() as u16;
            if leaf >= LEAVES {
                return Err(Refusal::file(15, folder.slot));
            }
            let block = shown.free_body(memory.next_body).ok_or(Refusal::file(13, folder.slot))?;
            memory.next_body = block + 1;
            let mut bytes = vec![0; CELLS * CELL];
            bytes[..CELL].copy_from_slice(&cell);
            puts.push((block, body_block(&Body { kind: Kind::Folder, owner: folder, leaf, bytes })));
            slot.numbers.push(block);
            puts.push((folder.slot + 1, slot_block(&slot)));
        }
        Ok(Plan { puts, memory, deed: Deed::Created { child, folder, name: name.to_vec() } })
    }

    pub fn plan_write(&self, stack: &Stack, file: Handle, leaf: u16, bytes: &[u8]) -> Result<Plan, Refusal> {
        if bytes.len() > LEAF_BYTES {
            return Err(Refusal::length(12, bytes.len()));
        }
        let shown = self.shown(stack)?;
        let mut slot = self.to_change(&shown, file, Kind::File)?;
        let count = slot.numbers.len() as u16;
        if leaf > count || leaf >= LEAVES {
            return Err(Refusal::file(7, leaf));
        }
        let body = body_block(&Body { kind: Kind::File, owner: file, leaf, bytes: bytes.to_vec() });
        let mut memory = self.memory();
        let mut puts = Vec::new();
        if leaf < count {
            let block = slot.numbers[leaf as usize];
            shown.good(file.slot, &slot, leaf).ok_or(Refusal::file(8, block))?;
            puts.push((block, body));
        } else {
            let block = shown.free_body(memory.next_body).ok_or(Refusal::file(13, file.slot))?;
            memory.next_body = block + 1;
            slot.numbers.push(block);
            puts.push((block, body));
            puts.push((file.slot + 1, slot_block(&slot)));
        }
        Ok(Plan { puts, memory, deed: Deed::Wrote { file, leaf, bytes: bytes.to_vec() } })
    }

    pub fn plan_shorten(&self, stack: &Stack, file: Handle, count: u16) -> Result<Plan, Refusal> {
        let shown = self.shown(stack)?;
        let mut slot = self.to_change(&shown, file, Kind::File)?;
        if count as usize > slot.numbers.len() {
            return Err(Refusal::file(7, count));
        }
        let mut puts = Vec::new();
        if (count as usize) < slot.numbers.len() {
            slot.numbers.truncate(count as usize);
            puts.push((file.slot + 1, slot_block(&slot)));
        }
        Ok(Plan { puts, memory: self.memory(), deed: Deed::Shortened { file } })
    }

    pub fn plan_remove(&self, stack: &Stack, folder: Handle, name: &[u8]) -> Result<Plan, Refusal> {
        check_name(name)?;
        let shown = self.shown(stack)?;
        let slot = self.to_change(&shown, folder, Kind::Folder)?;
        let (place, entry) = shown.find(folder.slot, &slot, name).ok_or(Refusal::file(9, folder.slot))?;
        let child = shown.fits(entry.child).expect("a sound entry's child fits");
        if !shown.sound_entries(entry.child.slot, &child).is_empty() {
            return Err(Refusal::file(17, entry.child.slot));
        }
        let puts = vec![
            (place.body, with_cell(&shown, place.body, place.cell, &[0; CELL])),
            (entry.child.slot + 1, ZEROS),
        ];
        Ok(Plan { puts, memory: self.memory(), deed: Deed::Removed { child: entry.child } })
    }

    /// Writes a plan's blocks. A card that meets power gone answers it from then on.
    pub fn carry_out(&mut self, stack: &mut Stack, plan: &Plan) -> Result<(), Refusal> {
        for (block, bytes) in &plan.puts {
            stack.write(*block, bytes).inspect_err(|&refusal| self.ready = Err(refusal))?;
        }
        self.stage = Stage::Surveyed(plan.memory);
        Ok(())
    }

    pub fn sync(&mut self, stack: &mut Stack) -> Result<(), Refusal> {
        self.ready?;
        stack.sync().inspect_err(|&refusal| self.ready = Err(refusal))
    }
}

/// The call for a program in C: a leaf by its path, with no survey. It answers the bytes or a refusal;
/// the order of the checks is that of one call: name, buffer, card, walk, read.
pub fn screen(image: &Stack, path: &[u8], leaf: u32, room: usize) -> Result<Vec<u8>, Refusal> {
    for name in components(path) {
        check_name(name)?;
    }
    if room < LEAF_BYTES {
        return Err(Refusal::length(12, room));
    }
    let card = Card::open(image);
    let file = card.path(image, path).map_err(|refused| refused.refusal)?;
    card.read(image, file, leaf, room)
}
