//! The reading rule: what the shown blocks of a card mean. Nothing is kept; all is computed anew.

use crate::device::Stack;
use crate::format::*;

/// The blocks of a card of known size.
pub struct Shown<'a> {
    pub stack: &'a Stack,
    pub geometry: Geometry,
}

/// A place for an entry in a good leaf of a folder.
pub struct Place {
    /// The body, and which of its cells.
    pub body: u16,
    pub cell: usize,
    /// The entry there, if it is sound.
    pub sound: Option<Entry>,
}

impl Shown<'_> {
    /// The slot with a number, if it is well formed.
    pub fn slot(&self, slot: u16) -> Option<Slot> {
        if slot >= self.geometry.slots {
            return None;
        }
        parse_slot(self.stack.shown(slot + 1), self.geometry)
    }

    /// The slot that a handle fits.
    pub fn fits(&self, handle: Handle) -> Option<Slot> {
        self.slot(handle.slot).filter(|slot| slot.identity == handle.identity)
    }

    /// Leaf `k` of a file or folder, if it is good.
    pub fn good(&self, number: u16, slot: &Slot, k: u16) -> Option<Body> {
        let block = *slot.numbers.get(k as usize)?;
        let body = parse_body(self.stack.shown(block), self.geometry)?;
        let owner = Handle { slot: number, identity: slot.identity };
        (body.kind == slot.kind && body.owner == owner && body.leaf == k).then_some(body)
    }

    /// Whether an entry's child names this folder as its parent.
    fn is_sound(&self, entry: &Entry, folder: Handle) -> bool {
        self.fits(entry.child).is_some_and(|child| child.parent == folder)
    }

    /// All places of a folder over its good leaves, by leaf and place. A file has none.
    pub fn places(&self, number: u16, slot: &Slot) -> Vec<Place> {
        let mut places = Vec::new();
        if slot.kind == Kind::File {
            return places;
        }
        let folder = Handle { slot: number, identity: slot.identity };
        for k in 0..slot.numbers.len() as u16 {
            let Some(body) = self.good(number, slot, k) else { continue };
            for cell in 0..CELLS {
                let bytes = &body.bytes[cell * CELL..(cell + 1) * CELL];
                let sound = parse_entry(bytes, self.geometry).filter(|entry| self.is_sound(entry, folder));
                places.push(Place { body: slot.numbers[k as usize], cell, sound });
            }
        }
        places
    }

    /// The sound entries of a folder, in order.
    pub fn sound_entries(&self, number: u16, slot: &Slot) -> Vec<Entry> {
        self.places(number, slot).into_iter().filter_map(|place| place.sound).collect()
    }

    /// The first place of a folder whose sound entry has a name.
    pub fn find(&self, number: u16, slot: &Slot, name: &[u8]) -> Option<(Place, Entry)> {
        for place in self.places(number, slot) {
            if let Some(entry) = place.sound.clone().filter(|entry| entry.name == name) {
                return Some((place, entry));
            }
        }
        None
    }

    /// For each slot, whether it is reached: the root, and what a sound entry of a reached folder names.
    pub fn reached(&self) -> Vec<bool> {
        let mut reached = vec![false; self.geometry.slots as usize];
        let mut work = vec![ROOT.slot];
        reached[0] = true;
        while let Some(number) = work.pop() {
            let Some(slot) = self.slot(number) else { continue };
            for entry in self.sound_entries(number, &slot) {
                let child = entry.child.slot as usize;
                if !reached[child] {
                    reached[child] = true;
                    work.push(entry.child.slot);
                }
            }
        }
        reached
    }

    /// The reached slots with their contents.
    pub fn reached_slots(&self) -> Vec<(u16, Slot)> {
        let reached = self.reached();
        (0..self.geometry.slots)
            .filter(|&number| reached[number as usize])
            .filter_map(|number| Some((number, self.slot(number)?)))
            .collect()
    }

    /// For each block, whether it is a body that is held: a good leaf of a reached slot.
    pub fn held(&self) -> Vec<bool> {
        let mut held = vec![false; self.geometry.blocks as usize];
        for (number, slot) in self.reached_slots() {
            for k in 0..slot.numbers.len() as u16 {
                if self.good(number, &slot, k).is_some() {
                    held[slot.numbers[k as usize] as usize] = true;
                }
            }
        }
        held
    }

    /// The leaves of reached slots that are not good, by slot and leaf.
    pub fn damage(&self) -> Vec<(u16, u16)> {
        let mut lines = Vec::new();
        for (number, slot) in self.reached_slots() {
            for k in 0..slot.numbers.len() as u16 {
                if self.good(number, &slot, k).is_none() {
                    lines.push((number, k));
                }
            }
        }
        lines
    }

    /// How many bodies and how many slots are free.
    pub fn space(&self) -> (usize, usize) {
        let held = self.held();
        let bodies = (self.geometry.first_body()..self.geometry.blocks).filter(|&b| !held[b as usize]).count();
        let slots = self.reached().iter().filter(|&&reached| !reached).count();
        (bodies, slots)
    }

    /// The first free slot at or after a cursor, going round.
    pub fn free_slot(&self, cursor: u16) -> Option<u16> {
        let reached = self.reached();
        (cursor..self.geometry.slots).chain(0..cursor.min(self.geometry.slots)).find(|&s| !reached[s as usize])
    }

    /// The first free body at or after a cursor, going round.
    pub fn free_body(&self, cursor: u16) -> Option<u16> {
        let held = self.held();
        (cursor..self.geometry.blocks).chain(self.geometry.first_body()..cursor).find(|&b| !held[b as usize])
    }
}
