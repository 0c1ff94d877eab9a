//! The three laws of whole histories, checked on the record of what was called, at every point of a history and
//! for every read, find and settled path that could be asked there, whether or not the script asks it.

use std::collections::HashMap;

use crate::format::*;
use crate::card::Deed;
use crate::refusal::Refusal;
use crate::rule::Shown;
use crate::script::Session;

/// Which create a handle is of; 0 is the format.
type Maker = usize;

/// A create, accepted or broken off.
struct Made {
    folder: Handle,
    folder_maker: Maker,
    name: Vec<u8>,
}

/// A file that a path led to at a settled sync.
struct Promise {
    path: Vec<Vec<u8>>,
    maker: Maker,
    leaves: Vec<Result<Vec<u8>, Refusal>>,
}

/// All that happened since an accepted format.
struct History {
    geometry: Geometry,
    makes: Vec<Made>,
    makers: HashMap<Handle, Maker>,
    writes: HashMap<(Maker, u16), Vec<Vec<u8>>>,
    promises: Vec<Promise>,
}

/// What was compared.
#[derive(Default)]
pub struct Tally {
    pub points: usize,
    pub cuts: usize,
    pub histories: usize,
    pub broken_off: usize,
    pub opens: usize,
    pub reads: usize,
    pub finds: usize,
    pub promised: usize,
    pub kept: usize,
    pub leaves: usize,
}

/// Follows a session and checks the laws.
#[derive(Default)]
pub struct Watch {
    history: Option<History>,
    pub tally: Tally,
    /// The first law that did not hold.
    pub broken: Option<String>,
}

impl Watch {
    /// Takes note of a command that the session has just obeyed.
    pub fn see(&mut self, word: &str, accepted: bool, ready: Option<bool>, session: &Session) {
        match word {
            "card" if accepted => self.history = None,
            "format" if accepted => self.begin(session),
            "format" if !session.stack.asked.is_empty() => self.history = None,
            "power" | "layers" if accepted => self.tally.cuts += 1,
            _ => {}
        }
        let Some(history) = &mut self.history else { return };
        if let Some(outcome) = &session.outcome {
            history.note(&outcome.deed);
            self.tally.broken_off += usize::from(outcome.broken_off);
        }
        let view = Shown { stack: &session.stack, geometry: history.geometry };
        if word == "sync" && accepted {
            history.promise(&view);
            self.tally.promised += history.promises.len();
        }
        if word == "open" && ready.is_none() {
            self.tally.opens += 1;
            let card = session.card.as_ref();
            if card.is_some_and(|card| card.ready.is_err_and(|refusal| refusal.number != 1)) {
                self.broken.get_or_insert("a formatted card is bad".to_string());
            }
        }
        self.tally.points += 1;
        if let Err(text) = history.check(&view, &mut self.tally) {
            self.broken.get_or_insert(text);
        }
    }

    fn begin(&mut self, session: &Session) {
        let geometry = parse_cover(session.stack.shown(0)).expect("a formatted card has a cover");
        self.tally.histories += 1;
        self.history = Some(History {
            geometry,
            makes: Vec::new(),
            makers: HashMap::from([(ROOT, 0)]),
            writes: HashMap::new(),
            promises: Vec::new(),
        });
    }
}

impl History {
    fn maker(&self, handle: Handle) -> Result<Maker, String> {
        self.makers.get(&handle).copied().ok_or(format!("nobody made {handle:?}"))
    }

    /// A changing call that counts as made.
    fn note(&mut self, deed: &Deed) {
        match deed {
            Deed::Created { child, folder, name } => {
                let folder_maker = self.makers.get(folder).copied().unwrap_or(usize::MAX);
                self.makes.push(Made { folder: *folder, folder_maker, name: name.clone() });
                self.makers.insert(*child, self.makes.len());
            }
            Deed::Wrote { file, leaf, bytes } => {
                let maker = self.makers.get(file).copied().unwrap_or(usize::MAX);
                self.writes.entry((maker, *leaf)).or_default().push(bytes.clone());
                self.release(*file);
            }
            Deed::Shortened { file } => self.release(*file),
            Deed::Removed { child } => self.release(*child),
        }
    }

    /// A file itself is changed: nothing more is promised of it.
    fn release(&mut self, file: Handle) {
        if let Some(&maker) = self.makers.get(&file) {
            self.promises.retain(|promise| promise.maker != maker);
        }
    }

    /// Every file that a path leads to, with what each of its leaves gives.
    fn promise(&mut self, view: &Shown) {
        self.promises.clear();
        let mut work = vec![(ROOT, Vec::new())];
        while let Some((handle, path)) = work.pop() {
            let Some(slot) = view.fits(handle) else { continue };
            if slot.kind == Kind::File {
                let maker = self.makers.get(&handle).copied().unwrap_or(usize::MAX);
                self.promises.push(Promise { path, maker, leaves: leaves(view, handle, &slot) });
                continue;
            }
            for entry in view.sound_entries(handle.slot, &slot) {
                let mut longer: Vec<Vec<u8>> = path.clone();
                longer.push(entry.name.clone());
                // a second entry of one name is on no path
                if walk(view, &longer) == Some(entry.child) {
                    work.push((entry.child, longer));
                }
            }
        }
    }

    fn check(&self, view: &Shown, tally: &mut Tally) -> Result<(), String> {
        for number in 0..self.geometry.slots {
            let Some(slot) = view.slot(number) else { continue };
            let handle = Handle { slot: number, identity: slot.identity };
            match slot.kind {
                Kind::File => self.check_reads(view, handle, &slot, tally)?,
                Kind::Folder => self.check_finds(view, handle, &slot, tally)?,
            }
        }
        self.promises.iter().try_for_each(|promise| self.check_promise(view, promise, tally))
    }

    /// What is read was written, whole, to that leaf of that same file.
    fn check_reads(&self, view: &Shown, file: Handle, slot: &Slot, tally: &mut Tally) -> Result<(), String> {
        for k in 0..slot.numbers.len() as u16 {
            let Some(body) = view.good(file.slot, slot, k) else { continue };
            let written = self.writes.get(&(self.maker(file)?, k));
            if !written.is_some_and(|all| all.contains(&body.bytes)) {
                return Err(format!("leaf {k} of {file:?} reads what nobody wrote there"));
            }
            tally.reads += 1;
        }
        Ok(())
    }

    /// What is found was made in that same folder under that same name.
    fn check_finds(&self, view: &Shown, folder: Handle, slot: &Slot, tally: &mut Tally) -> Result<(), String> {
        for entry in view.sound_entries(folder.slot, slot) {
            let maker = self.maker(entry.child)?;
            let made = maker.checked_sub(1).and_then(|at| self.makes.get(at)).ok_or("the root is found")?;
            let same = made.folder == folder && made.folder_maker == self.maker(folder)? && made.name == entry.name;
            if !same {
                return Err(format!("{:?} in {folder:?} was not made there under that name", entry.child));
            }
            tally.finds += 1;
        }
        Ok(())
    }

    /// A settled file is on its path, leaf for leaf.
    fn check_promise(&self, view: &Shown, promise: &Promise, tally: &mut Tally) -> Result<(), String> {
        let handle = walk(view, &promise.path).ok_or("a settled file is off its path")?;
        if self.maker(handle)? != promise.maker {
            return Err("the path of a settled file leads to another".to_string());
        }
        let slot = view.fits(handle).ok_or("a settled file is gone")?;
        let now = leaves(view, handle, &slot);
        if now != promise.leaves {
            return Err(format!("a settled file {handle:?} has other leaves"));
        }
        tally.kept += 1;
        tally.leaves += now.len();
        Ok(())
    }
}

/// What a path leads to by the reading rule.
fn walk(view: &Shown, path: &[Vec<u8>]) -> Option<Handle> {
    let mut at = ROOT;
    for name in path {
        let slot = view.fits(at)?;
        at = view.find(at.slot, &slot, name)?.1.child;
    }
    Some(at)
}

/// What reading each leaf gives; behind the last, every leaf gives the same refusal.
fn leaves(view: &Shown, handle: Handle, slot: &Slot) -> Vec<Result<Vec<u8>, Refusal>> {
    let one = |k: u16| match view.good(handle.slot, slot, k) {
        Some(body) => Ok(body.bytes),
        None => Err(Refusal::file(8, slot.numbers[k as usize])),
    };
    (0..slot.numbers.len() as u16).map(one).collect()
}
