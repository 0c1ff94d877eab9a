//! A plain image under a stack of devices.

use crate::format::{Block, ZEROS};
use crate::refusal::Refusal;

/// How many blocks wait in a buffered card at most.
const WAITING: usize = 8;
/// The place of a sync that meets power gone or cannot say.
pub const SYNC: u16 = 65535;

/// Which device a layer is.
#[derive(Clone, Copy, PartialEq, Eq, Debug)]
pub enum Sort {
    Buffered,
    Failing(u32),
}

/// A device of the stack, with what it has met since power came on.
enum Device {
    /// Holds blocks back, and remembers power gone.
    Buffered { waiting: Vec<(u16, Block)>, gone: bool },
    /// Passes a number of writes on, then has no power.
    Failing { left: u32, gone: bool },
}

/// An image and the devices over it, the outermost first.
pub struct Stack {
    pub image: Vec<Block>,
    devices: Vec<Device>,
    /// The writes asked of the outermost device since `forget`, also the one that met power gone.
    pub asked: Vec<(u16, Block)>,
}

impl Stack {
    /// A plain image of zeros.
    pub fn new(count: usize) -> Stack {
        Stack { image: vec![ZEROS; count], devices: Vec::new(), asked: Vec::new() }
    }

    /// Power goes and comes: new devices over the image as it is. What waited is lost.
    pub fn power_on(&mut self, sorts: &[Sort]) {
        self.devices = sorts
            .iter()
            .map(|sort| match *sort {
                Sort::Buffered => Device::Buffered { waiting: Vec::new(), gone: false },
                Sort::Failing(left) => Device::Failing { left, gone: false },
            })
            .collect();
    }

    /// Forgets which writes were asked.
    pub fn forget(&mut self) {
        self.asked.clear();
    }

    pub fn count(&self) -> usize {
        self.image.len()
    }

    /// What a block shows through all devices, whether or not there is power.
    pub fn shown(&self, block: u16) -> &Block {
        for device in &self.devices {
            if let Device::Buffered { waiting, .. } = device {
                if let Some((_, bytes)) = waiting.iter().find(|w| w.0 == block) {
                    return bytes;
                }
            }
        }
        &self.image[block as usize]
    }

    /// Reads a block; power is lost at writes and syncs only, so a device that has met it says so.
    pub fn read(&self, block: u16) -> Result<&Block, Refusal> {
        let gone = self.devices.iter().any(|device| match device {
            Device::Buffered { gone, .. } | Device::Failing { gone, .. } => *gone,
        });
        if gone {
            return Err(Refusal::device(1, block));
        }
        if block as usize >= self.count() {
            return Err(Refusal::device(19, block));
        }
        Ok(self.shown(block))
    }

    pub fn write(&mut self, block: u16, bytes: &Block) -> Result<(), Refusal> {
        self.asked.push((block, *bytes));
        self.write_at(0, block, bytes)
    }

    pub fn sync(&mut self) -> Result<(), Refusal> {
        self.sync_at(0)
    }

    /// A write to the device at a depth of the stack.
    fn write_at(&mut self, depth: usize, block: u16, bytes: &Block) -> Result<(), Refusal> {
        match self.devices.get(depth) {
            None => self.write_image(block, bytes),
            Some(Device::Failing { .. }) => self.write_failing(depth, block, bytes),
            Some(Device::Buffered { .. }) => self.write_buffered(depth, block, bytes),
        }
    }

    fn write_image(&mut self, block: u16, bytes: &Block) -> Result<(), Refusal> {
        let place = self.image.get_mut(block as usize).ok_or(Refusal::device(19, block))?;
        *place = *bytes;
        Ok(())
    }

    fn write_failing(&mut self, depth: usize, block: u16, bytes: &Block) -> Result<(), Refusal> {
        if let Device::Failing { left, gone } = &mut self.devices[depth] {
            if *gone || *left == 0 {
                *gone = true;
                return Err(Refusal::device(1, block));
            }
        }
        let answer = self.write_at(depth + 1, block, bytes);
        if let Device::Failing { left, gone } = &mut self.devices[depth] {
            match answer {
                Ok(()) => *left -= 1,
                Err(refusal) => *gone = refusal.number == 1,
            }
        }
        answer
    }

    fn write_buffered(&mut self, depth: usize, block: u16, bytes: &Block) -> Result<(), Refusal> {
        if self.is_gone(depth) {
            return Err(Refusal::device(1, block));
        }
        if block as usize >= self.count() {
            return Err(Refusal::device(19, block));
        }
        let waiting = self.waiting(depth);
        if let Some(place) = waiting.iter_mut().find(|w| w.0 == block) {
            place.1 = *bytes;
            return Ok(());
        }
        if waiting.len() == WAITING {
            self.send_highest(depth).map_err(|()| Refusal::device(1, block))?;
        }
        self.waiting(depth).push((block, *bytes));
        Ok(())
    }

    /// Sends the waiting block with the highest number down. If that fails it goes on waiting.
    fn send_highest(&mut self, depth: usize) -> Result<(), ()> {
        let Some(&(block, bytes)) = self.waiting(depth).iter().max_by_key(|w| w.0) else { return Ok(()) };
        match self.write_at(depth + 1, block, &bytes) {
            Ok(()) => {
                self.waiting(depth).retain(|w| w.0 != block);
                Ok(())
            }
            Err(_) => {
                self.lose(depth);
                Err(())
            }
        }
    }

    fn sync_at(&mut self, depth: usize) -> Result<(), Refusal> {
        match self.devices.get(depth) {
            None => Ok(()),
            Some(_) if self.is_gone(depth) => Err(Refusal::device(1, SYNC)),
            Some(Device::Failing { .. }) => self.sync_at(depth + 1),
            Some(Device::Buffered { .. }) => {
                while !self.waiting(depth).is_empty() {
                    self.send_highest(depth).map_err(|()| Refusal::device(1, SYNC))?;
                }
                let answer = self.sync_at(depth + 1);
                if answer.is_err() {
                    self.lose(depth);
                }
                answer
            }
        }
    }

    fn is_gone(&self, depth: usize) -> bool {
        match &self.devices[depth] {
            Device::Buffered { gone, .. } | Device::Failing { gone, .. } => *gone,
        }
    }

    fn lose(&mut self, depth: usize) {
        match &mut self.devices[depth] {
            Device::Buffered { gone, .. } | Device::Failing { gone, .. } => *gone = true,
        }
    }

    /// The waiting blocks of a buffered card.
    fn waiting(&mut self, depth: usize) -> &mut Vec<(u16, Block)> {
        match &mut self.devices[depth] {
            Device::Buffered { waiting, .. } => waiting,
            Device::Failing { .. } => unreachable!("only a buffered card has waiting blocks"),
        }
    }
}
