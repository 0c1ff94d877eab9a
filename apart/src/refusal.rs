//! The refusals: a number, the layer that it is of, and a place.

use std::fmt;

/// Which part of the file system refuses.
#[derive(Clone, Copy, PartialEq, Eq, Debug)]
pub enum Layer {
    Device,
    Card,
    File,
}

#[derive(Clone, Copy, PartialEq, Eq, Debug)]
pub struct Refusal {
    pub number: u16,
    pub layer: Layer,
    pub place: u64,
}

impl Refusal {
    pub fn device(number: u16, place: u16) -> Refusal {
        Refusal { number, layer: Layer::Device, place: place.into() }
    }

    pub fn card(number: u16, place: u16) -> Refusal {
        Refusal { number, layer: Layer::Card, place: place.into() }
    }

    pub fn file(number: u16, place: u16) -> Refusal {
        Refusal { number, layer: Layer::File, place: place.into() }
    }

    /// A refusal of a file call whose place is a length.
    pub fn length(number: u16, length: usize) -> Refusal {
        Refusal { number, layer: Layer::File, place: length as u64 }
    }
}

impl fmt::Display for Refusal {
    fn fmt(&self, f: &mut fmt::Formatter) -> fmt::Result {
        let layer = match self.layer {
            Layer::Device => "device",
            Layer::Card => "card",
            Layer::File => "file",
        };
        write!(f, "refused {} {} {}", self.number, layer, self.place)
    }
}

/// What a path is refused with: the refusal met below, and the component from 0.
#[derive(Clone, Copy, PartialEq, Eq, Debug)]
pub struct PathRefusal {
    pub refusal: Refusal,
    pub component: usize,
}

impl fmt::Display for PathRefusal {
    fn fmt(&self, f: &mut fmt::Formatter) -> fmt::Result {
        write!(f, "{} at {}", self.refusal, self.component)
    }
}
