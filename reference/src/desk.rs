//! The desk: four consoles, each with its own switches and its own search.

use crate::plant::{Answer, Plant, Refusal};
use crate::search::Search;

/// A search and the switch that its packets are injected at.
#[derive(Clone, Copy, Debug, PartialEq, Eq)]
pub struct Begun {
    pub switch: u8,
    pub search: Search,
}

/// What the desk holds for one console: a set of switches, in which bit n
/// stands for switch n, and at most one search.
#[derive(Clone, Copy, Debug, Default, PartialEq, Eq)]
pub struct Console {
    pub set: u64,
    pub search: Option<Begun>,
}

impl Console {
    /// Refusal 20: a switch of the set is none of the plant's.
    pub(crate) fn check_for(&self, plant: &Plant) -> Answer<()> {
        // Wider than the set, so that as many switches as there can be shift all
        // of it out.
        let above = u128::from(self.set) >> plant.switches;
        (above == 0).then_some(()).ok_or(Refusal::SetOutOfRange)
    }

    /// Refusal 21 for a switch of the plant.
    pub(crate) fn check_switch(&self, switch: usize) -> Answer<()> {
        let inside = self.set >> switch & 1 == 1;
        inside.then_some(()).ok_or(Refusal::SwitchOutsideSet)
    }
}

/// What all consoles have. A fresh desk has empty sets and no search.
#[derive(Clone, Copy, Debug, Default, PartialEq, Eq)]
pub struct Desk {
    pub console: [Console; Desk::CONSOLES],
}

impl Desk {
    pub const CONSOLES: usize = 4;

    /// A console's part of the desk; refusal 19. A call of the console alters
    /// nothing else.
    pub(crate) fn at(&mut self, console: u8) -> Answer<&mut Console> {
        let part = self.console.get_mut(usize::from(console));
        part.ok_or(Refusal::ConsoleOutOfRange)
    }
}
