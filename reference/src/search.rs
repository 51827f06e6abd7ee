//! The search, its allowance, and the order quantity.

use crate::plant::{Answer, Plant, Refusal};

/// The state of a search. Checking and Halving end with the sendings of the
/// wanted probe that are lost so far.
#[derive(Clone, Copy, Debug, PartialEq, Eq)]
pub enum Search {
    Checking(u16, u8),
    Halving(u16, u16, u8),
    AllUp,
    Down(u16),
}

const MAX: u16 = Plant::MAX_LINKS as u16;

/// A probe counts as lost when so many sendings in a row are lost.
pub const SENDINGS: u8 = 3;

impl Search {
    /// A new search of a component with so many links in service.
    pub fn new(links: u16) -> Search {
        if links == 0 {
            Search::AllUp
        } else {
            Search::Checking(links, 0)
        }
    }

    /// The sendings lost so far; none in a search that has ended.
    pub fn lost(self) -> u8 {
        match self {
            Search::Checking(_, lost) | Search::Halving(_, _, lost) => lost,
            Search::AllUp | Search::Down(_) => 0,
        }
    }

    /// The state with so many sendings lost; a search that has ended as it is.
    pub fn having_lost(self, lost: u8) -> Search {
        match self {
            Search::Checking(count, _) => Search::Checking(count, lost),
            Search::Halving(low, high, _) => Search::Halving(low, high, lost),
            Search::AllUp | Search::Down(_) => self,
        }
    }

    /// Refusal 14 in a call without a listing.
    pub fn check(self) -> Answer<()> {
        let sound = match self {
            Search::Checking(number, _) | Search::Down(number) => (1..=MAX).contains(&number),
            Search::Halving(low, high, _) => 1 <= low && low < high && high <= MAX,
            Search::AllUp => true,
        };
        (sound && self.lost() < SENDINGS)
            .then_some(())
            .ok_or(Refusal::SearchUnsound)
    }

    /// Refusal 14 in a call with a listing, of a component with so many links in
    /// service.
    pub fn check_for(self, links: u16) -> Answer<()> {
        self.check()?;
        let fits = match self {
            Search::Checking(count, _) => count == links,
            Search::Halving(_, high, _) => high <= links,
            Search::AllUp => true,
            Search::Down(place) => place <= links,
        };
        fits.then_some(()).ok_or(Refusal::SearchUnsound)
    }

    /// The probe wanted, whatever is lost so far; refusals 14 and 15.
    pub fn ask(self) -> Answer<u16> {
        self.check()?;
        match self {
            Search::Checking(count, _) => Ok(count),
            Search::Halving(low, high, _) => Ok((low + high) / 2),
            Search::AllUp | Search::Down(_) => Err(Refusal::SearchEnded),
        }
    }

    /// The state after the wanted probe counts as home or lost; refusals 14
    /// and 15.
    pub fn count(self, home: bool) -> Answer<Search> {
        let m = self.ask()?;
        let (low, high) = match (self, home) {
            (Search::Halving(_, high, _), true) => (m + 1, high),
            (Search::Halving(low, _, _), false) => (low, m),
            (_, true) => return Ok(Search::AllUp),
            (_, false) => (1, m),
        };
        Ok(if low == high {
            Search::Down(low)
        } else {
            Search::Halving(low, high, 0)
        })
    }

    /// The state after one sending of the wanted probe; refusals 14 and 15.
    pub fn give(self, returned: bool) -> Answer<Search> {
        self.ask()?;
        let lost = self.lost() + 1;
        if !returned && lost < SENDINGS {
            Ok(self.having_lost(lost))
        } else {
            self.count(returned)
        }
    }
}

/// The allowance of a number of links: the least k with 2^k at least that
/// number; of 0 and 1 it is 0.
pub fn allowance(links: u16) -> u8 {
    match links {
        0 | 1 => 0,
        _ => (links - 1).ilog2() as u8 + 1,
    }
}

/// A rules and a spare of p percent, rounded up; refusal 17.
pub fn quantity(rules: u16, percent: u8) -> Answer<u32> {
    if percent > 100 {
        return Err(Refusal::SpareTooLarge);
    }
    let rules = u32::from(rules);
    Ok(rules + (rules * u32::from(percent)).div_ceil(100))
}
