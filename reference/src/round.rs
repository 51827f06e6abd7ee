//! The round trail: both arcs of every link in service just once, those of one
//! component after the other.

use crate::net::{Join, Joins, Net};
use crate::plant::Plant;
use std::ops::Range;

/// The round trail, both labels of every link in service.
pub struct Round {
    count: usize,
    label: [u16; Plant::MAX_ARCS],
    /// For each component, the hops up to its round trail's end.
    ends: Vec<usize>,
}

/// The state of the visit that writes the round trail.
struct Walk<'a> {
    net: &'a Net,
    joins: &'a Joins,
    visited: [bool; Plant::MAX_SWITCHES],
    crossed: [bool; Plant::MAX_LINKS],
    round: Round,
}

impl Walk<'_> {
    /// Crosses each link at a switch that is not crossed yet, finishes the far
    /// side if it is not visited yet, and crosses back.
    fn enter(&mut self, switch: usize) {
        self.visited[switch] = true;
        for Join { link, other } in self.joins.of(switch).iter().copied() {
            if self.crossed[usize::from(link)] {
                continue;
            }
            self.crossed[usize::from(link)] = true;
            let label = self.net.leaving(link, switch);
            self.round.push(label);
            if !self.visited[usize::from(other)] {
                self.enter(usize::from(other));
            }
            self.round.push(label ^ 1);
        }
    }
}

impl Round {
    pub fn new(net: &Net) -> Round {
        let mut walk = Walk {
            net,
            joins: &Joins::new(&net.plant),
            visited: [false; Plant::MAX_SWITCHES],
            crossed: [false; Plant::MAX_LINKS],
            round: Round {
                count: 0,
                label: [0; Plant::MAX_ARCS],
                ends: Vec::with_capacity(net.components.len()),
            },
        };
        for component in &net.components {
            walk.enter(usize::from(component.first));
            walk.round.ends.push(walk.round.count);
        }
        walk.round
    }

    /// Where a component's round trail is in the joined one.
    pub fn stretch(&self, component: usize) -> Range<usize> {
        let before = component
            .checked_sub(1)
            .map_or(0, |before| self.ends[before]);
        before..self.ends[component]
    }

    fn push(&mut self, label: u16) {
        self.label[self.count] = label;
        self.count += 1;
    }

    pub fn labels(&self) -> &[u16] {
        &self.label[..self.count]
    }

    /// The hops of the lent round trail, without spare places; none if they
    /// are not those of this one.
    pub fn hops_of<'t>(&self, lent: &'t [u16]) -> Option<&'t [u16]> {
        let hops = lent.get(..self.count)?;
        (hops == self.labels()).then_some(hops)
    }
}
