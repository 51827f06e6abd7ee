//! Distances over arcs in use, and the trail: those of the components, one after
//! the other.

use crate::net::Net;
use crate::plant::Plant;
use std::ops::Range;

/// Fewest hops over arcs in use between every two switches; 0 also where no way
/// leads.
pub type Distances = [[u8; Plant::MAX_SWITCHES]; Plant::MAX_SWITCHES];

/// The trail's crossings in turn, its stretches and its number of hops.
pub struct Trail<'n> {
    net: &'n Net,
    distances: Distances,
    /// Arcs in use by sending switch, then by rising label.
    out_at: [u16; Plant::MAX_SWITCHES + 1],
    out: [u16; Plant::MAX_RULES],
    /// The arcs in use in the order of their first crossing.
    crossings: [u16; Plant::MAX_RULES],
    /// For each component, the crossings and the hops up to its trail's end.
    ends: Vec<(usize, usize)>,
    /// The hops of all components.
    pub hops: usize,
}

/// The members of a set of switches.
fn members(mut set: u64) -> impl Iterator<Item = usize> {
    std::iter::from_fn(move || {
        (set != 0).then(|| {
            let least = set.trailing_zeros() as usize;
            set &= set - 1;
            least
        })
    })
}

/// Breadth-first from every switch, by sets of switches.
pub fn distances(net: &Net) -> Distances {
    let mut next = [0u64; Plant::MAX_SWITCHES];
    for label in net.used_labels() {
        let (from, to) = net.ends(label);
        next[from] |= 1 << to;
    }
    let mut table = [[0; Plant::MAX_SWITCHES]; Plant::MAX_SWITCHES];
    let switches = usize::from(net.plant.switches);
    for (from, row) in table.iter_mut().enumerate().take(switches) {
        let mut seen = 1u64 << from;
        let mut front = seen;
        let mut hops = 0;
        while front != 0 {
            let mut reached = 0;
            for switch in members(front) {
                row[switch] = hops;
                reached |= next[switch];
            }
            front = reached & !seen;
            seen |= front;
            hops += 1;
        }
    }
    table
}

/// No label: a hop that has not been looked up.
const NONE: u16 = u16::MAX;

impl<'n> Trail<'n> {
    pub fn new(net: &'n Net) -> Trail<'n> {
        let distances = distances(net);
        let mut out_at = [0; Plant::MAX_SWITCHES + 1];
        for label in net.used_labels() {
            out_at[net.ends(label).0 + 1] += 1;
        }
        for switch in 0..Plant::MAX_SWITCHES {
            out_at[switch + 1] += out_at[switch];
        }
        let mut free = out_at;
        let mut out = [0; Plant::MAX_RULES];
        for label in net.used_labels() {
            let place = &mut free[net.ends(label).0];
            out[usize::from(*place)] = label;
            *place += 1;
        }

        // Every switch on a shortest way to the nearest switch with an
        // uncrossed arc is nearer, so the way crosses no uncrossed arc, and
        // each switch's arcs are first crossed by rising label.
        let mut uncrossed = out_at;
        let mut open_in = [0u64; Plant::MAX_SWITCHES];
        for switch in 0..Plant::MAX_SWITCHES {
            if out_at[switch] < out_at[switch + 1] {
                open_in[net.component_of(switch)] |= 1 << switch;
            }
        }
        let mut crossings = [0; Plant::MAX_RULES];
        let mut ends = Vec::with_capacity(net.components.len());
        let mut count = 0;
        let mut hops = 0;
        for (component, mut open) in net.components.iter().zip(open_in) {
            let first = usize::from(component.first);
            let mut at = first;
            while open != 0 {
                let lowest = |switch: usize| out[usize::from(uncrossed[switch])];
                let from = if open >> at & 1 == 1 {
                    at
                } else {
                    // By distance, then by label.
                    let key = |switch: usize| {
                        u32::from(distances[at][switch]) << 16 | u32::from(lowest(switch))
                    };
                    members(open)
                        .min_by_key(|switch| key(*switch))
                        .unwrap_or(at)
                };
                let label = lowest(from);
                uncrossed[from] += 1;
                if uncrossed[from] == out_at[from + 1] {
                    open &= !(1 << from);
                }
                hops += usize::from(distances[at][from]) + 1;
                crossings[count] = label;
                count += 1;
                at = net.ends(label).1;
            }
            hops += usize::from(distances[at][first]);
            ends.push((count, hops));
        }
        Trail {
            net,
            distances,
            out_at,
            out,
            crossings,
            ends,
            hops,
        }
    }

    /// Where a component's trail is in the joined one.
    pub fn stretch(&self, component: usize) -> Range<usize> {
        let before = component
            .checked_sub(1)
            .map_or(0, |before| self.ends[before].1);
        before..self.ends[component].1
    }

    /// The lowest label of an arc in use at `at` that lessens the distance
    /// to `goal`.
    fn hop(&self, at: usize, goal: usize) -> u16 {
        let range = usize::from(self.out_at[at])..usize::from(self.out_at[at + 1]);
        let left = self.distances[at][goal];
        for label in &self.out[range] {
            if self.distances[self.net.ends(*label).1][goal] < left {
                return *label;
            }
        }
        unreachable!("every switch is reached over arcs in use")
    }

    /// Hands every label of the trail in turn to `take`, until it says no.
    /// Says whether it never did.
    pub fn each(&self, mut take: impl FnMut(u16) -> bool) -> bool {
        let mut known = [[NONE; Plant::MAX_SWITCHES]; Plant::MAX_SWITCHES];
        let mut go = |at: &mut usize, goal: usize, take: &mut dyn FnMut(u16) -> bool| {
            while *at != goal {
                let mut label = known[*at][goal];
                if label == NONE {
                    label = self.hop(*at, goal);
                    known[*at][goal] = label;
                }
                if !take(label) {
                    return false;
                }
                *at = self.net.ends(label).1;
            }
            true
        };
        let mut crossed = 0;
        for (component, (end, _)) in self.net.components.iter().zip(&self.ends) {
            let first = usize::from(component.first);
            let mut at = first;
            for label in &self.crossings[crossed..*end] {
                let (from, to) = self.net.ends(*label);
                if !go(&mut at, from, &mut take) || !take(*label) {
                    return false;
                }
                at = to;
            }
            crossed = *end;
            if !go(&mut at, first, &mut take) {
                return false;
            }
        }
        true
    }

    /// Writes the trail to the front of a buffer that is long enough.
    pub fn fill(&self, buffer: &mut [u16]) {
        let mut places = buffer.iter_mut();
        self.each(|label| match places.next() {
            Some(place) => {
                *place = label;
                true
            }
            None => false,
        });
    }

    /// Whether the lent trail, in its whole length, is this one.
    pub fn is(&self, lent: &[u16]) -> bool {
        let mut places = lent.iter();
        lent.len() == self.hops && self.each(|label| places.next() == Some(&label))
    }

    /// The hops of the lent trail, without spare places; none if they are not
    /// those of this one.
    pub fn hops_of<'t>(&self, lent: &'t [u16]) -> Option<&'t [u16]> {
        let hops = lent.get(..self.hops)?;
        self.is(hops).then_some(hops)
    }

    pub fn to_vec(&self) -> Vec<u16> {
        let mut buffer = vec![0; self.hops];
        self.fill(&mut buffer);
        buffer
    }
}
