//! Generator of plants, of links out of service, of damaged listings, of buying
//! pages and of calls of the desk.

use crate::calls;
use crate::desk::{Begun, Console, Desk};
use crate::listing;
use crate::net::Net;
use crate::page::{self, Counts};
use crate::plant::{Answer, Link, Plant};
use crate::search::Search;
use std::ops::Range;

/// A small generator of pseudo-random numbers with a fixed course for each
/// seed.
pub struct Chance(u64);

impl Chance {
    pub fn new(seed: u64) -> Chance {
        Chance(seed)
    }

    pub fn draw(&mut self) -> u64 {
        self.0 = self.0.wrapping_add(0x9e37_79b9_7f4a_7c15);
        let mut mixed = self.0;
        mixed = (mixed ^ mixed >> 30).wrapping_mul(0xbf58_476d_1ce4_e5b9);
        mixed = (mixed ^ mixed >> 27).wrapping_mul(0x94d0_49bb_1331_11eb);
        mixed ^ mixed >> 31
    }

    /// A number below `bound`, which is not 0.
    pub fn below(&mut self, bound: usize) -> usize {
        ((u128::from(self.draw()) * bound as u128) >> 64) as usize
    }

    /// A number from `least` to `most`.
    pub fn within(&mut self, least: usize, most: usize) -> usize {
        least + self.below(most - least + 1)
    }

    /// True so many times in a hundred.
    pub fn percent(&mut self, times: usize) -> bool {
        self.below(100) < times
    }

    pub fn byte(&mut self) -> u8 {
        self.below(256) as u8
    }

    pub fn word(&mut self) -> u16 {
        self.below(1 << 16) as u16
    }

    pub fn of<T: Copy>(&mut self, choices: &[T]) -> T {
        choices[self.below(choices.len())]
    }

    /// A place in weights, each as likely as its weight says.
    pub fn weighed(&mut self, weights: &[usize]) -> usize {
        let mut left = self.below(weights.iter().sum());
        weights
            .iter()
            .position(|weight| {
                let here = left < *weight;
                left = left.saturating_sub(*weight);
                here
            })
            .unwrap_or(0)
    }

    pub fn shuffle<T>(&mut self, list: &mut [T]) {
        for last in (1..list.len()).rev() {
            let other = self.below(last + 1);
            list.swap(last, other);
        }
    }
}

/// A plant in the making: pairs of switches.
#[derive(Clone, Debug, Default)]
pub struct Sketch {
    pub switches: usize,
    pub pairs: Vec<(usize, usize)>,
}

pub fn path(switches: usize) -> Sketch {
    Sketch {
        switches,
        pairs: (1..switches).map(|switch| (switch - 1, switch)).collect(),
    }
}

pub fn star(switches: usize) -> Sketch {
    Sketch {
        switches,
        pairs: (1..switches).map(|switch| (0, switch)).collect(),
    }
}

pub fn tree(chance: &mut Chance, switches: usize) -> Sketch {
    Sketch {
        switches,
        pairs: (1..switches)
            .map(|switch| (chance.below(switch), switch))
            .collect(),
    }
}

/// A ring; of two switches, two parallel links; of one, no link.
pub fn cycle(switches: usize) -> Sketch {
    let mut sketch = path(switches);
    if switches > 1 {
        sketch.pairs.push((switches - 1, 0));
    }
    sketch
}

/// A ring with tails: of so many switches in all, the first in the ring.
pub fn tailed(chance: &mut Chance, ring: usize, switches: usize) -> Sketch {
    let mut sketch = cycle(ring);
    while sketch.switches < switches {
        let at = chance.below(sketch.switches);
        sketch.pairs.push((at, sketch.switches));
        sketch.switches += 1;
    }
    sketch
}

/// Rings of so many switches, each joined by one cable to those before.
pub fn rings(chance: &mut Chance, sizes: &[usize]) -> Sketch {
    let mut sketch = Sketch::default();
    for size in sizes {
        let before = sketch.switches;
        sketch = sketch.beside(&cycle(*size));
        if before > 0 {
            let one = chance.below(before);
            let other = before + chance.below(*size);
            sketch.pairs.push((one, other));
        }
    }
    sketch
}

/// So many parallel links between two switches.
pub fn bundle(links: usize) -> Sketch {
    Sketch {
        switches: 2,
        pairs: vec![(0, 1); links],
    }
}

/// A path, and a last switch that is joined to each switch of it: a visit
/// from the path's first switch comes to the last one at its end.
pub fn fan(switches: usize) -> Sketch {
    let hub = switches - 1;
    let mut sketch = path(hub);
    sketch.switches = switches;
    sketch.pairs.extend((0..hub).map(|switch| (hub, switch)));
    sketch
}

/// One link between every two switches.
pub fn complete(switches: usize) -> Sketch {
    Sketch {
        switches,
        pairs: (1..switches)
            .flat_map(|one| (0..one).map(move |other| (other, one)))
            .collect(),
    }
}

/// The plant of source document 003, Table I, with s1 as switch 0.
pub fn table_one() -> Sketch {
    Sketch {
        switches: 7,
        pairs: vec![
            (0, 4),
            (4, 1),
            (1, 2),
            (2, 5),
            (5, 6),
            (6, 3),
            (3, 2),
            (5, 4),
            (1, 0),
        ],
    }
}

/// A path and so many links from its last switch back to its first. Its
/// trail goes round once for each of them.
pub fn long(switches: usize, back: usize) -> Sketch {
    let mut sketch = path(switches);
    for _ in 0..back {
        sketch.pairs.push((switches - 1, 0));
    }
    sketch
}

/// A path with random links besides, so many in all: the visit enters each
/// switch from the one before.
pub fn deep(chance: &mut Chance, switches: usize, links: usize) -> Sketch {
    path(switches).extend(chance, links - (switches - 1))
}

impl Sketch {
    /// Adds random links between different switches.
    fn extend(mut self, chance: &mut Chance, links: usize) -> Sketch {
        for _ in 0..links {
            let one = chance.below(self.switches);
            let other = (one + 1 + chance.below(self.switches - 1)) % self.switches;
            self.pairs.push((one, other));
        }
        self
    }

    /// Every link twice, the second time after all the others.
    pub fn doubled(mut self) -> Sketch {
        self.pairs.extend_from_within(..);
        self
    }

    /// Adds another sketch's switches and links, without joining them.
    pub fn beside(mut self, other: &Sketch) -> Sketch {
        let shift = self.switches;
        self.switches += other.switches;
        self.pairs.extend(
            other
                .pairs
                .iter()
                .map(|(one, two)| (one + shift, two + shift)),
        );
        self
    }

    /// The plant as it stands: start 0, tags 0.
    pub fn plain(&self) -> Plant {
        let mut plant = Plant::EMPTY;
        plant.switches = self.switches as u8;
        plant.links = self.pairs.len() as u16;
        for (place, (one, two)) in plant.link.iter_mut().zip(&self.pairs) {
            *place = Link {
                first: *one as u8,
                second: *two as u8,
                ..Link::default()
            };
        }
        plant
    }

    /// The plant with switches renamed, links in another order, ends turned,
    /// some start and some tags; each of these now and then left out.
    pub fn mixed(&self, chance: &mut Chance) -> Plant {
        let mut names: Vec<usize> = (0..self.switches).collect();
        if chance.percent(70) {
            chance.shuffle(&mut names);
        }
        let mut sketch = self.clone();
        if chance.percent(60) {
            chance.shuffle(&mut sketch.pairs);
        }
        let turn = chance.of(&[0, 0, 50, 50, 100]);
        for pair in &mut sketch.pairs {
            *pair = (names[pair.0], names[pair.1]);
            if chance.percent(turn) {
                *pair = (pair.1, pair.0);
            }
        }
        let mut plant = sketch.plain();
        if chance.percent(70) {
            plant.start = chance.below(self.switches) as u8;
        }
        let tagged = chance.of(&[0, 0, 30, 100]);
        let links = usize::from(plant.links);
        for place in &mut plant.link[..links] {
            if chance.percent(tagged) {
                place.tag = match chance.below(3) {
                    0 => chance.below(256) as u16,
                    1 => (chance.below(256) << 8) as u16,
                    _ => chance.word(),
                };
            }
        }
        plant
    }
}

/// A joined sketch of some kind with at most so many switches and links.
pub fn joined(chance: &mut Chance, switches: usize, links: usize) -> Sketch {
    // Any kind below has a spanning tree and at most one link more.
    let most = switches.min(links).max(1);
    let size = chance.within(1, most);
    let small = chance.within(1, size);
    let room = |sketch: &Sketch| links - sketch.pairs.len();
    match chance.below(13) {
        0 => tree(chance, size),
        1 => path(size),
        2 => star(size),
        3 => cycle(size),
        // A ring with tails.
        4 | 5 => tailed(chance, small, size),
        // Two rings joined by one cable: one link more than a ring.
        6 | 7 if size >= 2 && size < links => {
            let first = chance.within(1, size - 1);
            rings(chance, &[first, size - first])
        }
        // A few links more than a tree.
        8 | 9 if size >= 2 => {
            let sketch = tree(chance, size);
            let more = chance.below(room(&sketch).min(5) + 1);
            sketch.extend(chance, more)
        }
        // Any number of links more than a tree.
        10 if size >= 2 => {
            let sketch = tree(chance, size);
            let more = chance.below(room(&sketch) + 1);
            sketch.extend(chance, more)
        }
        // Parallel links.
        11 => {
            let mut sketch = tree(chance, size);
            let base = sketch.pairs.clone();
            for pair in base {
                if room(&sketch) > 0 && chance.percent(50) {
                    sketch.pairs.push(pair);
                }
            }
            sketch
        }
        // Long ways round.
        _ => {
            let size = small.max(2).min(most);
            let back = if size >= 2 {
                chance.below((links - (size - 1)).min(12) + 1)
            } else {
                0
            };
            long(size, back)
        }
    }
}

/// A joined sketch with exactly so many switches and links.
pub fn exact(chance: &mut Chance, switches: usize, links: usize) -> Sketch {
    let sketch = tree(chance, switches);
    let more = links - sketch.pairs.len();
    sketch.extend(chance, more)
}

/// A sketch in which some switch is not joined to the others.
pub fn apart(chance: &mut Chance, switches: usize, links: usize) -> Sketch {
    let one = joined(chance, (switches / 2).max(1), links / 2);
    let other = joined(chance, (switches / 2).max(1), links / 2);
    match chance.below(3) {
        0 => one.beside(&other),
        1 => one.beside(&path(1)),
        _ => path(1).beside(&one),
    }
}

/// Joined sketches beside each other, single switches among them, from two to
/// five, with at most so many switches, two at least, and links.
pub fn several(chance: &mut Chance, switches: usize, links: usize) -> Sketch {
    let count = chance.within(2, switches.min(5));
    let mut sketch = Sketch::default();
    for after in (0..count).rev() {
        let room = switches - sketch.switches - after;
        let most = chance.within(room.div_ceil(after + 1), room);
        let part = if chance.percent(20) {
            path(1)
        } else {
            joined(chance, most, links - sketch.pairs.len())
        };
        sketch = sketch.beside(&part);
    }
    sketch
}

/// A listing in the making: values with bits of the map that are set in any
/// case, those of fields forced to be present and that of a link out of service.
#[derive(Clone, Debug)]
struct Loose {
    header: ([u16; 3], u8),
    records: Vec<([u16; 3], u8)>,
}

impl Loose {
    fn new(plant: &Plant) -> Loose {
        Loose {
            header: (
                [
                    u16::from(plant.switches),
                    plant.links,
                    u16::from(plant.start),
                ],
                0,
            ),
            records: plant
                .records()
                .iter()
                .map(|link| {
                    let values = [u16::from(link.first), u16::from(link.second), link.tag];
                    let mark = if link.out_of_service {
                        listing::OUT_OF_SERVICE
                    } else {
                        0
                    };
                    (values, mark)
                })
                .collect(),
        }
    }

    /// The bytes, and where each part begins.
    fn bytes(&self) -> (Vec<u8>, Vec<usize>) {
        let mut bytes = Vec::new();
        let mut begins = Vec::new();
        let mut part = |(values, forced): ([u16; 3], u8), absent: [u16; 3], wide: usize| {
            begins.push(bytes.len());
            let map = bytes.len();
            bytes.push(forced);
            for bit in 0..3 {
                if values[bit] != absent[bit] || forced >> bit & 1 == 1 {
                    bytes[map] |= 1 << bit;
                    let [low, high] = values[bit].to_le_bytes();
                    bytes.push(low);
                    if bit == wide {
                        bytes.push(high);
                    }
                }
            }
        };
        part(self.header, [1, 0, 0], 1);
        let mut before = [0, 0];
        for record in &self.records {
            part(*record, [before[0], before[1], 0], 2);
            before = [record.0[0], record.0[1]];
        }
        (bytes, begins)
    }

    fn needless(&mut self, chance: &mut Chance) {
        let place = chance.below(self.records.len() + 1);
        let (natural, forced) = match place {
            0 => ([1, 0, 0], &mut self.header),
            1 => ([0, 0, 0], &mut self.records[0]),
            _ => {
                let before = self.records[place - 2].0;
                ([before[0], before[1], 0], &mut self.records[place - 1])
            }
        };
        let absent: Vec<usize> = (0..3)
            .filter(|bit| forced.0[*bit] == natural[*bit])
            .collect();
        if absent.is_empty() {
            forced.0[2] = 0;
            forced.1 |= 4;
        } else {
            forced.1 |= 1 << chance.of(&absent);
        }
    }

    fn bad_header(&mut self, chance: &mut Chance) {
        let values = &mut self.header.0;
        match chance.below(5) {
            0 => values[0] = 0,
            1 => values[0] = chance.of(&[65, 66, 127, 128, 200, 255]),
            2 => values[1] = chance.of(&[257, 258, 300, 511, 512, 1000, 0x8001, 0xffff]),
            3 => values[2] = values[0],
            _ => values[2] = (values[0] + chance.below(150) as u16).min(255),
        }
    }

    fn bad_end(&mut self, chance: &mut Chance) {
        if self.records.is_empty() {
            self.header.0[1] = 1;
            self.records.push(([0, 1, 0], 0));
        }
        let switches = usize::from(self.header.0[0]).min(255);
        let place = chance.below(self.records.len());
        let above = chance.within(switches, 255);
        let end = chance.of(&[switches, switches, 255, above]) as u16;
        let values = &mut self.records[place].0;
        match chance.below(3) {
            0 => values[0] = end,
            1 => values[1] = end,
            _ => (values[0], values[1]) = (end, end),
        }
    }

    fn self_link(&mut self, chance: &mut Chance) {
        if self.records.is_empty() {
            self.header.0[1] = 1;
            self.records.push(([0, 0, 0], 0));
        }
        let place = chance.below(self.records.len());
        let values = &mut self.records[place].0;
        if chance.percent(50) {
            values[0] = values[1];
        } else {
            values[1] = values[0];
        }
    }
}

/// A listing of the plant damaged in some way, at times in several. Few of
/// them are sound after all.
pub fn damaged(chance: &mut Chance, plant: &Plant) -> Vec<u8> {
    let mut loose = Loose::new(plant);
    let kind = chance.below(16);
    match kind {
        0 | 1 => loose.needless(chance),
        2 => loose.bad_header(chance),
        3 => loose.bad_end(chance),
        4 => loose.self_link(chance),
        5 | 6 => {
            for _ in 0..chance.within(2, 3) {
                match chance.below(4) {
                    0 => loose.needless(chance),
                    1 => loose.bad_header(chance),
                    2 => loose.bad_end(chance),
                    _ => loose.self_link(chance),
                }
            }
        }
        7 => {
            // Another link count than there are records.
            let count = &mut loose.header.0[1];
            *count = if chance.percent(50) {
                (*count + 1).min(Plant::MAX_LINKS as u16)
            } else {
                count.saturating_sub(1)
            };
        }
        _ => {}
    }
    let (mut bytes, begins) = loose.bytes();
    let kind = if kind < 5 {
        16
    } else if kind < 8 {
        chance.within(8, 23)
    } else {
        kind
    };
    let part = chance.below(begins.len());
    let begin = begins[part];
    let end = begins.get(part + 1).copied().unwrap_or(bytes.len());
    match kind {
        // Cut before a part.
        8 => bytes.truncate(begin),
        // An undefined bit; in a record's map bit 3 is the mark of a link out of
        // service.
        9 => bytes[begin] |= 8 << chance.below(5),
        // Cut within a part.
        10 => bytes.truncate(chance.within(begin + 1, (end - 1).max(begin + 1))),
        // Bytes after the last record.
        11 => {
            for _ in 0..chance.within(1, 4) {
                bytes.push(chance.of(&[0, 0, 1, 2, 3, 255]));
            }
        }
        // One byte changed, left out or put in.
        12 => {
            let at = chance.below(bytes.len());
            bytes[at] = small(chance);
        }
        13 => {
            bytes.remove(chance.below(bytes.len()));
        }
        14 => bytes.insert(chance.below(bytes.len() + 1), small(chance)),
        // No listing at all.
        15 => bytes = noise(chance),
        _ => {}
    }
    bytes
}

/// How many ways there are to choose the links that are put out of service.
pub const MARKINGS: usize = 12;

/// The plant with the links of these numbers out of service, besides those
/// that are.
pub fn marked(mut plant: Plant, links: &[usize]) -> Plant {
    for link in links {
        plant.link[*link].out_of_service = true;
    }
    plant
}

/// The plant with every link in service.
pub fn unmarked(mut plant: Plant) -> Plant {
    for place in &mut plant.link {
        place.out_of_service = false;
    }
    plant
}

/// The numbers of links to be put out of service, chosen in one of some ways;
/// none where a plant has no such link.
pub fn marking(chance: &mut Chance, plant: &Plant, way: usize) -> Vec<usize> {
    let links = usize::from(plant.links);
    let whole = |marks: &[usize]| Net::new(marked(plant.clone(), marks)).is_joined();
    let beside = |one: usize| -> Vec<usize> {
        let ends = |number: usize| {
            let Link { first, second, .. } = plant.link[number];
            (first.min(second), first.max(second))
        };
        (0..links)
            .filter(|other| ends(*other) == ends(one))
            .collect()
    };
    let mut numbers: Vec<usize> = (0..links).collect();
    if links == 0 {
        return numbers;
    }
    let one_of = |chance: &mut Chance, some: &[usize]| match some {
        [] => Vec::new(),
        _ => vec![chance.of(some)],
    };
    match way {
        // The first record, the last, both, all.
        0 => vec![0],
        1 => vec![links - 1],
        2 => vec![0, links - 1],
        3 => numbers,
        // A link without which the plant is apart, and one that is no such.
        4 | 5 => {
            numbers.retain(|number| whole(&[*number]) == (way == 5));
            one_of(chance, &numbers)
        }
        // One of parallel links, all but one, and all.
        6..=8 => {
            numbers.retain(|number| beside(*number).len() > 1);
            let one = one_of(chance, &numbers);
            match (way, &one[..]) {
                (7, [one]) => {
                    let others = beside(*one).into_iter();
                    others.filter(|other| other != one).collect()
                }
                (8, [one]) => beside(*one),
                _ => one,
            }
        }
        // As many as can be without which the plant is whole.
        9 => {
            chance.shuffle(&mut numbers);
            let mut marks = Vec::new();
            for number in numbers {
                marks.push(number);
                if !whole(&marks) {
                    marks.pop();
                }
            }
            marks
        }
        // Any.
        _ => {
            let times = chance.of(&[10, 30, 60]);
            numbers.retain(|_| chance.percent(times));
            numbers
        }
    }
}

/// The plant with so many links more, out of service, at any places of the
/// listing: beside the link before, beside another, or between any switches.
/// A plant of one switch as it is.
pub fn with_unplugged(chance: &mut Chance, plant: &Plant, more: usize) -> Plant {
    let switches = usize::from(plant.switches);
    let mut plant = plant.clone();
    for _ in 0..more {
        let links = usize::from(plant.links);
        if switches == 1 || links == Plant::MAX_LINKS {
            break;
        }
        let any = chance.below(links + 1);
        let at = chance.of(&[0, links, any, any]);
        let one = chance.below(switches);
        let two = (one + 1 + chance.below(switches - 1)) % switches;
        let mut link = Link {
            first: one as u8,
            second: two as u8,
            ..Link::default()
        };
        if links > 0 && chance.percent(50) {
            let beside = chance.below(links);
            link = plant.link[chance.of(&[beside, at.saturating_sub(1)])];
        }
        link.out_of_service = true;
        link.tag = chance.of(&[0, 0, 1, 256, 0xffff]);
        plant.link.copy_within(at..links, at + 1);
        plant.link[at] = link;
        plant.links += 1;
    }
    plant
}

/// A listing that meets a refusal, 1 to 8, at a link out of service or next to
/// it; of a plant that has such a link.
pub fn faulty(chance: &mut Chance, plant: &Plant, refusal: u8) -> Vec<u8> {
    let mut loose = Loose::new(plant);
    let links = 0..usize::from(plant.links);
    let marked: Vec<usize> = links
        .filter(|number| plant.link[*number].out_of_service)
        .collect();
    let place = chance.of(&marked);
    let above = chance.of(&[plant.switches, plant.switches + 1, 255]);
    let (values, forced) = &mut loose.records[place];
    match refusal {
        3 => values[2] = chance.of(&[1, 256, 0xffff]),
        4 => {
            values[2] = 0;
            *forced |= 4;
        }
        5 => loose.bad_header(chance),
        6 => values[chance.below(2)] = u16::from(above),
        7 => {
            let from = chance.below(2);
            values[1 - from] = values[from];
        }
        _ => {}
    }
    let (mut bytes, begins) = loose.bytes();
    let begin = begins[place + 1];
    let end = begins.get(place + 2).copied().unwrap_or(bytes.len());
    match refusal {
        1 if end < bytes.len() => bytes.truncate(chance.of(&[begin, end])),
        1 => bytes.truncate(begin),
        2 => bytes[begin] |= 16 << chance.below(4),
        3 => bytes.truncate(chance.within(begin + 1, end - 1)),
        8 => bytes.push(chance.of(&[0, 8, 255])),
        _ => {}
    }
    bytes
}

/// Makes a plant value unsound, if not always.
pub fn spoil(chance: &mut Chance, plant: &mut Plant, given: &mut usize) {
    let links = usize::from(plant.links).min(Plant::MAX_LINKS);
    match chance.below(10) {
        0 => plant.switches = chance.of(&[0, 65, 128, 255]),
        1 => plant.start = chance.of(&[plant.switches, 64, 255]),
        2 => plant.links = chance.of(&[257, 258, 512, 0x8000, 0xffff]),
        3 | 4 => {
            // A place past the last link is not zero.
            if links < Plant::MAX_LINKS {
                let place = (links + chance.of(&[0, 0, 1, 5])).min(Plant::MAX_LINKS - 1);
                match chance.below(3) {
                    0 => plant.link[place].first = 1,
                    1 => plant.link[place].second = 1,
                    _ => plant.link[place].tag = chance.of(&[1, 256]),
                }
                *given = (*given).max(place + 1);
            }
        }
        // A place short of the last link is all zero.
        5 => {
            if links > 0 {
                let place = chance.below(links);
                plant.link[place] = Link::default();
            }
        }
        6 | 7 => {
            if links > 0 {
                let place = chance.below(links);
                let end = chance.of(&[plant.switches, 64, 255]);
                if chance.percent(50) {
                    plant.link[place].first = end;
                } else {
                    plant.link[place].second = end;
                }
            }
        }
        8 => {
            if links > 0 {
                let place = chance.below(links);
                plant.link[place].first = plant.link[place].second;
            }
        }
        // More links than are told.
        _ => {
            if links < Plant::MAX_LINKS {
                plant.links = links as u16 + 1;
            }
        }
    }
}

/// A byte that is more often small than not.
fn small(chance: &mut Chance) -> u8 {
    match chance.below(4) {
        0 => chance.below(4) as u8,
        1 => chance.below(8) as u8,
        2 => chance.below(70) as u8,
        _ => chance.byte(),
    }
}

/// Some bytes, more often small than not.
pub fn noise(chance: &mut Chance) -> Vec<u8> {
    let most = chance.of(&[2, 4, 8, 16, 40]);
    (0..chance.below(most + 1))
        .map(|_| {
            if chance.percent(60) {
                chance.below(4) as u8
            } else {
                small(chance)
            }
        })
        .collect()
}

/// The plant with the longest listing: every field is given.
pub fn longest_listing() -> Plant {
    let mut plant = Plant::EMPTY;
    plant.switches = Plant::MAX_SWITCHES as u8;
    plant.links = Plant::MAX_LINKS as u16;
    plant.start = plant.switches - 1;
    let ring = Plant::MAX_SWITCHES - 1;
    for (number, place) in plant.link.iter_mut().enumerate() {
        let first = 1 + number % ring;
        *place = Link {
            first: first as u8,
            second: ((first + 1 + number / ring) % Plant::MAX_SWITCHES) as u8,
            tag: 0x0101 + number as u16,
            ..Link::default()
        };
    }
    plant
}

/// The listing of a plant that the writer accepts.
pub fn listing_of(plant: &Plant) -> Vec<u8> {
    listing::write_vec(plant).expect("a plant that can be written")
}

/// A number of one to three digits.
fn to_three_digits(chance: &mut Chance) -> u16 {
    let any = chance.below(1000) as u16;
    chance.of(&[any, any, any, 0, 1, 9, 10, 99, 100, 999])
}

/// Counts that a page of so many switches can tell, of no plan.
pub fn made_up(chance: &mut Chance, switches: usize) -> Counts {
    // The total is parted among the switches.
    let total = to_three_digits(chance);
    let mut parts: Vec<u16> = (1..switches)
        .map(|_| chance.within(0, usize::from(total)) as u16)
        .collect();
    parts.push(total);
    parts.sort_unstable();
    let mut before = 0;
    let mut each = Vec::new();
    for part in parts {
        each.push((part - before, to_three_digits(chance)));
        before = part;
    }
    Counts::told(&each, total, to_three_digits(chance))
}

/// A buying page in the making: its lines, which may become longer or shorter.
#[derive(Clone, Debug)]
pub struct Draft {
    pub lines: Vec<Vec<u8>>,
}

/// Where the fields of a line are.
const FIELDS: [Range<usize>; 3] = [0..6, 6..14, 14..22];

impl Draft {
    pub fn new(counts: &Counts) -> Draft {
        let text = page::text(counts);
        let lines = text.as_bytes().chunks(page::LINE);
        Draft {
            lines: lines.map(<[u8]>::to_vec).collect(),
        }
    }

    pub fn bytes(&self) -> Vec<u8> {
        self.lines.concat()
    }

    /// Line and field of every number.
    pub fn numbers(&self) -> Vec<(usize, usize)> {
        let last = self.lines.len() - 1;
        (0..=last)
            .flat_map(|line| (0..3).map(move |field| (line, field)))
            .filter(|place| *place != (last, 0))
            .collect()
    }

    /// What a field holds besides spaces.
    pub fn text(&self, (line, field): (usize, usize)) -> String {
        let field = &self.lines[line][FIELDS[field].clone()];
        String::from_utf8_lossy(field).trim().to_string()
    }

    /// The bytes from where a field's text begins to the field's end; of an
    /// empty field, all.
    pub fn digits(&mut self, (line, field): (usize, usize)) -> &mut [u8] {
        let field = &mut self.lines[line][FIELDS[field].clone()];
        let spaces = field.iter().take_while(|byte| **byte == b' ').count();
        let begin = spaces % field.len();
        &mut field[begin..]
    }

    /// Puts a text at the right of a field, with spaces before it.
    pub fn put(&mut self, (line, field): (usize, usize), text: &str) {
        let place = FIELDS[field].clone();
        let text = format!("{text:>width$}", width = place.len());
        self.lines[line][place].copy_from_slice(text.as_bytes());
    }

    /// The draft with a text at the right of a field.
    pub fn with(&self, place: (usize, usize), text: &str) -> Draft {
        let mut draft = self.clone();
        draft.put(place, text);
        draft
    }

    /// The draft with a field's number at the field's left.
    pub fn at_left(&self, place: (usize, usize)) -> Draft {
        let width = FIELDS[place.1].len();
        self.with(place, &format!("{:<width$}", self.text(place)))
    }

    /// The draft with a field one column to the right, past the field's end.
    pub fn to_the_right(&self, (line, field): (usize, usize)) -> Draft {
        let mut draft = self.clone();
        let Range { start, end } = FIELDS[field];
        draft.lines[line][start..=end].rotate_right(1);
        draft
    }

    /// Counts every switch one higher from a line on.
    pub fn count_up(&mut self, from: usize) {
        for line in from..self.lines.len() - 1 {
            let switch: usize = self.text((line, 0)).parse().unwrap_or(line);
            self.put((line, 0), &(switch + 1).to_string());
        }
    }
}

/// Words for the first field of the last line that are not the right one.
pub const NOT_TOTAL: [&str; 16] = [
    " total", "Total ", "TOTAL ", "tOtal ", "totals", "total.", "total0", "tota1 ", "t0tal ",
    "tot al", "tota  ", "otal  ", "sum   ", "total\t", "total\n", "total\0",
];

/// Bytes that might be taken for another.
pub const TELLING: [u8; 20] = *b" 0123456789\n\r\t\0/:-+\xa0";

/// A page damaged in some way. Some are sound after all.
pub fn damaged_page(chance: &mut Chance, counts: &Counts) -> Vec<u8> {
    let mut draft = Draft::new(counts);
    let last = counts.switches;
    let place = chance.of(&draft.numbers());
    let (line, other) = (place.0, chance.below(last + 1));
    let text = draft.text(place);
    let number: u16 = text.parse().unwrap_or(0);
    match chance.below(24) {
        // A number that is written otherwise.
        0 => draft.put(place, &format!("{}{text}", chance.of(&["0", "00"]))),
        1 => draft.put(place, &format!("{}{text:0>3}", chance.within(1, 9))),
        2 => draft.put(place, ""),
        3 => draft = draft.at_left(place),
        4 => draft.put(place, &format!("{text} ")),
        5 => draft = draft.to_the_right(place),
        6 => draft.put(place, &format!("{} {text}", chance.below(10))),
        7 => {
            let digits = draft.digits(place);
            let at = chance.below(digits.len());
            digits[at] = chance.of(&[b'/', b':', digits[at] | 0x80]);
        }
        // Another number.
        8 => draft.put(place, &to_three_digits(chance).to_string()),
        9 => draft.put((line, 2), &to_three_digits(chance).to_string()),
        10 => {
            let near = [number + 1, number.saturating_sub(1)];
            draft.put(place, &chance.of(&near).to_string());
        }
        11 => {
            // The rules of two switches change places: the sum stays.
            if line < last && other < last {
                let (one, two) = (draft.text((line, 1)), draft.text((other, 1)));
                draft.put((line, 1), &two);
                draft.put((other, 1), &one);
            }
        }
        12 => draft.count_up(line),
        13 => draft.put((last, 0), chance.of(&NOT_TOTAL)),
        // Lines in another order, left out, or too many.
        14 => draft.lines.swap(line, other),
        15 => {
            draft.lines.remove(line);
        }
        16 => draft.lines.insert(other, draft.lines[line].clone()),
        17 => draft.lines.push(draft.lines[line].clone()),
        // A line that is longer or shorter.
        18 => {
            let at = chance.below(page::LINE);
            if chance.percent(50) {
                draft.lines[line].remove(at);
            } else {
                draft.lines[line].insert(at, chance.of(&TELLING));
            }
        }
        // What is no number.
        19 => {
            let at = chance.within(FIELDS[2].end, page::LINE - 2);
            draft.lines[line][at] = chance.of(&TELLING);
        }
        20 => draft.lines[line][page::LINE - 1] = chance.of(&TELLING),
        _ => {
            let at = chance.below(page::LINE);
            draft.lines[line][at] = match chance.below(2) {
                0 => chance.of(&TELLING),
                _ => chance.byte(),
            };
        }
    }
    draft.bytes()
}

/// The set of all switches of a plant that has so many.
pub fn all_switches(switches: u8) -> u64 {
    (0..switches).fold(0, |set, switch| set | 1 << switch)
}

/// Any search, sound or not.
pub fn any_search(chance: &mut Chance) -> Search {
    let mut number = || {
        let (small, any) = (chance.below(10) as u16, chance.word());
        chance.of(&[small, small, small, 255, 256, 257, any])
    };
    let (a, b) = (number(), number());
    let any = chance.byte();
    let lost = chance.of(&[0, 0, 1, 2, 3, 255, any]);
    match chance.below(6) {
        0 | 1 => Search::Checking(a, lost),
        2 | 3 => Search::Halving(a, b, lost),
        4 => Search::Down(a),
        _ => Search::AllUp,
    }
}

/// A search that is more often than not one of so many links.
pub fn some_search(chance: &mut Chance, links: u16) -> Search {
    let any = any_search(chance);
    let lost = chance.below(3) as u8;
    if links == 0 {
        return chance.of(&[Search::AllUp, any]);
    }
    let high = chance.within(1, usize::from(links));
    let low = chance.within(1, high) as u16;
    let high = high as u16;
    match chance.below(10) {
        0..=3 => Search::Checking(links, lost),
        4..=6 if low < high => Search::Halving(low, high, lost),
        7 => chance.of(&[Search::Down(low), Search::Down(links), Search::AllUp]),
        8 => any,
        _ => Search::Checking(links + 1, lost),
    }
}

/// A set, more often than not one of so many switches.
pub fn some_set(chance: &mut Chance, switches: u8) -> u64 {
    let all = all_switches(switches);
    let any = chance.draw();
    match chance.below(16) {
        0 => 0,
        1..=3 => all,
        4 => 1 << (switches - 1),
        5 => any,
        // The one after the last switch, if there is one.
        6 => any & all | u64::checked_shl(1, switches.into()).unwrap_or(0),
        _ => any & all,
    }
}

/// Any part of a desk.
pub fn any_console(chance: &mut Chance) -> Console {
    let (any, few) = (chance.draw(), chance.below(64) as u64);
    let switch = chance.byte();
    let begun = Begun {
        switch: chance.of(&[switch, switch % 64, switch % 8]),
        search: any_search(chance),
    };
    Console {
        set: chance.of(&[any, few, few, 0, u64::MAX]),
        search: chance.percent(70).then_some(begun),
    }
}

/// Any desk.
pub fn any_desk(chance: &mut Chance) -> Desk {
    Desk {
        console: std::array::from_fn(|_| any_console(chance)),
    }
}

/// What a console asks of the desk: a new set, a start at a switch, or an
/// outcome for its search, lost by 0 and returned by any other byte.
#[derive(Clone, Copy, Debug, PartialEq, Eq)]
pub enum Turn {
    Set(u64),
    Start(u8),
    Outcome(u8),
}

/// A call of the desk with all that it is given.
#[derive(Clone, Debug)]
pub struct Sitting {
    pub listing: Vec<u8>,
    pub desk: Desk,
    pub console: u8,
    pub turn: Turn,
}

impl Sitting {
    /// Makes the call. The desk is then as the call leaves it.
    pub fn make(&mut self) -> Answer<Console> {
        let Sitting {
            listing,
            desk,
            console,
            turn,
        } = self;
        match *turn {
            Turn::Set(set) => calls::new_set(listing, desk, *console, set),
            Turn::Start(switch) => calls::start(listing, desk, *console, switch),
            Turn::Outcome(byte) => calls::outcome(listing, desk, *console, byte != 0),
        }
    }
}

/// A call of the desk with a plant of at most so many switches and links: taken
/// more often than any one refusal is met.
pub fn some_sitting(chance: &mut Chance, switches: usize, links: usize) -> Sitting {
    let mut plant = joined(chance, switches, links).mixed(chance);
    if chance.percent(30) {
        let more = chance.within(1, 3);
        plant = with_unplugged(chance, &plant, more);
    }
    let listing = match chance.below(20) {
        0 => listing_of(&apart(chance, switches, links).mixed(chance)),
        1 | 2 => damaged(chance, &plant),
        _ => listing_of(&plant),
    };
    let service = plant.in_service().count() as u16;
    let set = some_set(chance, plant.switches);
    // A switch of the set more often than another.
    let inside: Vec<u8> = (0..64).filter(|switch| set >> switch & 1 == 1).collect();
    let mut switch = chance.below(usize::from(plant.switches)) as u8;
    if !inside.is_empty() && chance.percent(75) {
        switch = chance.of(&inside);
    }
    if chance.percent(5) {
        let any = chance.byte();
        switch = chance.of(&[plant.switches, plant.switches + 1, 63, 64, 255, any]);
    }
    let begun = Begun {
        switch,
        search: some_search(chance, service),
    };
    let turn = match chance.below(5) {
        0 => Turn::Set(some_set(chance, plant.switches)),
        1 | 2 => Turn::Start(switch),
        _ => Turn::Outcome(chance.of(&[0, 0, 0, 1, 1, 2, 128, 255])),
    };
    let mut desk = any_desk(chance);
    let own = chance.below(Desk::CONSOLES);
    if chance.percent(90) {
        desk.console[own] = Console {
            set,
            search: chance.percent(90).then_some(begun),
        };
    } else if chance.percent(50) {
        desk = Desk::default();
    }
    let any = chance.within(Desk::CONSOLES, 255) as u8;
    let mut console = own as u8;
    if chance.percent(5) {
        console = chance.of(&[4, 5, 127, 128, 255, any, console + 4, console + 128]);
    }
    Sitting {
        listing,
        desk,
        console,
        turn,
    }
}
