//! Writes cases and their answers to two files.
//!
//! `make-cases OUT_DIR [SEED] [COUNT]` writes `cases.in` and `cases.expected`
//! and prints to standard error how often each call and refusal occurs.

use reference::calls::{self, Stretches};
use reference::cases::{Answerer, Case, NAMES};
use reference::desk::{Begun, Console, Desk};
use reference::listing;
use reference::make::{self, Chance, Draft, Sitting, Sketch, Turn};
use reference::net::Net;
use reference::packet::{self, Fate, Order};
use reference::page::{self, Counts};
use reference::plant::Plant;
use reference::round::Round;
use reference::search::{Search, SENDINGS};
use reference::trail::Trail;
use std::cmp::Ordering;
use std::fs::File;
use std::io::{self, BufWriter, Write};
use std::ops::Range;
use std::path::Path;
use std::process::ExitCode;

const SEED: u64 = 1;
/// The first cases are of every call but the long run, the rules by switch, the
/// pages, those of the round trail, those given marks, those of the desk and the
/// components, those after them of packet runs alone, the next of rules by switch
/// alone, of pages written alone, of pages read alone, of searches alone, of the
/// allowance alone, of round trails alone, of round runs alone, of choices alone,
/// of listings with links out of service, of plants written with marks, of plants
/// reread with marks, of the desk alone and of plants in several components, and
/// any more are of the kinds before the allowance.
const FIRST: usize = 18_000;
const RUNS: usize = 1_000;
const BY_SWITCH: usize = 1_000;
const WRITTEN: usize = 500;
const READ: usize = 1_000;
const SEARCHES: usize = 1_000;
const ALLOWANCES: usize = 1_100;
const ROUND_TRAILS: usize = 400;
const ROUND_RUNS: usize = 600;
const CHOICES: usize = 500;
const MARKED: usize = 1_100;
const WRITTEN_MARKED: usize = 250;
const REREAD: usize = 150;
const DESKS: usize = 1_500;
const SEVERAL: usize = 1_500;
/// The cases before those of the allowance.
const KINDS: usize = FIRST + RUNS + BY_SWITCH + WRITTEN + READ + SEARCHES;
/// The cases before those with links out of service.
const IN_SERVICE: usize = KINDS + ALLOWANCES + ROUND_TRAILS + ROUND_RUNS + CHOICES;
/// The cases before those of the desk.
const NO_DESK: usize = IN_SERVICE + MARKED + WRITTEN_MARKED + REREAD;
/// The cases before those of plants in several components.
const ALONE: usize = NO_DESK + DESKS;
const COUNT: usize = ALONE + SEVERAL;

/// The highest number of a refusal.
const REFUSALS: usize = 21;

const SWITCHES: usize = Plant::MAX_SWITCHES;
const LINKS: usize = Plant::MAX_LINKS;

/// The longest trail that is lent in a case drawn by chance.
const LENT: usize = 300;

/// The most labels of a long run.
const MOST_LABELS: usize = 131_072;
/// The most times that its first list is repeated.
const MOST_TIMES: usize = 65_535;

/// Writes cases, answers and the counts of both.
struct Out {
    cases: BufWriter<File>,
    answers: BufWriter<File>,
    answerer: Answerer,
    line: Vec<u8>,
    most: usize,
    count: usize,
    sizes: [usize; 2],
    /// Answers by call and refusal, 0 for none.
    table: [[usize; 1 + REFUSALS]; NAMES.len()],
}

impl Out {
    fn full(&self) -> bool {
        self.count >= self.most
    }

    fn put(&mut self, case: Case) -> io::Result<()> {
        if self.full() {
            return Ok(());
        }
        self.line.clear();
        let ((call, refusal), end) = self
            .answerer
            .answer(&case.bytes, 0, &mut self.line)
            .map_err(|malformed| io::Error::other(format!("malformed at {}", malformed.0)))?;
        if end != case.bytes.len() {
            return Err(io::Error::other("a case with bytes to spare"));
        }
        self.cases.write_all(&case.bytes)?;
        self.answers.write_all(&self.line)?;
        self.count += 1;
        self.sizes[0] += case.bytes.len();
        self.sizes[1] += self.line.len();
        self.table[usize::from(call)]
            [refusal.map_or(0, |refusal| usize::from(refusal.number()))] += 1;
        Ok(())
    }
}

/// A listing with the plant that was meant and that plant's trail.
struct Subject {
    listing: Vec<u8>,
    plant: Plant,
    trail: Vec<u16>,
}

impl Subject {
    fn new(plant: Plant) -> Subject {
        Subject {
            listing: make::listing_of(&plant),
            trail: trail_of(&plant),
            plant,
        }
    }

    fn links(&self) -> usize {
        usize::from(self.plant.links)
    }
}

/// The plan of a plant that is one component.
fn joined(plant: &Plant) -> Option<Net> {
    Some(Net::new(plant.clone())).filter(Net::is_joined)
}

/// The trail of a plant that is one component; of any other none.
fn trail_of(plant: &Plant) -> Vec<u16> {
    joined(plant).map_or(Vec::new(), |net| Trail::new(&net).to_vec())
}

/// The most switches and links of a plant drawn by chance.
fn limits(chance: &mut Chance) -> (usize, usize) {
    match chance.weighed(&[41, 35, 18, 6]) {
        0 => (5, 8),
        1 => (12, 24),
        2 => (32, 80),
        _ => (SWITCHES, LINKS),
    }
}

/// A subject for a call: most often sound, else apart or damaged.
fn subject(chance: &mut Chance, sound: usize) -> Subject {
    let (switches, links) = limits(chance);
    let mut subject = Subject::new(make::joined(chance, switches, links).mixed(chance));
    if !chance.percent(sound) {
        if chance.percent(25) {
            let plant = make::apart(chance, switches, links).mixed(chance);
            subject = Subject::new(plant);
        } else {
            subject.listing = make::damaged(chance, &subject.plant);
        }
    }
    subject
}

/// A subject whose trail is not too long to be lent.
fn lending(chance: &mut Chance, sound: usize) -> Subject {
    loop {
        let subject = subject(chance, sound);
        if subject.trail.len() <= LENT {
            return subject;
        }
    }
}

fn switch(chance: &mut Chance, plant: &Plant) -> u8 {
    let count = usize::from(plant.switches);
    if chance.percent(93) {
        chance.below(count) as u8
    } else {
        let above = chance.within(count, 255);
        chance.of(&[count, count, count + 1, 255, above]) as u8
    }
}

/// A trail to lend: most often the right one.
fn lent(chance: &mut Chance, subject: &Subject) -> Vec<u16> {
    let mut trail = subject.trail.clone();
    if chance.percent(85) {
        return trail;
    }
    match chance.below(9) {
        0 | 1 => {
            if let Some(last) = trail.len().checked_sub(1) {
                let any = chance.below(last + 1);
                let at = chance.of(&[0, last, any]);
                trail[at] ^= chance.of(&[1, 2, 1, 256]);
            }
        }
        2 => {
            trail.pop();
        }
        3 => trail.push(0),
        4 => trail.push(chance.below(2 * subject.links() + 2) as u16),
        5 => trail.clear(),
        6 => trail.truncate(chance.below(trail.len() + 1)),
        7 => {
            let turn = trail.len().min(1);
            trail.rotate_left(turn);
        }
        _ => {
            let mut plant = subject.plant.clone();
            plant.start = (plant.start + 1) % plant.switches;
            trail = trail_of(&plant);
        }
    }
    trail
}

/// Link states: most often enough of them.
fn states(chance: &mut Chance, links: usize) -> Vec<u8> {
    let mut states: Vec<u8> = (0..links)
        .map(|_| {
            if chance.percent(80) {
                1
            } else {
                chance.within(1, 255) as u8
            }
        })
        .collect();
    if links > 0 {
        match chance.below(10) {
            0..=2 => {}
            3..=6 => states[chance.below(links)] = 0,
            7 => {
                for _ in 0..chance.within(2, 4) {
                    states[chance.below(links)] = 0;
                }
            }
            8 => {
                let broken = chance.of(&[5, 20, 50, 90]);
                for state in &mut states {
                    if chance.percent(broken) {
                        *state = 0;
                    }
                }
            }
            _ => states.fill(0),
        }
        if chance.percent(9) {
            let short = chance.below(links);
            states.truncate(chance.of(&[links - 1, short, 0]));
            return states;
        }
    }
    if chance.percent(15) {
        for _ in 0..chance.within(1, 3) {
            states.push(chance.of(&[0, 1]));
        }
    }
    states
}

/// A search state that a plant with so many links can have.
fn right(chance: &mut Chance, links: usize, ended: usize) -> Search {
    let links = links as u16;
    if links == 0 {
        return Search::AllUp;
    }
    if chance.percent(ended) {
        return if chance.percent(25) {
            Search::AllUp
        } else {
            let any = chance.within(1, usize::from(links)) as u16;
            Search::Down(chance.of(&[1, links, any]))
        };
    }
    if links == 1 || chance.percent(20) {
        return Search::Checking(links, 0);
    }
    if chance.percent(50) {
        // By the search's own steps.
        let mut state = Search::Halving(1, links, 0);
        for _ in 0..chance.below(8) {
            match state.count(chance.percent(50)) {
                Ok(next @ Search::Halving(..)) => state = next,
                _ => break,
            }
        }
        return state;
    }
    let high = chance.within(2, usize::from(links));
    let low = chance.within(1, high - 1);
    Search::Halving(low as u16, high as u16, 0)
}

/// A search state that no plant, or not this plant, can have.
fn wrong(chance: &mut Chance, links: usize) -> Search {
    let past = chance.of(&[LINKS + 1, LINKS + 2, 511, 512, 0x8000, 0xffff]) as u16;
    let any = chance.below(LINKS + 1) as u16;
    let links = links as u16;
    match chance.below(14) {
        0 => Search::Checking(0, 0),
        1 => Search::Checking(past, 0),
        2 => Search::Checking(links + 1, 0),
        3 => Search::Checking(links.saturating_sub(1), 0),
        4 => Search::Checking(any, 0),
        5 => Search::Down(0),
        6 => Search::Down(past),
        7 => Search::Down(links + 1),
        8 => Search::Halving(0, links, 0),
        9 => Search::Halving(links, links, 0),
        10 => Search::Halving(links, links.saturating_sub(1), 0),
        11 => Search::Halving(1, links + 1, 0),
        12 => Search::Halving(chance.of(&[1, any, past]), past, 0),
        _ => Search::Halving(past, any, 0),
    }
}

fn search(chance: &mut Chance, links: usize, ended: usize) -> Search {
    if chance.percent(88) {
        right(chance, links, ended)
    } else {
        wrong(chance, links)
    }
}

/// A walk of so many hops from a switch, over arcs in use or over any arcs;
/// shorter where no arc leads on.
fn walk(chance: &mut Chance, net: &Net, begin: u8, hops: usize, any: bool) -> Vec<u16> {
    let mut at = usize::from(begin);
    let mut labels = Vec::new();
    for _ in 0..hops {
        let out: Vec<u16> = (0..2 * net.plant.links)
            .filter(|label| net.ends(*label).0 == at && (any || net.used[usize::from(*label)]))
            .collect();
        if out.is_empty() {
            break;
        }
        let label = chance.of(&out);
        labels.push(label);
        at = net.ends(label).1;
    }
    labels
}

/// Labels for a packet that is no probe.
fn labels(chance: &mut Chance, subject: &Subject) -> (u8, Vec<u16>) {
    let plant = &subject.plant;
    let begin = switch(chance, plant);
    let Some(net) = joined(plant) else {
        return (begin, Vec::new());
    };
    // A walk over arcs in use, at times over any arcs.
    let any = chance.percent(15);
    let most = chance.of(&[0, 1, 3, 8, 20, 40]);
    let hops = chance.below(most + 1);
    let mut labels = walk(chance, &net, begin, hops, any);
    if chance.percent(10) && subject.trail.len() <= LENT {
        labels = subject.trail.clone();
        let from = if chance.percent(60) {
            plant.start
        } else {
            begin
        };
        return (from, labels);
    }
    if chance.percent(20) {
        let any = chance.word();
        let after = 2 * plant.links;
        let wild = chance.of(&[after, after + 1, 2 * LINKS as u16, 0xffff, any]);
        if labels.is_empty() || chance.percent(50) {
            labels.push(wild);
        } else {
            let place = chance.below(labels.len());
            labels[place] = if chance.percent(70) {
                labels[place] ^ 1
            } else {
                wild
            };
        }
    }
    (begin, labels)
}

/// How many bytes are lent for a listing of so many.
fn listing_places(chance: &mut Chance, length: usize) -> usize {
    let spare = chance.below(30);
    let short = chance.below(length + 1);
    let less = length.saturating_sub(1);
    chance.of(&[
        length,
        length,
        length + 1,
        less,
        less,
        length + spare,
        length + spare,
        short,
        0,
    ])
}

/// A plant value to be written, in one of calls 2 and 19: most often sound.
fn written(chance: &mut Chance, call: u8) -> Case {
    let (switches, links) = limits(chance);
    let mut plant = make::joined(chance, switches, links).mixed(chance);
    if chance.percent(10) {
        plant = make::apart(chance, switches, links).mixed(chance);
    }
    let mut given = usize::from(plant.links);
    let length = make::listing_of(&plant).len();
    if chance.percent(45) {
        for _ in 0..chance.of(&[1, 1, 1, 2, 3]) {
            make::spoil(chance, &mut plant, &mut given);
        }
    } else if chance.percent(10) {
        given = (given + chance.below(3)).min(LINKS);
    }
    let places = listing_places(chance, length);
    Case::new(call).plant(&plant, given).word(places)
}

/// A list of calls: 0 asks, 1 gives returned, any other gives lost.
fn call_list(chance: &mut Chance) -> Vec<u8> {
    let most = chance.of(&[0, 2, 6, 12, 12, 30]);
    let home = chance.of(&[0, 30, 50, 80]);
    let asks = chance.of(&[0, 30, 60]);
    let mut list: Vec<u8> = (0..chance.below(most + 1))
        .map(|_| {
            if chance.percent(asks) {
                0
            } else if chance.percent(home) {
                1
            } else {
                chance.of(&[2, 2, 2, 3, 128, 255])
            }
        })
        .collect();
    // Else a search that is home at once is the most frequent.
    if chance.percent(70) {
        if let Some(first) = list.iter_mut().find(|call| **call == 1) {
            *first = 2;
        }
    }
    list
}

/// A list of calls with one true fate for each probe, for a search that comes
/// to its end if each loss is given three times.
fn true_list(chance: &mut Chance, subject: &Subject) -> Vec<u8> {
    let links = subject.links();
    let mut list = Vec::new();
    let first = chance.below(links + 1);
    let mut state = Search::new(links as u16);
    while let Ok(m) = state.ask() {
        if chance.percent(40) {
            list.push(0);
        }
        // The first broken link is at place first + 1; none is, if first is E.
        let home = usize::from(m) <= first;
        list.push(if home { 1 } else { chance.of(&[2, 255]) });
        match state.count(home) {
            Ok(next) => state = next,
            Err(_) => break,
        }
    }
    for _ in 0..chance.below(3) {
        list.push(chance.of(&[0, 1, 2]));
    }
    list
}

/// The list with each loss given three times, so that it counts its probe.
fn thrice(list: &[u8]) -> Vec<u8> {
    let each = list.iter().map(|call| match call {
        0 | 1 => vec![*call],
        _ => vec![*call; usize::from(SENDINGS)],
    });
    each.flatten().collect()
}

/// A case of an outcome given: a loss as the last of its row, so that it
/// counts its probe.
fn counted(state: Search, outcome: u8) -> Case {
    let lost = if outcome == 0 { SENDINGS - 1 } else { 0 };
    given(state.having_lost(lost), outcome)
}

fn trail_places(chance: &mut Chance, hops: usize) -> usize {
    let short = chance.below(hops + 1);
    let places = chance.of(&[
        hops,
        hops,
        hops + 1,
        hops + 2,
        hops.saturating_sub(1),
        hops.saturating_sub(1),
        hops.saturating_sub(2),
        hops + 10,
        short,
        0,
    ]);
    places.min(Plant::MAX_HOPS)
}

/// One case of a call that is lent a trail, 8 to 12, with so many sendings
/// lost so far, drawn by chance.
fn drawn_lent(chance: &mut Chance, call: u8, lost: u8) -> Case {
    let subject = lending(chance, 85);
    let begin = switch(chance, &subject.plant);
    let trail = lent(chance, &subject);
    let head = Case::new(call).string(&subject.listing).byte(begin);
    let mut case = head.labels(&trail);
    if call == 8 || call == 11 {
        case = case.string(&states(chance, subject.links()));
    }
    if call >= 10 {
        let ended = if call == 12 { 65 } else { 10 };
        let state = search(chance, subject.links(), ended);
        case = case.search(state.having_lost(lost));
    }
    case
}

/// One case of a call, drawn by chance.
fn drawn(chance: &mut Chance, call: u8) -> Case {
    let case = Case::new(call);
    match call {
        1 => {
            let subject = subject(chance, 30);
            case.string(&subject.listing)
        }
        2 | 19 => written(chance, call),
        3..=5 => case.string(&subject(chance, 78).listing),
        6 => {
            let subject = subject(chance, 78);
            let places = trail_places(chance, subject.trail.len());
            case.string(&subject.listing).word(places)
        }
        7 => {
            let subject = subject(chance, 85);
            let (begin, labels) = labels(chance, &subject);
            let states = states(chance, subject.links());
            case.string(&subject.listing)
                .byte(begin)
                .labels(&labels)
                .string(&states)
        }
        8..=12 => drawn_lent(chance, call, 0),
        13 => {
            let subject = subject(chance, 80);
            let begin = switch(chance, &subject.plant);
            case.string(&subject.listing).byte(begin)
        }
        14 | 15 => {
            let links = chance.below(LINKS + 1);
            let state = if chance.percent(75) {
                right(chance, links, 15)
            } else {
                wrong(chance, links)
            };
            if call == 14 {
                case.search(state)
            } else {
                counted(state, chance.of(&[0, 0, 0, 1, 1, 2, 255]))
            }
        }
        16 => {
            let subject = subject(chance, 85);
            let begin = switch(chance, &subject.plant);
            let list = if chance.percent(60) {
                true_list(chance, &subject)
            } else {
                call_list(chance)
            };
            performed(&subject.listing, begin, &thrice(&list))
        }
        17 => {
            let rules = if chance.percent(50) {
                usize::from(chance.word())
            } else {
                chance.below(600)
            };
            let percent = if chance.percent(80) {
                chance.below(101)
            } else {
                chance.within(101, 255)
            };
            case.word(rules).byte(percent as u8)
        }
        18 => {
            let subject = subject(chance, 40);
            let places = listing_places(chance, subject.listing.len());
            case.string(&subject.listing).word(places)
        }
        _ => {
            let any = usize::from(chance.word());
            let small = chance.below(2 * LINKS);
            case.word(chance.of(&[any, small]))
        }
    }
}

/// The listings that document 01 names, with their triangle and the like.
fn named_listings() -> Vec<Vec<u8>> {
    let table_one = make::table_one();
    let mut listings: Vec<Vec<u8>> = [
        &[][..],
        &[0x00],
        &[0x08],
        &[0x01],
        &[0x01, 0x01],
        &[0x01, 0x00],
        &[0x01, 0x41],
        &[0x01, 0x40],
        &[0x00, 0x00],
        &[0x03, 0x02, 0x01, 0x00, 0x00],
        &[0x02, 0x01, 0x00, 0x00],
        &[0x03, 0x02, 0x01, 0x00, 0x02, 0x01],
        &[3, 3, 3, 0, 2, 1, 3, 1, 2, 3, 2, 0],
        &[3, 2, 3, 0, 2, 1, 0, 0],
        &[3, 4, 4, 0, 2, 1, 3, 1, 2, 3, 2, 0, 3, 0, 3],
        // The lowest number of a part goes first.
        &[0x05, 0x01],
        &[0x05, 0x00, 0x00],
        &[0x02, 0x00],
        &[0x02, 0x00, 0x00],
        &[0x04, 0x00],
        &[0x04, 0x01],
        &[0x09],
        &[0x07, 0x02, 0x01, 0x00, 0x01],
        &[3, 2, 1, 0, 1],
        &[3, 2, 1, 0, 1, 0],
        &[3, 2, 1, 0, 5, 0, 1],
        &[3, 2, 1, 0, 5, 1, 1],
        &[3, 2, 1, 0, 5, 1, 0, 0],
        &[3, 2, 1, 0, 3, 2, 2],
        &[3, 2, 1, 0, 3, 1, 1],
        &[3, 2, 2, 0, 3, 1, 1, 8],
        &[3, 2, 2, 0, 2, 2, 8],
        &[3, 2, 2, 0, 2, 1, 2, 1],
        &[3, 2, 2, 0, 2, 1, 2, 0],
        &[3, 65, 1, 0, 8],
        &[3, 2, 1, 0, 2, 1, 8],
        &[3, 3, 1, 0, 2, 1, 8],
    ]
    .iter()
    .map(|listing| listing.to_vec())
    .collect();
    listings.push(make::listing_of(&table_one.plain()));
    listings
}

/// The cases that do not wait for chance.
fn fixed(chance: &mut Chance, out: &mut Out) -> io::Result<()> {
    // The listings of document 01.
    for listing in named_listings() {
        for call in [1, 3, 4, 5] {
            out.put(Case::new(call).string(&listing))?;
        }
        let length = listing.len();
        for places in length.saturating_sub(1)..=length + 1 {
            out.put(Case::new(18).string(&listing).word(places))?;
        }
        if let Ok(plant) = calls::read(&listing) {
            let links = usize::from(plant.links);
            for places in length - 1..=length + 1 {
                out.put(Case::new(19).plant(&plant, links).word(places))?;
            }
        }
        let plant = calls::read(&listing).ok();
        let net = plant.and_then(|plant| joined(&plant));
        let hops = net.map_or(1, |net| Trail::new(&net).hops);
        for places in hops.saturating_sub(1)..=hops + 1 {
            out.put(Case::new(6).string(&listing).word(places))?;
        }
        for begin in 0..3 {
            out.put(Case::new(13).string(&listing).byte(begin))?;
        }
    }
    // One byte.
    for byte in 0..=255 {
        out.put(Case::new(1).string(&[byte]))?;
    }
    // One field of each width, over its values.
    for byte in 0..=255 {
        out.put(Case::new(1).string(&[1, byte]))?;
        out.put(Case::new(1).string(&[5, 64, byte]))?;
    }
    for links in [0, 1, 255, 256, 257, 511, 512, 0x100, 0x8000, 0xff00, 0xffff] {
        let [low, high] = u16::to_le_bytes(links);
        out.put(Case::new(1).string(&[2, low, high]))?;
        out.put(Case::new(1).string(&[3, 2, low, high]))?;
    }
    for tag in [
        0, 1, 127, 128, 255, 256, 257, 0x1234, 0x8000, 0xff00, 0xffff,
    ] {
        let [low, high] = u16::to_le_bytes(tag);
        out.put(Case::new(1).string(&[3, 2, 1, 0, 6, 1, low, high]))?;
    }

    // Every number of switches: a tree and a ring.
    for switches in 1..=SWITCHES {
        for sketch in [make::tree(chance, switches), make::cycle(switches)] {
            let subject = Subject::new(sketch.mixed(chance));
            let places = trail_places(chance, subject.trail.len());
            out.put(Case::new(3).string(&subject.listing))?;
            out.put(Case::new(6).string(&subject.listing).word(places))?;
        }
    }
    // Every number of links, the calls without a lent trail in turn.
    for links in 0..=LINKS {
        let most = SWITCHES.min(links + 1);
        let switches = if links == 0 {
            1
        } else {
            chance.within(2, most)
        };
        let plant = make::exact(chance, switches, links).mixed(chance);
        let subject = Subject::new(plant);
        let call = [3, 6, 5, 16, 1, 7, 4, 13, 18, 19][links % 10];
        out.put(about(chance, call, &subject))?;
    }
    // The limits: 64 switches with 256 links.
    let subject = Subject::new(make::exact(chance, SWITCHES, LINKS).mixed(chance));
    for call in [1, 3, 4, 5, 6, 7, 13, 16] {
        out.put(about(chance, call, &subject))?;
    }
    let length = subject.listing.len();
    for places in [length - 1, length, Plant::MAX_LISTING, length + 100] {
        lend_bytes(out, &subject.plant, places)?;
    }
    // The longest listing: every field given.
    let longest = make::longest_listing();
    let listing = make::listing_of(&longest);
    for call in [1, 3] {
        out.put(Case::new(call).string(&listing))?;
    }
    for places in [listing.len() - 1, listing.len(), listing.len() + 1] {
        lend_bytes(out, &longest, places)?;
    }

    // The longest trails.
    let long = Subject::new(make::long(SWITCHES, LINKS - (SWITCHES - 1)).plain());
    let hops = long.trail.len();
    for places in [hops - 1, hops, hops + 1, Plant::MAX_HOPS] {
        out.put(Case::new(6).string(&long.listing).word(places))?;
    }
    for call in [3, 4, 5, 13, 16] {
        out.put(about(chance, call, &long))?;
    }
    out.put(
        Case::new(11)
            .string(&long.listing)
            .byte(40)
            .labels(&long.trail)
            .string(&[1; LINKS])
            .search(Search::Halving(1, LINKS as u16, 0)),
    )?;
    out.put(
        Case::new(7)
            .string(&long.listing)
            .byte(0)
            .labels(&long.trail)
            .string(&[1; LINKS]),
    )?;
    // Long trails, lent: every call that is lent one.
    for (switches, back) in [(20, 20), (31, 33), (64, 12)] {
        let subject = Subject::new(make::long(switches, back).mixed(chance));
        for call in 8..=12 {
            out.put(about(chance, call, &subject))?;
        }
    }
    // Dense plants, lent.
    for (switches, links) in [(10, 60), (20, 100), (64, 200)] {
        let subject = Subject::new(make::exact(chance, switches, links).mixed(chance));
        for call in 8..=12 {
            out.put(about(chance, call, &subject))?;
        }
    }

    // Every count and place that a search can have, and some past them.
    for number in (0..=LINKS as u16 + 2).chain([511, 512, 0x8000, 0xff00, 0xffff]) {
        for state in [Search::Checking(number, 0), Search::Down(number)] {
            out.put(Case::new(14).search(state))?;
        }
        for outcome in [0, 1] {
            out.put(counted(Search::Checking(number, 0), outcome))?;
        }
    }
    for outcome in [0, 1, 2, 255] {
        out.put(counted(Search::AllUp, outcome))?;
        out.put(counted(Search::Down(9), outcome))?;
    }
    out.put(Case::new(14).search(Search::AllUp))?;
    for high in 0..=9 {
        for low in 0..=9 {
            let state = Search::Halving(low, high, 0);
            out.put(Case::new(14).search(state))?;
            for outcome in [0, 1] {
                out.put(counted(state, outcome))?;
            }
        }
    }
    // Every first broken link, for some numbers of links.
    for links in [1, 2, 3, 4, 5, 7, 8, 9] {
        let subject = Subject::new(make::exact(chance, links.clamp(2, 4), links).mixed(chance));
        for first in 0..=links {
            let mut list = Vec::new();
            let mut state = Search::new(links as u16);
            while let Ok(m) = state.ask() {
                let home = usize::from(m) <= first;
                list.extend([0, if home { 1 } else { 2 }]);
                state = state.count(home).unwrap_or(state);
            }
            let begin = chance.below(usize::from(subject.plant.switches)) as u8;
            out.put(performed(&subject.listing, begin, &thrice(&list)))?;
        }
    }

    // The allowance of every number of links, and of some past them.
    for links in (0..=LINKS + 2).chain([
        319, 320, 511, 512, 513, 1023, 1024, 1025, 4095, 4096, 4097, 0x7fff, 0x8000, 0x8001,
        0xff00, 0xff01, 0xfffe, 0xffff,
    ]) {
        out.put(allowed(links))?;
    }

    // Order quantities.
    for rules in [
        0, 1, 2, 3, 5, 7, 10, 20, 50, 99, 100, 101, 199, 200, 255, 256, 257, 319, 512, 1000,
        0x7fff, 0x8000, 0xfffe, 0xffff,
    ] {
        for percent in [0, 1, 2, 3, 10, 33, 50, 67, 99, 100, 101, 102, 128, 255] {
            out.put(Case::new(17).word(rules).byte(percent))?;
        }
    }

    // Several refusals at once, so that their order shows: of writing a plant,
    // a self-link and an end outside, at times a place past the last link.
    for round in 0..160 {
        let mut plant = make::exact(chance, 4, 6).mixed(chance);
        let (one, other) = (chance.below(6), chance.below(6));
        plant.link[one].second = plant.link[one].first;
        plant.link[other].first = chance.of(&[4, 5, 64, 255]);
        let mut given = 6;
        if chance.percent(20) {
            given = chance.within(7, 9);
            plant.link[given - 1].tag = 1;
        }
        let places = chance.of(&[0, 10, 40]);
        let call = [2, 19][round % 2];
        out.put(Case::new(call).plant(&plant, given).word(places))?;
    }
    // Of the calls with a lent trail, any of 11 to 15, and plants apart.
    for _ in 0..200 {
        let plant = make::joined(chance, 5, 8).mixed(chance);
        let subject = Subject::new(plant);
        let bad = |chance: &mut Chance| chance.percent(60);
        let mut listing = subject.listing.clone();
        if chance.percent(15) {
            listing = make::listing_of(&make::apart(chance, 5, 8).mixed(chance));
        }
        let begin = if bad(chance) {
            subject.plant.switches
        } else {
            0
        };
        let mut trail = subject.trail.clone();
        if bad(chance) {
            trail.push(0);
        }
        let mut states = vec![1; subject.links()];
        if bad(chance) {
            states.pop();
        }
        let state = if bad(chance) {
            wrong(chance, subject.links())
        } else {
            right(chance, subject.links(), 50)
        };
        let call = chance.within(7, 12) as u8;
        let mut case = Case::new(call).string(&listing).byte(begin).labels(&trail);
        if call == 7 || call == 8 || call == 11 {
            case = case.string(&states);
        }
        if call >= 10 {
            case = case.search(state);
        }
        out.put(case)?;
    }
    Ok(())
}

/// The cases of the calls that are lent so many bytes for a plant with as many
/// links as there can be.
fn lend_bytes(out: &mut Out, plant: &Plant, places: usize) -> io::Result<()> {
    let listing = make::listing_of(plant);
    out.put(Case::new(2).plant(plant, LINKS).word(places))?;
    out.put(Case::new(18).string(&listing).word(places))?;
    out.put(Case::new(19).plant(plant, LINKS).word(places))
}

/// A case of a call about a sound subject, with sound arguments.
fn about(chance: &mut Chance, call: u8, subject: &Subject) -> Case {
    let links = subject.links();
    let begin = chance.below(usize::from(subject.plant.switches)) as u8;
    let case = Case::new(call).string(&subject.listing);
    let mut up = vec![1; links];
    if links > 0 && chance.percent(50) {
        up[chance.below(links)] = 0;
    }
    match call {
        1..=5 => case,
        6 => case.word(subject.trail.len()),
        7 => {
            let (begin, labels) = labels(chance, subject);
            case.byte(begin).labels(&labels).string(&up)
        }
        8 => case.byte(begin).labels(&subject.trail).string(&up),
        9 => case.byte(begin).labels(&subject.trail),
        10 => case
            .byte(begin)
            .labels(&subject.trail)
            .search(right(chance, links, 0)),
        11 => case
            .byte(begin)
            .labels(&subject.trail)
            .string(&up)
            .search(right(chance, links, 0)),
        12 => case
            .byte(begin)
            .labels(&subject.trail)
            .search(right(chance, links, 90)),
        13 => case.byte(begin),
        18 => case.word(subject.listing.len()),
        19 => Case::new(19)
            .plant(&subject.plant, links)
            .word(subject.listing.len()),
        _ => {
            let list = true_list(chance, subject);
            performed(&subject.listing, begin, &thrice(&list))
        }
    }
}

/// A joined plant that packets run over.
struct Course {
    subject: Subject,
    net: Net,
}

impl Course {
    fn new(plant: Plant) -> io::Result<Course> {
        let net = joined(&plant).ok_or(io::Error::other("a plant apart"))?;
        Ok(Course {
            subject: Subject::new(plant),
            net,
        })
    }

    fn switches(&self) -> u8 {
        self.subject.plant.switches
    }

    /// The ring from a switch: a closed walk.
    fn ring(&self, begin: u8) -> Vec<u16> {
        let trail = &self.subject.trail;
        let place = packet::place(&self.net, trail, usize::from(begin));
        let (rest, front) = packet::ring(trail, place);
        [rest, front].concat()
    }

    /// The links by first crossing from a switch.
    fn order(&self, begin: u8) -> Vec<usize> {
        let order = Order::new(&self.net, &self.ring(begin), 0);
        order.links().iter().copied().map(usize::from).collect()
    }

    fn head(&self, call: u8, begin: u8) -> Case {
        Case::new(call).string(&self.subject.listing).byte(begin)
    }

    fn run(&self, begin: u8, labels: &[u16], states: &[u8]) -> Case {
        self.head(7, begin).labels(labels).string(states)
    }

    fn full_check(&self, begin: u8, states: &[u8]) -> Case {
        let case = self.head(8, begin).labels(&self.subject.trail);
        case.string(states)
    }

    fn probe(&self, begin: u8, states: &[u8], state: Search) -> Case {
        let case = self.head(11, begin).labels(&self.subject.trail);
        case.string(states).search(state)
    }

    fn long(&self, begin: u8, round: &[u16], times: usize, more: &[u16], states: &[u8]) -> Case {
        long(&self.subject.listing, begin, round, times, more, states)
    }

    /// All links up.
    fn up(&self, chance: &mut Chance) -> Vec<u8> {
        (0..self.subject.links())
            .map(|_| chance.of(&[1, 1, 1, 2, 128, 255]))
            .collect()
    }

    /// All links up but some.
    fn down(&self, chance: &mut Chance, links: &[usize]) -> Vec<u8> {
        let mut states = self.up(chance);
        for link in links {
            states[*link] = 0;
        }
        states
    }

    /// Changes a walk over arcs in use, or the states, so that the packet is
    /// lost: 0 at its first label, 1 about its middle, 2 at its last. Says
    /// whether it can be lost so.
    fn lose(
        &self,
        chance: &mut Chance,
        begin: u8,
        labels: &mut Vec<u16>,
        states: &mut [u8],
        (third, loss): (usize, Loss),
    ) -> bool {
        let net = &self.net;
        let links = net.plant.links;
        let place = third * labels.len().saturating_sub(1) / 2;
        let at = match place {
            0 => usize::from(begin),
            _ => net.ends(labels[place - 1]).1,
        };
        let wrong: Vec<u16> = match loss {
            Loss::NoRule => (0..2 * links)
                .filter(|label| net.ends(*label).0 == at && !net.used[usize::from(*label)])
                .collect(),
            Loss::OtherSwitch => net
                .used_labels()
                .filter(|label| net.ends(*label).0 != at)
                .collect(),
            Loss::PastLinks => vec![2 * links, 2 * links + 1, 2 * LINKS as u16, 0x8000, 0xffff],
            Loss::Down => {
                // Where a link is crossed for the first time.
                let firsts: Vec<usize> = (0..labels.len())
                    .filter(|place| {
                        let link = labels[*place] / 2;
                        labels[..*place].iter().all(|label| label / 2 != link)
                    })
                    .collect();
                if firsts.is_empty() {
                    return false;
                }
                let place = firsts[third * (firsts.len() - 1) / 2];
                if third == 2 {
                    labels.truncate(place + 1);
                }
                states[usize::from(labels[place] / 2)] = 0;
                return true;
            }
        };
        if wrong.is_empty() {
            return false;
        }
        let label = chance.of(&wrong);
        if labels.is_empty() {
            labels.push(label);
        } else if third < 2 && chance.percent(50) {
            // The labels after it would lead on without it.
            labels.insert(place, label);
        } else {
            labels[place] = label;
        }
        true
    }
}

/// The number of the call for a long run.
const LONG_RUN: u8 = 21;

/// A long run: the first list so many times, or as often as can be, and then
/// the second.
fn long(
    listing: &[u8],
    begin: u8,
    round: &[u16],
    times: usize,
    more: &[u16],
    states: &[u8],
) -> Case {
    let most = (MOST_LABELS - more.len()).checked_div(round.len());
    Case::new(LONG_RUN)
        .string(listing)
        .byte(begin)
        .labels(round)
        .word(times.min(most.unwrap_or(times)))
        .labels(more)
        .string(states)
}

/// Why a packet is lost at a label.
#[derive(Clone, Copy)]
enum Loss {
    NoRule,
    OtherSwitch,
    PastLinks,
    Down,
}

const LOSSES: [Loss; 4] = [Loss::NoRule, Loss::OtherSwitch, Loss::PastLinks, Loss::Down];

/// A search state that wants probe m.
fn wanting(chance: &mut Chance, links: usize, m: usize) -> Search {
    if m == links {
        return Search::Checking(links as u16, 0);
    }
    let reach = chance.below(m.min(links - m));
    let more = if reach == 0 { 1 } else { chance.below(2) };
    Search::Halving((m - reach) as u16, (m + reach + more) as u16, 0)
}

/// Small plants of each kind.
fn kinds(chance: &mut Chance) -> io::Result<Vec<Course>> {
    let ring_with_tails = {
        let mut sketch = make::cycle(5);
        sketch.pairs.extend([(0, 5), (5, 6), (2, 7)]);
        Sketch {
            switches: 8,
            ..sketch
        }
    };
    let two_rings = Sketch {
        switches: 6,
        pairs: vec![(0, 1), (1, 2), (2, 0), (2, 3), (3, 4), (4, 5), (5, 3)],
    };
    let parallel = Sketch {
        switches: 4,
        pairs: vec![(0, 1), (0, 1), (1, 2), (2, 3), (3, 2), (2, 3)],
    };
    let sketches = [
        ring_with_tails,
        make::tree(chance, 6),
        parallel,
        make::exact(chance, 5, 10),
        two_rings,
        make::table_one(),
    ];
    sketches
        .iter()
        .map(|sketch| Course::new(sketch.mixed(chance)))
        .collect()
}

/// The cases of packet runs that do not wait for chance.
fn fixed_runs(chance: &mut Chance, out: &mut Out) -> io::Result<()> {
    fixed_long_runs(chance, out)?;

    // Free labels: from every switch, and lost in each way.
    for round in 0..2 {
        for course in kinds(chance)? {
            for begin in 0..course.switches() {
                let hops = chance.within(1, 9);
                let labels = walk(chance, &course.net, begin, hops, round == 1);
                let mut states = course.up(chance);
                if round == 1 {
                    states.push(0);
                }
                out.put(course.run(begin, &labels, &states))?;
                if round == 0 {
                    states.fill(chance.of(&[0, 1]));
                    out.put(course.run(begin, &[], &states))?;
                }
            }
            let mut begin = chance.below(usize::from(course.switches())) as u8;
            for third in 0..3 {
                for loss in LOSSES {
                    begin = (begin + 1) % course.switches();
                    let hops = chance.within(3, 12);
                    let mut labels = walk(chance, &course.net, begin, hops, false);
                    let mut states = course.up(chance);
                    let lost = (third, loss);
                    if course.lose(chance, begin, &mut labels, &mut states, lost) {
                        out.put(course.run(begin, &labels, &states))?;
                    }
                }
            }
            // The trail from its start and from another switch.
            let start = course.subject.plant.start;
            for begin in [start, (start + 1) % course.switches()] {
                let states = course.up(chance);
                out.put(course.run(begin, &course.subject.trail, &states))?;
            }
        }
    }

    // The full check: every link down in turn, two, none, and all.
    for course in kinds(chance)? {
        let links = course.subject.links();
        let start = course.subject.plant.start;
        for begin in [start, (start + 1) % course.switches()] {
            let order = course.order(begin);
            for link in &order {
                let states = course.down(chance, &[*link]);
                out.put(course.full_check(begin, &states))?;
            }
            let two = [order[links / 2], order[links - 1]];
            let mut states = course.down(chance, &two);
            out.put(course.full_check(begin, &states))?;
            // A byte too many.
            states.push(1);
            out.put(course.full_check(begin, &states))?;
            let mut states = course.up(chance);
            out.put(course.full_check(begin, &states))?;
            states.push(0);
            out.put(course.full_check(begin, &states))?;
            out.put(course.full_check(begin, &vec![0; links]))?;
        }
    }

    // Every probe: its own link down, the next one, another, two, and none.
    for course in kinds(chance)? {
        let links = course.subject.links();
        let mut begin = course.subject.plant.start;
        for m in 1..=links {
            let order = course.order(begin);
            let other = chance.below(links);
            let mut downs = vec![vec![m - 1], vec![other], vec![], vec![other, m - 1]];
            if m < links {
                downs.push(vec![m]);
            }
            for places in downs {
                let down: Vec<usize> = places.iter().map(|place| order[*place]).collect();
                let mut states = course.down(chance, &down);
                if chance.percent(20) {
                    states.push(chance.of(&[0, 1]));
                }
                let state = wanting(chance, links, m);
                out.put(course.probe(begin, &states, state))?;
            }
            begin = (begin + 1) % course.switches();
        }
    }
    // Every probe with every link down.
    for sketch in [make::tree(chance, 5), make::cycle(4)] {
        let course = Course::new(sketch.mixed(chance))?;
        let links = course.subject.links();
        let begin = chance.below(usize::from(course.switches())) as u8;
        for m in 1..=links {
            for link in course.order(begin) {
                let states = course.down(chance, &[link]);
                let state = wanting(chance, links, m);
                out.put(course.probe(begin, &states, state))?;
            }
        }
    }

    // Many hops: long ways round, and dense plants.
    let dense = make::exact(chance, 20, 60);
    for sketch in [make::long(20, 12), make::long(32, 20), dense] {
        let course = Course::new(sketch.mixed(chance))?;
        let links = course.subject.links();
        let begin = chance.below(usize::from(course.switches())) as u8;
        let order = course.order(begin);
        for (m, down) in [
            (links, links - 1),
            (links - 1, links - 1),
            (links - 1, links - 2),
            (links / 2, links / 2),
            (links / 2, links / 2 - 1),
        ] {
            let states = course.down(chance, &[order[down]]);
            let state = wanting(chance, links, m);
            out.put(course.probe(begin, &states, state))?;
        }
        let states = course.up(chance);
        out.put(course.full_check(begin, &states))?;
    }
    // A probe that is home after many thousands of hops.
    let course = Course::new(make::long(SWITCHES, LINKS - (SWITCHES - 1)).plain())?;
    let states = course.down(chance, &[course.order(40)[LINKS - 1]]);
    out.put(course.probe(40, &states, wanting(chance, LINKS, LINKS - 1)))
}

/// The long runs that do not wait for chance.
fn fixed_long_runs(chance: &mut Chance, out: &mut Out) -> io::Result<()> {
    const ONE_LINK: &[u8] = &[3, 2, 1, 0, 2, 1];
    const TRIANGLE: &[u8] = &[3, 3, 3, 0, 2, 1, 3, 1, 2, 3, 2, 0];
    const TAILED: &[u8] = &[3, 4, 4, 0, 2, 1, 3, 1, 2, 3, 2, 0, 3, 0, 3];
    let up = &[1; 4];

    // To and fro over one link; the totals around what two bytes count, and
    // the most.
    for more in [&[][..], &[0], &[1], &[2], &[0, 1], &[0, 0], &[0, 0xffff]] {
        for times in [35_000, 32_767, 32_768, MOST_TIMES] {
            out.put(long(ONE_LINK, 0, &[0, 1], times, more, up))?;
        }
    }
    for (begin, round, states) in [(1, [1, 0], &[1]), (1, [0, 1], &[1]), (0, [0, 1], &[0])] {
        out.put(long(ONE_LINK, begin, &round, 35_000, &[1, 0, 0], states))?;
    }
    // Round the triangle: 21,845 times are 65,535 labels.
    for more in [&[][..], &[0], &[1], &[0, 2], &[0, 2, 5], &[0, 6]] {
        for times in [21_845, 21_844, 43_690] {
            out.put(long(TRIANGLE, 0, &[0, 2, 4], times, more, up))?;
        }
    }
    out.put(long(TRIANGLE, 1, &[2, 4, 0], 22_000, &[2], up))?;
    out.put(long(TRIANGLE, 2, &[4, 0, 2], 40_000, &[4, 1], up))?;
    // A link that only the second list crosses.
    for (more, state) in [(&[6][..], 1), (&[6], 0), (&[6, 7], 1), (&[0, 2, 4, 6], 0)] {
        let states = [1, 1, 1, state];
        out.put(long(TAILED, 0, &[0, 2, 4], 30_000, more, &states))?;
    }
    // A link down in the first list.
    for link in 0..3 {
        let mut states = [1; 3];
        states[link] = 0;
        out.put(long(TRIANGLE, 0, &[0, 2, 4], 30_000, &[0], &states))?;
    }
    // A first list that is no closed walk, once, twice and often.
    for round in [&[0][..], &[0, 2], &[0, 2, 4, 0], &[0, 0], &[6]] {
        for times in [1, 2, 30_000] {
            out.put(long(TRIANGLE, 0, round, times, &[4, 0], up))?;
        }
    }
    // No times, and no labels.
    for (round, times) in [(&[0, 2, 4][..], 0), (&[9], 0), (&[], 0), (&[], MOST_TIMES)] {
        for more in [&[][..], &[2, 4], &[0]] {
            out.put(long(TRIANGLE, 1, round, times, more, up))?;
        }
    }
    out.put(long(&[0], 0, &[], 7, &[], &[]))?;
    out.put(long(&[0], 0, &[0], MOST_TIMES, &[], &[]))?;
    out.put(long(&[0], 0, &[], 0, &[0xffff], &[]))?;

    // The ring of each kind of plant, from its start and from another switch.
    for course in kinds(chance)? {
        let start = course.subject.plant.start;
        for begin in [start, (start + 1) % course.switches()] {
            let ring = course.ring(begin);
            let times = chance.within(66_000, 120_000) / ring.len();
            let states = course.up(chance);
            let hops = chance.below(8);
            let more = walk(chance, &course.net, begin, hops, false);
            out.put(course.long(begin, &ring, times, &more, &states))?;
            let lost = (chance.below(3), chance.of(&LOSSES[..3]));
            let mut labels = more;
            let mut states = states;
            course.lose(chance, begin, &mut labels, &mut states, lost);
            out.put(course.long(begin, &ring, times, &labels, &states))?;
        }
    }

    // Each refusal, and several at once.
    for listing in [
        &[][..],
        &[0x08],
        &[0x01],
        &[0x01, 0x01],
        &[0x01, 0x00],
        &[3, 2, 1, 0, 3, 2, 2],
        &[3, 2, 1, 0, 0],
        &[0x00, 0x00],
        &[0x01, 0x40],
    ] {
        out.put(long(listing, 0, &[0, 1], 35_000, &[0], up))?;
        out.put(long(listing, 255, &[], 0, &[], &[]))?;
    }
    for (begin, states) in [(3, 3), (255, 3), (3, 2), (0, 2), (2, 0)] {
        let states = &up[..states];
        out.put(long(TRIANGLE, begin, &[0, 2, 4], 30_000, &[0], states))?;
        out.put(long(TRIANGLE, begin, &[], 0, &[], states))?;
    }
    Ok(())
}

/// One case of a packet run, drawn by chance.
fn drawn_run(chance: &mut Chance) -> io::Result<Case> {
    let call = chance.of(&[7, 7, 7, 8, 8, 11, 11, 11, 21, 21]);
    if chance.percent(10) {
        // With refusals.
        return Ok(match call {
            21 => drawn_long(chance),
            _ => drawn(chance, call),
        });
    }
    let sketch = loop {
        let (switches, links) = limits(chance);
        let sketch = make::joined(chance, switches, links);
        if !sketch.pairs.is_empty() && trail_of(&sketch.plain()).len() <= LENT {
            break sketch;
        }
    };
    let course = Course::new(sketch.mixed(chance))?;
    let links = course.subject.links();
    let begin = chance.below(usize::from(course.switches())) as u8;
    let lost = (chance.below(3), chance.of(&LOSSES));
    let mut states = course.up(chance);
    Ok(match call {
        7 => {
            let most = chance.of(&[2, 6, 12, 30]);
            let hops = chance.below(most + 1);
            let any = chance.percent(20);
            let mut labels = walk(chance, &course.net, begin, hops, any);
            if !any && chance.percent(75) {
                course.lose(chance, begin, &mut labels, &mut states, lost);
            }
            course.run(begin, &labels, &states)
        }
        8 | 11 => {
            let m = chance.within(1, links);
            for _ in 0..chance.below(3) {
                let near = chance.within(m - 1, m.min(links - 1));
                let any = chance.below(links);
                states[course.order(begin)[chance.of(&[near, any])]] = 0;
            }
            if chance.percent(20) {
                states.push(chance.of(&[0, 1]));
            }
            if call == 8 {
                course.full_check(begin, &states)
            } else {
                course.probe(begin, &states, wanting(chance, links, m))
            }
        }
        _ => {
            let ring = course.ring(begin);
            let any = chance.below(MOST_LABELS + 1);
            let total = chance.of(&[65_535, 65_536, 65_537, MOST_LABELS, any]);
            let times = (total / ring.len()).min(MOST_TIMES);
            let rest = (total - times * ring.len()).min(ring.len());
            let mut more = ring[..rest].to_vec();
            if chance.percent(60) {
                course.lose(chance, begin, &mut more, &mut states, lost);
            }
            course.long(begin, &ring, times, &more, &states)
        }
    })
}

/// A long run of a subject that is at times apart or damaged.
fn drawn_long(chance: &mut Chance) -> Case {
    let subject = lending(chance, 50);
    let (begin, round) = labels(chance, &subject);
    let (_, more) = labels(chance, &subject);
    let any = chance.below(MOST_TIMES + 1);
    let times = chance.of(&[0, 1, 2, any]);
    let states = states(chance, subject.links());
    long(&subject.listing, begin, &round, times, &more, &states)
}

/// The number of the call for the rules by switch.
const RULES_BY_SWITCH: u8 = 22;

/// The rules by switch of a listing.
fn by_switch(listing: &[u8]) -> Case {
    Case::new(RULES_BY_SWITCH).string(listing)
}

/// The rules by switch of a plant.
fn of_plant(plant: &Plant) -> Case {
    by_switch(&make::listing_of(plant))
}

/// The rules by switch of a sketch as it stands, from a start.
fn started(sketch: &Sketch, start: usize) -> Case {
    of_plant(&from_start(sketch, start))
}

/// So many switches parted among rings, at most four of them.
fn parted(chance: &mut Chance, switches: usize) -> Vec<usize> {
    let mut sizes = Vec::new();
    let mut left = switches;
    while sizes.len() < 3 && left > 1 {
        let size = chance.within(1, left - 1);
        sizes.push(size);
        left -= size;
    }
    sizes.push(left);
    sizes
}

/// A tree, a ring, a ring with tails or rings joined by one cable, in turn by
/// the number of switches.
fn in_turn(chance: &mut Chance, switches: usize) -> Sketch {
    let ring = chance.within(1, switches);
    let sizes = parted(chance, switches);
    match switches % 4 {
        0 => make::tree(chance, switches),
        1 => make::cycle(switches),
        2 => make::tailed(chance, ring, switches),
        _ => make::rings(chance, &sizes),
    }
}

/// A listing of so many bytes at least that meets a refusal, 1 to 9, of a plant
/// with at most so many switches and links. It is judged by document 01 alone: a
/// record's map with bit 3 counts as refusal 2, and several components as 9.
fn refused(
    chance: &mut Chance,
    refusal: u8,
    (switches, links): (usize, usize),
    least: usize,
) -> Vec<u8> {
    loop {
        let listing = if refusal == 9 && chance.percent(75) {
            make::listing_of(&make::apart(chance, switches, links).mixed(chance))
        } else {
            let plant = make::joined(chance, switches, links).mixed(chance);
            make::damaged(chance, &plant)
        };
        let met = match listing::read_unmarked(&listing) {
            Err(met) => Some(met.number()),
            Ok(plant) => joined(&plant).is_none().then_some(9),
        };
        if met == Some(refusal) && listing.len() >= least {
            return listing;
        }
    }
}

/// The cases of rules by switch that do not wait for chance.
fn fixed_by_switch(chance: &mut Chance, out: &mut Out) -> io::Result<()> {
    fixed_by_switch_listings(out)?;
    fixed_by_switch_sizes(chance, out)?;
    fixed_by_switch_shapes(chance, out)?;
    // Each refusal, of short listings and of long ones.
    for refusal in 1..=9 {
        for (limits, least, times) in [
            ((5, 8), 0, 5),
            ((12, 24), 0, 5),
            ((32, 80), 60, 1),
            ((SWITCHES, LINKS), 200, 1),
        ] {
            for _ in 0..times {
                out.put(by_switch(&refused(chance, refusal, limits, least)))?;
            }
        }
    }
    Ok(())
}

/// The rules by switch of the listings of document 01, of every front of one
/// of them, and of that one with a byte too many.
fn fixed_by_switch_listings(out: &mut Out) -> io::Result<()> {
    for listing in named_listings() {
        out.put(by_switch(&listing))?;
    }
    let tailed = [3, 4, 4, 0, 2, 1, 3, 1, 2, 3, 2, 0, 3, 0, 3];
    for length in 0..tailed.len() {
        out.put(by_switch(&tailed[..length]))?;
    }
    out.put(by_switch(&[&tailed[..], &[0]].concat()))
}

/// The rules by switch of plants of every number of switches, and of many
/// numbers of links.
fn fixed_by_switch_sizes(chance: &mut Chance, out: &mut Out) -> io::Result<()> {
    // A tree, a ring, a ring with tails, rings joined by one cable.
    for switches in 1..=SWITCHES {
        let ring = chance.within(1, switches);
        let sizes = parted(chance, switches);
        for sketch in [
            make::tree(chance, switches),
            make::cycle(switches),
            make::tailed(chance, ring, switches),
            make::rings(chance, &sizes),
        ] {
            out.put(of_plant(&sketch.mixed(chance)))?;
        }
    }
    // Every number of links up to that of switches, and every fifth above.
    for links in (0..LINKS).filter(|links| *links <= SWITCHES || links % 5 == 0) {
        let most = SWITCHES.min(links + 1);
        let switches = chance.within(most.min(2), most);
        let sketch = make::exact(chance, switches, links);
        out.put(of_plant(&sketch.mixed(chance)))?;
    }
    // The limits: as many switches and links as there can be.
    for _ in 0..3 {
        let sketch = make::exact(chance, SWITCHES, LINKS);
        out.put(of_plant(&sketch.mixed(chance)))?;
    }
    let long = make::long(SWITCHES, LINKS - (SWITCHES - 1));
    out.put(started(&long, 0))?;
    out.put(started(&long, SWITCHES - 1))?;
    out.put(of_plant(&make::longest_listing()))
}

/// The rules by switch of plants of a known shape, from more than one start.
fn fixed_by_switch_shapes(chance: &mut Chance, out: &mut Out) -> io::Result<()> {
    // The same links from every start.
    let tailed = make::tailed(chance, 3, 6);
    for sketch in [make::cycle(3), tailed, make::table_one()] {
        for start in 0..sketch.switches {
            out.put(started(&sketch, start))?;
        }
    }
    // One switch that sends by many rules: the middle of a star, of a star
    // with two links to each switch, of a fan.
    for switches in [3, 4, 5, 8, 13, 21, 34, SWITCHES] {
        let star = make::star(switches);
        for sketch in [star.clone(), star.doubled(), make::fan(switches)] {
            out.put(started(&sketch, 0))?;
            out.put(started(&sketch, switches - 1))?;
            out.put(of_plant(&sketch.mixed(chance)))?;
        }
    }
    // Parallel links between two switches.
    for links in [1, 2, 3, 4, 7, 16, 63, 64, 128, LINKS - 1, LINKS] {
        let bundle = make::bundle(links);
        out.put(started(&bundle, 0))?;
        out.put(started(&bundle, 1))?;
    }
    for links in [2, 3, 5, 9, 20, 40] {
        out.put(of_plant(&make::bundle(links).mixed(chance)))?;
    }
    // One link between every two switches, and two.
    for switches in 3..=9 {
        let complete = make::complete(switches);
        out.put(started(&complete, switches / 2))?;
        out.put(of_plant(&complete.mixed(chance)))?;
        out.put(of_plant(&complete.doubled().mixed(chance)))?;
    }
    Ok(())
}

/// A joined sketch drawn by chance: dense ones besides those of every kind.
fn any_joined(chance: &mut Chance) -> Sketch {
    if chance.percent(20) {
        let switches = chance.within(2, 12);
        let links = chance.within(switches, 5 * switches);
        make::exact(chance, switches, links)
    } else {
        let (switches, links) = limits(chance);
        make::joined(chance, switches, links)
    }
}

/// One case of rules by switch, drawn by chance.
fn drawn_by_switch(chance: &mut Chance) -> Case {
    if chance.percent(90) {
        of_plant(&any_joined(chance).mixed(chance))
    } else {
        by_switch(&subject(chance, 0).listing)
    }
}

/// The number of the call that writes a page.
const PAGE_WRITTEN: u8 = 23;
/// The number of the call that reads a page.
const PAGE_READ: u8 = 24;

/// The page of a listing with a spare, in a buffer of so many bytes.
fn page_written(listing: &[u8], spare: u8, places: usize) -> Case {
    Case::new(PAGE_WRITTEN)
        .string(listing)
        .byte(spare)
        .word(places)
}

/// How long the page of so many switches is.
fn page_length(switches: usize) -> usize {
    page::LINE * (switches + 1)
}

/// The page of a joined plant, with a spare and a buffer that it is written
/// with.
fn taken_page(chance: &mut Chance, plant: &Plant) -> Case {
    let length = page_length(usize::from(plant.switches));
    let any = chance.below(101) as u8;
    let spare = chance.of(&[0, 1, 10, 99, 100, any, any, any]);
    let places = length + chance.of(&[0, 0, 0, 1, 31, 32, 33, 100]);
    page_written(&make::listing_of(plant), spare, places)
}

/// How many bytes are lent for a page of so many.
fn page_places(chance: &mut Chance, length: usize) -> usize {
    let short = chance.below(length);
    let spare = chance.below(200);
    chance.of(&[
        length,
        length,
        length,
        length,
        length + 1,
        length + 31,
        length + page::LINE,
        length + spare,
        length - 1,
        length - page::LINE,
        short,
        0,
    ])
}

/// The cases of pages written that do not wait for chance.
fn fixed_pages_written(chance: &mut Chance, out: &mut Out) -> io::Result<()> {
    fixed_pages_lent(chance, out)?;
    fixed_pages_of_shapes(chance, out)?;
    // Each refusal of the listing, with a spare and a buffer that are right,
    // and with those that meet 17 and 18.
    let most = page_length(SWITCHES);
    for refusal in 1..=9 {
        for (limits, least, spare, places) in [
            ((5, 8), 0, 10, most),
            ((5, 8), 0, 101, most),
            ((5, 8), 0, 10, page::LINE - 1),
            ((5, 8), 0, 255, 0),
            ((5, 8), 0, 100, 0),
            ((12, 24), 0, 200, page::LINE),
            ((32, 80), 60, 25, most + 1),
        ] {
            let listing = refused(chance, refusal, limits, least);
            out.put(page_written(&listing, spare, places))?;
        }
    }
    Ok(())
}

/// The pages of the listings of document 01, and those of small plants with
/// every kind of spare and of buffer.
fn fixed_pages_lent(chance: &mut Chance, out: &mut Out) -> io::Result<()> {
    for listing in named_listings() {
        let switches = calls::read(&listing).map_or(2, |plant| usize::from(plant.switches));
        out.put(page_written(&listing, 10, page_length(switches)))?;
    }
    for sketch in [
        make::path(1),
        make::bundle(3),
        make::tailed(chance, 3, 4),
        make::table_one(),
    ] {
        let listing = make::listing_of(&sketch.plain());
        let length = page_length(sketch.switches);
        for spare in [0, 1, 2, 10, 33, 50, 99, 100, 101, 102, 128, 255] {
            out.put(page_written(&listing, spare, length))?;
        }
        for places in [0, 1, 31, length - 32, length - 31, length - 1] {
            out.put(page_written(&listing, 10, places))?;
            // The spare goes before the buffer.
            out.put(page_written(&listing, chance.of(&[101, 255]), places))?;
        }
        for more in [1, 31, 32, 33, 100] {
            out.put(page_written(&listing, 10, length + more))?;
        }
    }
    Ok(())
}

/// The pages of plants of every number of switches, and of a known shape.
fn fixed_pages_of_shapes(chance: &mut Chance, out: &mut Out) -> io::Result<()> {
    for switches in 1..=SWITCHES {
        let sketch = in_turn(chance, switches);
        let plant = sketch.mixed(chance);
        out.put(taken_page(chance, &plant))?;
    }
    // One switch with many links.
    for switches in [3, 8, 21, SWITCHES] {
        let star = make::star(switches);
        for sketch in [star.clone(), star.doubled(), make::fan(switches)] {
            let plant = sketch.plain();
            out.put(taken_page(chance, &plant))?;
            let plant = sketch.mixed(chance);
            out.put(taken_page(chance, &plant))?;
        }
    }
    // Parallel links, as many digits as there can be.
    for links in [1, 2, 9, 10, 99, 100, 101, LINKS - 1, LINKS] {
        let plant = make::bundle(links).mixed(chance);
        out.put(taken_page(chance, &plant))?;
    }
    // Dense plants, and the limits.
    for switches in 3..=9 {
        let plant = make::complete(switches).mixed(chance);
        out.put(taken_page(chance, &plant))?;
    }
    for (switches, links) in [(10, 60), (20, 100), (40, LINKS), (SWITCHES, LINKS)] {
        let plant = make::exact(chance, switches, links).mixed(chance);
        out.put(taken_page(chance, &plant))?;
    }
    out.put(taken_page(chance, &make::longest_listing()))?;
    // As many rules as there can be: all switches but two are joined by one
    // link each, and all other links are parallel.
    let mut sketch = make::bundle(LINKS - (SWITCHES - 2));
    sketch.pairs.extend((2..SWITCHES).map(|switch| (0, switch)));
    sketch.switches = SWITCHES;
    let listing = make::listing_of(&sketch.plain());
    let most = page_length(SWITCHES);
    for (spare, places) in [
        (0, most),
        (1, most),
        (99, most),
        (100, most),
        (101, most),
        (255, most - 1),
        (100, most - 1),
        (100, most - page::LINE),
        (100, most + 1),
        (100, most + page::LINE),
    ] {
        out.put(page_written(&listing, spare, places))?;
    }
    Ok(())
}

/// One case of a page written, drawn by chance.
fn drawn_page_written(chance: &mut Chance) -> Case {
    let (listing, switches) = if chance.percent(80) {
        let sketch = any_joined(chance);
        (make::listing_of(&sketch.mixed(chance)), sketch.switches)
    } else {
        let subject = subject(chance, 0);
        (subject.listing, usize::from(subject.plant.switches))
    };
    let any = chance.below(101) as u8;
    let above = chance.within(101, 255) as u8;
    let spare = chance.of(&[0, 1, 10, 99, 100, any, any, any, any, any, 101, above]);
    let places = page_places(chance, page_length(switches));
    page_written(&listing, spare, places)
}

/// A page read.
fn page_read(page: &[u8]) -> Case {
    Case::new(PAGE_READ).string(page)
}

/// A draft read.
fn draft_read(draft: &Draft) -> Case {
    page_read(&draft.bytes())
}

/// The counts of a joined plant.
fn planned(plant: Plant, spare: u8) -> io::Result<Counts> {
    Counts::new(&Net::new(plant), spare)
        .map_err(|refusal| io::Error::other(format!("refused {}", refusal.number())))
}

/// A page with the rules and the links of each switch told; the rules add up.
fn adding_up(each: &[(u16, u16)], quantity: u16) -> Draft {
    let total = each.iter().map(|(rules, _)| rules).sum();
    Draft::new(&Counts::told(each, total, quantity))
}

/// The cases of pages read that do not wait for chance.
fn fixed_pages_read(chance: &mut Chance, out: &mut Out) -> io::Result<()> {
    fixed_right_pages(chance, out)?;
    fixed_changed_bytes(chance, out)?;
    fixed_wrong_fields(out)?;
    fixed_wrong_sums(out)?;
    fixed_wrong_lines(chance, out)?;
    fixed_wrong_lengths(out)
}

/// Pages that are of the form.
fn fixed_right_pages(chance: &mut Chance, out: &mut Out) -> io::Result<()> {
    // As written, of every number of switches.
    for switches in 1..=SWITCHES {
        let ring = chance.within(1, switches);
        let links = switches - 1 + chance.below(switches);
        let sketch = match switches % 3 {
            0 => make::tree(chance, switches),
            1 => make::exact(chance, switches, links),
            _ => make::tailed(chance, ring, switches),
        };
        let spare = chance.below(101) as u8;
        let counts = planned(sketch.mixed(chance), spare)?;
        out.put(draft_read(&Draft::new(&counts)))?;
    }
    // Of no plan.
    for switches in (1..=10).chain([20, 40, SWITCHES - 1, SWITCHES]) {
        let counts = make::made_up(chance, switches);
        out.put(draft_read(&Draft::new(&counts)))?;
    }
    // Any links and any quantity will do.
    let draft = adding_up(&[(1, 1), (1, 1)], 3);
    for number in ["0", "9", "10", "99", "100", "256", "999"] {
        for line in 0..3 {
            out.put(draft_read(&draft.with((line, 2), number)))?;
        }
    }
    // The same total, otherwise parted.
    for rules in [0, 1, 9, 10, 50, 90, 99, 100] {
        let draft = adding_up(&[(rules, 2), (100 - rules, 2)], 110);
        out.put(draft_read(&draft))?;
    }
    // The most and the fewest rules.
    for rules in [0, 1, 999] {
        out.put(draft_read(&adding_up(&[(rules, 0)], rules)))?;
        out.put(draft_read(&adding_up(&[(0, 0), (rules, 0)], rules)))?;
    }
    let rules = 999 / SWITCHES as u16;
    out.put(draft_read(&adding_up(&[(rules, 8); SWITCHES], 999)))
}

/// Every byte of a page changed: to one by chance, to a digit, and to another
/// byte that a page has.
fn fixed_changed_bytes(chance: &mut Chance, out: &mut Out) -> io::Result<()> {
    let pages = [
        adding_up(&[(1, 1), (1, 1)], 3).bytes(),
        adding_up(&[(123, 256), (100, 40)], 446).bytes(),
        adding_up(&[(7, 0), (0, 1)], 7).bytes(),
    ];
    let any: Vec<u8> = (0..=255).collect();
    let choices = [&any[..], b"0123456789", b" \n0 \n0totl"];
    for at in 0..page_length(2) {
        for (page, choices) in pages.iter().zip(choices) {
            let mut page = page.clone();
            let before = page[at];
            while page[at] == before {
                page[at] = chance.of(choices);
            }
            out.put(page_read(&page))?;
        }
    }
    Ok(())
}

/// Fields, and what is outside them, that are not of the form.
fn fixed_wrong_fields(out: &mut Out) -> io::Result<()> {
    let small = adding_up(&[(7, 0), (0, 1)], 7);
    let large = adding_up(&[(123, 256), (100, 40)], 446);
    for place in small.numbers() {
        let text = small.text(place);
        for before in ["0", "00", "+"] {
            out.put(draft_read(
                &small.with(place, &(before.to_string() + &text)),
            ))?;
        }
        let text = large.text(place);
        let (first, rest) = text.split_at(1);
        for wrong in [
            // The last digits are right.
            format!("1{text:0>3}"),
            format!("{text:0>6}"),
            format!("1 {text}"),
            format!("{first} {rest}0"),
            format!("{text} "),
            "999999".to_string(),
            String::new(),
        ] {
            out.put(draft_read(&large.with(place, &wrong)))?;
        }
        out.put(draft_read(&large.at_left(place)))?;
        out.put(draft_read(&large.to_the_right(place)))?;
        // The bytes next to the digits, a letter, and a digit with its highest
        // bit set.
        for byte in [b'/', b':', b'A', 0x80 | b'0'] {
            let mut draft = large.clone();
            if let Some(last) = draft.digits(place).last_mut() {
                *last = byte;
            }
            out.put(draft_read(&draft))?;
        }
        // A tab before the number.
        out.put(draft_read(&large.with(place, &format!("\t{text}"))))?;
    }
    // Four digits that add up.
    out.put(draft_read(&adding_up(&[(999, 2), (1, 2)], 5)))?;
    out.put(draft_read(&adding_up(&[(500, 2), (500, 2)], 5)))?;
    out.put(draft_read(&adding_up(&[(0, 2), (1000, 2)], 5)))?;
    // The word of the last line.
    for word in make::NOT_TOTAL {
        out.put(draft_read(&small.with((2, 0), word)))?;
    }
    for word in ["", "2", "0", "2     "] {
        out.put(draft_read(&small.with((2, 0), word)))?;
    }
    // The ends of the lines.
    for line in 0..3 {
        for end in [b"\r\n", b" \r", b"  ", b"\n ", b"\n\n", b" \x8a", b" \0"] {
            let mut draft = small.clone();
            draft.lines[line][page::LINE - 2..].copy_from_slice(end);
            out.put(draft_read(&draft))?;
        }
    }
    Ok(())
}

/// Pages whose rules do not add up.
fn fixed_wrong_sums(out: &mut Out) -> io::Result<()> {
    let mut told = |rules: &[u16], total: u16| {
        let each: Vec<(u16, u16)> = rules.iter().map(|rules| (*rules, 3)).collect();
        let draft = Draft::new(&Counts::told(&each, total, 7));
        out.put(draft_read(&draft))
    };
    // One too high or too low; one line left out; the links, the quantity.
    for total in [8, 6, 3, 4, 0, 1, 10, 14] {
        told(&[3, 4], total)?;
    }
    told(&[2, 4], 7)?;
    told(&[2, 2], 6)?;
    told(&[0], 1)?;
    told(&[1], 0)?;
    told(&[999], 998)?;
    // What is left of a sum in one byte, or in three digits.
    told(&[200, 100], 44)?;
    told(&[255, 1], 0)?;
    told(&[256], 0)?;
    told(&[600, 700], 300)?;
    told(&[999, 1], 0)?;
    told(&[999, 999], 998)?;
    told(&[16; SWITCHES], 24)?;
    told(&[999; SWITCHES], 936)?;
    told(&[15; SWITCHES], 961)
}

/// Pages with lines in another order, left out, or too many.
fn fixed_wrong_lines(chance: &mut Chance, out: &mut Out) -> io::Result<()> {
    let tailed = make::tailed(chance, 3, 4).plain();
    for draft in [
        adding_up(&[(1, 1), (1, 1)], 3),
        Draft::new(&planned(tailed, 10)?),
        // Lines without rules: the sum stays without them.
        adding_up(&[(0, 1), (5, 2), (0, 3), (0, 4)], 6),
    ] {
        let last = draft.lines.len() - 1;
        for line in 0..=last {
            let mut fewer = draft.clone();
            fewer.lines.remove(line);
            out.put(draft_read(&fewer))?;
            let mut more = draft.clone();
            more.lines.insert(line, draft.lines[line].clone());
            out.put(draft_read(&more))?;
            let mut swapped = draft.clone();
            swapped.lines.swap(line, (line + 1) % (last + 1));
            out.put(draft_read(&swapped))?;
        }
        let mut turned = draft.clone();
        turned.lines[..last].reverse();
        out.put(draft_read(&turned))?;
        let mut moved = draft.clone();
        moved.lines.rotate_right(1);
        out.put(draft_read(&moved))?;
        // A switch after the total, the page twice, a switch for the total.
        let mut after = draft.clone();
        after.lines.push(draft.lines[last - 1].clone());
        out.put(draft_read(&after))?;
        let twice = [draft.bytes(), draft.bytes()].concat();
        out.put(page_read(&twice))?;
        out.put(draft_read(&draft.with((last, 0), &last.to_string())))?;
        // Switches from 1, with a gap, and one twice.
        for from in 0..last {
            let mut counted = draft.clone();
            counted.count_up(from);
            out.put(draft_read(&counted))?;
            let switch = draft.text((from.saturating_sub(1), 0));
            out.put(draft_read(&draft.with((from, 0), &switch)))?;
        }
    }

    // As many switches as there can be.
    let counts = planned(make::cycle(SWITCHES).plain(), 10)?;
    let draft = Draft::new(&counts);
    for line in [0, SWITCHES / 2, SWITCHES - 1, SWITCHES] {
        let mut fewer = draft.clone();
        fewer.lines.remove(line);
        out.put(draft_read(&fewer))?;
    }
    let mut swapped = draft.clone();
    swapped.lines.swap(9, 10);
    out.put(draft_read(&swapped))?;
    let mut twice = draft.clone();
    twice.lines.push(draft.lines[SWITCHES].clone());
    out.put(draft_read(&twice))?;
    // One switch too many, with rules and without, and then no total.
    let mut more = draft.clone();
    more.lines
        .insert(SWITCHES, draft.lines[SWITCHES - 1].clone());
    more.put((SWITCHES, 0), &SWITCHES.to_string());
    let total = usize::from(counts.total) + 1;
    more.put((SWITCHES + 1, 1), &total.to_string());
    out.put(draft_read(&more))?;
    let mut empty = more.with((SWITCHES, 1), "0");
    empty.put((SWITCHES + 1, 1), &counts.total.to_string());
    out.put(draft_read(&empty))?;
    more.lines.pop();
    out.put(draft_read(&more))
}

/// Pages of which the length is not right, and what is no page.
fn fixed_wrong_lengths(out: &mut Out) -> io::Result<()> {
    let page = adding_up(&[(1, 1), (1, 1)], 3).bytes();
    for length in [0, 1, 31, 32, 33, 63, 64, 65, 95] {
        out.put(page_read(&page[..length]))?;
    }
    for begin in [1, 31, 32, 64] {
        out.put(page_read(&page[begin..]))?;
    }
    let blank = adding_up(&[(0, 0)], 0).lines;
    for more in [
        &b"\n"[..],
        b" ",
        b"0",
        b"\0",
        &[b' '; 31],
        &[b' '; 32],
        &[b'\n'; 32],
        &[0; 32],
        &blank[0],
        &blank[1],
    ] {
        out.put(page_read(&[&page, more].concat()))?;
        out.put(page_read(&[more, &page].concat()))?;
    }
    // Single lines, and lines of one byte alone.
    for line in &blank {
        out.put(page_read(line))?;
        out.put(page_read(&[&line[..], line].concat()))?;
    }
    for byte in [b' ', b'\n', b'0', 0] {
        out.put(page_read(&[byte; 2 * page::LINE]))?;
    }
    // The longest page, one byte shorter and one longer.
    let mut longest = adding_up(&[(4, 8); SWITCHES], 300).bytes();
    out.put(page_read(&longest[..longest.len() - 1]))?;
    longest.push(b'\n');
    out.put(page_read(&longest))
}

/// One case of a page read, drawn by chance.
fn drawn_page_read(chance: &mut Chance) -> io::Result<Case> {
    let most = match chance.weighed(&[36, 36, 21, 7]) {
        0 => 3,
        1 => 6,
        2 => 16,
        _ => SWITCHES,
    };
    let counts = if chance.percent(50) {
        let sketch = make::joined(chance, most, 4 * most);
        let spare = chance.below(101) as u8;
        planned(sketch.mixed(chance), spare)?
    } else {
        let switches = chance.within(1, most);
        make::made_up(chance, switches)
    };
    Ok(if chance.percent(30) {
        draft_read(&Draft::new(&counts))
    } else {
        page_read(&make::damaged_page(chance, &counts))
    })
}

/// The numbers of the calls of a search.
const OUTWARD: u8 = 10;
const PROBE_RUN: u8 = 11;
const LINK_NAMED: u8 = 12;
const NEW_SEARCH: u8 = 13;
const ASK: u8 = 14;
const GIVE: u8 = 15;
const PERFORM: u8 = 16;

/// The calls that are given a search with a listing.
const JUDGING: [u8; 3] = [OUTWARD, PROBE_RUN, LINK_NAMED];

/// How many sendings may be lost so far, and how many may not.
const FEW: [u8; 3] = [0, 1, 2];
const MANY: [u8; 2] = [3, 255];
const LOST: [u8; 5] = [0, 1, 2, 3, 255];

/// A case of the probe asked for.
fn asked(state: Search) -> Case {
    Case::new(ASK).search(state)
}

/// A case of an outcome given.
fn given(state: Search, outcome: u8) -> Case {
    Case::new(GIVE).search(state).byte(outcome)
}

/// A case of a list of calls.
fn performed(listing: &[u8], begin: u8, list: &[u8]) -> Case {
    Case::new(PERFORM).string(listing).byte(begin).string(list)
}

/// A case of a call that is given a search with a listing; only a probe run is
/// given link states too.
fn judged(
    call: u8,
    listing: &[u8],
    begin: u8,
    trail: &[u16],
    states: &[u8],
    state: Search,
) -> Case {
    let mut case = Case::new(call).string(listing).byte(begin).labels(trail);
    if call == PROBE_RUN {
        case = case.string(states);
    }
    case.search(state)
}

/// An outcome that is taken for returned.
fn some_return(chance: &mut Chance) -> u8 {
    chance.of(&[1, 1, 1, 2, 3, 128, 255])
}

/// A call of a list that gives lost.
fn some_loss(chance: &mut Chance) -> u8 {
    let any = chance.within(2, 255) as u8;
    chance.of(&[2, 2, 2, 3, 255, any])
}

/// How many sendings are lost so far: few more often than many.
fn some_lost(chance: &mut Chance) -> u8 {
    let any = chance.byte();
    chance.of(&[0, 0, 1, 1, 2, 2, 3, 255, any])
}

/// Links that are down: none, one, two, or more, by the kind from 0 to 3.
fn some_down(chance: &mut Chance, links: usize, kind: usize) -> Vec<usize> {
    let mut down: Vec<usize> = (0..links).collect();
    chance.shuffle(&mut down);
    let more = chance.within(links.min(3), links);
    down.truncate([0, 1, 2, more][kind]);
    down
}

/// How the sendings of a search fare.
#[derive(Clone, Copy)]
struct Fortune {
    /// How often, of a hundred, a sending vanishes that the packet rule brings
    /// back: of one probe at most two in a row.
    vanish: usize,
    /// Of the probes that the packet rule brings back, the one of which three
    /// sendings in a row vanish all the same.
    spoilt: Option<usize>,
}

/// A list of calls that gives outcomes, with calls for the probe so often of a
/// hundred before each.
fn calls_for(chance: &mut Chance, outcomes: &[bool], asks: usize) -> Vec<u8> {
    let mut list = Vec::new();
    for returned in outcomes {
        while chance.percent(asks) {
            list.push(0);
        }
        list.push(if *returned { 1 } else { some_loss(chance) });
    }
    list
}

/// Adds calls to a list, which are refused where the search has ended.
fn go_on(chance: &mut Chance, list: &mut Vec<u8>) {
    for _ in 0..chance.within(1, 5) {
        let loss = some_loss(chance);
        list.push(chance.of(&[0, 1, loss, loss]));
    }
}

impl Course {
    /// The outcomes of a search under link states, up to its end: whether each
    /// sending returned.
    fn outcomes(
        &self,
        chance: &mut Chance,
        begin: u8,
        states: &[u8],
        fortune: Fortune,
    ) -> Vec<bool> {
        let trail = &self.subject.trail;
        let switch = usize::from(begin);
        let order = Order::new(&self.net, trail, packet::place(&self.net, trail, switch));
        let mut outcomes = Vec::new();
        let mut back = 0;
        let mut state = Search::new(self.net.links as u16);
        while let Ok(m) = state.ask() {
            let m = usize::from(m);
            let mut home =
                packet::run_probe(&self.net, trail, switch, &order, m, states).fate() == Fate::Home;
            if home {
                home = fortune.spoilt != Some(back);
                back += 1;
            }
            let lost = if home {
                (1..SENDINGS)
                    .take_while(|_| chance.percent(fortune.vanish))
                    .count()
            } else {
                usize::from(SENDINGS)
            };
            outcomes.extend(vec![false; lost]);
            if home {
                outcomes.push(true);
            }
            state = state.count(home).unwrap_or(Search::AllUp);
        }
        outcomes
    }

    /// One of the probes of a search that the packet rule brings back, if it
    /// brings any back.
    fn some_back(&self, chance: &mut Chance, begin: u8, states: &[u8]) -> Option<usize> {
        let calm = Fortune {
            vanish: 0,
            spoilt: None,
        };
        let outcomes = self.outcomes(chance, begin, states, calm);
        let back = outcomes.iter().filter(|returned| **returned).count();
        (back > 0).then(|| chance.below(back))
    }

    fn performed(&self, begin: u8, list: &[u8]) -> Case {
        performed(&self.subject.listing, begin, list)
    }
}

/// The cases of searches that do not wait for chance.
fn fixed_searches(chance: &mut Chance, out: &mut Out) -> io::Result<()> {
    fixed_asked_and_given(chance, out)?;
    fixed_judged(chance, out)?;
    fixed_judged_refused(chance, out)?;
    fixed_new_searches(chance, out)?;
    fixed_lists(chance, out)?;
    fixed_losses_alone(chance, out)?;
    fixed_searched(chance, out)
}

/// Probes asked for and outcomes given, with each number of sendings lost.
fn fixed_asked_and_given(chance: &mut Chance, out: &mut Out) -> io::Result<()> {
    let most = LINKS as u16;
    // The edges of each kind of state.
    for state in [
        Search::Checking(1, 0),
        Search::Checking(2, 0),
        Search::Checking(3, 0),
        Search::Checking(most - 1, 0),
        Search::Checking(most, 0),
        Search::Halving(1, 2, 0),
        Search::Halving(1, 3, 0),
        Search::Halving(127, 129, 0),
        Search::Halving(1, most, 0),
        Search::Halving(most - 2, most, 0),
        Search::Halving(most - 1, most, 0),
    ] {
        for lost in LOST {
            for case in each_way(chance, state.having_lost(lost)) {
                out.put(case)?;
            }
        }
    }
    // States without a number of sendings.
    for state in [
        Search::AllUp,
        Search::Down(1),
        Search::Down(most),
        Search::Down(0),
        Search::Down(most + 1),
    ] {
        for case in each_way(chance, state) {
            out.put(case)?;
        }
    }
    // Other numbers of sendings, and states that no search has.
    let mut states = Vec::new();
    for lost in [4, 127, 128, 254] {
        let any = chance.within(3, LINKS) as u16;
        states.extend([Search::Checking(5, lost), Search::Checking(any, lost)]);
        states.extend([Search::Halving(2, 9, lost), Search::Halving(1, any, lost)]);
    }
    for state in [
        Search::Checking(0, 0),
        Search::Checking(most + 1, 0),
        Search::Checking(0xffff, 0),
        Search::Halving(0, 2, 0),
        Search::Halving(5, 5, 0),
        Search::Halving(6, 5, 0),
        Search::Halving(1, most + 1, 0),
        Search::Halving(0xffff, 0xffff, 0),
    ] {
        states.extend(LOST.map(|lost| state.having_lost(lost)));
    }
    // Any counts, lows and highs.
    for lost in FEW {
        for _ in 0..6 {
            let count = chance.within(1, LINKS) as u16;
            states.push(Search::Checking(count, lost));
            let high = chance.within(2, LINKS);
            let low = chance.within(1, high - 1) as u16;
            states.push(Search::Halving(low, high as u16, lost));
        }
    }
    for (turn, state) in states.into_iter().enumerate() {
        out.put(each_way(chance, state)[turn % 3].clone())?;
    }
    Ok(())
}

/// Cases of a state asked for the probe, given a loss and given a return.
fn each_way(chance: &mut Chance, state: Search) -> [Case; 3] {
    let returned = some_return(chance);
    [asked(state), given(state, 0), given(state, returned)]
}

/// Calls that are given a search with a listing, a trail and states that are
/// right, with each number of sendings lost.
fn fixed_judged(chance: &mut Chance, out: &mut Out) -> io::Result<()> {
    let mut put = |chance: &mut Chance, course: &Course, call: u8, state: Search| {
        let subject = &course.subject;
        let begin = chance.below(usize::from(course.switches())) as u8;
        let kind = chance.below(3);
        let down = some_down(chance, subject.links(), kind);
        let states = course.down(chance, &down);
        out.put(judged(
            call,
            &subject.listing,
            begin,
            &subject.trail,
            &states,
            state,
        ))
    };
    for (turn, course) in kinds(chance)?.iter().enumerate() {
        let links = course.subject.links();
        for call in JUDGING {
            // A search that is right but for the number, and one that is wrong.
            for lost in LOST {
                let m = chance.within(1, links - 1);
                let m = if turn % 3 == 0 { links } else { m };
                let state = wanting(chance, links, m).having_lost(lost);
                put(chance, course, call, state)?;
            }
            let lost = chance.of(&LOST);
            let state = wrong(chance, links).having_lost(lost);
            put(chance, course, call, state)?;
        }
    }
    // Wrong in each way that a listing shows.
    let course = Course::new(make::table_one().mixed(chance))?;
    for call in JUDGING {
        for state in [
            Search::Checking(8, 0),
            Search::Checking(10, 0),
            Search::Halving(1, 10, 0),
        ] {
            for lost in [chance.of(&FEW), chance.of(&MANY)] {
                put(chance, &course, call, state.having_lost(lost))?;
            }
        }
        // States without a number of sendings.
        for state in [
            Search::AllUp,
            Search::Down(1),
            Search::Down(9),
            Search::Down(10),
        ] {
            put(chance, &course, call, state)?;
        }
    }
    // No link, one, and two.
    for sketch in [make::path(1), make::path(2), make::cycle(2)] {
        let course = Course::new(sketch.mixed(chance))?;
        for call in JUDGING {
            for lost in [1, 2, 3] {
                let state = Search::Checking(course.net.plant.links, lost);
                put(chance, &course, call, state)?;
            }
            put(chance, &course, call, Search::AllUp)?;
        }
    }
    // As many links as there can be.
    let course = Course::new(make::bundle(LINKS).plain())?;
    for call in JUDGING {
        put(chance, &course, call, Search::Checking(LINKS as u16, 2))?;
        put(chance, &course, call, Search::Halving(1, LINKS as u16, 3))?;
    }
    Ok(())
}

/// Calls that meet an earlier refusal together with too many sendings lost.
fn fixed_judged_refused(chance: &mut Chance, out: &mut Out) -> io::Result<()> {
    let go = Search::Checking(3, 0);
    let triangle = Course::new(make::cycle(3).plain())?;
    let Subject { listing, trail, .. } = &triangle.subject;
    for call in JUDGING {
        for refusal in 1..=9 {
            let refused = refused(chance, refusal, (5, 8), 0);
            let state = go.having_lost(chance.of(&MANY));
            out.put(judged(call, &refused, 1, trail, &[1; 3], state))?;
        }
        // Of 11, 12 and 13, the last of a probe run alone, some at once.
        for lost in MANY {
            let state = go.having_lost(lost);
            for (begin, hops) in [(3, 2), (3, 3), (2, 2), (255, 3)] {
                out.put(judged(call, listing, begin, &trail[..hops], &[1; 2], state))?;
            }
        }
    }
    for lost in LOST {
        let state = go.having_lost(lost);
        for states in [&[][..], &[1; 2], &[1; 3]] {
            out.put(judged(PROBE_RUN, listing, 2, trail, states, state))?;
        }
    }
    Ok(())
}

/// New searches of plants of few and of many links, and those refused.
fn fixed_new_searches(chance: &mut Chance, out: &mut Out) -> io::Result<()> {
    let begun = |listing: &[u8], begin| Case::new(NEW_SEARCH).string(listing).byte(begin);
    for course in of_sizes(chance)? {
        let begin = chance.below(usize::from(course.switches())) as u8;
        out.put(begun(&course.subject.listing, begin))?;
    }
    for refusal in 1..=9 {
        out.put(begun(&refused(chance, refusal, (5, 8), 0), 0))?;
    }
    for begin in [3, 255] {
        let triangle = make::listing_of(&make::cycle(3).plain());
        out.put(begun(&triangle, begin))?;
    }
    Ok(())
}

/// Plants of some numbers of links, from none to as many as there can be.
fn of_sizes(chance: &mut Chance) -> io::Result<Vec<Course>> {
    let sketches = [
        make::path(1),
        make::path(2),
        make::cycle(2),
        make::cycle(3),
        make::tailed(chance, 3, 4),
        make::tree(chance, 6),
        make::table_one(),
        make::exact(chance, 6, 16),
        make::exact(chance, 9, 33),
        make::tailed(chance, 30, SWITCHES),
        make::bundle(LINKS - 1),
        make::exact(chance, SWITCHES, LINKS),
    ];
    sketches
        .iter()
        .map(|sketch| Course::new(sketch.mixed(chance)))
        .collect()
}

/// Lists of calls that are written out, lists that stop before a search's end,
/// long ones, and those that are refused.
fn fixed_lists(chance: &mut Chance, out: &mut Out) -> io::Result<()> {
    // Of no link, of one and of three.
    for sketch in [make::path(1), make::path(2), make::cycle(3)] {
        let listing = make::listing_of(&sketch.plain());
        for list in [
            &[][..],
            &[0, 0],
            &[1],
            &[2],
            &[2, 2],
            &[2, 1],
            &[2, 2, 1],
            &[2, 2, 2],
            &[2, 0, 2, 0, 0, 2, 0],
            &[3, 255, 128],
            &[2, 2, 2, 2, 2],
            &[2, 2, 2, 2, 2, 1, 2],
            &[2, 2, 2, 2, 1, 2, 2, 2],
        ] {
            out.put(performed(&listing, 0, list))?;
        }
    }
    // Every front of a search's outcomes, with other calls between.
    for sketch in [make::cycle(4), make::tree(chance, 6)] {
        let course = Course::new(sketch.mixed(chance))?;
        let begin = chance.below(usize::from(course.switches())) as u8;
        let fortune = Fortune {
            vanish: 70,
            spoilt: None,
        };
        let states = course.down(chance, &[course.order(begin)[2]]);
        let outcomes = course.outcomes(chance, begin, &states, fortune);
        for length in 0..=outcomes.len() {
            let list = calls_for(chance, &outcomes[..length], 30);
            out.put(course.performed(begin, &list))?;
        }
    }
    // Refused, and the list is not looked at.
    for refusal in 1..=9 {
        for list in [&[][..], &[0, 2, 2, 2, 1]] {
            let listing = refused(chance, refusal, (5, 8), 0);
            out.put(performed(&listing, chance.of(&[0, 255]), list))?;
        }
    }
    let triangle = make::listing_of(&make::cycle(3).plain());
    for begin in [3, 64, 255] {
        out.put(performed(&triangle, begin, &[2, 2, 2]))?;
    }
    // Many calls within a row, and many after the end.
    let within = [vec![2; 4], vec![0; 300], vec![2], vec![0; 300]].concat();
    out.put(performed(&triangle, 1, &within))?;
    out.put(performed(&triangle, 2, &[2; 700]))
}

/// Lists of losses alone, which take as many packets as there can be: just
/// enough, one and two too few, and more.
fn fixed_losses_alone(chance: &mut Chance, out: &mut Out) -> io::Result<()> {
    for links in (1..=9).chain([15, 16, 17, 32, 33, 64, 65, 128, 129, LINKS - 1, LINKS]) {
        let listing = make::listing_of(&make::bundle(links).plain());
        let probes = 1 + usize::from(calls::allowance(links as u16));
        let packets = usize::from(SENDINGS) * probes;
        for given in [packets - 2, packets - 1, packets] {
            let begin = chance.below(2) as u8;
            let list = calls_for(chance, &vec![false; given], 0);
            out.put(performed(&listing, begin, &list))?;
        }
        let mut list = calls_for(chance, &vec![false; packets], 20);
        go_on(chance, &mut list);
        out.put(performed(&listing, 0, &list))?;
    }
    Ok(())
}

/// Searches under link states, to their end: packets vanish, at most two in a
/// row, or three of one probe that the packet rule brings back.
fn fixed_searched(chance: &mut Chance, out: &mut Out) -> io::Result<()> {
    // None, one, two and many links broken.
    for course in of_sizes(chance)? {
        let links = course.subject.links();
        for kind in 0..4.min(links + 1) {
            let begin = chance.below(usize::from(course.switches())) as u8;
            let down = some_down(chance, links, kind);
            let states = course.down(chance, &down);
            let spoilt = course.some_back(chance, begin, &states);
            for (vanish, asks, spoilt) in [(60, 0, None), (60, 50, None), (40, 20, spoilt)] {
                let fortune = Fortune { vanish, spoilt };
                let outcomes = course.outcomes(chance, begin, &states, fortune);
                let mut list = calls_for(chance, &outcomes, asks);
                if asks > 0 && chance.percent(60) {
                    go_on(chance, &mut list);
                }
                out.put(course.performed(begin, &list))?;
            }
        }
    }
    // Every first broken link, and none: two losses before each return, and
    // three of one probe.
    for links in [1, 2, 3, 4, 5, 8] {
        let sketch = make::exact(chance, links.clamp(2, 4), links);
        let course = Course::new(sketch.mixed(chance))?;
        let begin = chance.below(usize::from(course.switches())) as u8;
        let order = course.order(begin);
        for first in 0..=links {
            let states = course.down(chance, &order[first..]);
            let spoilt = course.some_back(chance, begin, &states);
            for (vanish, spoilt) in [(100, None), (30, spoilt)] {
                let fortune = Fortune { vanish, spoilt };
                let outcomes = course.outcomes(chance, begin, &states, fortune);
                let list = calls_for(chance, &outcomes, 25);
                out.put(course.performed(begin, &list))?;
            }
        }
    }
    Ok(())
}

/// One case of a search, drawn by chance.
fn drawn_search(chance: &mut Chance) -> io::Result<Case> {
    let lost = some_lost(chance);
    let call = OUTWARD + chance.weighed(&[6, 6, 6, 2, 5, 10, 65]) as u8;
    Ok(match call {
        NEW_SEARCH => drawn(chance, NEW_SEARCH),
        ASK | GIVE => {
            let links = chance.within(1, LINKS);
            let state = if chance.percent(85) {
                right(chance, links, 6)
            } else {
                wrong(chance, links)
            };
            let state = state.having_lost(lost);
            if call == ASK {
                asked(state)
            } else {
                let returned = some_return(chance);
                given(state, chance.of(&[0, 0, returned]))
            }
        }
        PERFORM => drawn_list(chance)?,
        _ => drawn_lent(chance, call, lost),
    })
}

/// One case of a list of calls, drawn by chance.
fn drawn_list(chance: &mut Chance) -> io::Result<Case> {
    if chance.percent(15) {
        // With refusals.
        let subject = subject(chance, 30);
        let begin = switch(chance, &subject.plant);
        return Ok(performed(&subject.listing, begin, &call_list(chance)));
    }
    let course = Course::new(any_joined(chance).mixed(chance))?;
    let begin = chance.below(usize::from(course.switches())) as u8;
    if chance.percent(30) {
        // Outcomes that no packet need have.
        return Ok(course.performed(begin, &call_list(chance)));
    }
    let kind = chance.below(4);
    let down = some_down(chance, course.subject.links(), kind);
    let states = course.down(chance, &down);
    let spoilt = course.some_back(chance, begin, &states);
    let fortune = Fortune {
        vanish: chance.of(&[10, 30, 60, 100]),
        spoilt: spoilt.filter(|_| chance.percent(25)),
    };
    let mut outcomes = course.outcomes(chance, begin, &states, fortune);
    let cut = chance.percent(25);
    if cut {
        outcomes.truncate(chance.below(outcomes.len() + 1));
    }
    let asks = chance.of(&[0, 20, 50]);
    let mut list = calls_for(chance, &outcomes, asks);
    if !cut && chance.percent(30) {
        go_on(chance, &mut list);
    }
    Ok(course.performed(begin, &list))
}

/// The number of the call for the allowance.
const ALLOWANCE: u8 = 20;

fn allowed(links: usize) -> Case {
    Case::new(ALLOWANCE).word(links)
}

/// Every number from 0 to 1,024, and above that each power of two with the
/// numbers beside it, up to the highest number.
fn fixed_allowances(out: &mut Out) -> io::Result<()> {
    let above = (11..16).flat_map(|k| [(1 << k) - 1, 1 << k, (1 << k) + 1]);
    for links in (0..=1_024).chain(above).chain([0xfffe, 0xffff]) {
        out.put(allowed(links))?;
    }
    Ok(())
}

/// The numbers of the calls of the round trail.
const ROUND_TRAIL: u8 = 25;
const ROUND_RUN: u8 = 26;
const CHOICE: u8 = 27;

/// The round trail of a listing, in a buffer of so many places.
fn round_trail(listing: &[u8], places: usize) -> Case {
    Case::new(ROUND_TRAIL).string(listing).word(places)
}

/// A round run, with a state for each label.
fn round_run(listing: &[u8], begin: u8, round: &[u16], states: &[u8]) -> Case {
    let head = Case::new(ROUND_RUN).string(listing).byte(begin);
    head.labels(round).string(states)
}

/// A choice between a trail and a round trail.
fn choice(listing: &[u8], begin: u8, trail: &[u16], round: &[u16]) -> Case {
    let head = Case::new(CHOICE).string(listing).byte(begin);
    head.labels(trail).labels(round)
}

/// A listing with the plant that was meant and both of that plant's trails.
struct Pair {
    listing: Vec<u8>,
    plant: Plant,
    trail: Vec<u16>,
    round: Vec<u16>,
}

/// The round trail of a plant that is one component; of any other none.
fn round_of(plant: &Plant) -> Vec<u16> {
    joined(plant).map_or(Vec::new(), |net| Round::new(&net).labels().to_vec())
}

impl Pair {
    fn new(plant: Plant) -> Pair {
        Pair::of(Subject::new(plant))
    }

    fn of(subject: Subject) -> Pair {
        let Subject {
            listing,
            plant,
            trail,
        } = subject;
        Pair {
            listing,
            round: round_of(&plant),
            plant,
            trail,
        }
    }

    /// How many labels the plant has: two for each link.
    fn labels(&self) -> usize {
        2 * usize::from(self.plant.links)
    }

    fn some_switch(&self, chance: &mut Chance) -> u8 {
        chance.below(usize::from(self.plant.switches)) as u8
    }

    /// The switch after this one, the first after the last.
    fn after(&self, begin: u8) -> u8 {
        (begin + 1) % self.plant.switches
    }

    /// A state for each label, those of some labels down.
    fn down(&self, chance: &mut Chance, labels: &[usize]) -> Vec<u8> {
        let mut states: Vec<u8> = (0..self.labels()).map(|_| some_up(chance)).collect();
        for label in labels {
            states[*label] = 0;
        }
        states
    }

    fn up(&self, chance: &mut Chance) -> Vec<u8> {
        self.down(chance, &[])
    }

    fn placed(&self, places: usize) -> Case {
        round_trail(&self.listing, places)
    }

    /// The run of the round trail as it is.
    fn run(&self, begin: u8, states: &[u8]) -> Case {
        self.run_lent(begin, &self.round, states)
    }

    fn run_lent(&self, begin: u8, round: &[u16], states: &[u8]) -> Case {
        round_run(&self.listing, begin, round, states)
    }

    fn choice(&self, begin: u8, trail: &[u16], round: &[u16]) -> Case {
        choice(&self.listing, begin, trail, round)
    }

    /// Hops with so many spare places, filled in one of some ways.
    fn spared(&self, chance: &mut Chance, hops: &[u16], more: usize, way: usize) -> Vec<u16> {
        let most = self.labels().max(1);
        let filler: Vec<u16> = match way {
            0 => vec![0; more],
            1 => vec![0xffff; more],
            // As if it went round again, or back the way it came.
            2 => hops.iter().copied().cycle().take(more).collect(),
            3 => {
                let back = hops.iter().rev().map(|label| label ^ 1);
                back.cycle().take(more).collect()
            }
            4 => (0..more).map(|_| chance.below(most) as u16).collect(),
            _ => (0..more).map(|_| chance.word()).collect(),
        };
        [hops, &filler].concat()
    }

    /// Hops with spare places up to so many in all, filled in some way.
    fn stretched(&self, chance: &mut Chance, hops: &[u16], places: usize) -> Vec<u16> {
        let way = chance.below(SPARES);
        self.spared(chance, hops, places.saturating_sub(hops.len()), way)
    }

    /// Hops changed in one of some ways. Few of them are right after all.
    fn changed(&self, chance: &mut Chance, hops: &[u16], way: usize) -> Vec<u16> {
        let mut lent = hops.to_vec();
        let Some(last) = lent.len().checked_sub(1) else {
            return lent;
        };
        let any = chance.below(last + 1);
        match way {
            // One label: the first, the last, the middle one, any.
            0..=3 => lent[[0, last, last / 2, any][way]] ^= chance.of(&[1, 2, 256, 512, 0x8000]),
            // Too short by one, by all, by some.
            4 => lent.truncate(last),
            5 => lent.clear(),
            6 => lent.truncate(any),
            // From another place of it, and back the way it came.
            7 => lent.rotate_left(1),
            8 => lent.rotate_right(1),
            9 => lent = lent.iter().rev().map(|label| label ^ 1).collect(),
            // Two labels that have changed places.
            10 => lent.swap(any, last - any),
            // One label more, before it or within it.
            11 => lent.insert(0, chance.below(self.labels()) as u16),
            12 => lent.insert(any, hops[any]),
            // One label left out, and one after it.
            _ => {
                lent.remove(any);
                lent.push(hops[any]);
            }
        }
        lent
    }
}

/// How many ways there are to fill spare places, and to change hops.
const SPARES: usize = 6;
const CHANGES: usize = 14;

/// A state of a direction that is up.
fn some_up(chance: &mut Chance) -> u8 {
    let any = chance.within(1, 255) as u8;
    chance.of(&[1, 1, 1, 2, 128, 255, any])
}

/// The plant of a sketch as it stands, from a start.
fn from_start(sketch: &Sketch, start: usize) -> Plant {
    let mut plant = sketch.plain();
    plant.start = start as u8;
    plant
}

/// Small plants of each kind, from none to ten links.
fn small_pairs(chance: &mut Chance) -> Vec<Pair> {
    let sketches = [
        make::path(1),
        make::path(2),
        make::bundle(2),
        make::bundle(3),
        make::cycle(3),
        make::star(4),
        make::tree(chance, 5),
        make::tailed(chance, 3, 5),
        make::rings(chance, &[3, 3]),
        make::exact(chance, 4, 10),
        make::long(4, 4),
        make::table_one(),
    ];
    let plants = sketches.iter().map(|sketch| sketch.mixed(chance));
    plants.map(Pair::new).collect()
}

/// The cases of round trails that do not wait for chance.
fn fixed_round_trails(chance: &mut Chance, out: &mut Out) -> io::Result<()> {
    fixed_round_buffers(chance, out)?;
    fixed_round_shapes(chance, out)?;
    fixed_round_sizes(chance, out)?;
    // Each refusal of the listing, with a buffer that is long enough for any
    // plant, and with one that meets 10.
    for refusal in 1..=9 {
        for (limits, least, places) in [
            ((5, 8), 0, 2 * LINKS),
            ((5, 8), 0, 0),
            ((12, 24), 20, 1),
            ((32, 80), 60, 0),
        ] {
            let listing = refused(chance, refusal, limits, least);
            out.put(round_trail(&listing, places))?;
        }
    }
    Ok(())
}

/// The round trails of the listings of document 01, and those of small plants
/// with every kind of buffer.
fn fixed_round_buffers(chance: &mut Chance, out: &mut Out) -> io::Result<()> {
    for listing in named_listings() {
        match calls::read(&listing) {
            Ok(plant) => {
                let hops = 2 * usize::from(plant.links);
                for places in hops.saturating_sub(1)..=hops + 1 {
                    out.put(round_trail(&listing, places))?;
                }
            }
            Err(_) => {
                out.put(round_trail(&listing, chance.of(&[0, 1, 30])))?;
            }
        }
    }
    for sketch in [
        make::path(1),
        make::path(2),
        make::bundle(3),
        make::tailed(chance, 3, 5),
        make::long(4, 4),
        make::table_one(),
    ] {
        let pair = Pair::new(sketch.mixed(chance));
        let (hops, trail) = (pair.labels(), pair.trail.len());
        // Also as many as links, and as many as the trail has hops.
        let mut places = vec![0, 1, hops / 2, trail, trail + 1];
        places.extend(hops.saturating_sub(2)..=hops + 2);
        places.extend([hops + 50, 600, 2_000]);
        places.sort_unstable();
        places.dedup();
        for places in places {
            out.put(pair.placed(places))?;
        }
    }
    Ok(())
}

/// The round trails of plants of a known shape, from more than one start, and
/// with the links listed in either direction and order.
fn fixed_round_shapes(chance: &mut Chance, out: &mut Out) -> io::Result<()> {
    let mut put = |plant: Plant| {
        let pair = Pair::new(plant);
        out.put(pair.placed(pair.labels()))
    };
    // The same links from every start.
    let tailed = make::tailed(chance, 3, 6);
    for sketch in [tailed.clone(), make::table_one(), make::complete(4)] {
        for start in 0..sketch.switches {
            put(from_start(&sketch, start))?;
        }
    }
    // All links turned, some of them turned back, and in the other order.
    for mut sketch in [tailed, make::table_one(), make::bundle(4), make::long(4, 3)] {
        for turn in [1, 2, 3] {
            for pair in sketch.pairs.iter_mut().step_by(turn) {
                *pair = (pair.1, pair.0);
            }
            put(sketch.plain())?;
        }
        sketch.pairs.reverse();
        put(sketch.plain())?;
    }
    // Parallel links between two switches.
    for links in [1, 2, 3, 4, 9, 64, LINKS] {
        put(from_start(&make::bundle(links), 0))?;
        put(from_start(&make::bundle(links), 1))?;
    }
    // One switch with many links.
    for switches in [3, 6, 20, SWITCHES] {
        let star = make::star(switches);
        for sketch in [star.clone(), star.doubled(), make::fan(switches)] {
            put(from_start(&sketch, 0))?;
            put(sketch.mixed(chance))?;
        }
    }
    // One link between every two switches, and two.
    for switches in 3..=8 {
        let complete = make::complete(switches);
        put(complete.mixed(chance))?;
        put(complete.doubled().mixed(chance))?;
    }
    Ok(())
}

/// The round trails of plants of every number of switches, and of the limits.
fn fixed_round_sizes(chance: &mut Chance, out: &mut Out) -> io::Result<()> {
    for switches in 1..=SWITCHES {
        let sketch = in_turn(chance, switches);
        let pair = Pair::new(sketch.mixed(chance));
        let more = chance.of(&[0, 0, 0, 1, 2, 40]);
        out.put(pair.placed(pair.labels() + more))?;
    }
    let most = Pair::new(make::exact(chance, SWITCHES, LINKS).mixed(chance));
    for places in [LINKS, 2 * LINKS - 1, 2 * LINKS, 2 * LINKS + 1, 0xffff] {
        out.put(most.placed(places))?;
    }
    let long = Pair::new(make::long(SWITCHES, LINKS - (SWITCHES - 1)).plain());
    for places in [2 * LINKS - 1, 2 * LINKS, Plant::MAX_HOPS] {
        out.put(long.placed(places))?;
    }
    out.put(round_trail(
        &make::listing_of(&make::longest_listing()),
        2 * LINKS,
    ))
}

/// A listing that most often is sound, else apart or damaged, with both trails
/// of the plant that was meant.
fn some_pair(chance: &mut Chance, sound: usize) -> Pair {
    if chance.percent(sound) {
        Pair::new(any_joined(chance).mixed(chance))
    } else {
        Pair::of(subject(chance, 0))
    }
}

/// One case of a round trail, drawn by chance.
fn drawn_round_trail(chance: &mut Chance) -> Case {
    let pair = some_pair(chance, 88);
    let places = trail_places(chance, pair.labels());
    pair.placed(places)
}

/// The cases of round runs that do not wait for chance.
fn fixed_round_runs(chance: &mut Chance, out: &mut Out) -> io::Result<()> {
    fixed_round_states(chance, out)?;
    fixed_round_lent(chance, out)?;
    fixed_round_refused(chance, out)?;
    fixed_round_limits(chance, out)
}

/// Round runs of three parallel links and of small plants, from every switch
/// and with every kind of states.
fn fixed_round_states(chance: &mut Chance, out: &mut Out) -> io::Result<()> {
    let three = Pair::new(make::bundle(3).plain());
    for begin in [0, 1] {
        out.put(three.run(begin, &[1; 6]))?;
        for label in 0..6 {
            let states = three.down(chance, &[label]);
            out.put(three.run(begin, &states))?;
        }
    }
    for (turn, pair) in small_pairs(chance).into_iter().enumerate() {
        let labels = pair.labels();
        for begin in 0..pair.plant.switches {
            let states = pair.up(chance);
            out.put(pair.run(begin, &states))?;
        }
        // Each direction down in turn, and both of some links.
        let mut begin = pair.some_switch(chance);
        for label in 0..labels {
            begin = pair.after(begin);
            let states = pair.down(chance, &[label]);
            out.put(pair.run(begin, &states))?;
        }
        for link in (turn % 3..labels / 2).step_by(3) {
            begin = pair.after(begin);
            let states = pair.down(chance, &[2 * link, 2 * link + 1]);
            out.put(pair.run(begin, &states))?;
        }
        // Many, and all.
        let down: Vec<usize> = (0..labels).filter(|_| chance.percent(40)).collect();
        let states = pair.down(chance, &down);
        out.put(pair.run(begin, &states))?;
        out.put(pair.run(pair.after(begin), &vec![0; labels]))?;
        // More bytes than labels.
        for filler in [0, 1] {
            let mut states = pair.up(chance);
            states.extend(vec![filler; chance.of(&[1, 2, labels + 1])]);
            out.put(pair.run(begin, &states))?;
        }
        // Too few: by one, by half, by all.
        for length in [labels.saturating_sub(1), labels / 2, 0] {
            let states = pair.up(chance);
            out.put(pair.run(begin, &states[..length]))?;
        }
    }
    Ok(())
}

/// Round runs with spare places, with hops that are changed, and with the other
/// trail.
fn fixed_round_lent(chance: &mut Chance, out: &mut Out) -> io::Result<()> {
    for sketch in [
        make::bundle(3),
        make::tailed(chance, 3, 5),
        make::tree(chance, 5),
        make::long(4, 4),
        make::table_one(),
    ] {
        let pair = Pair::new(sketch.mixed(chance));
        let labels = pair.labels();
        for way in 0..SPARES {
            let more = chance.of(&[1, 2, labels]);
            let round = pair.spared(chance, &pair.round, more, way);
            let begin = pair.some_switch(chance);
            let down = [chance.below(labels)];
            let states = pair.down(chance, &down[..way % 2]);
            out.put(pair.run_lent(begin, &round, &states))?;
        }
        for way in 0..CHANGES {
            let round = pair.changed(chance, &pair.round, way);
            let begin = pair.some_switch(chance);
            let states = pair.up(chance);
            out.put(pair.run_lent(begin, &round, &states))?;
        }
        // Changed hops with spare places after them.
        for way in [0, 1, 2, 4] {
            let changed = pair.changed(chance, &pair.round, way);
            let round = pair.stretched(chance, &changed, labels + 3);
            let states = pair.up(chance);
            out.put(pair.run_lent(pair.plant.start, &round, &states))?;
        }
        // The trail of document 01, as it is and with as many places.
        let trail = pair.stretched(chance, &pair.trail, labels);
        for round in [&pair.trail, &trail] {
            let states = pair.up(chance);
            out.put(pair.run_lent(pair.plant.start, round, &states))?;
        }
        // The round trail from another start.
        let mut plant = pair.plant.clone();
        plant.start = pair.after(plant.start);
        let states = pair.up(chance);
        out.put(pair.run_lent(plant.start, &round_of(&plant), &states))?;
    }
    // No hop: any labels are spare places, and any states are past the labels.
    let one = Pair::new(make::path(1).plain());
    for (round, states) in [
        (&[][..], &[][..]),
        (&[], &[0]),
        (&[0], &[]),
        (&[0, 1, 0xffff], &[0, 1]),
    ] {
        out.put(one.run_lent(0, round, states))?;
        out.put(one.run_lent(chance.of(&[1, 255]), round, states))?;
    }
    Ok(())
}

/// Round runs that meet one refusal, and several at once.
fn fixed_round_refused(chance: &mut Chance, out: &mut Out) -> io::Result<()> {
    let triangle = Pair::new(make::cycle(3).plain());
    for refusal in 1..=9 {
        for (begin, hops, states) in [(0, 6, 6), (255, 6, 6), (0, 5, 6), (0, 6, 5), (64, 0, 0)] {
            let listing = refused(chance, refusal, (5, 8), 0);
            let round = &triangle.round[..hops];
            out.put(round_run(&listing, begin, round, &[1; 6][..states]))?;
        }
    }
    // Any of 11, 12 and 13.
    for pair in [
        triangle,
        Pair::new(make::bundle(3).mixed(chance)),
        Pair::new(make::tree(chance, 5).mixed(chance)),
        Pair::new(make::tailed(chance, 3, 5).mixed(chance)),
        Pair::new(make::table_one().mixed(chance)),
    ] {
        let (labels, count) = (pair.labels(), pair.plant.switches);
        for bad in 1..8 {
            let mut begin = pair.some_switch(chance);
            let mut round = pair.round.clone();
            let mut states = pair.up(chance);
            if bad & 1 != 0 {
                begin = chance.of(&[count, count, count + 1, 64, 255]);
            }
            if bad & 2 != 0 {
                round[chance.below(labels)] ^= 1;
            }
            if bad & 4 != 0 {
                states.truncate(chance.of(&[labels - 1, labels / 2, 0]));
            }
            out.put(pair.run_lent(begin, &round, &states))?;
        }
    }
    Ok(())
}

/// Round runs of plants at the limits.
fn fixed_round_limits(chance: &mut Chance, out: &mut Out) -> io::Result<()> {
    let most = Pair::new(make::exact(chance, SWITCHES, LINKS).mixed(chance));
    let begin = most.some_switch(chance);
    let last = usize::from(most.round[2 * LINKS - 1]);
    for down in [vec![], vec![last], vec![last ^ 1]] {
        let states = most.down(chance, &down);
        out.put(most.run(begin, &states))?;
        out.put(most.run(most.plant.start, &states))?;
    }
    let states = most.up(chance);
    out.put(most.run(begin, &states[..2 * LINKS - 1]))?;
    let spared = most.spared(chance, &most.round, 1, 0);
    out.put(most.run_lent(SWITCHES as u8 - 1, &spared, &states))?;
    out.put(most.run_lent(begin, &most.round[..2 * LINKS - 1], &states))?;

    let bundle = Pair::new(make::bundle(LINKS).plain());
    for down in [vec![], vec![2 * LINKS - 1], vec![2 * LINKS - 2]] {
        let states = bundle.down(chance, &down);
        out.put(bundle.run(1, &states))?;
    }
    let states = bundle.up(chance);
    out.put(bundle.run(0, &states[..LINKS]))?;
    for sketch in [
        make::cycle(SWITCHES),
        make::tree(chance, SWITCHES),
        make::tailed(chance, 20, SWITCHES),
    ] {
        let pair = Pair::new(sketch.mixed(chance));
        let begin = pair.some_switch(chance);
        let down = [chance.below(pair.labels())];
        for down in [&[][..], &down] {
            let states = pair.down(chance, down);
            out.put(pair.run(begin, &states))?;
        }
    }
    Ok(())
}

/// Hops as they are lent: most often right, at times with spare places.
fn lent_hops(chance: &mut Chance, pair: &Pair, hops: &[u16]) -> Vec<u16> {
    let (way, more) = (chance.below(CHANGES), chance.within(1, 6));
    match chance.weighed(&[52, 38, 6, 4]) {
        0 => hops.to_vec(),
        1 => pair.stretched(chance, hops, hops.len() + more),
        2 => pair.changed(chance, hops, way),
        _ => {
            let changed = pair.changed(chance, hops, way);
            pair.stretched(chance, &changed, hops.len() + more)
        }
    }
}

/// States of so many labels: most often enough of them.
fn label_states(chance: &mut Chance, labels: usize) -> Vec<u8> {
    let mut states = states(chance, labels);
    if labels > 0 && states.len() >= labels {
        match chance.below(20) {
            // As many as links.
            0 => states.truncate(labels / 2),
            // Both directions of a link.
            1..=3 => {
                let link = chance.below(labels / 2);
                states.fill(some_up(chance));
                states[2 * link..2 * link + 2].fill(0);
            }
            4..=7 => states.fill(some_up(chance)),
            _ => {}
        }
    }
    states
}

/// One case of a round run, drawn by chance.
fn drawn_round_run(chance: &mut Chance) -> Case {
    let pair = some_pair(chance, 92);
    let begin = switch(chance, &pair.plant);
    let round = lent_hops(chance, &pair, &pair.round);
    let states = label_states(chance, pair.labels());
    pair.run_lent(begin, &round, &states)
}

/// A joined plant with links, at most so many switches and links, of which the
/// trail has fewer hops than the round trail, as many, or more.
fn compared(
    chance: &mut Chance,
    wanted: Ordering,
    (switches, links): (usize, usize),
    most: usize,
) -> Pair {
    loop {
        let sketch = if chance.percent(60) {
            make::joined(chance, switches, links)
        } else {
            let switches = chance.within(2, switches);
            let links = chance.within(switches, links);
            make::exact(chance, switches, links)
        };
        if sketch.pairs.is_empty() {
            continue;
        }
        let pair = Pair::new(sketch.mixed(chance));
        if pair.trail.len() <= most && pair.trail.len().cmp(&pair.round.len()) == wanted {
            return pair;
        }
    }
}

const ORDERINGS: [Ordering; 3] = [Ordering::Less, Ordering::Equal, Ordering::Greater];

/// The cases of choices that do not wait for chance.
fn fixed_choices(chance: &mut Chance, out: &mut Out) -> io::Result<()> {
    fixed_compared(chance, out)?;
    fixed_choice_lent(chance, out)?;
    fixed_choice_refused(chance, out)?;
    fixed_choice_limits(chance, out)
}

/// Choices of small plants from every switch, and of plants whose trail is the
/// shorter one, as long, and the longer one.
fn fixed_compared(chance: &mut Chance, out: &mut Out) -> io::Result<()> {
    for pair in small_pairs(chance) {
        for begin in 0..pair.plant.switches {
            out.put(pair.choice(begin, &pair.trail, &pair.round))?;
        }
    }
    // Of trees whose links are listed from the far end both trails are the
    // same; of others they have as many hops.
    let mut path = make::path(5);
    path.pairs.reverse();
    for sketch in [
        path,
        make::star(6),
        make::long(4, 3),
        make::long(3, 4),
        make::long(6, 2),
        // One hop apart.
        make::long(5, 3),
        make::long(3, 5),
        make::long(3, 3),
    ] {
        let pair = Pair::new(sketch.plain());
        out.put(pair.choice(0, &pair.trail, &pair.round))?;
    }
    for wanted in ORDERINGS {
        for (limits, most, times) in [((5, 8), 40, 12), ((12, 24), 120, 8), ((32, 80), LENT, 2)] {
            for turn in 0..times {
                let pair = compared(chance, wanted, limits, most);
                let (trail, round) = (pair.trail.len(), pair.round.len());
                let both = trail.max(round) + 2;
                // As they are; with spare places, so that either one is the
                // longer slice; both slices of one length.
                let (trail, round) = match turn % 4 {
                    0 => (trail, round),
                    1 => (round + 1, round),
                    2 => (trail, trail + 1),
                    _ => (both, both),
                };
                let trail = pair.stretched(chance, &pair.trail, trail);
                let round = pair.stretched(chance, &pair.round, round);
                out.put(pair.choice(pair.some_switch(chance), &trail, &round))?;
            }
        }
    }
    Ok(())
}

/// Choices with spare places, with hops that are changed, and with the trails
/// in each other's place.
fn fixed_choice_lent(chance: &mut Chance, out: &mut Out) -> io::Result<()> {
    for wanted in ORDERINGS {
        let pair = compared(chance, wanted, (5, 8), 40);
        let (trail, round) = (&pair.trail, &pair.round);
        let begin = pair.some_switch(chance);
        for way in 0..SPARES {
            let more = chance.of(&[1, 2, pair.labels()]);
            let long_trail = pair.spared(chance, trail, more, way);
            let long_round = pair.spared(chance, round, more, way);
            match way % 3 {
                0 => out.put(pair.choice(begin, &long_trail, round))?,
                1 => out.put(pair.choice(begin, trail, &long_round))?,
                _ => out.put(pair.choice(begin, &long_trail, &long_round))?,
            }
        }
        for way in 0..CHANGES {
            let changed = pair.changed(chance, trail, way);
            out.put(pair.choice(begin, &changed, round))?;
            let changed = pair.changed(chance, round, way);
            out.put(pair.choice(begin, trail, &changed))?;
        }
        // Changed hops with spare places after them.
        for way in [1, 4] {
            let places = trail.len() + round.len();
            let changed = pair.changed(chance, trail, way);
            let changed = pair.stretched(chance, &changed, places);
            out.put(pair.choice(begin, &changed, round))?;
            let changed = pair.changed(chance, round, way);
            let changed = pair.stretched(chance, &changed, places);
            out.put(pair.choice(begin, trail, &changed))?;
        }
        // In each other's place, one in both, and so with spare places.
        let places = trail.len().max(round.len()) + 1;
        let long_trail = pair.stretched(chance, trail, places);
        let long_round = pair.stretched(chance, round, places);
        for (trail, round) in [(trail, round), (&long_trail, &long_round)] {
            out.put(pair.choice(begin, round, trail))?;
            out.put(pair.choice(begin, trail, trail))?;
            out.put(pair.choice(begin, round, round))?;
        }
    }
    // Of a ring the round trail begins with the trail.
    let ring = Pair::new(make::cycle(4).plain());
    for trail in [&ring.trail, &ring.round] {
        for round in [&ring.trail, &ring.round] {
            out.put(ring.choice(2, trail, round))?;
        }
    }
    // No hop: any labels are spare places.
    let one = Pair::new(make::path(1).plain());
    for (trail, round) in [
        (&[][..], &[][..]),
        (&[0], &[]),
        (&[], &[0]),
        (&[7, 7], &[0xffff]),
    ] {
        out.put(one.choice(0, trail, round))?;
    }
    Ok(())
}

/// Choices that meet one refusal, and several at once.
fn fixed_choice_refused(chance: &mut Chance, out: &mut Out) -> io::Result<()> {
    let triangle = Pair::new(make::cycle(3).plain());
    for refusal in 1..=9 {
        for (begin, trail, round) in [(0, 3, 6), (255, 3, 6), (0, 2, 6), (0, 3, 5), (64, 0, 0)] {
            let listing = refused(chance, refusal, (5, 8), 0);
            let (trail, round) = (&triangle.trail[..trail], &triangle.round[..round]);
            out.put(choice(&listing, begin, trail, round))?;
        }
    }
    // Any of 11, and 12 of either trail.
    for wanted in ORDERINGS {
        let pair = compared(chance, wanted, (5, 8), 40);
        let count = pair.plant.switches;
        for bad in 1..8 {
            let mut begin = pair.some_switch(chance);
            let (mut trail, mut round) = (pair.trail.clone(), pair.round.clone());
            if bad & 1 != 0 {
                begin = chance.of(&[count, count, count + 1, 64, 255]);
            }
            if bad & 2 != 0 {
                trail[chance.below(pair.trail.len())] ^= 1;
            }
            if bad & 4 != 0 {
                round[chance.below(pair.round.len())] ^= 1;
            }
            out.put(pair.choice(begin, &trail, &round))?;
        }
    }
    Ok(())
}

/// Choices of plants at the limits.
fn fixed_choice_limits(chance: &mut Chance, out: &mut Out) -> io::Result<()> {
    for sketch in [
        make::exact(chance, SWITCHES, LINKS),
        make::long(SWITCHES, LINKS - (SWITCHES - 1)),
        make::bundle(LINKS),
        make::cycle(SWITCHES),
        make::star(SWITCHES),
        make::tree(chance, SWITCHES),
        make::tailed(chance, 20, SWITCHES),
        make::rings(chance, &[16; 4]),
        make::exact(chance, 20, 100),
    ] {
        let pair = Pair::new(sketch.plain());
        let begin = pair.some_switch(chance);
        out.put(pair.choice(begin, &pair.trail, &pair.round))?;
    }
    Ok(())
}

/// One case of a choice, drawn by chance: as often of plants whose trail is the
/// shorter one as of those whose trail is as long, or longer.
fn drawn_choice(chance: &mut Chance) -> Case {
    let pair = if chance.percent(7) {
        Pair::of(lending(chance, 0))
    } else {
        let wanted = chance.of(&ORDERINGS);
        let (limits, most) = chance.of(&[
            ((5, 8), 40),
            ((5, 8), 40),
            ((8, 14), 80),
            ((12, 24), 120),
            ((32, 80), LENT),
        ]);
        compared(chance, wanted, limits, most)
    };
    let begin = switch(chance, &pair.plant);
    let trail = lent_hops(chance, &pair, &pair.trail);
    let round = lent_hops(chance, &pair, &pair.round);
    pair.choice(begin, &trail, &round)
}

/// The number of the call that reads a listing.
const LISTING_READ: u8 = 1;

/// The calls that take a listing, but the long run and those of the desk.
const LISTED: [u8; 19] = [
    LISTING_READ,
    3,
    4,
    5,
    6,
    7,
    8,
    9,
    OUTWARD,
    PROBE_RUN,
    LINK_NAMED,
    NEW_SEARCH,
    PERFORM,
    18,
    RULES_BY_SWITCH,
    PAGE_WRITTEN,
    ROUND_TRAIL,
    ROUND_RUN,
    CHOICE,
];

/// Those of them that are given a switch, a trail, link states or a buffer.
const AT_SWITCH: [u8; 10] = [
    7, 8, 9, OUTWARD, PROBE_RUN, LINK_NAMED, NEW_SEARCH, PERFORM, ROUND_RUN, CHOICE,
];
const WITH_TRAIL: [u8; 7] = [8, 9, OUTWARD, PROBE_RUN, LINK_NAMED, ROUND_RUN, CHOICE];
const WITH_STATES: [u8; 4] = [7, 8, PROBE_RUN, ROUND_RUN];
const WITH_BUFFER: [u8; 4] = [6, 18, PAGE_WRITTEN, ROUND_TRAIL];

/// The triangle of order 7: its last link is out of service.
const MARKED_TRIANGLE: &[u8] = &[3, 3, 3, 0, 2, 1, 3, 1, 2, 0x0b, 2, 0];

/// The arguments of a call that takes a listing, besides the listing. Each call
/// has some of them.
#[derive(Clone)]
struct Arguments {
    begin: u8,
    labels: Vec<u16>,
    trail: Vec<u16>,
    round: Vec<u16>,
    states: Vec<u8>,
    search: Search,
    list: Vec<u8>,
    spare: u8,
    places: usize,
}

impl Arguments {
    fn case(&self, call: u8, listing: &[u8]) -> Case {
        let case = Case::new(call).string(listing);
        if call == PAGE_WRITTEN {
            return case.byte(self.spare).word(self.places);
        }
        if WITH_BUFFER.contains(&call) {
            return case.word(self.places);
        }
        if !AT_SWITCH.contains(&call) {
            return case;
        }
        let case = case.byte(self.begin);
        match call {
            7 => case.labels(&self.labels).string(&self.states),
            8 => case.labels(&self.trail).string(&self.states),
            9 => case.labels(&self.trail),
            OUTWARD | LINK_NAMED => case.labels(&self.trail).search(self.search),
            PROBE_RUN => {
                let case = case.labels(&self.trail).string(&self.states);
                case.search(self.search)
            }
            NEW_SEARCH => case,
            PERFORM => case.string(&self.list),
            ROUND_RUN => case.labels(&self.round).string(&self.states),
            _ => case.labels(&self.trail).labels(&self.round),
        }
    }
}

impl Pair {
    /// How many links are in service.
    fn service(&self) -> usize {
        self.plant.in_service().count()
    }

    fn marked(&self) -> Vec<usize> {
        let links = 0..usize::from(self.plant.links);
        links
            .filter(|number| self.plant.link[*number].out_of_service)
            .collect()
    }

    /// The pair of the plant with every link in service.
    fn unmarked(&self) -> Pair {
        Pair::new(make::unmarked(self.plant.clone()))
    }

    /// The states that a call is given: links in service are up, and those out
    /// of service are in one state.
    fn idle(&self, chance: &mut Chance, call: u8, idle: u8) -> Vec<u8> {
        let each = if call == ROUND_RUN { 2 } else { 1 };
        let mut states = Vec::new();
        for link in self.plant.records() {
            for _ in 0..each {
                let up = some_up(chance);
                states.push(if link.out_of_service { idle } else { up });
            }
        }
        states
    }

    /// Right arguments of a call about a joined plant.
    fn arguments(&self, chance: &mut Chance, call: u8) -> Arguments {
        let begin = self.some_switch(chance);
        let net = joined(&self.plant);
        self.arguments_at(chance, call, begin, self.service(), net.as_ref())
    }

    /// Right arguments of a call at a switch whose component has so many links
    /// in service.
    fn arguments_at(
        &self,
        chance: &mut Chance,
        call: u8,
        begin: u8,
        service: usize,
        net: Option<&Net>,
    ) -> Arguments {
        let hops = chance.within(1, 6);
        let labels = net.map_or(Vec::new(), |net| walk(chance, net, begin, hops, false));
        let idle = chance.of(&[0, 0, 1, 255]);
        let first = chance.below(service + 1);
        Arguments {
            begin,
            labels,
            trail: self.trail.clone(),
            round: self.round.clone(),
            states: self.idle(chance, call, idle),
            search: right(chance, service, if call == LINK_NAMED { 80 } else { 0 }),
            list: ending(chance, service, first),
            spare: chance.of(&[0, 1, 10, 50, 100]),
            places: match call {
                6 => self.trail.len(),
                18 => self.listing.len(),
                PAGE_WRITTEN => page_length(usize::from(self.plant.switches)),
                _ => self.round.len(),
            },
        }
    }

    /// A case with right arguments.
    fn right(&self, chance: &mut Chance, call: u8) -> Case {
        let arguments = self.arguments(chance, call);
        arguments.case(call, &self.listing)
    }

    /// A case with right arguments; where the plant is apart, with those of the
    /// plant with every link in service.
    fn likely(&self, chance: &mut Chance, call: u8) -> Case {
        if joined(&self.plant).is_some() {
            self.right(chance, call)
        } else {
            let arguments = self.unmarked().arguments(chance, call);
            arguments.case(call, &self.listing)
        }
    }
}

/// A list of calls that takes a search of so many links to its end, the first
/// so many of its order being sound.
fn ending(chance: &mut Chance, links: usize, first: usize) -> Vec<u8> {
    let mut outcomes = Vec::new();
    let mut state = Search::new(links as u16);
    while let Ok(m) = state.ask() {
        let home = usize::from(m) <= first;
        let sendings = if home { 1 } else { usize::from(SENDINGS) };
        outcomes.extend(vec![home; sendings]);
        state = state.count(home).unwrap_or(Search::AllUp);
    }
    calls_for(chance, &outcomes, 15)
}

/// The sketch's plant, mixed, with so many links more that are out of service.
fn unplugged(chance: &mut Chance, sketch: &Sketch, more: usize) -> Pair {
    let plant = sketch.mixed(chance);
    Pair::new(make::with_unplugged(chance, &plant, more))
}

/// Small joined plants with links out of service.
fn unplugged_pairs(chance: &mut Chance) -> Vec<Pair> {
    let sketches = [
        (make::path(2), 1),
        (make::path(2), 4),
        (make::cycle(3), 1),
        (make::tree(chance, 4), 3),
        (make::bundle(2), 2),
        (make::tailed(chance, 3, 5), 3),
        (make::long(3, 2), 2),
        (make::exact(chance, 4, 6), 3),
    ];
    sketches
        .iter()
        .map(|(sketch, more)| unplugged(chance, sketch, *more))
        .collect()
}

/// The cases of listings with links out of service that do not wait for chance.
fn fixed_marked(chance: &mut Chance, out: &mut Out) -> io::Result<()> {
    fixed_marked_triangle(chance, out)?;
    fixed_marked_maps(out)?;
    fixed_marked_followers(chance, out)?;
    fixed_markings(chance, out)?;
    fixed_unplugged(chance, out)?;
    fixed_as_unmarked(chance, out)?;
    fixed_idle_states(chance, out)?;
    fixed_marked_crossed(chance, out)?;
    fixed_marked_searches(chance, out)?;
    fixed_marked_listings_refused(chance, out)?;
    fixed_marked_refused(chance, out)?;
    fixed_marked_limits(chance, out)
}

/// Every call about the triangle of order 7, from every switch and with
/// arguments that would be right were its last link in service; and about the
/// triangle with other links out of service.
fn fixed_marked_triangle(chance: &mut Chance, out: &mut Out) -> io::Result<()> {
    let plant = calls::read(MARKED_TRIANGLE).map_err(|_| io::Error::other("no triangle"))?;
    let triangle = Pair::new(plant);
    let whole = triangle.unmarked();
    for call in LISTED {
        let begins = if AT_SWITCH.contains(&call) {
            0..3
        } else {
            0..1
        };
        for begin in begins {
            let mut arguments = triangle.arguments(chance, call);
            arguments.begin = begin;
            out.put(arguments.case(call, MARKED_TRIANGLE))?;
        }
    }
    // Packets: over the two links in service, and over the last one.
    for (begin, labels) in [
        (0, &[0, 2, 3, 1][..]),
        (0, &[0, 2, 4]),
        (2, &[4]),
        (2, &[4, 0]),
        (0, &[5]),
        (0, &[0, 5, 2]),
        (2, &[3, 1, 5, 3]),
        (1, &[2, 6]),
    ] {
        for idle in [0, 255] {
            let mut arguments = triangle.arguments(chance, 7);
            arguments.begin = begin;
            arguments.labels = labels.to_vec();
            arguments.states = vec![1, 1, idle];
            out.put(arguments.case(7, MARKED_TRIANGLE))?;
        }
    }
    // States: each link down, and one byte too few or too many.
    for states in [
        &[1, 1, 0][..],
        &[1, 1, 255],
        &[1, 0, 1],
        &[0, 1, 1],
        &[1, 1],
        &[1, 1, 0, 0],
        &[0, 0, 0],
    ] {
        for call in [8, PROBE_RUN] {
            let mut arguments = triangle.arguments(chance, call);
            arguments.states = states.to_vec();
            out.put(arguments.case(call, MARKED_TRIANGLE))?;
        }
    }
    for count in [3, 4, 5, 6, 7] {
        let mut arguments = triangle.arguments(chance, ROUND_RUN);
        arguments.states = vec![1; count];
        out.put(arguments.case(ROUND_RUN, MARKED_TRIANGLE))?;
    }
    for label in 0..6 {
        let mut arguments = triangle.arguments(chance, ROUND_RUN);
        arguments.states = vec![1; 6];
        arguments.states[label] = 0;
        out.put(arguments.case(ROUND_RUN, MARKED_TRIANGLE))?;
    }
    // Searches of two links and of three.
    for state in [
        Search::Checking(2, 0),
        Search::Checking(3, 0),
        Search::Halving(1, 2, 0),
        Search::Halving(1, 3, 0),
        Search::Halving(2, 3, 0),
        Search::Down(2),
        Search::Down(3),
        Search::AllUp,
    ] {
        for call in JUDGING {
            let mut arguments = triangle.arguments(chance, call);
            arguments.search = state;
            out.put(arguments.case(call, MARKED_TRIANGLE))?;
        }
    }
    // The trails of the triangle with every link in service.
    for call in WITH_TRAIL {
        let mut arguments = triangle.arguments(chance, call);
        if call != CHOICE || chance.percent(50) {
            arguments.trail = whole.trail.clone();
        }
        arguments.round = whole.round.clone();
        out.put(arguments.case(call, MARKED_TRIANGLE))?;
    }
    // Buffers.
    for call in WITH_BUFFER {
        let arguments = triangle.arguments(chance, call);
        for places in [arguments.places - 1, arguments.places + 2, 0] {
            let arguments = Arguments {
                places,
                ..arguments.clone()
            };
            out.put(arguments.case(call, MARKED_TRIANGLE))?;
        }
    }
    // Other links out of service: the first, the second, and two or more.
    for marks in [&[0][..], &[1], &[0, 1], &[0, 1, 2]] {
        let pair = Pair::new(make::marked(whole.plant.clone(), marks));
        for call in LISTED {
            if chance.percent([0, 50, 25, 25][marks.len()]) {
                let case = pair.likely(chance, call);
                out.put(case)?;
            }
        }
    }
    Ok(())
}

/// Maps with bit 3, with the bits above it and with others, in a record and in
/// the header.
fn fixed_marked_maps(out: &mut Out) -> io::Result<()> {
    let calls = [1, 18, 3, RULES_BY_SWITCH, 1, 4];
    let mut turn = 0;
    let mut put = |listing: &[u8]| {
        turn += 1;
        let case = Case::new(calls[turn % calls.len()]).string(listing);
        out.put(match calls[turn % calls.len()] {
            18 => case.word(listing.len()),
            _ => case,
        })
    };
    for map in (0..16).chain([
        0x10, 0x18, 0x1b, 0x20, 0x28, 0x2f, 0x40, 0x48, 0x4a, 0x80, 0x88, 0x8b, 0xf0, 0xf8, 0xff,
    ]) {
        // The fields of bits 0 to 2 after the map.
        let fields: Vec<u8> = [&[1][..], &[2], &[7, 1]]
            .iter()
            .enumerate()
            .filter(|(bit, _)| map >> bit & 1 == 1)
            .flat_map(|(_, field)| field.to_vec())
            .collect();
        let record = [&[map], &fields[..]].concat();
        // First of two, between two that are in service, and last after one
        // that is out of service.
        let listings = [
            [&[3, 3, 2, 0], &record[..], &[2, 2]].concat(),
            [&[3, 3, 3, 0, 2, 1], &record[..], &[3, 0, 2]].concat(),
            [&[3, 3, 4, 0, 2, 1, 2, 2, 9, 1], &record[..]].concat(),
        ];
        let marked = (8..16).contains(&map);
        for (place, listing) in listings.iter().enumerate() {
            if marked || place == usize::from(map) % 3 {
                put(listing)?;
            }
        }
    }
    // The header has no bit 3, with any fields.
    for listing in [
        &[0x08][..],
        &[0x09, 2],
        &[0x0a, 1, 0, 2],
        &[0x0b, 2, 1, 0, 2, 1],
        &[0x0c, 1],
        &[0x0d, 2, 1],
        &[0x0f, 2, 1, 0, 1, 2, 1],
        &[0x0b, 3, 3, 0, 2, 1, 3, 1, 2, 0x0b, 2, 0],
        &[0x18],
        &[0x0b, 3],
    ] {
        put(listing)?;
    }
    Ok(())
}

/// Records out of service whose followers have both of their ends, one, or
/// none, with a tag and without, and an end that is given needlessly.
fn fixed_marked_followers(chance: &mut Chance, out: &mut Out) -> io::Result<()> {
    let calls = [1, 3, 5, 18, 6, RULES_BY_SWITCH, 1, ROUND_TRAIL];
    let mut turn = 0;
    // The link before, the one out of service and its follower.
    for (marked, follower) in [
        ((2, 3), (2, 3)),
        ((2, 3), (2, 0)),
        ((2, 3), (1, 3)),
        ((2, 3), (0, 1)),
        ((2, 3), (0, 3)),
        ((2, 3), (2, 1)),
        ((0, 3), (0, 3)),
        ((3, 1), (3, 1)),
        ((0, 1), (0, 1)),
        ((1, 0), (1, 0)),
    ] {
        for (tags, last) in [(0, false), (1, false), (2, false), (3, true)] {
            let sketch = Sketch {
                switches: 4,
                pairs: vec![(0, 1), marked, follower, (1, 2), (2, 3)],
            };
            let mut plant = make::marked(sketch.plain(), &[1]);
            if last {
                // The follower is out of service too.
                plant.link[2].out_of_service = true;
            }
            plant.link[1].tag = [0, 0x0203, 0, 0x0100][tags];
            plant.link[2].tag = [0, 0, 0x0203, 0x0302][tags];
            let pair = Pair::new(plant);
            let case = pair.likely(chance, calls[turn % calls.len()]);
            turn += 1;
            out.put(case)?;
        }
    }
    // At the front, where both ends count as 0 before.
    for listing in [
        &[3, 2, 2, 0, 10, 1, 0][..],
        &[3, 2, 2, 0, 9, 1, 0],
        &[3, 2, 2, 0, 10, 1, 8],
        &[3, 2, 3, 0, 10, 1, 8, 0],
        &[3, 2, 3, 0, 10, 1, 4, 5, 0, 8],
        &[3, 3, 3, 0, 14, 1, 5, 0, 2, 2, 3, 1, 2],
        &[3, 2, 1, 0, 8],
        &[3, 2, 2, 0, 8, 2, 1],
        // An end as in the record out of service, and as in the one before it.
        &[3, 4, 3, 0, 2, 1, 11, 2, 3, 1, 2],
        &[3, 4, 3, 0, 2, 1, 11, 2, 3, 2, 3],
        &[3, 4, 3, 0, 2, 1, 11, 2, 3, 1, 0],
        &[3, 4, 3, 0, 2, 1, 11, 2, 3, 2, 1],
        &[3, 4, 3, 0, 2, 1, 11, 2, 3, 9, 2],
        &[3, 4, 3, 0, 2, 1, 11, 2, 3, 9, 0],
        &[3, 4, 3, 0, 2, 1, 11, 2, 3, 4, 0, 0],
    ] {
        out.put(Case::new(LISTING_READ).string(listing))?;
    }
    Ok(())
}

/// Small plants of each kind with links chosen in each way out of service, the
/// calls in turn.
fn fixed_markings(chance: &mut Chance, out: &mut Out) -> io::Result<()> {
    let parallel = Sketch {
        switches: 4,
        pairs: vec![(0, 1), (1, 0), (1, 2), (2, 3), (3, 2), (2, 3)],
    };
    let sketches = [
        parallel,
        make::tree(chance, 5),
        make::cycle(4),
        make::tailed(chance, 3, 5),
        make::rings(chance, &[3, 3]),
        make::exact(chance, 4, 9),
        make::bundle(3),
        make::table_one(),
        make::exact(chance, 10, 20),
    ];
    let mut turn = 0;
    for sketch in &sketches {
        for way in 0..make::MARKINGS {
            let plant = sketch.mixed(chance);
            let marks = make::marking(chance, &plant, way);
            let pair = Pair::new(make::marked(plant, &marks));
            let case = pair.likely(chance, LISTED[turn % LISTED.len()]);
            turn += 1;
            out.put(case)?;
        }
    }
    // No link of one switch, and none of one link.
    for sketch in [make::path(1), make::path(2)] {
        let plant = sketch.plain();
        let marks = make::marking(chance, &plant, 3);
        let pair = Pair::new(make::marked(plant, &marks));
        for call in [6, NEW_SEARCH] {
            let case = pair.likely(chance, call);
            out.put(case)?;
        }
    }
    Ok(())
}

/// Every call about joined plants with links out of service.
fn fixed_unplugged(chance: &mut Chance, out: &mut Out) -> io::Result<()> {
    for (turn, pair) in unplugged_pairs(chance).into_iter().enumerate() {
        for call in LISTED.into_iter().skip(turn % 2).step_by(2) {
            let case = pair.right(chance, call);
            out.put(case)?;
        }
    }
    // Trees that would have no bridge, or fewer.
    for (switches, more) in [(3, 1), (4, 4), (6, 5), (9, 3)] {
        let tree = make::tree(chance, switches);
        let pair = unplugged(chance, &tree, more);
        for call in [3, 4, 5, RULES_BY_SWITCH, PAGE_WRITTEN] {
            let case = pair.right(chance, call);
            out.put(case)?;
        }
    }
    // Those of which the other trail would be the shorter one.
    let shorter = |pair: &Pair| pair.round.len() < pair.trail.len();
    for wanted in [false, true, false, true] {
        let pair = loop {
            let sketch = make::exact(chance, 4, 6);
            let pair = unplugged(chance, &sketch, 3);
            if shorter(&pair) == wanted && shorter(&pair.unmarked()) != wanted {
                break pair;
            }
        };
        let case = pair.right(chance, CHOICE);
        out.put(case)?;
        let mut arguments = pair.arguments(chance, CHOICE);
        arguments.trail = pair.spared(chance, &pair.trail, 3, 2);
        arguments.round = pair.spared(chance, &pair.round, 2, 4);
        out.put(arguments.case(CHOICE, &pair.listing))?;
    }
    Ok(())
}

/// Arguments that would be right were every link in service.
fn fixed_as_unmarked(chance: &mut Chance, out: &mut Out) -> io::Result<()> {
    for (turn, pair) in unplugged_pairs(chance).into_iter().skip(2).enumerate() {
        let whole = pair.unmarked();
        let (service, links) = (pair.service(), pair.labels() / 2);
        // Trails.
        for call in WITH_TRAIL {
            if (usize::from(call) + turn) % 2 == 0 {
                let mut arguments = pair.arguments(chance, call);
                arguments.trail = whole.trail.clone();
                arguments.round = whole.round.clone();
                out.put(arguments.case(call, &pair.listing))?;
            }
        }
        let mut arguments = pair.arguments(chance, CHOICE);
        if turn % 2 == 0 {
            arguments.trail = whole.trail.clone();
        } else {
            arguments.round = whole.round.clone();
        }
        out.put(arguments.case(CHOICE, &pair.listing))?;
        // Searches of as many links as the listing has.
        let all = links as u16;
        let past = chance.within(service + 1, links) as u16;
        for (place, state) in [
            Search::Checking(all, 0),
            Search::Halving(1, past, 0),
            Search::Down(past),
            Search::Down(service as u16),
            Search::Checking(service as u16, 0),
        ]
        .into_iter()
        .enumerate()
        {
            let mut arguments = pair.arguments(chance, LINK_NAMED);
            arguments.search = state;
            let calls = [JUDGING[(turn + place) % 3], LINK_NAMED];
            for call in &calls[..if place == 2 { 2 } else { 1 }] {
                out.put(arguments.case(*call, &pair.listing))?;
            }
        }
        // States of as many links as are in service, and of more.
        let between = chance.within(service, links - 1);
        for (call, count) in [
            ([7, 8, PROBE_RUN][turn % 3], service),
            ([8, PROBE_RUN, 7][turn % 3], between),
            ([7, 8, PROBE_RUN][turn % 3], links),
            (ROUND_RUN, 2 * service),
            (ROUND_RUN, 2 * between + turn % 2),
            (ROUND_RUN, 2 * links - 1),
            (ROUND_RUN, 2 * links),
        ] {
            let mut arguments = pair.arguments(chance, call);
            arguments.states.truncate(count);
            out.put(arguments.case(call, &pair.listing))?;
        }
        // Buffers for the hops over all links.
        for (call, places) in [
            (6, whole.trail.len()),
            (ROUND_TRAIL, whole.round.len()),
            (ROUND_TRAIL, pair.round.len() - 1),
        ] {
            let mut arguments = pair.arguments(chance, call);
            arguments.places = places;
            out.put(arguments.case(call, &pair.listing))?;
        }
    }
    Ok(())
}

/// Runs with links in service down and up, and those out of service in any
/// state.
fn fixed_idle_states(chance: &mut Chance, out: &mut Out) -> io::Result<()> {
    let tailed = make::tailed(chance, 3, 4);
    for (sketch, more) in [(make::cycle(3), 2), (tailed, 2), (make::bundle(3), 1)] {
        let pair = unplugged(chance, &sketch, more);
        for idle in [0, 255] {
            for call in WITH_STATES {
                let mut arguments = pair.arguments(chance, call);
                arguments.states = pair.idle(chance, call, idle);
                if call == PROBE_RUN {
                    arguments.search = Search::Checking(pair.service() as u16, 0);
                }
                out.put(arguments.case(call, &pair.listing))?;
            }
        }
        // Each link in service down in turn.
        for (number, _) in pair.plant.in_service() {
            for call in [8, PROBE_RUN] {
                let mut arguments = pair.arguments(chance, call);
                arguments.states[number] = 0;
                out.put(arguments.case(call, &pair.listing))?;
            }
            let mut arguments = pair.arguments(chance, ROUND_RUN);
            arguments.states[2 * number + chance.below(2)] = 0;
            out.put(arguments.case(ROUND_RUN, &pair.listing))?;
        }
    }
    Ok(())
}

/// Packets of free labels that come to a link out of service: at the front, on
/// the way and at the end.
fn fixed_marked_crossed(chance: &mut Chance, out: &mut Out) -> io::Result<()> {
    for pair in unplugged_pairs(chance) {
        let net = joined(&pair.plant).ok_or(io::Error::other("a plant apart"))?;
        for third in 0..3 {
            let label = 2 * chance.of(&pair.marked()) as u16 + chance.below(2) as u16;
            let (from, to) = net.ends(label);
            // The trail up to the link's end, and a walk on from the other one.
            let way = pair.trail.iter().copied();
            let mut labels: Vec<u16> = way.take_while(|next| net.ends(*next).0 != from).collect();
            let hops = chance.within(1, 4);
            let on = walk(chance, &net, to as u8, hops, false);
            let mut arguments = pair.arguments(chance, 7);
            arguments.begin = pair.plant.start;
            if third == 0 {
                arguments.begin = from as u8;
                labels.clear();
            }
            labels.push(label);
            if third < 2 {
                labels.extend(on);
            }
            arguments.labels = labels;
            let idle = chance.of(&[0, 1, 255]);
            arguments.states = pair.idle(chance, 7, idle);
            out.put(arguments.case(7, &pair.listing))?;
        }
    }
    Ok(())
}

/// Searches of few links in service among more: every first broken link, and
/// losses alone.
fn fixed_marked_searches(chance: &mut Chance, out: &mut Out) -> io::Result<()> {
    for (links, more) in [(1, 1), (2, 3), (3, 1), (5, 4)] {
        let sketch = make::exact(chance, links.clamp(2, 4), links);
        let pair = unplugged(chance, &sketch, more);
        let begin = pair.some_switch(chance);
        out.put(Case::new(NEW_SEARCH).string(&pair.listing).byte(begin))?;
        for first in 0..=links {
            let list = ending(chance, links, first);
            out.put(performed(&pair.listing, begin, &list))?;
        }
        let probes = 1 + usize::from(calls::allowance(links as u16));
        let list = vec![2; usize::from(SENDINGS) * probes - 1];
        out.put(performed(&pair.listing, begin, &list))?;
        // The order from every switch, and the link at every place of it.
        for begin in 0..pair.plant.switches {
            let mut arguments = pair.arguments(chance, 9);
            arguments.begin = begin;
            out.put(arguments.case(9, &pair.listing))?;
        }
        for place in 1..=links {
            let mut arguments = pair.arguments(chance, LINK_NAMED);
            arguments.search = Search::Down(place as u16);
            out.put(arguments.case(LINK_NAMED, &pair.listing))?;
        }
    }
    Ok(())
}

/// Each refusal of the listing in every call: 1 to 8 at a link out of service
/// or next to it; and a plant apart for want of a link that is out of service.
fn fixed_marked_listings_refused(chance: &mut Chance, out: &mut Out) -> io::Result<()> {
    for call in LISTED {
        for refusal in 1..=8 {
            let sketch = make::joined(chance, 4, 5);
            let sketch = if sketch.switches == 1 {
                make::path(2)
            } else {
                sketch
            };
            let more = chance.within(1, 2);
            let pair = unplugged(chance, &sketch, more);
            let listing = make::faulty(chance, &pair.plant, refusal);
            let arguments = pair.arguments(chance, call);
            out.put(arguments.case(call, &listing))?;
        }
        if call != 1 && call != 18 {
            let tailed = make::tailed(chance, 3, 5);
            let plant = tailed.mixed(chance);
            let marks = make::marking(chance, &plant, 4);
            let case = Pair::new(make::marked(plant, &marks)).likely(chance, call);
            out.put(case)?;
        }
    }
    Ok(())
}

/// The refusals from 10 on with links out of service: each alone, and several
/// at once, so that their order shows.
fn fixed_marked_refused(chance: &mut Chance, out: &mut Out) -> io::Result<()> {
    let tailed = make::tailed(chance, 3, 5);
    let pair = unplugged(chance, &tailed, 2);
    let (service, count) = (pair.service() as u16, pair.plant.switches);
    for call in LISTED {
        let arguments = pair.arguments(chance, call);
        if AT_SWITCH.contains(&call) {
            let begin = chance.of(&[count, count + 1, 64, 255]);
            let arguments = Arguments {
                begin,
                ..arguments.clone()
            };
            out.put(arguments.case(call, &pair.listing))?;
        }
        if WITH_TRAIL.contains(&call) {
            let mut arguments = arguments.clone();
            let way = chance.below(CHANGES);
            arguments.trail = pair.changed(chance, &pair.trail, way % 7);
            arguments.round = pair.changed(chance, &pair.round, way % 7);
            out.put(arguments.case(call, &pair.listing))?;
        }
        if WITH_BUFFER.contains(&call) {
            let mut arguments = arguments.clone();
            arguments.places -= 1;
            out.put(arguments.case(call, &pair.listing))?;
        }
    }
    for call in JUDGING {
        for state in [
            Search::Down(1),
            Search::AllUp,
            Search::Checking(service, 3),
            Search::Checking(service - 1, 0),
            Search::Halving(1, service + 1, 0),
        ] {
            let mut arguments = pair.arguments(chance, call);
            arguments.search = state;
            out.put(arguments.case(call, &pair.listing))?;
        }
    }
    for spare in [100, 101, 255] {
        let mut arguments = pair.arguments(chance, PAGE_WRITTEN);
        arguments.spare = spare;
        out.put(arguments.case(PAGE_WRITTEN, &pair.listing))?;
    }
    // Several at once: a plant apart, 11, 12 by the trail of all links, 13 by
    // as many states as links are in service, 14 by the count of all links.
    let plant = tailed.mixed(chance);
    let marks = make::marking(chance, &plant, 4);
    let apart = Pair::new(make::marked(plant, &marks));
    for turn in 0..32 {
        let bad = |kind: usize| turn >> kind & 1 == 1;
        let call = WITH_TRAIL[turn % WITH_TRAIL.len()];
        let here = if bad(4) && turn % 3 > 0 {
            &apart
        } else {
            &pair
        };
        let whole = here.unmarked();
        let mut arguments = if bad(1) { &whole } else { here }.arguments(chance, call);
        arguments.search = Search::Checking(service, 0);
        arguments.states = here.idle(chance, call, 0);
        if bad(0) {
            arguments.begin = count;
        }
        if bad(2) {
            let states = here.service() * arguments.states.len() / (here.labels() / 2);
            arguments.states.truncate(states);
        }
        if bad(3) {
            arguments.search = Search::Checking(here.plant.links, 0);
        }
        out.put(arguments.case(call, &here.listing))?;
    }
    Ok(())
}

/// Plants at the limits: 64 switches and 256 links, with some, with many and
/// with as many as can be out of service.
fn fixed_marked_limits(chance: &mut Chance, out: &mut Out) -> io::Result<()> {
    let mut put = |chance: &mut Chance, plant: &Plant, way: usize, call: u8| {
        let marks = make::marking(chance, plant, way);
        let pair = Pair::new(make::marked(plant.clone(), &marks));
        let case = pair.likely(chance, call);
        out.put(case)
    };
    let most = make::exact(chance, SWITCHES, LINKS).mixed(chance);
    for (way, call) in [
        (9, 3),
        (9, 18),
        (5, 4),
        (1, 1),
        (9, ROUND_TRAIL),
        (9, NEW_SEARCH),
        (10, 5),
        (3, 3),
        (9, 8),
        (9, LINK_NAMED),
        (9, CHOICE),
        (10, ROUND_RUN),
        (9, PROBE_RUN),
        (10, RULES_BY_SWITCH),
    ] {
        put(chance, &most, way, call)?;
    }
    let dense = make::exact(chance, 20, 60).mixed(chance);
    for (way, call) in [(10, 9), (5, OUTWARD), (10, PROBE_RUN), (2, 8), (10, CHOICE)] {
        put(chance, &dense, way, call)?;
    }
    let bundle = make::bundle(LINKS).plain();
    for (way, call) in [
        (0, 6),
        (7, 3),
        (7, PERFORM),
        (1, ROUND_RUN),
        (7, CHOICE),
        (10, PAGE_WRITTEN),
        (7, PROBE_RUN),
        (3, RULES_BY_SWITCH),
    ] {
        put(chance, &bundle, way, call)?;
    }
    // A ring of all switches, which is a path without one link of it.
    let ring = make::cycle(SWITCHES).mixed(chance);
    for (way, call) in [
        (5, 3),
        (0, 6),
        (1, RULES_BY_SWITCH),
        (5, PAGE_WRITTEN),
        (2, 4),
    ] {
        put(chance, &ring, way, call)?;
    }
    let longest = make::longest_listing();
    for way in [3, 10] {
        put(chance, &longest, way, 18)?;
    }
    Ok(())
}

/// The most hops of a trail that is lent with links out of service in a case
/// drawn by chance.
const LENT_MARKED: usize = 120;

/// A plant with links out of service, drawn by chance: joined more often than
/// not.
fn some_marked(chance: &mut Chance) -> Pair {
    let (switches, links) = chance.of(&[(5, 8), (5, 8), (12, 24), (32, 60)]);
    let plant = make::joined(chance, switches, links).mixed(chance);
    if chance.percent(60) {
        let more = chance.within(1, 4);
        return Pair::new(make::with_unplugged(chance, &plant, more));
    }
    let way = chance.below(make::MARKINGS);
    let marks = make::marking(chance, &plant, way);
    Pair::new(make::marked(plant, &marks))
}

/// One case of a listing with links out of service, drawn by chance.
fn drawn_marked(chance: &mut Chance) -> Case {
    let call = chance.of(&LISTED);
    let mut pair = some_marked(chance);
    while WITH_TRAIL.contains(&call) && pair.trail.len() > LENT_MARKED {
        pair = some_marked(chance);
    }
    if chance.percent(15) {
        pair.listing = make::damaged(chance, &pair.plant);
    }
    let mut arguments = if chance.percent(90) {
        pair.arguments(chance, call)
    } else {
        pair.unmarked().arguments(chance, call)
    };
    if chance.percent(50) {
        let labels = arguments.states.len();
        if labels > 0 {
            arguments.states[chance.below(labels)] = 0;
        }
    }
    match chance.below(12) {
        0 => arguments.begin = switch(chance, &pair.plant),
        1 => {
            let way = chance.below(CHANGES);
            arguments.trail = pair.changed(chance, &pair.trail, way);
            arguments.round = pair.changed(chance, &pair.round, way);
        }
        2 => {
            let count = chance.below(arguments.states.len() + 1);
            arguments.states.truncate(count);
        }
        3 => arguments.search = wrong(chance, pair.service()),
        4 => arguments.search = right(chance, pair.labels() / 2, 30),
        5 => arguments.places = trail_places(chance, arguments.places),
        6 => arguments.list = call_list(chance),
        7 => arguments.spare = chance.byte(),
        _ => {}
    }
    arguments.case(call, &pair.listing)
}

/// The numbers of the calls that are given a plant with marks.
const WRITE_MARKED: u8 = 28;
const REREAD_MARKED: u8 = 29;

/// A plant to be written, and the string that tells its marks.
#[derive(Clone)]
struct Writing {
    plant: Plant,
    given: usize,
    marks: Vec<u8>,
    places: usize,
}

impl Writing {
    /// A plant with as many places as it has links, marked as it says, in a
    /// buffer that is long enough. The string ends with the last mark.
    fn new(chance: &mut Chance, plant: &Plant) -> Writing {
        let last = plant.link.iter().rposition(|link| link.out_of_service);
        let marked = &plant.link[..last.map_or(0, |last| last + 1)];
        let marks = marked.iter().map(|link| match link.out_of_service {
            true => chance.of(&[1, 1, 2, 128, 255]),
            false => 0,
        });
        Writing {
            marks: marks.collect(),
            given: usize::from(plant.links),
            places: listing::write_vec(plant).map_or(40, |listing| listing.len()),
            plant: plant.clone(),
        }
    }

    fn case(&self, call: u8) -> Case {
        let case = Case::new(call).marked_plant(&self.plant, self.given, &self.marks);
        case.word(self.places)
    }

    /// With a mark more, at a place that may be past the last link.
    fn mark(mut self, place: usize, mark: u8) -> Writing {
        let length = self.marks.len().max(place + 1);
        self.marks.resize(length, 0);
        self.marks[place] = mark;
        self
    }

    fn in_places(mut self, places: usize) -> Writing {
        self.places = places;
        self
    }

    /// With a string of so many bytes.
    fn told(mut self, length: usize) -> Writing {
        self.marks.resize(length, 0);
        self
    }
}

/// The cases of plants written, or written and reread, with marks that do not
/// wait for chance.
fn fixed_writings(chance: &mut Chance, out: &mut Out, call: u8) -> io::Result<()> {
    fixed_marks_written(chance, out, call)?;
    fixed_marks_past(chance, out, call)?;
    fixed_marks_refused(chance, out, call)?;
    fixed_marks_limits(chance, out, call)
}

/// Marks on none, the first, the last, some and all links, with each mark, and
/// with strings and buffers of any length.
fn fixed_marks_written(chance: &mut Chance, out: &mut Out, call: u8) -> io::Result<()> {
    let triangle = make::cycle(3).plain();
    for marks in [
        &[][..],
        &[0],
        &[1],
        &[2],
        &[0, 1],
        &[0, 2],
        &[1, 2],
        &[0, 1, 2],
    ] {
        let plant = make::marked(triangle.clone(), marks);
        let writing = Writing::new(chance, &plant);
        out.put(writing.case(call))?;
        let length = writing.places;
        let places = chance.of(&[length - 1, length + 1, length + 9, 0]);
        out.put(writing.in_places(places).case(call))?;
    }
    // Buffers.
    let tailed = make::tailed(chance, 3, 5).mixed(chance);
    let marks = make::marking(chance, &tailed, 2);
    let tailed = make::marked(tailed, &marks);
    let writing = Writing::new(chance, &tailed);
    let length = writing.places;
    for places in [
        0,
        1,
        length - 2,
        length - 1,
        length,
        length + 1,
        length + 50,
    ] {
        out.put(writing.clone().in_places(places).case(call))?;
    }
    // Every mark is the same.
    for mark in [1, 2, 3, 8, 127, 128, 254, 255] {
        let writing = Writing::new(chance, &triangle);
        out.put(writing.mark(chance.below(3), mark).case(call))?;
    }
    // Strings that are shorter than the links, as long and longer.
    for length in [0, 1, 2, 3, 4, 5, 6, LINKS - 1, LINKS, LINKS + 1] {
        let plant = make::marked(triangle.clone(), &[0]);
        let writing = Writing::new(chance, &plant);
        out.put(writing.told(length).case(call))?;
    }
    // Tags and followers.
    for way in 0..make::MARKINGS {
        let sketch = Sketch {
            switches: 3,
            pairs: vec![(0, 1), (0, 1), (2, 1), (2, 1), (2, 0)],
        };
        let mut plant = sketch.plain();
        for link in &mut plant.link[..5] {
            link.tag = chance.of(&[0, 0, 1, 256, 0xffff]);
        }
        let marks = make::marking(chance, &plant, way);
        let plant = make::marked(plant, &marks);
        out.put(Writing::new(chance, &plant).case(call))?;
    }
    Ok(())
}

/// Marks past the last link, alone and with other faults; and bytes past the
/// last place, which tell nothing.
fn fixed_marks_past(chance: &mut Chance, out: &mut Out, call: u8) -> io::Result<()> {
    let one = make::path(1).plain();
    let triangle = make::marked(make::cycle(3).plain(), &[1]);
    for (plant, links) in [(&one, 0), (&triangle, 3)] {
        let writing = Writing::new(chance, plant);
        out.put(writing.case(call))?;
        for place in [links, links + 1, 9, LINKS - 1] {
            let mark = chance.of(&[1, 2, 128, 255]);
            out.put(writing.clone().mark(place, mark).case(call))?;
        }
        for place in [LINKS, LINKS + 1, LINKS + 40] {
            out.put(writing.clone().mark(place, 1).case(call))?;
        }
        // A place past the last link is told to be zero, or not.
        let mut told = writing.clone();
        told.given = links + 2;
        out.put(told.case(call))?;
        out.put(told.clone().mark(links + 1, 1).case(call))?;
        told.plant.link[links].tag = 1;
        out.put(told.case(call))?;
        out.put(told.clone().mark(links, 255).case(call))?;
    }
    // Before 6, 7 and 16.
    for way in 0..4 {
        let mut plant = triangle.clone();
        match way {
            0 => plant.link[2].second = 3,
            1 => plant.link[1].second = plant.link[1].first,
            2 => plant.link[0] = plant.link[3],
            _ => {}
        }
        let places = [30, 30, 0, 5][way];
        let writing = Writing::new(chance, &plant).in_places(places);
        out.put(writing.case(call))?;
        out.put(writing.mark(chance.of(&[3, 4, 200]), 1).case(call))?;
    }
    // A link fewer, so that its mark is past the last link; and one more, so
    // that a place past them is a link from switch 0 to itself.
    for (links, place) in [(2, 2), (2, 1), (4, 3), (4, 1), (4, 4)] {
        let mut writing = Writing::new(chance, &make::cycle(3).plain());
        writing.plant.links = links;
        writing.given = chance.of(&[3, 3, usize::from(links)]);
        out.put(writing.mark(place, 1).case(call))?;
    }
    Ok(())
}

/// Links out of service that join a switch to itself or have an end out of
/// range, before and after others that do; and header values out of range.
fn fixed_marks_refused(chance: &mut Chance, out: &mut Out, call: u8) -> io::Result<()> {
    let plant = make::exact(chance, 4, 5).mixed(chance);
    for place in [0, 2, 4] {
        for fault in 0..5 {
            let mut plant = make::marked(plant.clone(), &[place]);
            let link = &mut plant.link[place];
            match fault {
                0 => link.first = link.second,
                1 => link.first = chance.of(&[4, 5, 64, 255]),
                2 => link.second = chance.of(&[4, 5, 64, 255]),
                3 => (link.first, link.second) = (4, 4),
                _ => (link.first, link.second, link.tag) = (0, 0, 0),
            }
            let writing = Writing::new(chance, &plant);
            let places = chance.of(&[0, 12, 40]);
            out.put(writing.in_places(places).case(call))?;
        }
    }
    // One out of service and one in service, in either order.
    for (marked, other) in [(1, 3), (3, 1)] {
        for end in [false, true] {
            let mut plant = make::marked(plant.clone(), &[marked]);
            let (one, two) = if end {
                (marked, other)
            } else {
                (other, marked)
            };
            plant.link[one].first = 7;
            plant.link[two].first = plant.link[two].second;
            out.put(Writing::new(chance, &plant).case(call))?;
        }
    }
    for header in 0..4 {
        let mut plant = make::marked(plant.clone(), &[0, 4]);
        match header {
            0 => plant.switches = 0,
            1 => plant.switches = 65,
            2 => plant.start = 4,
            _ => plant.links = 257,
        }
        let mut writing = Writing::new(chance, &plant);
        writing.given = 5;
        out.put(writing.case(call))?;
    }
    Ok(())
}

/// As many links as there can be: the longest listing, all, some, the last one
/// and none of them marked.
fn fixed_marks_limits(chance: &mut Chance, out: &mut Out, call: u8) -> io::Result<()> {
    let longest = make::longest_listing();
    let bundle = make::bundle(LINKS).plain();
    let few = call == REREAD_MARKED;
    for (plant, way, short) in [
        (&longest, 3, 0),
        (&bundle, 1, 0),
        (&longest, 10, 1),
        (&bundle, 3, 1),
    ] {
        if few && short == 1 {
            continue;
        }
        let marks = make::marking(chance, plant, way);
        let plant = make::marked(plant.clone(), &marks);
        let writing = Writing::new(chance, &plant);
        let places = writing.places - short;
        out.put(writing.in_places(places).case(call))?;
    }
    Ok(())
}

/// One case of a plant written, or written and reread, with marks, drawn by
/// chance.
fn drawn_writing(chance: &mut Chance, call: u8) -> Case {
    let (switches, links) = chance.of(&[(4, 6), (4, 6), (5, 8), (12, 16)]);
    let mut plant = make::joined(chance, switches, links).mixed(chance);
    let way = chance.below(make::MARKINGS);
    let marks = make::marking(chance, &plant, way);
    plant = make::marked(plant, &marks);
    if chance.percent(30) {
        let more = chance.within(1, 3);
        plant = make::with_unplugged(chance, &plant, more);
    }
    let mut writing = Writing::new(chance, &plant);
    if chance.percent(35) {
        for _ in 0..chance.of(&[1, 1, 2]) {
            make::spoil(chance, &mut writing.plant, &mut writing.given);
        }
    }
    let length = chance.of(&[0, 3, writing.given, writing.given + 3]);
    if chance.percent(20) {
        writing = writing.told(length);
    }
    if chance.percent(15) {
        let place = chance.of(&[0, writing.given, writing.given + 2]);
        let mark = chance.of(&[0, 1, 2, 128, 255]);
        writing = writing.mark(place, mark);
    }
    let places = listing_places(chance, writing.places);
    writing.in_places(places).case(call)
}

/// The numbers of the calls of the desk.
const NEW_SET: u8 = 30;
const START: u8 = 31;
const OUTCOME: u8 = 32;
const OF_DESK: [u8; 3] = [NEW_SET, START, OUTCOME];

const CONSOLES: u8 = Desk::CONSOLES as u8;
/// Some consoles that a desk does not have.
const NO_CONSOLES: [u8; 5] = [4, 5, 127, 128, 255];

/// How many bytes tell a console's part of a desk, and the one of them that
/// tells whether there is a search.
const PART: usize = 16;
const HAS_SEARCH: usize = 8;

/// The case of a call of the desk. Any byte but 0 tells of a search, and now and
/// then any bytes stand for one that is not there.
fn sat(chance: &mut Chance, sitting: &Sitting) -> Case {
    let call = match sitting.turn {
        Turn::Set(_) => NEW_SET,
        Turn::Start(_) => START,
        Turn::Outcome(_) => OUTCOME,
    };
    let Sitting { listing, desk, .. } = sitting;
    let mut case = Case::new(call).string(listing).desk(desk);
    let begin = case.bytes.len() - PART * Desk::CONSOLES;
    let parts = case.bytes[begin..].chunks_mut(PART);
    for (console, part) in desk.console.iter().zip(parts) {
        if console.search.is_some() {
            part[HAS_SEARCH] = some_up(chance);
        } else if chance.percent(20) {
            part[HAS_SEARCH + 1..].fill_with(|| chance.byte());
        }
    }
    let case = case.byte(sitting.console);
    match sitting.turn {
        Turn::Set(set) => case.set(set),
        Turn::Start(switch) => case.byte(switch),
        Turn::Outcome(outcome) => case.byte(outcome),
    }
}

fn some_console(chance: &mut Chance) -> u8 {
    chance.below(Desk::CONSOLES) as u8
}

/// A byte for an outcome: lost more often than returned.
fn some_outcome(chance: &mut Chance) -> u8 {
    let returned = some_return(chance);
    chance.of(&[0, 0, returned])
}

/// The set of one switch, which is empty for one that no set can have.
fn alone(switch: u8) -> u64 {
    u64::checked_shl(1, switch.into()).unwrap_or(0)
}

/// A switch of a set that is not empty.
fn one_of(chance: &mut Chance, set: u64) -> u8 {
    let inside: Vec<u8> = (0..64).filter(|switch| set & alone(*switch) != 0).collect();
    chance.of(&inside)
}

/// How many links of a plant are in service.
fn service(plant: &Plant) -> usize {
    plant.in_service().count()
}

/// A small plant with links, of which some may be out of service.
fn small_plant(chance: &mut Chance) -> Plant {
    let switches = chance.within(2, 6);
    let links = chance.within(switches - 1, 8);
    let plant = make::exact(chance, switches, links).mixed(chance);
    let more = chance.of(&[0, 0, 1, 2]);
    make::with_unplugged(chance, &plant, more)
}

/// A console's part of a desk with which each of its calls is taken: its set has
/// the switch, and its search, of a plant with links, is at the switch and has
/// not ended.
fn going(chance: &mut Chance, plant: &Plant, switch: u8) -> Console {
    let all = make::all_switches(plant.switches);
    let some = chance.draw() & all | alone(switch);
    let search = right(chance, service(plant), 0);
    Console {
        set: chance.of(&[alone(switch), some, some, all]),
        search: Some(Begun {
            switch,
            search: search.having_lost(chance.of(&FEW)),
        }),
    }
}

/// A call of a console that has this part of the desk. The others have any; all
/// have this one where the desk has no such console.
fn seated(chance: &mut Chance, listing: &[u8], console: u8, own: Console, turn: Turn) -> Sitting {
    let mut desk = make::any_desk(chance);
    match desk.console.get_mut(usize::from(console)) {
        Some(part) => *part = own,
        None => desk.console = [own; Desk::CONSOLES],
    }
    Sitting {
        listing: listing.to_vec(),
        desk,
        console,
        turn,
    }
}

/// A case of such a call, of any console.
fn called(chance: &mut Chance, listing: &[u8], own: Console, turn: Turn) -> Case {
    let console = some_console(chance);
    let sitting = seated(chance, listing, console, own, turn);
    sat(chance, &sitting)
}

/// What can be wrong with a call of the desk, each met by a refusal.
#[derive(Clone, Copy, PartialEq, Eq)]
enum Fault {
    /// 19.
    Console,
    /// 1 to 8: this one; for 9 the plant is apart.
    Listing(u8),
    /// 20.
    Set,
    /// 15.
    NoSearch,
    /// 11.
    Switch,
    /// 21.
    Outside,
    /// 14.
    Unsound,
    /// 15.
    Ended,
}

/// What can be wrong with a call, besides the listing.
fn faults(call: u8) -> Vec<Fault> {
    use Fault::*;
    match call {
        NEW_SET => vec![Console, Set],
        START => vec![Console, Set, Switch, Outside],
        _ => vec![Console, Set, NoSearch, Switch, Outside, Unsound, Ended],
    }
}

/// The plant with a switch more, to which no link leads.
fn with_switch(plant: &Plant) -> Plant {
    let mut apart = plant.clone();
    apart.switches += 1;
    apart
}

/// A listing of the plant, damaged so that it meets a refusal, 1 to 8.
fn bad_listing(chance: &mut Chance, plant: &Plant, refusal: u8) -> Vec<u8> {
    loop {
        let listing = make::damaged(chance, plant);
        if calls::net(&listing).is_err_and(|met| met.number() == refusal) {
            return listing;
        }
    }
}

/// A search of a plant with so many links, wrong or ended as asked.
fn faulty_search(chance: &mut Chance, links: u16, unsound: bool, ended: bool) -> Search {
    let past = links + 1;
    match (unsound, ended) {
        (false, false) => {
            let lost = chance.of(&FEW);
            right(chance, usize::from(links), 0).having_lost(lost)
        }
        (false, true) => chance.of(&[Search::AllUp, Search::Down(1), Search::Down(links)]),
        (true, false) => chance.of(&[
            Search::Checking(0, 0),
            Search::Checking(links - 1, 1),
            Search::Checking(past, 0),
            Search::Checking(links, 3),
            Search::Halving(links, links, 0),
            Search::Halving(1, past, 2),
            Search::Halving(0, links, 255),
        ]),
        (true, true) => chance.of(&[0, past, links + 256, 0xffff].map(Search::Down)),
    }
}

/// A call with these faults and no other, of a plant with links and few
/// switches; but a switch out of range is also outside every set in range.
fn faulty(chance: &mut Chance, plant: &Plant, call: u8, faults: &[Fault]) -> Sitting {
    faulty_at(chance, plant, call, faults, |_| service(plant) as u16)
}

/// Such a call, where it is told how many links a search at a switch is of.
fn faulty_at(
    chance: &mut Chance,
    plant: &Plant,
    call: u8,
    faults: &[Fault],
    links: impl Fn(u8) -> u16,
) -> Sitting {
    let has = |fault: Fault| faults.contains(&fault);
    let apart = with_switch(plant);
    let plant = if has(Fault::Listing(9)) {
        &apart
    } else {
        plant
    };
    let count = plant.switches;
    let all = make::all_switches(count);
    let mut switch = chance.below(usize::from(count)) as u8;
    while links(switch) == 0 {
        switch = chance.below(usize::from(count)) as u8;
    }
    let links = links(switch);
    if has(Fault::Switch) {
        switch = chance.of(&[count, count + 1, 63, 64, 255]);
        if has(Fault::Set) && !has(Fault::Outside) {
            switch = switch.min(63);
        }
    }
    let mut set = chance.draw() & all & !alone(switch);
    if has(Fault::Set) {
        let above = !all & !alone(switch);
        let any = chance.draw() & above;
        set |= alone(one_of(chance, above)) | chance.of(&[0, any]);
    }
    if !has(Fault::Outside) && (switch < count || has(Fault::Set)) {
        set |= alone(switch);
    }
    let (unsound, ended) = (has(Fault::Unsound), has(Fault::Ended));
    let begun = Begun {
        switch,
        search: faulty_search(chance, links, unsound, ended),
    };
    let mut own = Console {
        set,
        search: (!has(Fault::NoSearch)).then_some(begun),
    };
    let turn = match call {
        NEW_SET => Turn::Set(set),
        START => Turn::Start(switch),
        _ => Turn::Outcome(some_outcome(chance)),
    };
    // What the call does not look at.
    let any = make::any_console(chance);
    if call == NEW_SET {
        own.set = any.set;
    }
    if call != OUTCOME {
        own.search = any.search;
    }
    let mut console = some_console(chance);
    if has(Fault::Console) {
        let any = chance.within(Desk::CONSOLES, 255) as u8;
        console = chance.of(&[4, 5, 128, 255, any]);
    }
    let listing = faults.iter().find_map(|fault| match fault {
        Fault::Listing(refusal @ 1..=8) => Some(bad_listing(chance, plant, *refusal)),
        _ => None,
    });
    let listing = listing.unwrap_or_else(|| make::listing_of(plant));
    seated(chance, &listing, console, own, turn)
}

/// The cases of the desk that do not wait for chance.
fn fixed_desks(chance: &mut Chance, out: &mut Out) -> io::Result<()> {
    fixed_consoles(chance, out)?;
    fixed_sets(chance, out)?;
    fixed_all_switches(chance, out)?;
    fixed_injections(chance, out)?;
    fixed_outcomes(chance, out)?;
    fixed_desk_refused(chance, out)?;
    for console in 0..CONSOLES {
        fixed_scene(chance, out, console)?;
    }
    fixed_chains(chance, out)
}

/// Every console, and some that a desk does not have: on a fresh desk, and on
/// one on which the call is right.
fn fixed_consoles(chance: &mut Chance, out: &mut Out) -> io::Result<()> {
    for call in OF_DESK {
        for console in (0..CONSOLES).chain(NO_CONSOLES) {
            let plant = small_plant(chance);
            let Sitting {
                listing,
                desk,
                console: other,
                turn,
            } = faulty(chance, &plant, call, &[]);
            let own = desk.console[usize::from(other)];
            let mut sitting = seated(chance, &listing, console, own, turn);
            out.put(sat(chance, &sitting))?;
            sitting.desk = Desk::default();
            out.put(sat(chance, &sitting))?;
        }
    }
    Ok(())
}

/// Every number of switches: sets up to the last switch, and sets with the bit
/// after it or with some above, new ones and such as date from a larger plant.
fn fixed_sets(chance: &mut Chance, out: &mut Out) -> io::Result<()> {
    for switches in 1..=SWITCHES {
        let plant = make::tree(chance, switches).mixed(chance);
        let listing = make::listing_of(&plant);
        let last = plant.switches - 1;
        let all = make::all_switches(plant.switches);
        let some = chance.draw() & all;
        let within = [alone(last), alone(last) | some, all][switches % 3];
        let own = |chance: &mut Chance, set: u64| Console {
            set,
            ..make::any_console(chance)
        };
        let any = chance.draw();
        let before = own(chance, any);
        out.put(called(chance, &listing, before, Turn::Set(within)))?;
        let before = own(chance, within);
        out.put(called(chance, &listing, before, Turn::Start(last)))?;
        if switches == SWITCHES {
            break;
        }
        let after = alone(last + 1);
        let above = [after, !all, after | any & !all, after][switches % 4];
        let before = own(chance, within);
        out.put(called(chance, &listing, before, Turn::Set(above | some)))?;
        // The stored set, with a start and with an outcome in turn.
        let mut before = own(chance, above | within);
        let turn = if switches % 2 == 0 {
            Turn::Start(last)
        } else {
            before.search = Some(Begun {
                switch: last,
                search: Search::new(plant.links),
            });
            Turn::Outcome(some_outcome(chance))
        };
        out.put(called(chance, &listing, before, turn))?;
    }
    Ok(())
}

/// As many switches as there can be, where no bit is out of range, and one
/// fewer; and a single switch, which has no link.
fn fixed_all_switches(chance: &mut Chance, out: &mut Out) -> io::Result<()> {
    let last = SWITCHES as u8 - 1;
    let top = alone(last);
    let tree = make::tree(chance, SWITCHES).mixed(chance);
    let most = make::exact(chance, SWITCHES, LINKS).mixed(chance);
    let marks = make::marking(chance, &most, 9);
    let marked = make::marked(most.clone(), &marks);
    let fewer = make::tree(chance, SWITCHES - 1).mixed(chance);
    for (plant, step) in [(&tree, 1), (&most, 3), (&marked, 3), (&fewer, 2)] {
        let listing = make::listing_of(plant);
        let mut turns = Vec::new();
        for set in [u64::MAX, top, top >> 1, 0] {
            turns.push((set, last, Turn::Set(set)));
            for switch in [last, last - 1, last + 1] {
                turns.push((set, last, Turn::Start(switch)));
                let outcome = some_outcome(chance);
                turns.push((set, switch, Turn::Outcome(outcome)));
            }
        }
        let skip = chance.below(step);
        for (set, switch, turn) in turns.into_iter().skip(skip).step_by(step) {
            let mut own = going(chance, plant, 0);
            own.set = set;
            if let Some(begun) = &mut own.search {
                begun.switch = switch;
            }
            out.put(called(chance, &listing, own, turn))?;
        }
    }
    let one = make::listing_of(&make::path(1).plain());
    for (set, search, turn) in [
        (0, None, Turn::Set(1)),
        (1, None, Turn::Set(2)),
        (1, None, Turn::Set(3)),
        (1, None, Turn::Start(0)),
        (1, Some(Search::Checking(1, 0)), Turn::Start(0)),
        (1, None, Turn::Start(1)),
        (0, None, Turn::Start(0)),
        (2, None, Turn::Start(0)),
        (3, None, Turn::Start(1)),
        (1, None, Turn::Outcome(1)),
        (1, Some(Search::AllUp), Turn::Outcome(0)),
        (1, Some(Search::AllUp), Turn::Outcome(1)),
        (1, Some(Search::Checking(0, 0)), Turn::Outcome(0)),
        (1, Some(Search::Checking(1, 0)), Turn::Outcome(1)),
        (1, Some(Search::Down(1)), Turn::Outcome(1)),
        (0, Some(Search::AllUp), Turn::Outcome(1)),
        (3, Some(Search::AllUp), Turn::Outcome(0)),
    ] {
        let search = search.map(|search| Begun { switch: 0, search });
        out.put(called(chance, &one, Console { set, search }, turn))?;
    }
    Ok(())
}

/// Starts and searches at switches below S, at S and above, with sets that have
/// none, all, the switch alone, and all but the switch.
fn fixed_injections(chance: &mut Chance, out: &mut Out) -> io::Result<()> {
    let plant = make::exact(chance, 5, 6).mixed(chance);
    let listing = make::listing_of(&plant);
    let all = make::all_switches(5);
    for switch in [0, 2, 4, 5, 6, 63, 64, 255] {
        for set in [0, all, alone(switch), all & !alone(switch)] {
            let mut own = going(chance, &plant, 0);
            own.set = set;
            out.put(called(chance, &listing, own, Turn::Start(switch)))?;
            if let Some(begun) = &mut own.search {
                begun.switch = switch;
            }
            let turn = Turn::Outcome(some_outcome(chance));
            out.put(called(chance, &listing, own, turn))?;
        }
    }
    Ok(())
}

/// Outcomes for searches of as many links as are in service, of other numbers,
/// unsound and ended ones.
fn fixed_outcomes(chance: &mut Chance, out: &mut Out) -> io::Result<()> {
    let three = make::cycle(3).plain();
    let six = make::exact(chance, 4, 6).mixed(chance);
    let six = make::with_unplugged(chance, &six, 2);
    for plant in [&make::path(2).plain(), &three, &six] {
        let listing = make::listing_of(plant);
        let (links, listed) = (service(plant) as u16, plant.links);
        let mut put = |chance: &mut Chance, search: Search, outcome: u8| {
            let switch = chance.below(usize::from(plant.switches)) as u8;
            let mut own = going(chance, plant, switch);
            own.search = Some(Begun { switch, search });
            out.put(called(chance, &listing, own, Turn::Outcome(outcome)))
        };
        for lost in FEW {
            for search in [
                Search::Checking(links, lost),
                Search::Halving(1, links, lost),
                Search::Halving(links - 1, links, lost),
            ] {
                if search.check_for(links).is_ok() {
                    put(chance, search, 0)?;
                    let returned = some_return(chance);
                    put(chance, search, returned)?;
                }
            }
        }
        for (turn, search) in [
            Search::Checking(links - 1, 0),
            Search::Checking(links + 1, 0),
            Search::Checking(listed, 1),
            Search::Checking(links, 3),
            Search::Checking(links, 255),
            Search::Checking(0, 0),
            Search::Checking(links + 256, 0),
            Search::Halving(0, links, 0),
            Search::Halving(links, links, 0),
            Search::Halving(1, links + 1, 2),
            Search::Halving(1, listed, 0),
            Search::Halving(1, links, 3),
            Search::Halving(links + 1, links + 2, 0),
            Search::Halving(1, links + 256, 0),
            Search::Down(0),
            Search::Down(1),
            Search::Down(links),
            Search::Down(links + 1),
            Search::Down(listed),
            Search::Down(links + 256),
            Search::AllUp,
            Search::AllUp,
        ]
        .into_iter()
        .enumerate()
        {
            // Fewer of them for a single link.
            if links > 1 || turn % 3 == 0 {
                let outcome = [0, some_return(chance)][turn % 2];
                put(chance, search, outcome)?;
            }
        }
    }
    Ok(())
}

/// Each refusal of the listing, of short listings and of long ones, and together
/// with each other fault; and every set of other faults that a call can have,
/// those of no more than two of them twice.
fn fixed_desk_refused(chance: &mut Chance, out: &mut Out) -> io::Result<()> {
    let mut put = |chance: &mut Chance, plant: &Plant, call: u8, some: &[Fault]| {
        let sitting = faulty(chance, plant, call, some);
        out.put(sat(chance, &sitting))
    };
    for call in OF_DESK {
        for refusal in 1..=9 {
            let listing = Fault::Listing(refusal);
            let long = make::tailed(chance, 12, 24).mixed(chance);
            put(chance, &long, call, &[listing])?;
            let small = small_plant(chance);
            put(chance, &small, call, &[listing])?;
            for fault in faults(call) {
                let small = small_plant(chance);
                put(chance, &small, call, &[listing, fault])?;
            }
        }
        let faults = faults(call);
        for choice in 0..1 << faults.len() {
            let chosen = (0..faults.len()).filter(|place| choice >> place & 1 == 1);
            let some: Vec<Fault> = chosen.map(|place| faults[place]).collect();
            // Nothing is wrong with a search that is not there.
            let of_search = [Fault::Switch, Fault::Outside, Fault::Unsound, Fault::Ended];
            let judged = some.iter().any(|fault| of_search.contains(fault));
            if judged && some.contains(&Fault::NoSearch) {
                continue;
            }
            for _ in 0..if some.len() <= 2 { 2 } else { 1 } {
                let small = small_plant(chance);
                put(chance, &small, call, &some)?;
            }
        }
    }
    Ok(())
}

/// Calls on one desk: each case has the desk that the one before it left.
struct Sequence<'o> {
    out: &'o mut Out,
    desk: Desk,
}

impl Sequence<'_> {
    fn call(
        &mut self,
        chance: &mut Chance,
        listing: &[u8],
        console: u8,
        turn: Turn,
    ) -> io::Result<()> {
        let mut sitting = Sitting {
            listing: listing.to_vec(),
            desk: self.desk,
            console,
            turn,
        };
        self.out.put(sat(chance, &sitting))?;
        // A refusal leaves the desk as it was.
        let _ = sitting.make();
        self.desk = sitting.desk;
        Ok(())
    }
}

/// A sequence that is written out, of one console, with calls of others now and
/// then: a plant of six switches and seven links, the same with a link out of
/// service, and a ring of three.
fn fixed_scene(chance: &mut Chance, out: &mut Out, console: u8) -> io::Result<()> {
    let plant = make::exact(chance, 6, 7).mixed(chance);
    let marks = make::marking(chance, &plant, 5);
    let seven = make::listing_of(&plant);
    let six = make::listing_of(&make::marked(plant.clone(), &marks));
    let ring = make::listing_of(&make::cycle(3).mixed(chance));
    let mut desk = Desk::default();
    if console % 2 == 1 {
        desk = make::any_desk(chance);
        desk.console[usize::from(console)] = Console::default();
    }
    let mut scene = Sequence { out, desk };
    let (lost, back) = (Turn::Outcome(0), Turn::Outcome(some_return(chance)));
    for (turn, (listing, call)) in [
        // No search, and a set that is empty.
        (&seven, lost),
        (&seven, Turn::Start(5)),
        (&seven, Turn::Set(0b11_1111)),
        (&seven, Turn::Set(0b11_1111)),
        (&seven, Turn::Start(5)),
        (&seven, lost),
        // A link fewer.
        (&six, lost),
        (&seven, lost),
        // No switch under a search, and its switch again.
        (&seven, Turn::Set(0)),
        (&seven, lost),
        (&seven, Turn::Start(5)),
        (&seven, Turn::Set(0b10_0000)),
        (&seven, lost),
        // It is halving from 1 to 7, and then from 5 to 7.
        (&six, back),
        (&seven, back),
        (&seven, lost),
        // The set is of a larger plant, and then the search's switch is.
        (&ring, back),
        (&ring, Turn::Start(0)),
        (&ring, Turn::Set(0b11_1111)),
        (&ring, Turn::Set(0b101)),
        (&ring, back),
        (&seven, back),
        (&ring, Turn::Start(5)),
        (&ring, Turn::Start(1)),
        // It is halving from 5 to 6, which a link fewer allows.
        (&seven, Turn::Set(0b10_0101)),
        (&seven, lost),
        (&seven, lost),
        (&six, back),
        // It has ended, and another takes its place.
        (&six, lost),
        (&seven, back),
        (&seven, Turn::Start(2)),
        (&seven, lost),
        (&seven, Turn::Start(2)),
        (&six, Turn::Start(0)),
        (&seven, back),
        (&six, back),
        // An ended search, with sets that have its switch and not.
        (&ring, lost),
        (&ring, Turn::Set(0b011)),
        (&ring, lost),
        (&ring, Turn::Set(0b100)),
        (&ring, lost),
        (&ring, Turn::Start(2)),
        (&ring, back),
    ]
    .into_iter()
    .enumerate()
    {
        scene.call(chance, listing, console, call)?;
        if turn % 9 == 4 {
            let other = (console + chance.within(1, 3) as u8) % CONSOLES;
            let other = chance.of(&[other, other, console + CONSOLES]);
            let call = chance.of(&[Turn::Set(0b111), Turn::Start(1), lost]);
            scene.call(chance, listing, other, call)?;
        }
    }
    Ok(())
}

impl Course {
    /// Whether the packet rule brings back probe m.
    fn is_home(&self, begin: u8, m: u16, states: &[u8]) -> bool {
        let (trail, switch) = (&self.subject.trail, usize::from(begin));
        let order = Order::new(&self.net, trail, packet::place(&self.net, trail, switch));
        let m = usize::from(m);
        packet::run_probe(&self.net, trail, switch, &order, m, states).fate() == Fate::Home
    }

    /// What a console may well ask next: a set if it wants one, a start if it
    /// has no search that goes on, or else what became of a sending under link
    /// states. So often of a hundred one vanishes that the packet rule brings
    /// back.
    fn next_turn(&self, chance: &mut Chance, own: Console, states: &[u8], vanish: usize) -> Turn {
        let all = make::all_switches(self.switches());
        let some = chance.draw() & all | alone(self.subject.plant.start);
        if own.set & all == 0 || own.set & !all != 0 {
            return Turn::Set(some);
        }
        let start = Turn::Start(one_of(chance, own.set));
        let Some(Begun { switch, search }) = own.search else {
            return start;
        };
        if own.set & alone(switch) == 0 {
            let back = Turn::Set(own.set | alone(switch) & all);
            return chance.of(&[back, start]);
        }
        match search.ask() {
            Ok(m) if search.check_for(self.net.links as u16).is_ok() => {
                let returned = self.is_home(switch, m, states) && !chance.percent(vanish);
                Turn::Outcome(if returned { some_return(chance) } else { 0 })
            }
            _ => chance.of(&[start, start, Turn::Outcome(0), Turn::Outcome(1)]),
        }
    }
}

/// Calls of all four consoles on one desk, each with a search of its own: from
/// a fresh desk and from any, with sets replaced, searches begun again and
/// refused calls between.
fn fixed_chains(chance: &mut Chance, out: &mut Out) -> io::Result<()> {
    let ring = make::cycle(3);
    let tailed = make::tailed(chance, 3, 5);
    let dense = make::exact(chance, 4, 8);
    for (turn, (sketch, more, kind, calls)) in [
        (&make::path(2), 0, 1, 30),
        (&ring, 0, 1, 60),
        (&tailed, 0, 0, 35),
        (&tailed, 2, 1, 80),
        (&dense, 1, 2, 90),
        (&ring, 1, 3, 60),
    ]
    .into_iter()
    .enumerate()
    {
        let plant = sketch.mixed(chance);
        let course = Course::new(make::with_unplugged(chance, &plant, more))?;
        let plant = &course.subject.plant;
        let listing = &course.subject.listing;
        let all = make::all_switches(plant.switches);
        // The links that are down are in service.
        let numbers: Vec<usize> = plant.in_service().map(|(number, _)| number).collect();
        let down = some_down(chance, numbers.len(), kind).into_iter();
        let down: Vec<usize> = down.map(|place| numbers[place]).collect();
        let states = course.down(chance, &down);
        let desk = match turn % 3 {
            2 => make::any_desk(chance),
            _ => Desk::default(),
        };
        let mut chain = Sequence { out, desk };
        for _ in 0..calls {
            let console = some_console(chance);
            let own = chain.desk.console[usize::from(console)];
            let next = course.next_turn(chance, own, &states, 25);
            let some = chance.draw() & all;
            let any = chance.below(usize::from(plant.switches) + 1) as u8;
            let refusal = chance.within(1, 9) as u8;
            match chance.below(32) {
                0 => chain.call(chance, listing, console + CONSOLES, next)?,
                1 => {
                    let bad = match refusal {
                        9 => make::listing_of(&with_switch(plant)),
                        _ => bad_listing(chance, plant, refusal),
                    };
                    // The next case has the desk as it was, also where this one
                    // is taken.
                    let desk = chain.desk;
                    chain.call(chance, &bad, console, next)?;
                    chain.desk = desk;
                }
                // Of another plant.
                2 => {
                    let other = make::listing_of(&small_plant(chance));
                    chain.call(chance, &other, console, next)?;
                }
                3 => chain.call(chance, listing, console, Turn::Set(!all | some))?,
                4 => chain.call(chance, listing, console, Turn::Set(own.set))?,
                5 => {
                    let set = chance.of(&[0, some, all]);
                    chain.call(chance, listing, console, Turn::Set(set))?;
                }
                6 => chain.call(chance, listing, console, Turn::Start(any))?,
                _ => chain.call(chance, listing, console, next)?,
            }
        }
    }
    Ok(())
}

/// One case of the desk, drawn by chance.
fn drawn_desk(chance: &mut Chance) -> Case {
    let (switches, links) = chance.of(&[(5, 8), (5, 8), (5, 8), (12, 16), (24, 40)]);
    let sitting = make::some_sitting(chance, switches, links);
    sat(chance, &sitting)
}

/// The number of the call for the components.
const COMPONENTS: u8 = 33;

/// The calls that are made of plants in several components, but the long run and
/// those of the desk.
fn of_several() -> impl Iterator<Item = u8> {
    let listed = LISTED.into_iter().filter(|call| *call != LISTING_READ);
    listed.chain([COMPONENTS])
}

/// A plant with its components, its listing and both joined trails.
struct Yard {
    net: Net,
    pair: Pair,
    parts: Vec<Stretches>,
}

/// Where the start of a plant is.
#[derive(Clone, Copy, PartialEq, Eq)]
enum Place {
    /// At switch 0.
    First,
    /// At any switch.
    Any,
    /// In another component than switch 0, and not its lowest switch, if there
    /// is such a one.
    Late,
}

impl Yard {
    fn new(plant: Plant) -> Yard {
        let listing = make::listing_of(&plant);
        let net = Net::new(plant.clone());
        let (trail, round) = (Trail::new(&net), Round::new(&net));
        let parts = calls::components(&listing).unwrap_or_default();
        Yard {
            pair: Pair {
                listing,
                plant,
                trail: trail.to_vec(),
                round: round.labels().to_vec(),
            },
            net,
            parts,
        }
    }

    /// The plant of sketches beside each other, mixed, with so many links more
    /// that are out of service.
    fn beside(chance: &mut Chance, sketches: &[Sketch], more: usize, place: Place) -> Yard {
        let none = Sketch::default();
        let whole = sketches.iter().fold(none, |whole, part| whole.beside(part));
        let plant = whole.mixed(chance);
        let plant = make::with_unplugged(chance, &plant, more);
        Yard::started(chance, plant, place)
    }

    /// The plant with its start at such a place.
    fn started(chance: &mut Chance, mut plant: Plant, place: Place) -> Yard {
        if place == Place::First {
            plant.start = 0;
        }
        if place == Place::Late {
            plant.start = 0;
            let yard = Yard::new(plant.clone());
            let others = (1..plant.switches).filter(|switch| yard.component(*switch) > 0);
            let (lowest, higher): (Vec<u8>, Vec<u8>) =
                others.partition(|switch| yard.parts[yard.component(*switch)].first == *switch);
            let some = if higher.is_empty() { lowest } else { higher };
            if !some.is_empty() {
                plant.start = chance.of(&some);
            }
        }
        Yard::new(plant)
    }

    fn plant(&self) -> &Plant {
        &self.pair.plant
    }

    fn component(&self, switch: u8) -> usize {
        self.net.component_of(usize::from(switch))
    }

    /// The number of links in service of a component.
    fn service(&self, component: usize) -> usize {
        usize::from(self.net.components[component].links)
    }

    /// The numbers of the links in service of a component.
    fn links(&self, component: usize) -> Vec<usize> {
        let links = self.plant().in_service();
        let own = links.filter(|(_, link)| self.component(link.first) == component);
        own.map(|(number, _)| number).collect()
    }

    /// The numbers of the links in service of the other components.
    fn other_links(&self, component: usize) -> Vec<usize> {
        let links = self.plant().in_service();
        let others = links.filter(|(_, link)| self.component(link.first) != component);
        others.map(|(number, _)| number).collect()
    }

    /// A switch of a component.
    fn some_switch(&self, chance: &mut Chance, component: usize) -> u8 {
        let switches = 0..self.plant().switches;
        let own: Vec<u8> = switches
            .filter(|switch| self.component(*switch) == component)
            .collect();
        chance.of(&own)
    }

    fn own_trail(&self, component: usize) -> &[u16] {
        &self.pair.trail[self.parts[component].trail.clone()]
    }

    fn own_round(&self, component: usize) -> &[u16] {
        &self.pair.round[self.parts[component].round.clone()]
    }

    /// Both trails with the components in another order.
    fn reordered(&self, order: &[usize]) -> (Vec<u16>, Vec<u16>) {
        let trails = order.iter().map(|component| self.own_trail(*component));
        let rounds = order.iter().map(|component| self.own_round(*component));
        (
            trails.collect::<Vec<_>>().concat(),
            rounds.collect::<Vec<_>>().concat(),
        )
    }

    /// The links of a switch's component by first crossing from the switch.
    fn order(&self, begin: u8) -> Vec<usize> {
        let trail = self.own_trail(self.component(begin));
        let place = packet::place(&self.net, trail, usize::from(begin));
        let order = Order::new(&self.net, trail, place);
        order.links().iter().copied().map(usize::from).collect()
    }

    /// The ring of a switch's component from the switch.
    fn ring(&self, begin: u8) -> Vec<u16> {
        let trail = self.own_trail(self.component(begin));
        let place = packet::place(&self.net, trail, usize::from(begin));
        let (rest, front) = packet::ring(trail, place);
        [rest, front].concat()
    }

    /// Right arguments of a call at a switch.
    fn arguments(&self, chance: &mut Chance, call: u8, begin: u8) -> Arguments {
        let links = self.service(self.component(begin));
        self.pair
            .arguments_at(chance, call, begin, links, Some(&self.net))
    }

    /// The case of a call with these arguments.
    fn case(&self, call: u8, arguments: &Arguments) -> Case {
        arguments.case(call, &self.pair.listing)
    }

    /// A case with right arguments.
    fn right(&self, chance: &mut Chance, call: u8, begin: u8) -> Case {
        let arguments = self.arguments(chance, call, begin);
        self.case(call, &arguments)
    }

    fn components(&self) -> Case {
        Case::new(COMPONENTS).string(&self.pair.listing)
    }
}

/// Puts links down in the states that a call is given: of a round run, one of the
/// two directions, or both.
fn put_down(chance: &mut Chance, call: u8, states: &mut [u8], links: &[usize]) {
    for link in links {
        if call == ROUND_RUN {
            let way = chance.below(3);
            for direction in 0..2 {
                if way != direction {
                    states[2 * link + direction] = 0;
                }
            }
        } else {
            states[*link] = 0;
        }
    }
}

/// Small plants in several components: single switches between others, trees,
/// rings, rings joined by one cable, parallel links, long ways round; with links
/// out of service within components and between them.
fn small_yards(chance: &mut Chance) -> Vec<Yard> {
    let single = || make::path(1);
    let shapes = [
        (vec![single(), single()], 0, Place::Late),
        (vec![make::path(2), single()], 0, Place::Late),
        (
            vec![
                single(),
                make::cycle(3),
                single(),
                make::bundle(3),
                single(),
            ],
            0,
            Place::Late,
        ),
        (vec![make::cycle(3), make::tree(chance, 4)], 0, Place::Late),
        (
            vec![
                make::cycle(4),
                make::rings(chance, &[3, 3]),
                make::bundle(2),
            ],
            1,
            Place::Any,
        ),
        (
            vec![make::tailed(chance, 3, 5), make::path(2), make::long(4, 4)],
            0,
            Place::Late,
        ),
        (
            vec![make::tree(chance, 5), make::star(4), make::path(3)],
            2,
            Place::First,
        ),
        (
            vec![
                make::exact(chance, 5, 10),
                make::exact(chance, 4, 6),
                single(),
            ],
            3,
            Place::Late,
        ),
        (vec![make::table_one(), make::table_one()], 2, Place::Any),
    ];
    let mut yards: Vec<Yard> = shapes
        .iter()
        .map(|(sketches, more, place)| Yard::beside(chance, sketches, *more, *place))
        .collect();
    // All links of a component out of service, and all but those of one.
    for turn in 0..2 {
        let parts = [make::cycle(3), make::bundle(2), make::path(2)];
        let yard = Yard::beside(chance, &parts, 0, Place::Any);
        let component = yard.component(yard.plant().start);
        let links = match turn {
            0 => yard.links(component),
            _ => yard.other_links(component),
        };
        let plant = make::marked(yard.pair.plant, &links);
        yards.push(Yard::started(chance, plant, Place::Late));
    }
    yards
}

/// The cases of plants in several components that do not wait for chance.
fn fixed_several(chance: &mut Chance, out: &mut Out) -> io::Result<()> {
    fixed_several_listings(chance, out)?;
    fixed_several_calls(chance, out)?;
    fixed_several_states(chance, out)?;
    fixed_several_trails(chance, out)?;
    fixed_several_searches(chance, out)?;
    fixed_several_lists(chance, out)?;
    fixed_several_runs(chance, out)?;
    fixed_several_buffers(chance, out)?;
    fixed_several_limits(chance, out)?;
    fixed_several_listings_refused(chance, out)?;
    fixed_several_refused(chance, out)?;
    fixed_several_desks(chance, out)?;
    fixed_several_desks_refused(chance, out)?;
    fixed_several_chain(chance, out)
}

/// Listings that are written out, the calls without a lent trail, and the
/// components of every listing of document 01.
fn fixed_several_listings(chance: &mut Chance, out: &mut Out) -> io::Result<()> {
    for listing in named_listings() {
        out.put(Case::new(COMPONENTS).string(&listing))?;
    }
    out.put(Case::new(COMPONENTS).string(MARKED_TRIANGLE))?;
    for listing in [
        // Two switches, three, and the most, without a link.
        &[1, 2][..],
        &[5, 3, 2],
        &[1, 64],
        &[5, 64, 63],
        // A link and a switch, from each of them.
        &[3, 3, 1, 0, 2, 1],
        &[7, 3, 1, 0, 1, 2, 1],
        &[7, 3, 1, 0, 2, 2, 1],
        // Two links, from each end of the second.
        &[7, 4, 2, 0, 2, 2, 1, 3, 2, 3],
        &[7, 4, 2, 0, 3, 2, 1, 3, 2, 3],
        // A triangle of which two links are out of service, and all.
        &[3, 3, 3, 0, 2, 1, 11, 1, 2, 11, 2, 0],
        &[3, 3, 3, 0, 10, 1, 11, 1, 2, 11, 2, 0],
    ] {
        let plant = calls::read(listing).map_err(|_| io::Error::other("no listing"))?;
        let yard = Yard::new(plant);
        for call in [3, 6, COMPONENTS] {
            let case = yard.right(chance, call, 0);
            out.put(case)?;
        }
        let last = yard.plant().switches - 1;
        for begin in [0, last] {
            let case = yard.right(chance, NEW_SEARCH, begin);
            out.put(case)?;
        }
    }
    Ok(())
}

/// Every call about small plants, those at a switch from a switch of every third
/// component; and some from every switch.
fn fixed_several_calls(chance: &mut Chance, out: &mut Out) -> io::Result<()> {
    for (turn, yard) in small_yards(chance).into_iter().enumerate() {
        for call in of_several() {
            if !AT_SWITCH.contains(&call) {
                let case = yard.right(chance, call, 0);
                out.put(case)?;
                continue;
            }
            for component in 0..yard.parts.len() {
                if (turn + component + usize::from(call)) % 3 == 0 {
                    let begin = yard.some_switch(chance, component);
                    let case = yard.right(chance, call, begin);
                    out.put(case)?;
                }
            }
        }
    }
    let parts = [make::cycle(3), make::path(1), make::tree(chance, 4)];
    let yard = Yard::beside(chance, &parts, 1, Place::Late);
    out.put(yard.components())?;
    for begin in 0..yard.plant().switches {
        for call in [9, NEW_SEARCH, ROUND_RUN, CHOICE] {
            let case = yard.right(chance, call, begin);
            out.put(case)?;
        }
    }
    Ok(())
}

/// Runs with links down: in the switch's component, in others alone, and out of
/// service alone.
fn fixed_several_states(chance: &mut Chance, out: &mut Out) -> io::Result<()> {
    let shapes = [
        (vec![make::cycle(3), make::path(2), make::bundle(2)], 2),
        (
            vec![
                make::tailed(chance, 3, 4),
                make::path(1),
                make::tree(chance, 3),
            ],
            1,
        ),
    ];
    for (parts, more) in &shapes {
        let yard = Yard::beside(chance, parts, *more, Place::Late);
        out.put(yard.components())?;
        for component in 0..yard.parts.len() {
            let (own, others) = (yard.links(component), yard.other_links(component));
            // All of the others, one of them, none, and each of its own.
            let mut downs = vec![others.clone(), vec![chance.of(&others)], vec![]];
            downs.extend(own.iter().map(|link| vec![*link]));
            if !own.is_empty() {
                let both = vec![chance.of(&own), chance.of(&others)];
                downs.push(both);
            }
            for (turn, down) in downs.into_iter().enumerate() {
                for call in [ROUND_RUN, [8, PROBE_RUN][turn % 2]] {
                    let begin = yard.some_switch(chance, component);
                    let mut arguments = yard.arguments(chance, call, begin);
                    arguments.states = yard.pair.idle(chance, call, 0);
                    put_down(chance, call, &mut arguments.states, &down);
                    out.put(yard.case(call, &arguments))?;
                }
            }
        }
    }
    Ok(())
}

/// How many ways there are to lend other trails than the joined ones.
const OTHER_TRAILS: usize = 9;

impl Yard {
    /// Other trails than the joined ones, in one of some ways, as they may be
    /// lent to a call at a switch. Those of the last two ways have the right
    /// hops.
    fn other_trails(&self, chance: &mut Chance, begin: u8, way: usize) -> (Vec<u16>, Vec<u16>) {
        let component = self.component(begin);
        let Pair { trail, round, .. } = &self.pair;
        let mut order: Vec<usize> = (0..self.parts.len()).collect();
        let changed = |hops: &[u16], at: usize| {
            let mut hops = hops.to_vec();
            if let Some(label) = hops.get_mut(at) {
                *label ^= 1;
            }
            hops
        };
        let shortened = |hops: &[u16]| hops[..hops.len().saturating_sub(1)].to_vec();
        match way {
            // The component's own stretches alone.
            0 => (
                self.own_trail(component).to_vec(),
                self.own_round(component).to_vec(),
            ),
            // The components in another order: the others first, all the other
            // way round, and by their lowest switches.
            1 => {
                order.rotate_left(1);
                self.reordered(&order)
            }
            2 => {
                order.reverse();
                self.reordered(&order)
            }
            3 => {
                let lowest = |part: &usize| {
                    let switches = 0..self.plant().switches;
                    let mut own = switches.filter(|switch| self.component(*switch) == *part);
                    own.next()
                };
                order.sort_by_key(lowest);
                self.reordered(&order)
            }
            // The start at another switch of its component.
            4 => {
                let mut plant = self.plant().clone();
                plant.start = self.some_switch(chance, 0);
                let other = Yard::new(plant);
                (other.pair.trail, other.pair.round)
            }
            // Too short by one; a label of another component changed.
            5 => (shortened(trail), shortened(round)),
            6 => {
                let Stretches {
                    trail: at,
                    round: also,
                    ..
                } = &self.parts[component];
                let outside = |length: usize, own: &Range<usize>| {
                    let outside: Vec<usize> =
                        (0..length).filter(|place| !own.contains(place)).collect();
                    outside.last().copied().unwrap_or(0)
                };
                (
                    changed(trail, outside(trail.len(), at)),
                    changed(round, outside(round.len(), also)),
                )
            }
            // Spare places: any, and the component's own stretches again.
            7 => {
                let more = chance.within(1, 3);
                (
                    self.pair.spared(chance, trail, more, 4),
                    self.pair.spared(chance, round, more, 5),
                )
            }
            _ => (
                [trail, self.own_trail(component)].concat(),
                [round, self.own_round(component)].concat(),
            ),
        }
    }
}

/// Lent trails that are not the joined one, or have spare places.
fn fixed_several_trails(chance: &mut Chance, out: &mut Out) -> io::Result<()> {
    let shapes = [
        vec![make::cycle(3), make::path(2), make::bundle(3)],
        vec![make::path(1), make::long(4, 3), make::tree(chance, 3)],
        vec![make::tailed(chance, 3, 4), make::cycle(4)],
    ];
    for (turn, parts) in shapes.iter().enumerate() {
        let yard = Yard::beside(chance, parts, turn, Place::Late);
        out.put(yard.components())?;
        for way in 0..OTHER_TRAILS {
            for call in WITH_TRAIL {
                if turn > 0 && (turn + way + usize::from(call)) % 3 > 0 {
                    continue;
                }
                let component = chance.below(yard.parts.len());
                let begin = yard.some_switch(chance, component);
                let mut arguments = yard.arguments(chance, call, begin);
                let (trail, round) = yard.other_trails(chance, begin, way);
                // Of a choice, one of them or both.
                let which = chance.below(3);
                if call != CHOICE || which < 2 {
                    arguments.trail = trail;
                }
                if call != CHOICE || which > 0 {
                    arguments.round = round;
                }
                out.put(yard.case(call, &arguments))?;
            }
        }
    }
    Ok(())
}

/// Searches of as many links as the switch's component has, as the whole plant,
/// as other components, and of numbers between.
fn fixed_several_searches(chance: &mut Chance, out: &mut Out) -> io::Result<()> {
    let shapes = [
        vec![
            make::cycle(3),
            make::path(1),
            make::bundle(2),
            make::path(2),
        ],
        vec![make::tree(chance, 5), make::exact(chance, 4, 6)],
    ];
    let mut turn = 0;
    for parts in &shapes {
        let yard = Yard::beside(chance, parts, 1, Place::Late);
        out.put(yard.components())?;
        let whole = service(yard.plant()) as u16;
        for component in 0..yard.parts.len() {
            let own = yard.service(component) as u16;
            let mut states = vec![
                Search::AllUp,
                Search::Checking(own, 0),
                Search::Checking(own, 2),
                Search::Checking(whole, 0),
                Search::Checking(yard.plant().links, 0),
                Search::Halving(1, own, 1),
                Search::Halving(1, own + 1, 0),
                Search::Halving(1, whole, 0),
                Search::Down(1),
                Search::Down(own),
                Search::Down(own + 1),
                Search::Down(whole),
            ];
            for other in 0..yard.parts.len() {
                states.push(Search::Checking(yard.service(other) as u16, 0));
            }
            for state in states {
                let call = JUDGING[turn % JUDGING.len()];
                turn += 1;
                let begin = yard.some_switch(chance, component);
                let mut arguments = yard.arguments(chance, call, begin);
                arguments.search = state;
                out.put(yard.case(call, &arguments))?;
            }
            // The link at each place.
            for place in 1..=own {
                let begin = yard.some_switch(chance, component);
                let mut arguments = yard.arguments(chance, LINK_NAMED, begin);
                arguments.search = Search::Down(place);
                out.put(yard.case(LINK_NAMED, &arguments))?;
            }
        }
    }
    Ok(())
}

/// Searches under link states to their end, from every component: with no link
/// down, with links of other components down, with one of its own and with both.
fn fixed_several_lists(chance: &mut Chance, out: &mut Out) -> io::Result<()> {
    let shapes = [
        vec![make::cycle(3), make::path(1), make::bundle(4)],
        vec![
            make::tailed(chance, 3, 5),
            make::tree(chance, 6),
            make::path(2),
        ],
    ];
    for parts in &shapes {
        let yard = Yard::beside(chance, parts, 2, Place::Late);
        out.put(yard.components())?;
        for component in 0..yard.parts.len() {
            for kind in 0..4 {
                let begin = yard.some_switch(chance, component);
                let order = yard.order(begin);
                let mut states = yard.pair.idle(chance, 7, 0);
                if kind % 2 == 1 {
                    put_down(chance, 7, &mut states, &yard.other_links(component));
                }
                if kind > 1 && !order.is_empty() {
                    let link = chance.of(&order);
                    put_down(chance, 7, &mut states, &[link]);
                }
                let broken = order.iter().position(|link| states[*link] == 0);
                let first = broken.unwrap_or(order.len());
                let mut list = ending(chance, order.len(), first);
                if kind == 3 {
                    go_on(chance, &mut list);
                }
                out.put(performed(&yard.pair.listing, begin, &list))?;
            }
            // As many losses as a search of all links would take.
            let whole = service(yard.plant());
            let list = ending(chance, whole, 0);
            let begin = yard.some_switch(chance, component);
            out.put(performed(&yard.pair.listing, begin, &list))?;
        }
    }
    Ok(())
}

/// Packets of free labels and long runs: within a component while links of others
/// are down, and with labels of another component or out of service.
fn fixed_several_runs(chance: &mut Chance, out: &mut Out) -> io::Result<()> {
    let shapes = [
        vec![make::cycle(3), make::path(1), make::path(2)],
        vec![make::tailed(chance, 3, 5), make::bundle(3)],
        vec![make::tree(chance, 4), make::cycle(4), make::path(1)],
    ];
    for parts in &shapes {
        let yard = Yard::beside(chance, parts, 2, Place::Late);
        out.put(yard.components())?;
        let listing = &yard.pair.listing;
        let marked = yard.pair.marked();
        for component in 0..yard.parts.len() {
            let begin = yard.some_switch(chance, component);
            let mut states = yard.pair.idle(chance, 7, 255);
            put_down(chance, 7, &mut states, &yard.other_links(component));
            let hops = chance.within(2, 6);
            let labels = walk(chance, &yard.net, begin, hops, false);
            let head = |labels: &[u16]| {
                let case = Case::new(7).string(listing).byte(begin);
                case.labels(labels).string(&states)
            };
            out.put(head(&labels))?;
            // Then a label of another component, and one out of service.
            let other = (component + 1) % yard.parts.len();
            let stray = yard.own_trail(other).first().copied();
            let idle = (2 * chance.of(&marked) + chance.below(2)) as u16;
            out.put(head(&[&labels[..], &[stray.unwrap_or(0xffff)]].concat()))?;
            out.put(head(&[&labels[..], &[idle]].concat()))?;
            // The joined trail from the switch, and the ring.
            out.put(head(&yard.pair.trail))?;
            let ring = yard.ring(begin);
            out.put(head(&ring))?;
            for more in [vec![], vec![stray.unwrap_or(0)], vec![idle]] {
                let times = chance.within(60_000, 70_000) / ring.len().max(1);
                out.put(long(listing, begin, &ring, times, &more, &states))?;
            }
        }
    }
    Ok(())
}

/// Buffers around the joined hops, and of as many places as a component has hops.
fn fixed_several_buffers(chance: &mut Chance, out: &mut Out) -> io::Result<()> {
    let mut shapes: Vec<Yard> = small_yards(chance).into_iter().skip(2).step_by(2).collect();
    let halves = [make::long(32, 97), make::long(32, 97)];
    shapes.push(Yard::beside(chance, &halves, 0, Place::Late));
    for yard in shapes {
        out.put(yard.components())?;
        let Pair {
            listing,
            trail,
            round,
            ..
        } = &yard.pair;
        for (call, hops) in [(6, trail.len()), (ROUND_TRAIL, round.len())] {
            let part = chance.of(&(0..yard.parts.len()).collect::<Vec<_>>());
            let own = match call {
                6 => yard.own_trail(part).len(),
                _ => yard.own_round(part).len(),
            };
            for places in [hops.saturating_sub(1), hops, hops + 2, hops - own, own] {
                out.put(Case::new(call).string(listing).word(places))?;
            }
        }
    }
    Ok(())
}

/// Plants at the limits: 64 single switches, 32 pairs, two halves of as many
/// switches and links, all switches but one joined, and every link out of
/// service.
fn fixed_several_limits(chance: &mut Chance, out: &mut Out) -> io::Result<()> {
    let half = (SWITCHES / 2, LINKS / 2);
    let halves = [
        make::exact(chance, half.0, half.1),
        make::exact(chance, half.0, half.1),
    ];
    let all_but_one = make::tailed(chance, 40, SWITCHES - 1);
    let most = make::exact(chance, SWITCHES, LINKS).mixed(chance);
    let yards = [
        Yard::beside(chance, &vec![make::path(1); SWITCHES], 0, Place::Any),
        Yard::beside(chance, &vec![make::path(2); SWITCHES / 2], 0, Place::Late),
        Yard::beside(chance, &halves, 0, Place::Late),
        Yard::beside(chance, &[all_but_one, make::path(1)], 0, Place::Late),
        Yard::started(
            chance,
            make::marked(most, &(0..LINKS).collect::<Vec<_>>()),
            Place::Late,
        ),
    ];
    for yard in yards {
        for call in of_several() {
            let component = chance.below(yard.parts.len());
            let begin = yard.some_switch(chance, component);
            let case = yard.right(chance, call, begin);
            out.put(case)?;
        }
        // At the start, and at a switch of the last component.
        for begin in [
            yard.plant().start,
            yard.some_switch(chance, yard.parts.len() - 1),
        ] {
            for call in [8, NEW_SEARCH] {
                let case = yard.right(chance, call, begin);
                out.put(case)?;
            }
        }
    }
    Ok(())
}

/// Each refusal of the listing, 1 to 8, in every call but those of the desk.
fn fixed_several_listings_refused(chance: &mut Chance, out: &mut Out) -> io::Result<()> {
    for call in of_several().chain([LONG_RUN]) {
        for refusal in 1..=8 {
            let sketch = make::several(chance, 6, 6);
            let plant = sketch.mixed(chance);
            let more = chance.below(2);
            let plant = make::with_unplugged(chance, &plant, more);
            let yard = Yard::new(plant);
            let listing = bad_listing(chance, yard.plant(), refusal);
            let begin = yard.pair.some_switch(chance);
            let arguments = yard.arguments(chance, call, begin);
            if call == LONG_RUN {
                let Arguments { labels, states, .. } = &arguments;
                out.put(long(&listing, begin, labels, 2, labels, states))?;
            } else {
                out.put(arguments.case(call, &listing))?;
            }
        }
    }
    Ok(())
}

/// The refusals from 10 on: every set of them that a call can meet, so that their
/// order shows.
fn fixed_several_refused(chance: &mut Chance, out: &mut Out) -> io::Result<()> {
    let parts = [make::cycle(3), make::path(1), make::tailed(chance, 3, 4)];
    let yard = Yard::beside(chance, &parts, 1, Place::Late);
    out.put(yard.components())?;
    let count = yard.plant().switches;
    let with_links: Vec<usize> = (0..yard.parts.len())
        .filter(|component| yard.service(*component) > 0)
        .collect();
    for call in of_several().chain([LONG_RUN]) {
        // What can be wrong: the switch, the trail, the states, the search, the
        // buffer, the spare.
        let judging = JUDGING.contains(&call);
        let can = [
            AT_SWITCH.contains(&call) || call == LONG_RUN,
            WITH_TRAIL.contains(&call),
            WITH_STATES.contains(&call) || call == LONG_RUN,
            judging,
            WITH_BUFFER.contains(&call),
            call == PAGE_WRITTEN,
        ];
        for set in 1..1 << can.len() {
            let bad = |kind: usize| set >> kind & 1 == 1;
            if (0..can.len()).any(|kind| bad(kind) && !can[kind]) {
                continue;
            }
            let component = chance.of(&with_links);
            let begin = yard.some_switch(chance, component);
            let mut arguments = yard.arguments(chance, call, begin);
            if bad(0) {
                arguments.begin = chance.of(&[count, count + 1, 64, 255]);
            }
            if bad(1) {
                let way = chance.of(&[0, 1, 5]);
                (arguments.trail, arguments.round) = yard.other_trails(chance, begin, way);
                if arguments.trail == yard.pair.trail {
                    arguments.trail.pop();
                }
                if arguments.round == yard.pair.round {
                    arguments.round.pop();
                }
            }
            if bad(2) {
                // As many as the component's links, or one too few.
                let each = arguments.states.len() / usize::from(yard.plant().links);
                let own = each * yard.service(yard.component(begin));
                let short = chance.of(&[own, arguments.states.len() - 1]);
                arguments.states.truncate(short);
            }
            if bad(3) {
                arguments.search = Search::Checking(service(yard.plant()) as u16, 0);
            }
            if bad(4) {
                arguments.places -= 1;
            }
            if bad(5) {
                arguments.spare = chance.of(&[101, 255]);
            }
            if call == LONG_RUN {
                let Arguments {
                    begin,
                    labels,
                    states,
                    ..
                } = &arguments;
                out.put(long(&yard.pair.listing, *begin, labels, 1, &[], states))?;
            } else {
                out.put(yard.case(call, &arguments))?;
            }
            // A search that has ended, which is wrong in some calls alone.
            if judging && !bad(3) {
                arguments.search = chance.of(&[Search::AllUp, Search::Down(1)]);
                out.put(yard.case(call, &arguments))?;
            }
        }
    }
    Ok(())
}

/// Calls of the desk at switches of every component, with sets across components
/// and searches of as many links as the component has, as the others and as all.
fn fixed_several_desks(chance: &mut Chance, out: &mut Out) -> io::Result<()> {
    let shapes = [
        vec![make::cycle(3), make::path(1), make::path(2)],
        vec![make::tree(chance, 4), make::bundle(3), make::path(1)],
    ];
    for parts in &shapes {
        let yard = Yard::beside(chance, parts, 1, Place::Late);
        out.put(yard.components())?;
        let listing = &yard.pair.listing;
        let all = make::all_switches(yard.plant().switches);
        let whole = service(yard.plant()) as u16;
        for component in 0..yard.parts.len() {
            let switch = yard.some_switch(chance, component);
            let own = yard.service(component) as u16;
            let across = (0..yard.parts.len()).fold(alone(switch), |set, part| {
                set | alone(yard.some_switch(chance, part))
            });
            for set in [alone(switch), across, all] {
                let any = make::any_console(chance);
                let console = Console { set, ..any };
                out.put(called(chance, listing, console, Turn::Start(switch)))?;
                out.put(called(chance, listing, any, Turn::Set(set)))?;
            }
            let mut searches = vec![
                Search::AllUp,
                Search::Checking(own, 0),
                Search::Checking(own, 2),
                Search::Checking(whole, 0),
                Search::Halving(1, own, 0),
                Search::Halving(1, whole, 1),
                Search::Down(own),
                Search::Down(own + 1),
            ];
            for other in 0..yard.parts.len() {
                searches.push(Search::Checking(yard.service(other) as u16, 1));
            }
            for search in searches {
                let console = Console {
                    set: chance.of(&[across, all]),
                    search: Some(Begun { switch, search }),
                };
                let outcome = some_outcome(chance);
                out.put(called(chance, listing, console, Turn::Outcome(outcome)))?;
            }
        }
    }
    Ok(())
}

/// Each refusal of the listing in the calls of the desk, and the others alone and
/// in pairs.
fn fixed_several_desks_refused(chance: &mut Chance, out: &mut Out) -> io::Result<()> {
    let mut put = |chance: &mut Chance, call: u8, some: &[Fault]| {
        let parts = [make::cycle(3), make::path(1), make::exact(chance, 3, 5)];
        let yard = Yard::beside(chance, &parts, 1, Place::Late);
        let links = |switch: u8| yard.service(yard.component(switch)) as u16;
        let sitting = faulty_at(chance, yard.plant(), call, some, links);
        out.put(sat(chance, &sitting))
    };
    for call in OF_DESK {
        for refusal in 1..=8 {
            put(chance, call, &[Fault::Listing(refusal)])?;
        }
        let faults = faults(call);
        for (place, one) in faults.iter().enumerate() {
            put(chance, call, &[*one])?;
            for other in &faults[..place] {
                // Nothing is wrong with a search that is not there.
                let of_search = [Fault::Switch, Fault::Outside, Fault::Unsound, Fault::Ended];
                let none = [one, other].contains(&&Fault::NoSearch);
                if !none || !of_search.contains(one) && !of_search.contains(other) {
                    put(chance, call, &[*other, *one])?;
                }
            }
        }
    }
    Ok(())
}

/// Calls of all four consoles on one desk, each with searches in components of a
/// plant of which links are down in one component.
fn fixed_several_chain(chance: &mut Chance, out: &mut Out) -> io::Result<()> {
    let parts = [
        make::tailed(chance, 3, 5),
        make::bundle(3),
        make::path(1),
        make::path(2),
    ];
    let yard = Yard::beside(chance, &parts, 1, Place::Late);
    out.put(yard.components())?;
    let Pair { listing, trail, .. } = &yard.pair;
    let all = make::all_switches(yard.plant().switches);
    let mut states = yard.pair.idle(chance, 7, 0);
    let largest = (0..yard.parts.len()).max_by_key(|component| yard.service(*component));
    let broken = yard.links(largest.unwrap_or(0));
    let link = chance.of(&broken);
    put_down(chance, 7, &mut states, &[link]);
    let mut chain = Sequence {
        out,
        desk: Desk::default(),
    };
    for turn in 0..CHAIN {
        let console = some_console(chance);
        let own = chain.desk.console[usize::from(console)];
        let some = chance.draw() & all;
        let call = if own.set == 0 || turn % 12 == 11 {
            Turn::Set(some)
        } else {
            let start = Turn::Start(one_of(chance, own.set));
            match own.search {
                None => start,
                Some(Begun { switch, search }) => {
                    match calls::run_probe(listing, switch, trail, &states, search) {
                        Ok(run) => {
                            let home = run.fate() == Fate::Home && !chance.percent(20);
                            Turn::Outcome(if home { some_return(chance) } else { 0 })
                        }
                        Err(_) => chance.of(&[start, start, start, Turn::Outcome(0)]),
                    }
                }
            }
        };
        chain.call(chance, listing, console, call)?;
    }
    Ok(())
}

/// How many calls the sequence of a plant in several components has.
const CHAIN: usize = 60;

/// One case of a plant in several components, drawn by chance.
fn drawn_several(chance: &mut Chance) -> Case {
    let calls: Vec<u8> = of_several().chain([COMPONENTS; 3]).collect();
    let call = chance.of(&calls);
    let yard = loop {
        let (switches, links) = chance.of(&[(5, 6), (8, 12), (12, 24), (32, 60), (64, 120)]);
        let plant = make::several(chance, switches, links).mixed(chance);
        let more = chance.of(&[0, 0, 1, 3]);
        let yard = Yard::new(make::with_unplugged(chance, &plant, more));
        if !WITH_TRAIL.contains(&call) || yard.pair.trail.len() <= LENT_MARKED {
            break yard;
        }
    };
    let begin = yard.pair.some_switch(chance);
    let component = yard.component(begin);
    let mut arguments = yard.arguments(chance, call, begin);
    let (own, others) = (yard.links(component), yard.other_links(component));
    if WITH_STATES.contains(&call) {
        for (links, times) in [(&own, 40), (&others, 60)] {
            if !links.is_empty() && chance.percent(times) {
                let link = chance.of(links);
                put_down(chance, call, &mut arguments.states, &[link]);
            }
        }
    }
    match chance.below(14) {
        0 => arguments.begin = switch(chance, yard.plant()),
        1 => {
            let way = chance.below(OTHER_TRAILS);
            (arguments.trail, arguments.round) = yard.other_trails(chance, begin, way);
        }
        2 => {
            let way = chance.below(CHANGES);
            arguments.trail = yard.pair.changed(chance, &yard.pair.trail, way);
            arguments.round = yard.pair.changed(chance, &yard.pair.round, way);
        }
        3 => {
            let count = chance.below(arguments.states.len() + 1);
            arguments.states.truncate(count);
        }
        4 => arguments.search = wrong(chance, own.len()),
        5 => arguments.search = right(chance, own.len() + others.len(), 30),
        6 => arguments.places = trail_places(chance, arguments.places),
        7 => arguments.list = call_list(chance),
        8 => arguments.spare = chance.byte(),
        _ => {}
    }
    yard.case(call, &arguments)
}

/// How often each call is drawn, from call 1; the long run, the rules by switch,
/// the pages, the calls of the round trail, those given marks, those of the desk
/// and the components are drawn apart.
const WEIGHTS: [usize; NAMES.len() - 1] = [
    14, 9, 7, 5, 5, 9, 9, 7, 6, 8, 9, 7, 4, 2, 3, 6, 2, 7, 7, 1, 0, 0, 0, 0, 0, 0, 0, 0, 0, 0, 0,
    0, 0,
];

/// One case of any call but the long run, the rules by switch, the pages, those
/// of the round trail, those given marks, those of the desk and the components,
/// drawn by chance.
fn drawn_any(chance: &mut Chance) -> Case {
    let call = 1 + chance.weighed(&WEIGHTS) as u8;
    drawn(chance, call)
}

fn make(folder: &Path, seed: u64, count: usize) -> io::Result<Out> {
    std::fs::create_dir_all(folder)?;
    let mut out = Out {
        cases: BufWriter::new(File::create(folder.join("cases.in"))?),
        answers: BufWriter::new(File::create(folder.join("cases.expected"))?),
        answerer: Answerer::default(),
        line: Vec::new(),
        most: count.min(FIRST),
        count: 0,
        sizes: [0; 2],
        table: [[0; 1 + REFUSALS]; NAMES.len()],
    };
    let mut chance = Chance::new(seed);
    fixed(&mut chance, &mut out)?;
    while !out.full() {
        out.put(drawn_any(&mut chance))?;
    }
    // Packet runs are drawn by a chance of their own, and so are the rules by
    // switch, the pages written, the pages read, the searches, the allowance,
    // the round trails, the round runs, the choices, the listings with links
    // out of service, the plants written and reread with marks, the calls of
    // the desk, and the plants in several components.
    let mut other = Chance::new(!seed);
    out.most = count.min(FIRST + RUNS);
    fixed_runs(&mut other, &mut out)?;
    while !out.full() {
        out.put(drawn_run(&mut other)?)?;
    }
    let mut third = Chance::new(seed ^ u64::from(RULES_BY_SWITCH) << 32);
    out.most = count.min(FIRST + RUNS + BY_SWITCH);
    fixed_by_switch(&mut third, &mut out)?;
    while !out.full() {
        out.put(drawn_by_switch(&mut third))?;
    }
    let mut fourth = Chance::new(seed ^ u64::from(PAGE_WRITTEN) << 32);
    out.most = count.min(FIRST + RUNS + BY_SWITCH + WRITTEN);
    fixed_pages_written(&mut fourth, &mut out)?;
    while !out.full() {
        out.put(drawn_page_written(&mut fourth))?;
    }
    let mut fifth = Chance::new(seed ^ u64::from(PAGE_READ) << 32);
    out.most = count.min(FIRST + RUNS + BY_SWITCH + WRITTEN + READ);
    fixed_pages_read(&mut fifth, &mut out)?;
    while !out.full() {
        out.put(drawn_page_read(&mut fifth)?)?;
    }
    let mut sixth = Chance::new(seed ^ u64::from(PERFORM) << 32);
    out.most = count.min(KINDS);
    fixed_searches(&mut sixth, &mut out)?;
    while !out.full() {
        out.put(drawn_search(&mut sixth)?)?;
    }
    let mut seventh = Chance::new(seed ^ u64::from(ALLOWANCE) << 32);
    out.most = count.min(KINDS + ALLOWANCES);
    fixed_allowances(&mut out)?;
    while !out.full() {
        out.put(allowed(seventh.word().into()))?;
    }
    let mut eighth = Chance::new(seed ^ u64::from(ROUND_TRAIL) << 32);
    out.most = count.min(KINDS + ALLOWANCES + ROUND_TRAILS);
    fixed_round_trails(&mut eighth, &mut out)?;
    while !out.full() {
        out.put(drawn_round_trail(&mut eighth))?;
    }
    let mut ninth = Chance::new(seed ^ u64::from(ROUND_RUN) << 32);
    out.most = count.min(KINDS + ALLOWANCES + ROUND_TRAILS + ROUND_RUNS);
    fixed_round_runs(&mut ninth, &mut out)?;
    while !out.full() {
        out.put(drawn_round_run(&mut ninth))?;
    }
    let mut tenth = Chance::new(seed ^ u64::from(CHOICE) << 32);
    out.most = count.min(IN_SERVICE);
    fixed_choices(&mut tenth, &mut out)?;
    while !out.full() {
        out.put(drawn_choice(&mut tenth))?;
    }
    let mut eleventh = Chance::new(seed ^ u64::from(LISTING_READ) << 32);
    out.most = count.min(IN_SERVICE + MARKED);
    fixed_marked(&mut eleventh, &mut out)?;
    while !out.full() {
        out.put(drawn_marked(&mut eleventh))?;
    }
    let mut twelfth = Chance::new(seed ^ u64::from(WRITE_MARKED) << 32);
    out.most = count.min(IN_SERVICE + MARKED + WRITTEN_MARKED);
    fixed_writings(&mut twelfth, &mut out, WRITE_MARKED)?;
    while !out.full() {
        out.put(drawn_writing(&mut twelfth, WRITE_MARKED))?;
    }
    let mut thirteenth = Chance::new(seed ^ u64::from(REREAD_MARKED) << 32);
    out.most = count.min(NO_DESK);
    fixed_writings(&mut thirteenth, &mut out, REREAD_MARKED)?;
    while !out.full() {
        out.put(drawn_writing(&mut thirteenth, REREAD_MARKED))?;
    }
    let mut fourteenth = Chance::new(seed ^ u64::from(NEW_SET) << 32);
    out.most = count.min(ALONE);
    fixed_desks(&mut fourteenth, &mut out)?;
    while !out.full() {
        out.put(drawn_desk(&mut fourteenth))?;
    }
    let mut fifteenth = Chance::new(seed ^ u64::from(COMPONENTS) << 32);
    out.most = count.min(COUNT);
    fixed_several(&mut fifteenth, &mut out)?;
    while !out.full() {
        out.put(drawn_several(&mut fifteenth))?;
    }
    out.most = count;
    while !out.full() {
        let case = match sixth.weighed(&[FIRST, RUNS, BY_SWITCH, WRITTEN, READ, SEARCHES]) {
            0 => drawn_any(&mut chance),
            1 => drawn_run(&mut other)?,
            2 => drawn_by_switch(&mut third),
            3 => drawn_page_written(&mut fourth),
            4 => drawn_page_read(&mut fifth)?,
            _ => drawn_search(&mut sixth)?,
        };
        out.put(case)?;
    }
    out.cases.flush()?;
    out.answers.flush()?;
    Ok(out)
}

/// Prints how often each call and each refusal occurs.
fn report(out: &Out) {
    eprint!("{:>2} {:<13}{:>7}{:>7}", "", "call", "cases", "taken");
    for refusal in 1..=REFUSALS {
        eprint!("{refusal:>6}");
    }
    eprintln!();
    let line = |number: &str, name: &str, row: &[usize; 1 + REFUSALS]| {
        let cases: usize = row.iter().sum();
        eprint!("{number:>2} {name:<13}{cases:>7}{:>7}", row[0]);
        for count in &row[1..] {
            eprint!("{count:>6}");
        }
        eprintln!();
    };
    let mut all = [0; 1 + REFUSALS];
    for (call, row) in out.table.iter().enumerate().skip(1) {
        line(&call.to_string(), NAMES[call], row);
        for (sum, count) in all.iter_mut().zip(row) {
            *sum += count;
        }
    }
    line("", "all", &all);
    eprintln!(
        "{} cases, {} bytes of cases, {} bytes of answers, {} bytes",
        out.count,
        out.sizes[0],
        out.sizes[1],
        out.sizes[0] + out.sizes[1]
    );
}

fn main() -> ExitCode {
    let arguments: Vec<String> = std::env::args().skip(1).collect();
    let number = |place: usize, usual: u64| match arguments.get(place) {
        None => Some(usual),
        Some(text) => text.parse().ok(),
    };
    let (Some(folder), Some(seed), Some(count), true) = (
        arguments.first(),
        number(1, SEED),
        number(2, COUNT as u64),
        arguments.len() <= 3,
    ) else {
        eprintln!("make-cases OUT_DIR [SEED] [COUNT]");
        return ExitCode::FAILURE;
    };
    match make(Path::new(folder), seed, count as usize) {
        Ok(out) => {
            report(&out);
            ExitCode::SUCCESS
        }
        Err(error) => {
            eprintln!("{error}");
            ExitCode::FAILURE
        }
    }
}
