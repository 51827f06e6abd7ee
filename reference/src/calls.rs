//! Every call with its refusals in checking order. Each stays a function of its
//! own where it is called, so that `bench/calls` can count its instructions.

use crate::desk::{Begun, Console, Desk};
use crate::listing;
use crate::net::{BySwitch, Component, Net, Page};
use crate::packet::{self, Order, Run, Under};
use crate::page::{self, Counts};
use crate::plant::{Answer, Plant, Refusal};
use crate::round::Round;
use crate::search::{self, Search};
use crate::trail::Trail;
use std::ops::Range;

/// What the first line of the program `rules` shows, of all components; the links
/// are those in service.
#[derive(Clone, Copy, Debug, PartialEq, Eq)]
pub struct Summary {
    pub switches: usize,
    pub links: usize,
    pub bridges: usize,
    pub rules: usize,
    pub hops: usize,
}

/// Refusals 1 to 8.
#[inline(never)]
pub fn read(listing: &[u8]) -> Answer<Plant> {
    listing::read(listing)
}

/// Refusals 5, 6, 7, 16.
#[inline(never)]
pub fn write(plant: &Plant, buffer: &mut [u8]) -> Answer<usize> {
    listing::write(plant, buffer)
}

/// Refusals 1 to 8.
pub fn net(listing: &[u8]) -> Answer<Net> {
    listing::read(listing).map(Net::new)
}

/// Refusal 11.
fn named(net: &Net, switch: u8) -> Answer<usize> {
    if switch < net.plant.switches {
        Ok(usize::from(switch))
    } else {
        Err(Refusal::SwitchOutOfRange)
    }
}

/// The stretch of a switch's component in the lent trail; refusal 12, of the
/// trail of all components in its whole length.
fn own_trail<'t>(net: &Net, switch: usize, lent: &'t [u16]) -> Answer<&'t [u16]> {
    let trail = Trail::new(net);
    if trail.is(lent) {
        Ok(&lent[trail.stretch(net.component_of(switch))])
    } else {
        Err(Refusal::TrailDiffers)
    }
}

/// The stretch of a switch's component in the lent trail; refusal 12, of the hops
/// of all components alone and not of spare places.
fn trail_hops<'t>(net: &Net, switch: usize, lent: &'t [u16]) -> Answer<&'t [u16]> {
    let trail = Trail::new(net);
    let hops = trail.hops_of(lent).ok_or(Refusal::TrailDiffers)?;
    Ok(&hops[trail.stretch(net.component_of(switch))])
}

/// The same of the lent round trail.
fn round_hops<'t>(net: &Net, switch: usize, lent: &'t [u16]) -> Answer<&'t [u16]> {
    let round = Round::new(net);
    let hops = round.hops_of(lent).ok_or(Refusal::TrailDiffers)?;
    Ok(&hops[round.stretch(net.component_of(switch))])
}

/// Refusal 13: a state for each link of the listing.
fn enough(net: &Net, states: &[u8]) -> Answer<()> {
    if states.len() < net.listed() {
        Err(Refusal::StatesShort)
    } else {
        Ok(())
    }
}

/// Refusal 13, with a state for each label of the listing.
fn enough_for_labels(net: &Net, states: &[u8]) -> Answer<()> {
    if states.len() < 2 * net.listed() {
        Err(Refusal::StatesShort)
    } else {
        Ok(())
    }
}

/// Refusal 14: a search goes by the links in service of its switch's component.
fn sound(net: &Net, switch: usize, search: Search) -> Answer<()> {
    search.check_for(net.links_at(switch))
}

/// Refusals 14 and 15.
fn wanted(net: &Net, switch: usize, search: Search) -> Answer<usize> {
    sound(net, switch, search)?;
    search.ask().map(usize::from)
}

fn summary_of(net: &Net, trail: &Trail) -> Summary {
    Summary {
        switches: usize::from(net.plant.switches),
        links: net.links,
        bridges: net.bridges,
        rules: net.rule_count(),
        hops: trail.hops,
    }
}

/// Refusals 1 to 8.
#[inline(never)]
pub fn summary(listing: &[u8]) -> Answer<Summary> {
    let net = net(listing)?;
    let trail = Trail::new(&net);
    Ok(summary_of(&net, &trail))
}

/// One flag for each link of the listing, and false past them; refusals 1 to 8.
#[inline(never)]
pub fn bridges(listing: &[u8]) -> Answer<(usize, [bool; Plant::MAX_LINKS])> {
    let net = net(listing)?;
    Ok((net.listed(), net.bridge))
}

/// Refusals 1 to 8.
#[inline(never)]
pub fn rules(listing: &[u8]) -> Answer<Page> {
    Ok(net(listing)?.page())
}

/// Refusals 1 to 8.
#[inline(never)]
pub fn by_switch(listing: &[u8]) -> Answer<BySwitch> {
    Ok(net(listing)?.by_switch())
}

/// Writes the buying page to the front of the buffer and returns its length;
/// refusals 1 to 8, 17, 18.
#[inline(never)]
pub fn page_written(listing: &[u8], percent: u8, buffer: &mut [u8]) -> Answer<usize> {
    page::write(&Counts::new(&net(listing)?, percent)?, buffer)
}

/// A component's first switch, and its stretches of the joined trail and of the
/// joined round trail.
#[derive(Clone, Debug, PartialEq, Eq)]
pub struct Stretches {
    pub first: u8,
    pub trail: Range<usize>,
    pub round: Range<usize>,
}

/// The components in their order; refusals 1 to 8.
#[inline(never)]
pub fn components(listing: &[u8]) -> Answer<Vec<Stretches>> {
    let net = net(listing)?;
    let (trail, round) = (Trail::new(&net), Round::new(&net));
    let stretches = |(number, component): (usize, &Component)| Stretches {
        first: component.first,
        trail: trail.stretch(number),
        round: round.stretch(number),
    };
    Ok(net.components.iter().enumerate().map(stretches).collect())
}

/// Writes the trails of the components, one after the other, to the front of the
/// buffer and returns their hops; refusals 1 to 8, 10.
#[inline(never)]
pub fn trail(listing: &[u8], buffer: &mut [u16]) -> Answer<usize> {
    let net = net(listing)?;
    let trail = Trail::new(&net);
    let front = buffer
        .get_mut(..trail.hops)
        .ok_or(Refusal::TrailBufferShort)?;
    trail.fill(front);
    Ok(trail.hops)
}

/// A packet that is no probe; refusals 1 to 8, 11, 13.
#[inline(never)]
pub fn run(listing: &[u8], switch: u8, labels: &[u16], states: &[u8]) -> Answer<Run> {
    let net = net(listing)?;
    let switch = named(&net, switch)?;
    enough(&net, states)?;
    Ok(packet::run(
        &net,
        Under::Page,
        switch,
        labels.iter().copied(),
        states,
    ))
}

/// The whole ring of a switch's component from the switch; refusals 1 to 8, 11,
/// 12, 13.
#[inline(never)]
pub fn full_check(listing: &[u8], switch: u8, trail: &[u16], states: &[u8]) -> Answer<Run> {
    let net = net(listing)?;
    let switch = named(&net, switch)?;
    let trail = own_trail(&net, switch, trail)?;
    enough(&net, states)?;
    let (rest, front) = packet::ring(trail, packet::place(&net, trail, switch));
    let labels = rest.iter().chain(front).copied();
    Ok(packet::run(&net, Under::Page, switch, labels, states))
}

/// Writes the round trails of the components, one after the other, to the front
/// of the buffer and returns their hops; refusals 1 to 8, 10.
#[inline(never)]
pub fn round_trail(listing: &[u8], buffer: &mut [u16]) -> Answer<usize> {
    let round = Round::new(&net(listing)?);
    let labels = round.labels();
    let front = buffer
        .get_mut(..labels.len())
        .ok_or(Refusal::TrailBufferShort)?;
    front.copy_from_slice(labels);
    Ok(labels.len())
}

/// The whole round trail of a switch's component from the switch, under both arcs
/// of every link in service and with a state for each label of the listing; the
/// lent one, of all components, may have spare places. Refusals 1 to 8, 11, 12,
/// 13.
#[inline(never)]
pub fn round_run(listing: &[u8], switch: u8, round: &[u16], states: &[u8]) -> Answer<Run> {
    let net = net(listing)?;
    let switch = named(&net, switch)?;
    let hops = round_hops(&net, switch, round)?;
    enough_for_labels(&net, states)?;
    let (rest, front) = packet::ring(hops, packet::place(&net, hops, switch));
    let labels = rest.iter().chain(front).copied();
    Ok(packet::run_by_label(&net, switch, labels, states))
}

/// A component's hops of one of two lent trails.
#[derive(Clone, Copy, Debug, PartialEq, Eq)]
pub enum Choice<'t> {
    Trail(&'t [u16]),
    Round(&'t [u16]),
}

/// The hops of a switch's component in whichever of the lent trail and the lent
/// round trail it has fewer in, the trail's if equal; either may have spare
/// places. Refusals 1 to 8, 11, 12.
#[inline(never)]
pub fn choice<'t>(
    listing: &[u8],
    switch: u8,
    trail: &'t [u16],
    round: &'t [u16],
) -> Answer<Choice<'t>> {
    let net = net(listing)?;
    let switch = named(&net, switch)?;
    let trail = trail_hops(&net, switch, trail)?;
    let round = round_hops(&net, switch, round)?;
    Ok(if round.len() < trail.len() {
        Choice::Round(round)
    } else {
        Choice::Trail(trail)
    })
}

/// The order of the links of a switch's component; refusals 1 to 8, 11, 12.
#[inline(never)]
pub fn order(listing: &[u8], switch: u8, trail: &[u16]) -> Answer<Order> {
    let net = net(listing)?;
    let switch = named(&net, switch)?;
    let trail = own_trail(&net, switch, trail)?;
    Ok(Order::new(&net, trail, packet::place(&net, trail, switch)))
}

/// The outward labels of the probe wanted, as parts of the lent trail;
/// refusals 1 to 8, 11, 12, 14, 15.
#[inline(never)]
pub fn outward<'t>(
    listing: &[u8],
    switch: u8,
    trail: &'t [u16],
    search: Search,
) -> Answer<(&'t [u16], &'t [u16])> {
    let net = net(listing)?;
    let switch = named(&net, switch)?;
    let trail = own_trail(&net, switch, trail)?;
    let m = wanted(&net, switch, search)?;
    let place = packet::place(&net, trail, switch);
    let order = Order::new(&net, trail, place);
    Ok(packet::outward(trail, place, &order, m))
}

/// The run of the probe wanted; refusals 1 to 8, 11, 12, 13, 14, 15.
#[inline(never)]
pub fn run_probe(
    listing: &[u8],
    switch: u8,
    trail: &[u16],
    states: &[u8],
    search: Search,
) -> Answer<Run> {
    let net = net(listing)?;
    let switch = named(&net, switch)?;
    let trail = own_trail(&net, switch, trail)?;
    enough(&net, states)?;
    let m = wanted(&net, switch, search)?;
    let order = Order::new(&net, trail, packet::place(&net, trail, switch));
    Ok(packet::run_probe(&net, trail, switch, &order, m, states))
}

/// What a search says of the links.
#[derive(Clone, Copy, Debug, PartialEq, Eq)]
pub enum Named {
    Link(u16),
    None,
    Open,
}

/// Refusals 1 to 8, 11, 12, 14.
#[inline(never)]
pub fn link_named(listing: &[u8], switch: u8, trail: &[u16], search: Search) -> Answer<Named> {
    let net = net(listing)?;
    let switch = named(&net, switch)?;
    let trail = own_trail(&net, switch, trail)?;
    sound(&net, switch, search)?;
    Ok(match search {
        Search::Down(place) => {
            let order = Order::new(&net, trail, packet::place(&net, trail, switch));
            Named::Link(order.link[usize::from(place) - 1])
        }
        Search::AllUp => Named::None,
        Search::Checking(..) | Search::Halving(..) => Named::Open,
    })
}

/// A new search of a switch's component; refusals 1 to 8, 11.
#[inline(never)]
pub fn new_search(listing: &[u8], switch: u8) -> Answer<Search> {
    let net = net(listing)?;
    let switch = named(&net, switch)?;
    Ok(Search::new(net.links_at(switch)))
}

/// Performs a list of calls from a new search: 0 asks, 1 gives returned, any
/// other byte gives lost. Returns the last state, the number of probes, that
/// of those counted as home or lost, and the number of packets, that of the
/// accepted outcomes; refusals 1 to 8, 11.
#[inline(never)]
pub fn perform(listing: &[u8], switch: u8, calls: &[u8]) -> Answer<(Search, usize, usize)> {
    let mut state = new_search(listing, switch)?;
    let (mut probes, mut packets) = (0, 0);
    for call in calls {
        if *call != 0 {
            if let Ok(next) = state.give(*call == 1) {
                state = next;
                packets += 1;
                // A loss that counts no probe yet stays in the state.
                probes += usize::from(next.lost() == 0);
            }
        }
    }
    Ok((state, probes, packets))
}

/// Replaces a console's set and leaves its search as it is; the console's set
/// and search as they then stand. Refusals 19, 1 to 8, 20 of the new set.
#[inline(never)]
pub fn new_set(listing: &[u8], desk: &mut Desk, console: u8, set: u64) -> Answer<Console> {
    let console = desk.at(console)?;
    let net = net(listing)?;
    let next = Console { set, ..*console };
    next.check_for(&net.plant)?;
    *console = next;
    Ok(next)
}

/// Starts a console's search at a switch, in place of the one that it may have;
/// the console's set and search as they then stand. Refusals 19, 1 to 8, 20 of
/// its set, 11, 21.
#[inline(never)]
pub fn start(listing: &[u8], desk: &mut Desk, console: u8, switch: u8) -> Answer<Console> {
    let console = desk.at(console)?;
    let net = net(listing)?;
    console.check_for(&net.plant)?;
    let at = named(&net, switch)?;
    console.check_switch(at)?;
    console.search = Some(Begun {
        switch,
        search: Search::new(net.links_at(at)),
    });
    Ok(*console)
}

/// Gives the outcome of a sending to a console's search; the console's set and
/// search as they then stand. Refusals 19, 1 to 8, 20 of its set, 15 without a
/// search, 11 and 21 of the search's switch, 14, 15.
#[inline(never)]
pub fn outcome(listing: &[u8], desk: &mut Desk, console: u8, returned: bool) -> Answer<Console> {
    let console = desk.at(console)?;
    let net = net(listing)?;
    console.check_for(&net.plant)?;
    let Begun { switch, search } = console.search.ok_or(Refusal::SearchEnded)?;
    let at = named(&net, switch)?;
    console.check_switch(at)?;
    sound(&net, at, search)?;
    let search = search.give(returned)?;
    console.search = Some(Begun { switch, search });
    Ok(*console)
}

/// The probe that a search wants; refusals 14 and 15.
#[inline(never)]
pub fn ask(search: Search) -> Answer<u16> {
    search.ask()
}

/// The state after one sending of the wanted probe; refusals 14 and 15.
#[inline(never)]
pub fn give(search: Search, returned: bool) -> Answer<Search> {
    search.give(returned)
}

/// The allowance of a number of links.
#[inline(never)]
pub fn allowance(links: u16) -> u8 {
    search::allowance(links)
}

/// The order quantity; refusal 17.
#[inline(never)]
pub fn quantity(rules: u16, percent: u8) -> Answer<u32> {
    search::quantity(rules, percent)
}

/// The counts of a buying page; refusal 18.
#[inline(never)]
pub fn page_read(page: &[u8]) -> Answer<Counts> {
    page::read(page)
}

/// Reads a listing and writes its plant's listing to the front of the buffer;
/// refusals 1 to 8, 16.
#[inline(never)]
pub fn rewrite(listing: &[u8], buffer: &mut [u8]) -> Answer<usize> {
    listing::write(&listing::read(listing)?, buffer)
}

/// Writes a plant's listing to the front of the buffer and reads it from
/// there; refusals 5, 6, 7, 16.
#[inline(never)]
pub fn reread(plant: &Plant, buffer: &mut [u8]) -> Answer<Plant> {
    let length = listing::write(plant, buffer)?;
    listing::read(&buffer[..length])
}

/// What the program `rules` prints for a listing.
pub fn print(listing: &[u8]) -> String {
    use std::fmt::Write;

    let mut text = String::new();
    let mut put = |part: std::fmt::Arguments| {
        // Writing to a string does not fail.
        let _ = text.write_fmt(part);
    };
    match net(listing) {
        Err(refusal) => put(format_args!("refused {}\n", refusal.number())),
        Ok(net) => {
            let trail = Trail::new(&net);
            let sum = summary_of(&net, &trail);
            put(format_args!(
                "plant {} {} {} {} {}\n",
                sum.switches, sum.links, sum.bridges, sum.rules, sum.hops
            ));
            for rule in net.page().rules() {
                put(format_args!(
                    "rule {} {} {}\n",
                    rule.from, rule.label, rule.to
                ));
            }
            let labels = trail.to_vec();
            for component in 0..net.components.len() {
                put(format_args!("trail"));
                for label in &labels[trail.stretch(component)] {
                    put(format_args!(" {label}"));
                }
                put(format_args!("\n"));
            }
        }
    }
    text
}

/// What the program `buying` prints for a listing and a spare.
pub fn print_page(listing: &[u8], spare: u16) -> String {
    // A spare that is no byte is above 100 too.
    let percent = u8::try_from(spare).unwrap_or(u8::MAX);
    match net(listing).and_then(|net| Counts::new(&net, percent)) {
        Err(refusal) => format!("refused {}\n", refusal.number()),
        Ok(counts) => page::text(&counts),
    }
}
