//! Packet runs, place, ring, order of links and probes.

use crate::net::Net;
use crate::plant::Plant;

/// The two-way fate of a packet: of a probe, whether it is home.
#[derive(Clone, Copy, Debug, PartialEq, Eq)]
pub enum Fate {
    Home,
    Lost,
}

/// Where a packet got to.
#[derive(Clone, Copy, Debug, PartialEq, Eq)]
pub struct Run {
    /// Whether its list became empty; else it was lost.
    pub ended: bool,
    /// The labels before the first one that has no rule at the switch then
    /// reached or cannot be crossed by: all of them, if it ended.
    pub hops: usize,
    /// The switch last reached.
    pub last: usize,
}

impl Run {
    /// The two-way fate.
    pub fn fate(self) -> Fate {
        if self.ended {
            Fate::Home
        } else {
            Fate::Lost
        }
    }
}

/// Whose rules a packet runs under.
#[derive(Clone, Copy, Debug, PartialEq, Eq)]
pub enum Under {
    /// The rule page: arcs in use alone.
    Page,
    /// The probes' rules: both arcs of every link in service.
    BothArcs,
}

/// Runs a packet from a switch: states are those of the links in turn, and
/// there is one for each link of the listing.
pub fn run(
    net: &Net,
    under: Under,
    switch: usize,
    labels: impl IntoIterator<Item = u16>,
    states: &[u8],
) -> Run {
    follow(net, switch, labels, |label| {
        (under == Under::BothArcs || net.used[label]) && states[label / 2] != 0
    })
}

/// Runs a packet from a switch under both arcs of every link in service: states
/// are those of the labels in turn, and there is one for each label.
pub fn run_by_label(
    net: &Net,
    switch: usize,
    labels: impl IntoIterator<Item = u16>,
    states: &[u8],
) -> Run {
    follow(net, switch, labels, |label| states[label] != 0)
}

/// Runs a packet from a switch: `open` says of a label of a link in service
/// whether it has a rule and can be crossed by. No other label has a rule.
fn follow(
    net: &Net,
    switch: usize,
    labels: impl IntoIterator<Item = u16>,
    open: impl Fn(usize) -> bool,
) -> Run {
    let mut run = Run {
        ended: false,
        hops: 0,
        last: switch,
    };
    for label in labels {
        if !net.serves(usize::from(label / 2)) || !open(usize::from(label)) {
            return run;
        }
        let (from, to) = net.ends(label);
        if from != run.last {
            return run;
        }
        run.hops += 1;
        run.last = to;
    }
    run.ended = true;
    run
}

/// The first hop of a component's trail that leaves the switch, 0 if there is
/// none. In the joined trail it is so many places after the component's stretch
/// begins.
pub fn place(net: &Net, trail: &[u16], switch: usize) -> usize {
    trail
        .iter()
        .position(|label| net.ends(*label).0 == switch)
        .unwrap_or(0)
}

/// The ring from a place: the component's trail from there to its end, then its
/// front.
pub fn ring(trail: &[u16], place: usize) -> (&[u16], &[u16]) {
    let (front, rest) = trail.split_at(place);
    (rest, front)
}

/// The links in service of a component by first crossing from a place.
pub struct Order {
    pub count: usize,
    pub link: [u16; Plant::MAX_LINKS],
    /// For each place in the order, the labels of the ring up to and with
    /// the first crossing of that link.
    pub reach: [u16; Plant::MAX_LINKS],
}

impl Order {
    pub fn new(net: &Net, trail: &[u16], place: usize) -> Order {
        let first = trail.first().map(|label| net.ends(*label).0);
        let links = first.map_or(0, |switch| usize::from(net.links_at(switch)));
        let mut order = Order {
            count: 0,
            link: [0; Plant::MAX_LINKS],
            reach: [0; Plant::MAX_LINKS],
        };
        let mut crossed = [false; Plant::MAX_LINKS];
        let (rest, front) = ring(trail, place);
        for (hop, label) in rest.iter().chain(front).enumerate() {
            let link = usize::from(label / 2);
            if !crossed[link] {
                crossed[link] = true;
                order.link[order.count] = link as u16;
                order.reach[order.count] = hop as u16 + 1;
                order.count += 1;
                if order.count == links {
                    break;
                }
            }
        }
        order
    }

    pub fn links(&self) -> &[u16] {
        &self.link[..self.count]
    }
}

/// The outward labels of probe m, 1 to the number of links in the order, in at
/// most two stretches: up to the first crossing of the m-th link, or the whole
/// ring for m = E.
pub fn outward<'t>(
    trail: &'t [u16],
    place: usize,
    order: &Order,
    m: usize,
) -> (&'t [u16], &'t [u16]) {
    let (rest, front) = ring(trail, place);
    if m == order.count {
        return (rest, front);
    }
    let reach = usize::from(order.reach[m - 1]);
    if reach <= rest.len() {
        (&rest[..reach], &[])
    } else {
        (rest, &front[..reach - rest.len()])
    }
}

/// Runs probe m, 1 to the number of links in the order, from a switch and its
/// place: the hops of the way back count on.
pub fn run_probe(
    net: &Net,
    trail: &[u16],
    switch: usize,
    order: &Order,
    m: usize,
    states: &[u8],
) -> Run {
    let (one, two) = outward(trail, place(net, trail, switch), order, m);
    let out = one.iter().chain(two).copied();
    if m == order.count {
        return run(net, Under::Page, switch, out, states);
    }
    let back = out.clone().rev().map(|label| label ^ 1);
    run(net, Under::BothArcs, switch, out.chain(back), states)
}
