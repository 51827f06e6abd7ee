//! Depth-first visit, components, bridges, arcs in use, the rule page and the
//! rules by switch.

use crate::plant::Plant;

/// A rule: the sending switch passes the label's packet to the receiver.
#[derive(Clone, Copy, Debug, Default, PartialEq, Eq)]
pub struct Rule {
    pub from: u8,
    pub label: u16,
    pub to: u8,
}

/// The rule page, by rising label, with zeros past its count.
#[derive(Clone, Debug, PartialEq, Eq)]
pub struct Page {
    pub count: usize,
    pub rule: [Rule; Plant::MAX_RULES],
}

impl Page {
    pub fn rules(&self) -> &[Rule] {
        &self.rule[..self.count]
    }
}

/// The number of rules that each switch sends by, with zeros from S on, and
/// the total over the switches.
#[derive(Clone, Debug, PartialEq, Eq)]
pub struct BySwitch {
    pub rules: [u16; Plant::MAX_SWITCHES],
    pub total: usize,
}

/// An island, in the word of order 9: switches that links in service join.
#[derive(Clone, Copy, Debug, Default, PartialEq, Eq)]
pub struct Component {
    /// The switch that its visit, its trail and its round trail begin at.
    pub first: u8,
    /// Its links in service: E in all that tells of rings, probes and searches.
    pub links: u16,
}

/// A plant with its components, its links in service, its bridges and its arcs
/// in use.
#[derive(Clone, Debug)]
pub struct Net {
    pub plant: Plant,
    /// The start's component, and then the others by their lowest switch.
    pub components: Vec<Component>,
    /// The number of links in service of all components.
    pub links: usize,
    pub bridge: [bool; Plant::MAX_LINKS],
    pub bridges: usize,
    pub used: [bool; Plant::MAX_ARCS],
    /// The component of each switch.
    component: [u8; Plant::MAX_SWITCHES],
    /// Number of each switch in the order of the visits.
    number: [u8; Plant::MAX_SWITCHES],
    entered: [bool; Plant::MAX_LINKS],
}

/// The links in service at each switch by rising number.
pub(crate) struct Joins {
    at: [u16; Plant::MAX_SWITCHES + 1],
    join: [Join; Plant::MAX_ARCS],
}

/// A link at a switch, and the switch at its other end.
#[derive(Clone, Copy, Default)]
pub(crate) struct Join {
    pub(crate) link: u16,
    pub(crate) other: u8,
}

impl Joins {
    pub(crate) fn new(plant: &Plant) -> Joins {
        let mut at = [0; Plant::MAX_SWITCHES + 1];
        for (_, link) in plant.in_service() {
            at[usize::from(link.first) + 1] += 1;
            at[usize::from(link.second) + 1] += 1;
        }
        for switch in 0..Plant::MAX_SWITCHES {
            at[switch + 1] += at[switch];
        }
        let mut free = at;
        let mut join = [Join::default(); Plant::MAX_ARCS];
        for (number, link) in plant.in_service() {
            for (end, other) in [(link.first, link.second), (link.second, link.first)] {
                let place = &mut free[usize::from(end)];
                join[usize::from(*place)] = Join {
                    link: number as u16,
                    other,
                };
                *place += 1;
            }
        }
        Joins { at, join }
    }

    /// The links at a switch.
    pub(crate) fn of(&self, switch: usize) -> &[Join] {
        &self.join[usize::from(self.at[switch])..usize::from(self.at[switch + 1])]
    }
}

/// The state of the depth-first visit of one component after another.
struct Visit<'a> {
    joins: &'a Joins,
    visited: u8,
    /// The number of the component that is visited.
    current: u8,
    component: [u8; Plant::MAX_SWITCHES],
    /// Number of each switch from 1 in the order of the visits, 0 before.
    number: [u8; Plant::MAX_SWITCHES],
    /// Least number reached from the switch's part of the visit by one link
    /// that was not entered.
    low: [u8; Plant::MAX_SWITCHES],
    entered: [bool; Plant::MAX_LINKS],
    bridge: [bool; Plant::MAX_LINKS],
}

impl Visit<'_> {
    fn enter(&mut self, switch: usize, by: Option<u16>) {
        self.visited += 1;
        let number = self.visited;
        let mut low = number;
        self.number[switch] = number;
        self.component[switch] = self.current;
        for Join { link, other } in self.joins.of(switch).iter().copied() {
            let other = usize::from(other);
            if Some(link) == by {
                continue;
            }
            if self.number[other] == 0 {
                self.entered[usize::from(link)] = true;
                self.enter(other, Some(link));
                self.bridge[usize::from(link)] = self.low[other] > number;
                low = low.min(self.low[other]);
            } else {
                low = low.min(self.number[other]);
            }
        }
        self.low[switch] = low;
    }
}

impl Net {
    /// Visits the plant from its start, and then from each lowest switch that is
    /// not visited yet.
    pub fn new(plant: Plant) -> Net {
        let joins = Joins::new(&plant);
        let mut visit = Visit {
            joins: &joins,
            visited: 0,
            current: 0,
            component: [0; Plant::MAX_SWITCHES],
            number: [0; Plant::MAX_SWITCHES],
            low: [0; Plant::MAX_SWITCHES],
            entered: [false; Plant::MAX_LINKS],
            bridge: [false; Plant::MAX_LINKS],
        };
        let mut components = Vec::new();
        for first in std::iter::once(plant.start).chain(0..plant.switches) {
            if visit.number[usize::from(first)] == 0 {
                visit.current = components.len() as u8;
                visit.enter(usize::from(first), None);
                components.push(Component { first, links: 0 });
            }
        }
        let mut used = [false; Plant::MAX_ARCS];
        let mut links = 0;
        let mut bridges = 0;
        for (number, link) in plant.in_service() {
            links += 1;
            let component = visit.component[usize::from(link.first)];
            components[usize::from(component)].links += 1;
            if visit.bridge[number] {
                used[2 * number] = true;
                used[2 * number + 1] = true;
                bridges += 1;
            } else {
                let onward =
                    visit.number[usize::from(link.first)] < visit.number[usize::from(link.second)];
                let forth = onward == visit.entered[number];
                used[2 * number + usize::from(!forth)] = true;
            }
        }
        let Visit {
            component,
            number,
            entered,
            bridge,
            ..
        } = visit;
        Net {
            plant,
            components,
            links,
            bridge,
            bridges,
            used,
            component,
            number,
            entered,
        }
    }

    /// Whether the plant is one component.
    pub fn is_joined(&self) -> bool {
        self.components.len() == 1
    }

    /// The number of a switch's component.
    pub fn component_of(&self, switch: usize) -> usize {
        usize::from(self.component[switch])
    }

    /// The links in service of a switch's component.
    pub fn links_at(&self, switch: usize) -> u16 {
        self.components[self.component_of(switch)].links
    }

    /// The number of links of the listing, in service or not.
    pub fn listed(&self) -> usize {
        usize::from(self.plant.links)
    }

    /// Whether there is a link of this number, and it is in service.
    pub fn serves(&self, link: usize) -> bool {
        let link = self.plant.records().get(link);
        link.is_some_and(|link| !link.out_of_service)
    }

    /// The number of arcs in use.
    pub fn rule_count(&self) -> usize {
        self.links + self.bridges
    }

    /// The switches that a label's arc leaves and reaches.
    pub fn ends(&self, label: u16) -> (usize, usize) {
        let link = self.plant.link[usize::from(label / 2)];
        let (first, second) = (usize::from(link.first), usize::from(link.second));
        if label & 1 == 0 {
            (first, second)
        } else {
            (second, first)
        }
    }

    /// The label by which a link is crossed from a switch at one of its ends.
    pub fn leaving(&self, link: u16, switch: usize) -> u16 {
        let first = usize::from(self.plant.link[usize::from(link)].first);
        2 * link + u16::from(first != switch)
    }

    /// The labels of the arcs in use, rising.
    pub fn used_labels(&self) -> impl Iterator<Item = u16> + '_ {
        (0..2 * self.plant.links).filter(|label| self.used[usize::from(*label)])
    }

    pub fn page(&self) -> Page {
        let mut page = Page {
            count: 0,
            rule: [Rule::default(); Plant::MAX_RULES],
        };
        for label in self.used_labels() {
            let (from, to) = self.ends(label);
            page.rule[page.count] = Rule {
                from: from as u8,
                label,
                to: to as u8,
            };
            page.count += 1;
        }
        page
    }

    /// Whether a switch sends by a rule over a link at it: over a bridge, over
    /// an entered link to a switch visited later, and over any other link to
    /// one visited earlier.
    fn sends(&self, switch: usize, join: Join) -> bool {
        let (link, other) = (usize::from(join.link), usize::from(join.other));
        let onward = self.number[switch] < self.number[other];
        self.bridge[link] || onward == self.entered[link]
    }

    /// The rules of each switch in turn, by the links at it and without the
    /// page.
    pub fn by_switch(&self) -> BySwitch {
        let joins = Joins::new(&self.plant);
        let sent = |switch: usize| {
            let over = joins.of(switch).iter();
            over.filter(|join| self.sends(switch, **join)).count()
        };
        let rules: [usize; Plant::MAX_SWITCHES] = std::array::from_fn(sent);
        BySwitch {
            rules: rules.map(|count| count as u16),
            total: rules.iter().sum(),
        }
    }
}
