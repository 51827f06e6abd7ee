//! The marked cases of document 01, and checks of every call against plain
//! restatements of the definitions on small plants drawn by chance.

use crate::calls::{self, Choice, Named, Stretches};
use crate::cases::{prefilled, Answerer, Case, Sum};
use crate::desk::{Begun, Console, Desk};
use crate::listing;
use crate::make::{self, Chance, Sitting, Turn};
use crate::net::{BySwitch, Net};
use crate::packet::{self, Fate, Order, Run};
use crate::page::{self, Counts};
use crate::plant::{Link, Plant, Refusal};
use crate::round::Round;
use crate::search::{quantity, Search, SENDINGS};
use crate::trail::{distances, Trail};

fn number<T>(answer: Result<T, Refusal>) -> u8 {
    answer.map_or_else(Refusal::number, |_| 0)
}

fn trail_vec(listing: &[u8]) -> Vec<u16> {
    Trail::new(&calls::net(listing).unwrap()).to_vec()
}

const ONE_LINK: &[u8] = &[0x03, 0x02, 0x01, 0x00, 0x02, 0x01];
const TRIANGLE: &[u8] = &[3, 3, 3, 0, 2, 1, 3, 1, 2, 3, 2, 0];
const PARALLEL: &[u8] = &[3, 2, 3, 0, 2, 1, 0, 0];
const TAILED: &[u8] = &[3, 4, 4, 0, 2, 1, 3, 1, 2, 3, 2, 0, 3, 0, 3];

#[test]
fn marked_refusals() {
    let cases: &[(&[u8], u8)] = &[
        (&[], 1),
        (&[0x00], 0),
        (&[0x08], 2),
        (&[0x01], 3),
        (&[0x01, 0x01], 4),
        (&[0x01, 0x00], 5),
        (&[0x01, 0x41], 5),
        (&[0x01, 0x40], 0),
        (&[0x00, 0x00], 8),
        (&[0x02, 0x01, 0x00, 0x00], 7),
        (&[0x03, 0x02, 0x01, 0x00, 0x00], 7),
        // The lowest number of a part goes first.
        (&[0x05, 0x01], 3),
        (&[0x05, 0x00, 0x00], 4),
        (&[0x03, 0x02, 0x01, 0x00, 0x03, 0x02, 0x02], 6),
        // An earlier part goes before a later one.
        (&[0x03, 0x02, 0x02, 0x00, 0x03, 0x01, 0x01, 0x08], 7),
        // Half a field.
        (&[0x02, 0x05], 3),
    ];
    for (listing, refusal) in cases {
        assert_eq!(number(calls::summary(listing)), *refusal, "{listing:02x?}");
    }
    assert_eq!(number(calls::read(&[0x01, 0x40])), 0);
}

#[test]
fn marked_plans() {
    let cases: &[(&[u8], &[u16], usize)] = &[
        (&[0x00], &[], 0),
        (ONE_LINK, &[0, 1], 2),
        (TRIANGLE, &[0, 2, 4], 3),
        (PARALLEL, &[0, 3, 0, 5], 3),
        (TAILED, &[0, 2, 4, 6, 7], 5),
    ];
    for (listing, trail, rules) in cases {
        assert_eq!(trail_vec(listing), *trail);
        assert_eq!(calls::rules(listing).unwrap().count, *rules);
    }
}

#[test]
fn marked_buffers() {
    let mut three = [9; 3];
    assert_eq!(
        calls::trail(PARALLEL, &mut three),
        Err(Refusal::TrailBufferShort)
    );
    assert_eq!(three, [9; 3]);
    let mut four = [9; 4];
    assert_eq!(calls::trail(PARALLEL, &mut four), Ok(4));
    assert_eq!(four, [0, 3, 0, 5]);
    let mut six = [9; 6];
    assert_eq!(calls::trail(PARALLEL, &mut six), Ok(4));
    assert_eq!(six, [0, 3, 0, 5, 9, 9]);
}

/// The rules by switch, those of the first switches being given.
fn sending(rules: &[u16]) -> BySwitch {
    let mut by = BySwitch {
        rules: [0; Plant::MAX_SWITCHES],
        total: rules.iter().copied().map(usize::from).sum(),
    };
    by.rules[..rules.len()].copy_from_slice(rules);
    by
}

#[test]
fn marked_rules_by_switch() {
    let cases: &[(&[u8], &[u16], usize)] = &[
        (&[0x00], &[], 0),
        (ONE_LINK, &[1, 1], 2),
        (TRIANGLE, &[1, 1, 1], 3),
        (PARALLEL, &[1, 2], 3),
        (TAILED, &[2, 1, 1, 1], 5),
    ];
    for (listing, rules, total) in cases {
        let by = calls::by_switch(listing).unwrap();
        assert_eq!(by, sending(rules));
        assert_eq!(by.total, *total);
    }
    assert_eq!(calls::by_switch(&[0x01, 0x40]), Ok(sending(&[])));
}

#[test]
fn marked_probes() {
    // One link takes one probe, three take at most three.
    for calls in [&[0, 1][..], &[1, 0], &[2, 2, 2, 0], &[2, 2, 1]] {
        assert_eq!(calls::perform(ONE_LINK, 0, calls).unwrap().1, 1);
    }
    let lost = &[2; 9];
    let performed = |listing, calls| calls::perform(listing, 0, calls);
    assert_eq!(performed(ONE_LINK, &lost[..3]), Ok((Search::Down(1), 1, 3)));
    assert_eq!(performed(PARALLEL, lost), Ok((Search::Down(1), 3, 9)));
    for first in [1, 2] {
        for second in [1, 2] {
            for third in [1, 2] {
                let list = [first, second, third].map(|call| [call; 3]).concat();
                let (state, probes, packets) = calls::perform(PARALLEL, 1, &list).unwrap();
                assert!(matches!(state, Search::AllUp | Search::Down(_)));
                assert!(probes <= 3 && packets <= 9);
            }
        }
    }
}

#[test]
fn marked_quantities() {
    assert_eq!(quantity(5, 10), Ok(6));
    assert_eq!(quantity(5, 0), Ok(5));
    assert_eq!(quantity(5, 101), Err(Refusal::SpareTooLarge));
}

#[test]
fn table_one_plant() {
    let sketch = make::table_one();
    let listing = make::listing_of(&sketch.plain());
    let sum = calls::summary(&listing).unwrap();
    assert_eq!((sum.links, sum.bridges, sum.rules), (9, 0, 9));
}

#[test]
fn printed() {
    let text = "plant 4 4 1 5 5\nrule 0 0 1\nrule 1 2 2\nrule 2 4 0\nrule 0 6 3\n\
                rule 3 7 0\ntrail 0 2 4 6 7\n";
    assert_eq!(calls::print(TAILED), text);
    assert_eq!(calls::print(&[0x00]), "plant 1 0 0 0 0\ntrail\n");
    let single = format!("plant 64 0 0 0 0\n{}", "trail\n".repeat(64));
    assert_eq!(calls::print(&[0x01, 0x40]), single);
}

#[test]
fn allowance_rule() {
    assert_eq!(calls::allowance(0), 0);
    for number in 1..=u16::MAX {
        let k = calls::allowance(number);
        assert!(1 << k >= u32::from(number));
        assert!(k == 0 || 1 << (k - 1) < u32::from(number));
    }
}

#[test]
fn allowances() {
    for links in 0..=u16::MAX {
        // Doubled from 1 until it is no longer below the number of links.
        let mut reach = 1;
        let mut doublings = 0;
        while reach < u32::from(links) {
            reach *= 2;
            doublings += 1;
        }
        assert_eq!(calls::allowance(links), doublings);
    }
    let some = [0, 1, 2, 3, 4, 5, 128, 129, 256, 257, 300, 512, 513, 65535];
    assert_eq!(
        some.map(calls::allowance),
        [0, 0, 1, 2, 2, 3, 7, 8, 8, 9, 9, 9, 10, 16]
    );
}

#[test]
fn quantity_rule() {
    for rules in (0..=u16::MAX).step_by(7).chain([u16::MAX]) {
        for percent in 0..=100 {
            // The spare is the least number not below the exact one.
            let spare = u64::from(quantity(rules, percent).unwrap()) - u64::from(rules);
            let exact = u64::from(rules) * u64::from(percent);
            assert!(spare * 100 >= exact);
            assert!(spare == 0 || (spare - 1) * 100 < exact);
        }
    }
    for percent in 101..=255 {
        assert_eq!(quantity(0, percent), Err(Refusal::SpareTooLarge));
    }
}

/// The definitions restated with no regard to speed.
struct Plain {
    switches: usize,
    start: usize,
    links: Vec<(usize, usize)>,
}

impl Plain {
    fn new(plant: &Plant) -> Plain {
        Plain {
            switches: usize::from(plant.switches),
            start: usize::from(plant.start),
            links: plant
                .records()
                .iter()
                .map(|link| (usize::from(link.first), usize::from(link.second)))
                .collect(),
        }
    }

    fn from(&self, label: usize) -> usize {
        let (first, second) = self.links[label / 2];
        [first, second][label % 2]
    }

    fn to(&self, label: usize) -> usize {
        self.from(label ^ 1)
    }

    fn labels(&self) -> std::ops::Range<usize> {
        0..2 * self.links.len()
    }

    /// Whether two switches are joined by the links that may be taken.
    fn are_joined(&self, one: usize, two: usize, may: impl Fn(usize) -> bool) -> bool {
        let mut joined = vec![false; self.switches];
        joined[one] = true;
        for _ in 0..self.switches {
            for (link, (first, second)) in self.links.iter().enumerate() {
                if may(link) && (joined[*first] || joined[*second]) {
                    joined[*first] = true;
                    joined[*second] = true;
                }
            }
        }
        joined[two]
    }

    fn is_whole(&self) -> bool {
        (0..self.switches).all(|switch| self.are_joined(self.start, switch, |_| true))
    }

    fn is_bridge(&self, link: usize) -> bool {
        let (first, second) = self.links[link];
        !self.are_joined(first, second, |other| other != link)
    }

    /// The order of the visit, and which links are entered.
    fn visit(&self) -> (Vec<usize>, Vec<bool>) {
        fn go(plain: &Plain, at: usize, order: &mut Vec<usize>, entered: &mut [bool]) {
            order.push(at);
            for (link, (first, second)) in plain.links.iter().enumerate() {
                let other = if *first == at {
                    *second
                } else if *second == at {
                    *first
                } else {
                    continue;
                };
                if !order.contains(&other) {
                    entered[link] = true;
                    go(plain, other, order, entered);
                }
            }
        }
        let mut order = Vec::new();
        let mut entered = vec![false; self.links.len()];
        go(self, self.start, &mut order, &mut entered);
        (order, entered)
    }

    fn used(&self) -> Vec<bool> {
        let (order, entered) = self.visit();
        let seen = |switch: usize| order.iter().position(|other| *other == switch);
        self.labels()
            .map(|label| {
                let onward = seen(self.from(label)) < seen(self.to(label));
                self.is_bridge(label / 2) || onward == entered[label / 2]
            })
            .collect()
    }

    /// Fewest hops over arcs in use: by lengthening walks hop by hop.
    fn distance(&self, used: &[bool], one: usize, two: usize) -> usize {
        let mut ends = vec![false; self.switches];
        ends[one] = true;
        for hops in 0..self.switches {
            if ends[two] {
                return hops;
            }
            let mut next = ends.clone();
            for label in self.labels() {
                if used[label] && ends[self.from(label)] {
                    next[self.to(label)] = true;
                }
            }
            ends = next;
        }
        panic!("not reached over arcs in use");
    }

    fn trail(&self) -> Vec<u16> {
        let used = self.used();
        let distance: Vec<Vec<usize>> = (0..self.switches)
            .map(|one| {
                (0..self.switches)
                    .map(|two| self.distance(&used, one, two))
                    .collect()
            })
            .collect();
        let mut crossed = vec![false; used.len()];
        let mut trail = Vec::new();
        let mut at = self.start;
        let mut cross = |at: &mut usize, crossed: &mut Vec<bool>, label: usize| {
            assert_eq!(*at, self.from(label));
            crossed[label] = true;
            trail.push(label as u16);
            *at = self.to(label);
        };
        loop {
            let nearest = self
                .labels()
                .filter(|label| used[*label] && !crossed[*label])
                .min_by_key(|label| (distance[at][self.from(*label)], *label));
            let goal = nearest.map_or(self.start, |label| self.from(label));
            while at != goal {
                let hop = self
                    .labels()
                    .find(|label| {
                        used[*label]
                            && self.from(*label) == at
                            && distance[self.to(*label)][goal] < distance[at][goal]
                    })
                    .unwrap();
                cross(&mut at, &mut crossed, hop);
            }
            match nearest {
                Some(label) => {
                    assert!(!crossed[label]);
                    cross(&mut at, &mut crossed, label);
                }
                None => return trail,
            }
        }
    }

    /// The round trail: at each switch in turn, each link at it that is entered
    /// from it, with all that is crossed on its far side between, and each
    /// other one to a switch visited earlier.
    fn round(&self) -> Vec<u16> {
        fn side(plain: &Plain, at: usize, order: &[usize], entered: &[bool]) -> Vec<u16> {
            let seen = |switch: usize| order.iter().position(|other| *other == switch);
            let out = plain.labels().filter(|label| {
                let onward = seen(at) < seen(plain.to(*label));
                plain.from(*label) == at && onward == entered[label / 2]
            });
            out.flat_map(|label| {
                let between = if entered[label / 2] {
                    side(plain, plain.to(label), order, entered)
                } else {
                    Vec::new()
                };
                [&[label as u16][..], &between, &[label as u16 ^ 1]].concat()
            })
            .collect()
        }
        let (order, entered) = self.visit();
        side(self, self.start, &order, &entered)
    }

    /// The ring from a switch, and the links by first crossing in it.
    fn ring(&self, trail: &[u16], switch: usize) -> (Vec<u16>, Vec<usize>) {
        let mut ring = trail.to_vec();
        while ring
            .first()
            .is_some_and(|label| self.from(usize::from(*label)) != switch)
        {
            ring.rotate_left(1);
        }
        let mut order = Vec::new();
        for label in &ring {
            let link = usize::from(label / 2);
            if !order.contains(&link) {
                order.push(link);
            }
        }
        (ring, order)
    }
}

/// Small plants by chance, and a few large ones.
fn plants(seed: u64, small: usize, large: usize) -> Vec<Plant> {
    let mut chance = Chance::new(seed);
    let mut plants: Vec<Plant> = (0..small)
        .map(|_| {
            let (switches, links) = chance.of(&[(4, 6), (8, 14), (12, 24)]);
            make::joined(&mut chance, switches, links).mixed(&mut chance)
        })
        .collect();
    plants.extend((0..large).map(|_| {
        make::joined(&mut chance, Plant::MAX_SWITCHES, Plant::MAX_LINKS).mixed(&mut chance)
    }));
    plants
}

#[test]
fn bridges_and_rules() {
    for plant in plants(1, 1500, 20) {
        let plain = Plain::new(&plant);
        let net = Net::new(plant);
        let links = plain.links.len();
        let bridges: Vec<bool> = (0..links).map(|link| plain.is_bridge(link)).collect();
        assert_eq!(net.bridge[..links], bridges);
        assert_eq!(net.bridges, bridges.iter().filter(|flag| **flag).count());
        let used = plain.used();
        assert_eq!(net.used[..2 * links], used);
        let page = net.page();
        assert_eq!(page.count, links + net.bridges);
        let shown: Vec<(usize, usize, usize)> = page
            .rules()
            .iter()
            .map(|rule| {
                (
                    usize::from(rule.from),
                    usize::from(rule.label),
                    usize::from(rule.to),
                )
            })
            .collect();
        let wanted: Vec<(usize, usize, usize)> = plain
            .labels()
            .filter(|label| used[*label])
            .map(|label| (plain.from(label), label, plain.to(label)))
            .collect();
        assert_eq!(shown, wanted);
        assert!(page.rule[page.count..]
            .iter()
            .all(|rule| *rule == Default::default()));
    }
}

#[test]
fn rules_by_switch() {
    for plant in plants(14, 3000, 150) {
        let listing = make::listing_of(&plant);
        let by = calls::by_switch(&listing).unwrap();
        // By the page: its rules with that sending switch, and its length.
        let page = calls::rules(&listing).unwrap();
        let mut rules = [0; Plant::MAX_SWITCHES];
        for rule in page.rules() {
            rules[usize::from(rule.from)] += 1;
        }
        assert_eq!(by.rules, rules);
        assert_eq!(by.total, page.count);
        assert_eq!(by, sending(&rules[..usize::from(plant.switches)]));
        let net = Net::new(plant);
        assert_eq!(by.total, net.links + net.bridges);
    }
    // By the definition of the arcs in use.
    for plant in plants(15, 500, 4) {
        let plain = Plain::new(&plant);
        let used = plain.used();
        let sent = |switch: usize| {
            let labels = plain.labels().filter(|label| used[*label]);
            labels.filter(|label| plain.from(*label) == switch).count() as u16
        };
        let rules: Vec<u16> = (0..plain.switches).map(sent).collect();
        assert_eq!(Net::new(plant).by_switch(), sending(&rules));
    }
}

#[test]
fn rules_by_switch_of_shapes() {
    let of = |sketch: &make::Sketch, start: usize| {
        let mut plant = sketch.plain();
        plant.start = start as u8;
        calls::by_switch(&make::listing_of(&plant)).unwrap()
    };
    for switches in 3..=Plant::MAX_SWITCHES {
        let last = switches - 1;
        let some = |rules: &dyn Fn(usize) -> usize| {
            let rules: Vec<u16> = (0..switches).map(|switch| rules(switch) as u16).collect();
            sending(&rules)
        };
        for start in [0, 1, last] {
            // Bridges alone: each switch sends over every link at it.
            let star = some(&|switch| if switch == 0 { last } else { 1 });
            assert_eq!(of(&make::star(switches), start), star);
            let path = some(&|switch| 2 - usize::from(switch == 0 || switch == last));
            assert_eq!(of(&make::path(switches), start), path);
            // A ring: each switch sends over one of its two links.
            assert_eq!(of(&make::cycle(switches), start), some(&|_| 1));
        }
        // The last switch of a fan is visited last, or first.
        let fan = make::fan(switches);
        let to_last = some(&|switch| if switch == last { last - 1 } else { 1 });
        assert_eq!(of(&fan, 0), to_last);
        let one = [0, last - 1, last];
        let from_last = some(&|switch| 2 - usize::from(one.contains(&switch)));
        assert_eq!(of(&fan, last), from_last);
    }
    for links in 2..=Plant::MAX_LINKS {
        let bundle = make::bundle(links);
        let back = links as u16 - 1;
        assert_eq!(of(&bundle, 0), sending(&[1, back]));
        assert_eq!(of(&bundle, 1), sending(&[back, 1]));
    }
}

/// The quantity with the spare laid on the total is at most the sum of those
/// with the spare laid on each switch.
#[test]
fn spare_on_the_total() {
    let mut more = 0;
    for plant in plants(16, 500, 30) {
        let switches = usize::from(plant.switches);
        let by = Net::new(plant).by_switch();
        for percent in 0..=100 {
            let on_total = quantity(by.total as u16, percent).unwrap();
            let on_each = |count: &u16| quantity(*count, percent).unwrap();
            let sum: u32 = by.rules[..switches].iter().map(on_each).sum();
            assert!(on_total <= sum);
            more += usize::from(on_total < sum);
        }
    }
    assert!(more > 0);
    // Two switches of one rule each.
    let by = calls::by_switch(ONE_LINK).unwrap();
    assert_eq!(quantity(by.total as u16, 10), Ok(3));
    let each = by.rules.map(|count| quantity(count, 10).unwrap());
    assert_eq!(each[..2], [2, 2]);
    assert_eq!(each.iter().sum::<u32>(), 4);
}

#[test]
fn rules_by_switch_refused() {
    let mut chance = Chance::new(17);
    let mut seen = [0; 9];
    for round in 0..4000 {
        let plant = make::joined(&mut chance, 6, 9).mixed(&mut chance);
        let bytes = match round % 4 {
            0 => make::noise(&mut chance),
            1 => make::listing_of(&make::apart(&mut chance, 6, 9).mixed(&mut chance)),
            _ => make::damaged(&mut chance, &plant),
        };
        let wanted = plain_read(&bytes).map(|_| ());
        let answer = calls::by_switch(&bytes).map(|_| ());
        assert_eq!(answer.map_err(Refusal::number), wanted, "{bytes:02x?}");
        assert_eq!(answer, calls::summary(&bytes).map(|_| ()));
        seen[usize::from(number(answer))] += 1;
    }
    assert!(seen.iter().all(|count| *count > 20), "{seen:?}");
}

#[test]
fn disconnected() {
    let mut chance = Chance::new(2);
    for _ in 0..500 {
        let mut plant = make::exact(&mut chance, 6, 8).mixed(&mut chance);
        // Some links left out.
        for place in (0..8).rev() {
            if chance.percent(30) {
                plant.link.copy_within(place + 1.., place);
                plant.link[Plant::MAX_LINKS - 1] = Link::default();
                plant.links -= 1;
            }
        }
        let whole = Plain::new(&plant).is_whole();
        assert_eq!(Net::new(plant.clone()).is_joined(), whole);
        let listing = make::listing_of(&plant);
        assert_eq!(calls::read(&listing), Ok(plant));
        assert_eq!(number(calls::summary(&listing)), 0);
    }
}

#[test]
fn distances_and_trail() {
    for plant in plants(3, 800, 12) {
        let plain = Plain::new(&plant);
        let net = Net::new(plant);
        let used = plain.used();
        let table = distances(&net);
        for (one, row) in table.iter().enumerate().take(plain.switches) {
            for (two, hops) in row.iter().enumerate().take(plain.switches) {
                assert_eq!(usize::from(*hops), plain.distance(&used, one, two));
            }
        }
        let trail = Trail::new(&net).to_vec();
        assert_eq!(trail, plain.trail());
        assert_eq!(trail.len(), Trail::new(&net).hops);
        assert!(trail.len() <= Plant::MAX_HOPS);
        assert!(Trail::new(&net).is(&trail));
        // A closed walk from the start over exactly the arcs in use.
        let mut at = plain.start;
        let mut crossed = vec![false; used.len()];
        for label in trail {
            assert_eq!(plain.from(usize::from(label)), at);
            crossed[usize::from(label)] = true;
            at = plain.to(usize::from(label));
        }
        assert_eq!(at, plain.start);
        assert_eq!(crossed, used);
    }
}

#[test]
fn trail_that_differs() {
    let mut chance = Chance::new(4);
    for plant in plants(4, 300, 3) {
        let net = Net::new(plant);
        let trail = Trail::new(&net);
        let right = trail.to_vec();
        let mut longer = right.clone();
        longer.push(0);
        assert!(!trail.is(&longer));
        if !right.is_empty() {
            assert!(!trail.is(&right[1..]));
            assert!(!trail.is(&right[..right.len() - 1]));
            let mut changed = right.clone();
            changed[chance.below(right.len())] ^= 1;
            assert!(!trail.is(&changed));
        }
    }
}

/// A packet's run restated, with rules for the arcs given: it has made as many
/// hops as there are labels before the first one by which it cannot cross.
fn plain_run(plain: &Plain, rules: &[bool], switch: usize, labels: &[u16], states: &[u8]) -> Run {
    // The switch that so many labels lead to.
    let led = |count: usize| match count {
        0 => switch,
        _ => plain.to(usize::from(labels[count - 1])),
    };
    let crosses = |place: usize| {
        let label = usize::from(labels[place]);
        rules.get(label) == Some(&true) && plain.from(label) == led(place) && states[label / 2] != 0
    };
    let stop = (0..labels.len()).find(|place| !crosses(*place));
    let hops = stop.unwrap_or(labels.len());
    Run {
        ended: stop.is_none(),
        hops,
        last: led(hops),
    }
}

/// A run that ended.
fn ended(hops: usize, last: usize) -> Run {
    Run {
        ended: true,
        hops,
        last,
    }
}

/// A run that was lost.
fn lost(hops: usize, last: usize) -> Run {
    Run {
        ended: false,
        hops,
        last,
    }
}

#[test]
fn runs_by_hand() {
    let up: &[u8] = &[1, 2, 255];
    let cases: &[(u8, &[u16], &[u8], Run)] = &[
        (0, &[0, 2, 4], up, ended(3, 0)),
        (0, &[0, 2], up, ended(2, 2)),
        (1, &[2, 4, 0, 2], up, ended(4, 2)),
        (0, &[], up, ended(0, 0)),
        (2, &[], &[0; 3], ended(0, 2)),
        // A label of another switch, one without a rule, one past the links.
        (0, &[2, 4], up, lost(0, 0)),
        (0, &[0, 4, 2], up, lost(1, 1)),
        (2, &[5], up, lost(0, 2)),
        (1, &[2, 4, 1], up, lost(2, 0)),
        (0, &[0, 2, 6], up, lost(2, 2)),
        (0, &[0, 2, 4, 0xffff], up, lost(3, 0)),
        // A link that is down; and one that is not come to.
        (0, &[0, 2, 4], &[0, 1, 1], lost(0, 0)),
        (0, &[0, 2, 4], &[1, 0, 1], lost(1, 1)),
        (0, &[0, 2, 4], &[1, 1, 0], lost(2, 2)),
        (0, &[0, 2, 4], &[1, 1, 1, 0], ended(3, 0)),
        (0, &[0, 2], &[1, 1, 0], ended(2, 2)),
    ];
    for (switch, labels, states, run) in cases {
        assert_eq!(
            calls::run(TRIANGLE, *switch, labels, states),
            Ok(*run),
            "{switch} {labels:?} {states:?}"
        );
    }
    let trail = trail_vec(TRIANGLE);
    let check = |switch, states: &[u8]| calls::full_check(TRIANGLE, switch, &trail, states);
    assert_eq!(check(1, up), Ok(ended(3, 1)));
    assert_eq!(check(1, &[1, 0, 1]), Ok(lost(0, 1)));
    assert_eq!(check(1, &[1, 1, 0]), Ok(lost(1, 2)));
    assert_eq!(check(1, &[0, 1, 1]), Ok(lost(2, 0)));
    // From switch 1, probe 1 goes 2 3, probe 2 goes 2 4 5 3.
    let (one, two) = (Search::Halving(1, 2, 0), Search::Halving(1, 3, 0));
    let probe = |states: &[u8], state| calls::run_probe(TRIANGLE, 1, &trail, states, state);
    assert_eq!(probe(&[0, 1, 0], one), Ok(ended(2, 1)));
    assert_eq!(probe(&[1, 0, 1], one), Ok(lost(0, 1)));
    assert_eq!(probe(&[0, 1, 1], two), Ok(ended(4, 1)));
    assert_eq!(probe(&[1, 1, 0], two), Ok(lost(1, 2)));
    assert_eq!(probe(&[1, 0, 0], two), Ok(lost(0, 1)));
    assert_eq!(probe(up, Search::Checking(3, 0)), Ok(ended(3, 1)));
    assert_eq!(probe(&[0, 1, 1], Search::Checking(3, 0)), Ok(lost(2, 0)));
    // The two-way fate.
    assert_eq!(ended(0, 2).fate(), Fate::Home);
    assert_eq!(lost(0, 2).fate(), Fate::Lost);
}

/// Labels for a packet from a switch: a walk over arcs in use that strays now
/// and then.
fn stray(chance: &mut Chance, plain: &Plain, used: &[bool], switch: usize) -> Vec<u16> {
    let mut at = switch;
    let mut labels = Vec::new();
    for _ in 0..chance.below(8) {
        let out: Vec<usize> = plain
            .labels()
            .filter(|label| plain.from(*label) == at && used[*label])
            .collect();
        let label = if out.is_empty() || chance.percent(8) {
            chance.below(used.len() + 2)
        } else {
            chance.of(&out)
        };
        labels.push(label as u16);
        if label < used.len() {
            at = plain.to(label);
        }
    }
    labels
}

#[test]
fn packets() {
    let mut chance = Chance::new(5);
    // Runs lost at each label, and those that ended after so many.
    let mut seen = [[0; 8]; 2];
    for plant in plants(5, 800, 0) {
        let plain = Plain::new(&plant);
        let listing = make::listing_of(&plant);
        let used = plain.used();
        let links = plain.links.len();
        for switch in 0..plain.switches {
            let mut states = vec![1; links + 1];
            if links > 0 && chance.percent(50) {
                states[chance.below(links)] = 0;
            }
            let labels = stray(&mut chance, &plain, &used, switch);
            let run = calls::run(&listing, switch as u8, &labels, &states).unwrap();
            assert_eq!(run, plain_run(&plain, &used, switch, &labels, &states));
            assert_eq!(run.ended, run.hops == labels.len());
            assert_eq!(run.fate() == Fate::Home, run.ended);
            seen[usize::from(run.ended)][run.hops] += 1;
            assert_eq!(
                calls::run(&listing, switch as u8, &[], &states),
                Ok(ended(0, switch))
            );
            // The labels of the hops made end where the packet got to.
            let made = &labels[..run.hops];
            assert_eq!(
                calls::run(&listing, switch as u8, made, &states),
                Ok(ended(run.hops, run.last))
            );
        }
    }
    // No list has more than seven labels.
    assert!(seen[0][..7].iter().all(|count| *count > 10), "{seen:?}");
    assert!(seen[1].iter().all(|count| *count > 10), "{seen:?}");
}

/// A packet of more labels than two bytes count.
#[test]
fn long_packets() {
    // Rounds of a closed walk, then labels that end or are lost.
    let cases: &[(&[u8], &[u16], &[u16], &[u8], Run)] = &[
        (ONE_LINK, &[0, 1], &[], &[1], ended(66_000, 0)),
        (ONE_LINK, &[0, 1], &[0], &[1], ended(66_001, 1)),
        (ONE_LINK, &[0, 1], &[0, 0], &[1], lost(66_001, 1)),
        (ONE_LINK, &[0, 1], &[2], &[1], lost(66_000, 0)),
        (TRIANGLE, &[0, 2, 4], &[0, 2], &[1; 3], ended(99_002, 2)),
        (TRIANGLE, &[0, 2, 4], &[0, 3], &[1; 3], lost(99_001, 1)),
        (TAILED, &[0, 2, 4], &[6], &[1; 4], ended(99_001, 3)),
        (TAILED, &[0, 2, 4], &[6], &[1, 1, 1, 0], lost(99_000, 0)),
    ];
    for (listing, round, more, states, run) in cases {
        let labels = [round.repeat(33_000), more.to_vec()].concat();
        assert_eq!(calls::run(listing, 0, &labels, states), Ok(*run));
        assert_eq!(run.hops + usize::from(!run.ended), labels.len());
    }
    // Around the most that two bytes count.
    let turns = [0, 1].repeat(33_000);
    for hops in 65_530..65_540 {
        let last = hops % 2;
        let run = calls::run(ONE_LINK, 0, &turns[..hops], &[1]);
        assert_eq!(run, Ok(ended(hops, last)));
        let mut labels = turns[..=hops].to_vec();
        labels[hops] ^= 1;
        let run = calls::run(ONE_LINK, 0, &labels, &[1]);
        assert_eq!(run, Ok(lost(hops, last)));
    }
    // The trail of a plant drawn by chance, again and again.
    let mut chance = Chance::new(11);
    for plant in plants(11, 60, 2) {
        let plain = Plain::new(&plant);
        let listing = make::listing_of(&plant);
        let (used, trail) = (plain.used(), trail_vec(&listing));
        if trail.is_empty() {
            continue;
        }
        let states = vec![1; plain.links.len()];
        let mut labels = trail.repeat(1 + 70_000 / trail.len());
        let run = calls::run(&listing, plant.start, &labels, &states);
        assert_eq!(run, Ok(ended(labels.len(), plain.start)));
        labels.extend(stray(&mut chance, &plain, &used, plain.start));
        let run = calls::run(&listing, plant.start, &labels, &states);
        let wanted = plain_run(&plain, &used, plain.start, &labels, &states);
        assert_eq!(run, Ok(wanted));
    }
}

/// Full checks and probes from every switch: by the packet rule, and by the
/// ring's first label over a broken link.
#[test]
fn runs_from_every_switch() {
    let mut chance = Chance::new(12);
    for plant in plants(12, 250, 1) {
        let plain = Plain::new(&plant);
        let listing = make::listing_of(&plant);
        let (used, trail) = (plain.used(), trail_vec(&listing));
        let links = plain.links.len();
        let both = vec![true; used.len()];
        for switch in 0..plain.switches {
            let (ring, order) = plain.ring(&trail, switch);
            let mut states = vec![1; links];
            for _ in 0..chance.below(3).min(links) {
                states[chance.below(links)] = 0;
            }
            // The labels before the first one over a broken link.
            let whole = ring
                .iter()
                .take_while(|label| states[usize::from(*label / 2)] != 0)
                .count();
            let run = calls::full_check(&listing, switch as u8, &trail, &states).unwrap();
            assert_eq!(run, plain_run(&plain, &used, switch, &ring, &states));
            assert_eq!(run.hops, whole);
            assert_eq!(run.ended, run.hops == ring.len());
            assert!(!run.ended || run.last == switch);

            for m in 1..=links {
                // Whatever is lost so far.
                let lost = chance.below(3) as u8;
                let state = if m == links {
                    Search::Checking(links as u16, lost)
                } else {
                    Search::Halving(m as u16, m as u16 + 1, lost)
                };
                let probe =
                    calls::run_probe(&listing, switch as u8, &trail, &states, state).unwrap();
                if m == links {
                    assert_eq!(probe, run);
                    continue;
                }
                let crossing = |label: &u16| usize::from(label / 2) == order[m - 1];
                let out = &ring[..=ring.iter().position(crossing).unwrap()];
                let back: Vec<u16> = out.iter().rev().map(|label| label ^ 1).collect();
                let labels = [out, &back].concat();
                assert_eq!(probe, plain_run(&plain, &both, switch, &labels, &states));
                assert_eq!(probe.ended, probe.hops == labels.len());
                match probe.fate() {
                    Fate::Home => assert_eq!((probe.hops, probe.last), (2 * out.len(), switch)),
                    // Lost on its way out, where the full check is lost too.
                    Fate::Lost => {
                        assert!(probe.hops < out.len());
                        assert_eq!(probe, run);
                    }
                }
            }
        }
    }
}

#[test]
fn probes_and_first_broken_link() {
    let mut chance = Chance::new(6);
    for plant in plants(6, 500, 4) {
        let plain = Plain::new(&plant);
        let listing = make::listing_of(&plant);
        let net = Net::new(plant);
        let trail = Trail::new(&net).to_vec();
        let links = plain.links.len();
        let switch = chance.below(plain.switches);
        let (ring, order) = plain.ring(&trail, switch);
        assert_eq!(order.len(), links);
        let shown = calls::order(&listing, switch as u8, &trail).unwrap();
        let shown: Vec<usize> = shown.links().iter().copied().map(usize::from).collect();
        assert_eq!(shown, order);

        for broken in 0..4 {
            let mut states = vec![3; links];
            for _ in 0..broken.min(links) {
                states[chance.below(links)] = 0;
            }
            let first = order.iter().position(|link| states[*link] == 0);
            let whole = calls::full_check(&listing, switch as u8, &trail, &states).unwrap();
            let fate = |is_home| if is_home { Fate::Home } else { Fate::Lost };
            assert_eq!(whole.fate(), fate(first.is_none()));

            // Probe m is home if none of the first m links is broken.
            let place = packet::place(&net, &trail, switch);
            let in_order = Order::new(&net, &trail, place);
            for m in 1..=links {
                let (one, two) = packet::outward(&trail, place, &in_order, m);
                let outward = [one, two].concat();
                let mut labels = outward.clone();
                let mut rules = vec![true; 2 * links];
                if m == links {
                    assert_eq!(outward, ring);
                    rules = plain.used();
                } else {
                    let crossing = ring
                        .iter()
                        .position(|label| usize::from(label / 2) == order[m - 1])
                        .unwrap();
                    assert_eq!(outward, ring[..=crossing]);
                    labels.extend(outward.iter().rev().map(|label| label ^ 1));
                }
                assert!(one.is_empty() || one[0] == trail[place]);
                let by_rule = plain_run(&plain, &rules, switch, &labels, &states);
                let run = packet::run_probe(&net, &trail, switch, &in_order, m, &states);
                assert_eq!(run, by_rule);
                assert_eq!(run.fate(), fate(first.is_none_or(|first| first >= m)));
            }

            // A search names the first broken link, though packets vanish that
            // the packet rule brings back: at most two in a row.
            let mut state = calls::new_search(&listing, switch as u8).unwrap();
            let vanish = chance.of(&[0, 30, 60, 100]);
            let mut list = Vec::new();
            let (mut probes, mut row) = (0, 0);
            while let Ok(m) = state.ask() {
                assert!((1..=links).contains(&usize::from(m)));
                assert_eq!(
                    calls::link_named(&listing, switch as u8, &trail, state),
                    Ok(Named::Open)
                );
                let (one, two) = calls::outward(&listing, switch as u8, &trail, state).unwrap();
                let wanted = packet::outward(&trail, place, &in_order, usize::from(m));
                assert_eq!((one, two), wanted);
                let run = calls::run_probe(&listing, switch as u8, &trail, &states, state).unwrap();
                let home = run.fate() == Fate::Home;
                let returned = home && (row == 2 || !chance.percent(vanish));
                row = if returned { 0 } else { (row + 1) % 3 };
                probes += usize::from(row == 0);
                state = state.give(returned).unwrap();
                list.extend([0, if returned { 1 } else { 2 }]);
            }
            let named = calls::link_named(&listing, switch as u8, &trail, state).unwrap();
            match first {
                None => {
                    assert_eq!(state, Search::AllUp);
                    assert_eq!(named, Named::None);
                }
                Some(first) => {
                    assert_eq!(state, Search::Down(first as u16 + 1));
                    assert_eq!(named, Named::Link(order[first] as u16));
                }
            }
            let packets = list.len() / 2;
            assert!(probes <= 1 + usize::from(calls::allowance(links as u16)));
            assert!(packets <= 3 * probes);
            // Calls after its end are refused and change nothing.
            list.extend([0, 1, 2]);
            assert_eq!(
                calls::perform(&listing, switch as u8, &list),
                Ok((state, probes, packets))
            );
        }
    }
}

/// Every first broken link of every number of links, with none, one and two
/// losses before each return.
#[test]
fn every_search_ends_in_time() {
    for links in 1..=Plant::MAX_LINKS {
        let allowance = calls::allowance(links as u16);
        for first in 0..=links {
            let before = (links + first) % 3;
            let mut state = Search::new(links as u16);
            let (mut probes, mut packets) = (0, 0);
            while let Ok(m) = state.ask() {
                let home = usize::from(m) <= first;
                let lost = if home { before } else { 2 };
                for number in 1..=lost {
                    state = state.give(false).unwrap();
                    assert_eq!((state.ask(), usize::from(state.lost())), (Ok(m), number));
                }
                state = state.give(home).unwrap();
                assert!(state.check_for(links as u16).is_ok());
                assert_eq!(state.lost(), 0);
                probes += 1;
                packets += lost + 1;
            }
            assert!(probes <= 1 + allowance);
            assert!(packets <= 3 * (1 + usize::from(allowance)));
            let end = if first == links {
                Search::AllUp
            } else {
                Search::Down(first as u16 + 1)
            };
            assert_eq!(state, end);
        }
    }
}

#[test]
fn search_states() {
    let bad = [
        Search::Checking(0, 0),
        Search::Checking(257, 0),
        Search::Down(0),
        Search::Down(257),
        Search::Halving(0, 2, 0),
        Search::Halving(2, 2, 0),
        Search::Halving(3, 2, 0),
        Search::Halving(1, 257, 0),
        Search::Halving(65535, 65535, 0),
    ];
    for state in bad {
        for lost in [0, 1, 2, 3, 255] {
            let state = state.having_lost(lost);
            assert_eq!(state.ask(), Err(Refusal::SearchUnsound));
            assert_eq!(state.give(true), Err(Refusal::SearchUnsound));
            assert_eq!(state.give(false), Err(Refusal::SearchUnsound));
            assert_eq!(state.check_for(256), Err(Refusal::SearchUnsound));
        }
    }
    for state in [Search::AllUp, Search::Down(1), Search::Down(256)] {
        assert_eq!(state.ask(), Err(Refusal::SearchEnded));
        assert_eq!(state.give(true), Err(Refusal::SearchEnded));
        assert_eq!(state.give(false), Err(Refusal::SearchEnded));
        assert_eq!((state.lost(), state.having_lost(255)), (0, state));
    }
    for state in [
        Search::Checking(3, 0),
        Search::Checking(5, 0),
        Search::Halving(1, 5, 0),
        Search::Down(5),
    ] {
        assert_eq!(state.check_for(4), Err(Refusal::SearchUnsound));
    }
    for lost in 0..SENDINGS {
        let (checking, halving) = (Search::Checking(3, lost), Search::Halving(1, 3, lost));
        assert_eq!((checking.ask(), halving.ask()), (Ok(3), Ok(2)));
        assert_eq!(checking.give(true), Ok(Search::AllUp));
        assert_eq!(halving.give(true), Ok(Search::Down(3)));
        assert_eq!(
            Search::Halving(1, 9, lost).give(true),
            Ok(Search::Halving(6, 9, 0))
        );
    }
    assert_eq!(Search::new(0), Search::AllUp);
    assert_eq!(Search::new(256), Search::Checking(256, 0));
}

/// The states that losses alone lead to.
#[test]
fn rows_of_losses() {
    let rows: [&[Search]; 3] = [
        &[
            Search::Checking(1, 0),
            Search::Checking(1, 1),
            Search::Checking(1, 2),
            Search::Down(1),
        ],
        &[
            Search::Checking(3, 0),
            Search::Checking(3, 1),
            Search::Checking(3, 2),
            Search::Halving(1, 3, 0),
            Search::Halving(1, 3, 1),
            Search::Halving(1, 3, 2),
            Search::Halving(1, 2, 0),
            Search::Halving(1, 2, 1),
            Search::Halving(1, 2, 2),
            Search::Down(1),
        ],
        &[
            Search::Halving(255, 256, 0),
            Search::Halving(255, 256, 1),
            Search::Halving(255, 256, 2),
            Search::Down(255),
        ],
    ];
    for row in rows {
        for pair in row.windows(2) {
            assert_eq!(pair[0].give(false), Ok(pair[1]), "{:?}", pair[0]);
        }
    }
    // Every state that is sound but for the number of sendings.
    for (high, lost) in (1..=256).flat_map(|high| [0, 1, 2, 3, 255].map(|lost| (high, lost))) {
        let next = |checking: Search, counted: Search| match lost {
            0 | 1 => Ok(checking.having_lost(lost + 1)),
            2 => Ok(counted),
            _ => Err(Refusal::SearchUnsound),
        };
        let down = |low, high| match low == high {
            true => Search::Down(low),
            false => Search::Halving(low, high, 0),
        };
        let state = Search::Checking(high, lost);
        assert_eq!(state.give(false), next(state, down(1, high)));
        for low in 1..high {
            let state = Search::Halving(low, high, lost);
            assert_eq!(state.give(false), next(state, down(low, (low + high) / 2)));
        }
    }
}

/// A search restated over the list of its accepted outcomes: the m that each
/// was given for, and whether it is returned.
struct History {
    links: u16,
    accepted: Vec<(u16, bool)>,
}

impl History {
    /// The outcomes given for m.
    fn of(&self, m: u16) -> Vec<bool> {
        let given = self.accepted.iter().filter(|(of, _)| *of == m);
        given.map(|(_, returned)| *returned).collect()
    }

    /// The probes counted as home, or as lost.
    fn counted(&self, home: bool) -> Vec<u16> {
        (1..=self.links)
            .filter(|m| {
                let given = self.of(*m);
                if home {
                    given.contains(&true)
                } else {
                    given == [false; 3]
                }
            })
            .collect()
    }

    /// How many probes are counted.
    fn probes(&self) -> usize {
        self.counted(true).len() + self.counted(false).len()
    }

    /// The links between which the first broken one is, if not all are up: from
    /// past the last probe home to the first one lost. None if no probe is
    /// counted or the full check is home.
    fn bounds(&self) -> Option<(u16, u16)> {
        let low = self.counted(true).last().map_or(1, |m| m + 1);
        let high = *self.counted(false).first()?;
        Some((low, high))
    }

    /// The probe wanted next, if the search has not ended.
    fn wanted(&self) -> Option<u16> {
        match self.bounds() {
            Some((low, high)) => (low < high).then_some((low + high) / 2),
            None => (self.probes() == 0).then_some(self.links),
        }
    }

    /// The state that the search is in.
    fn state(&self) -> Search {
        let lost = |m: u16| self.of(m).len() as u8;
        match (self.bounds(), self.wanted()) {
            (Some((low, high)), Some(m)) => Search::Halving(low, high, lost(m)),
            (Some((low, _)), None) => Search::Down(low),
            (None, Some(m)) => Search::Checking(m, lost(m)),
            (None, None) => Search::AllUp,
        }
    }

    /// The first premise, for a first broken link at a place, past the last
    /// one if none is broken: what is returned is what the packet rule brings
    /// back.
    fn is_true(&self, first: u16) -> bool {
        self.accepted
            .iter()
            .all(|(m, returned)| !returned || *m < first)
    }

    /// The second premise: of three outcomes in a row for one probe that the
    /// packet rule brings back, one is returned.
    fn one_of_three(&self, first: u16) -> bool {
        self.accepted.windows(3).all(|three| {
            let m = three[0].0;
            let one_probe = three.iter().all(|(of, _)| *of == m);
            !one_probe || m >= first || three.iter().any(|(_, returned)| *returned)
        })
    }

    /// What holds of any list, and what a list says of the links.
    fn check(&self) {
        let end = self.state();
        let has_ended = self.wanted().is_none();
        // The least k with 2^k at least E, and the full check.
        let limit = 1 + (0..).find(|k| 1 << k >= self.links).unwrap();
        assert!(self.probes() <= limit);
        assert!(self.accepted.len() <= 3 * limit);
        assert!(has_ended || self.probes() < limit);
        assert!(self.accepted.len() <= 3 * self.probes() + 2);
        assert!((1..=self.links).all(|m| self.of(m).len() <= 3));
        for first in 1..=self.links + 1 {
            let verdict = if first > self.links {
                Search::AllUp
            } else {
                Search::Down(first)
            };
            if self.is_true(first) && end == Search::AllUp {
                assert_eq!(end, verdict);
            }
            if has_ended && self.is_true(first) && self.one_of_three(first) {
                assert_eq!(end, verdict);
            }
        }
    }
}

/// Gives every list of so many more outcomes, and holds each front of it to the
/// restatement.
fn every_list(history: &mut History, state: Search, list: &mut Vec<u8>, more: usize) {
    assert_eq!(state, history.state());
    assert_eq!(state.ask().ok(), history.wanted());
    history.check();
    let listing = make::listing_of(&make::bundle(usize::from(history.links)).plain());
    let performed = calls::perform(&listing, 0, list);
    let packets = history.accepted.len();
    assert_eq!(performed, Ok((state, history.probes(), packets)));
    if more == 0 {
        return;
    }
    for returned in [false, true] {
        // A call for the probe now and then; losses by several bytes.
        let asks = usize::from((list.len() + more) % 3 == 1);
        let loss = [2, 3, 128, 255][list.len() % 4];
        let length = list.len();
        list.extend(vec![0; asks]);
        list.push(if returned { 1 } else { loss });
        let given = state.give(returned);
        assert_eq!(given.is_ok(), history.wanted().is_some());
        if let (Ok(next), Some(m)) = (given, history.wanted()) {
            history.accepted.push((m, returned));
            every_list(history, next, list, more - 1);
            history.accepted.pop();
        } else {
            // Refused: the state stays as it is.
            every_list(history, state, list, (more - 1).min(1));
        }
        list.truncate(length);
    }
}

#[test]
fn every_list_of_outcomes() {
    for links in 1..=9 {
        let mut history = History {
            links,
            accepted: Vec::new(),
        };
        // Two more than any search takes.
        let longest = 3 * (1 + usize::from(calls::allowance(links))) + 2;
        every_list(&mut history, Search::new(links), &mut Vec::new(), longest);
    }
}

/// Lists drawn by chance, for any number of links.
#[test]
fn some_lists_of_outcomes() {
    let mut chance = Chance::new(16);
    for _ in 0..400 {
        let links = chance.within(1, Plant::MAX_LINKS) as u16;
        let mut history = History {
            links,
            accepted: Vec::new(),
        };
        let mut state = Search::new(links);
        let returns = chance.of(&[10, 30, 50]);
        while let Some(m) = history.wanted() {
            assert_eq!(state, history.state());
            let returned = state.ask() != Ok(links) && chance.percent(returns);
            history.accepted.push((m, returned));
            state = state.give(returned).unwrap();
        }
        assert_eq!(state, history.state());
        history.check();
    }
}

/// Three losses in a row of one probe over sound links, and true fates else:
/// the search names a link that comes before the first broken one.
#[test]
fn second_premise_broken() {
    for links in 1..=20 {
        for first in 1..=links + 1 {
            for spoilt in 1..first {
                let mut history = History {
                    links,
                    accepted: Vec::new(),
                };
                let mut state = Search::new(links);
                while let Ok(m) = state.ask() {
                    let returned = m < first && m != spoilt;
                    history.accepted.push((m, returned));
                    state = state.give(returned).unwrap();
                }
                assert!(history.is_true(first));
                let is_sent = !history.of(spoilt).is_empty();
                assert_eq!(history.one_of_three(first), !is_sent);
                match state {
                    Search::Down(place) if is_sent => assert!(place <= spoilt),
                    Search::Down(place) => assert_eq!(place, first),
                    _ => assert!(first > links && !is_sent),
                }
            }
        }
    }
}

#[test]
fn sendings_refused() {
    let trail = trail_vec(TRIANGLE);
    let (few, enough) = ([1, 1], [1, 1, 1]);
    for state in [Search::Checking(3, 0), Search::Halving(1, 3, 0)] {
        for lost in 0..=255 {
            let state = state.having_lost(lost);
            let refusal = if lost > 2 { 14 } else { 0 };
            assert_eq!(number(state.check()), refusal);
            assert_eq!(number(state.check_for(3)), refusal);
            assert_eq!(number(state.ask()), refusal);
            assert_eq!(number(state.give(true)), refusal);
            assert_eq!(number(state.give(false)), refusal);
            let outward = |switch, trail| calls::outward(TRIANGLE, switch, trail, state);
            let probe =
                |switch, trail, states| calls::run_probe(TRIANGLE, switch, trail, states, state);
            let named = |switch, trail| calls::link_named(TRIANGLE, switch, trail, state);
            assert_eq!(number(outward(1, &trail)), refusal);
            assert_eq!(number(probe(1, &trail, &enough)), refusal);
            assert_eq!(number(named(1, &trail)), refusal);
            // Earlier refusals go first.
            for (switch, hops, refusal) in [(3, 2, 11), (1, 2, 12)] {
                let trail = &trail[..hops];
                assert_eq!(number(outward(switch, trail)), refusal);
                assert_eq!(number(probe(switch, trail, &few)), refusal);
                assert_eq!(number(named(switch, trail)), refusal);
            }
            assert_eq!(number(probe(1, &trail, &few)), 13);
            let apart = calls::link_named(&[1, 64], 64, &trail, state);
            assert_eq!(number(apart), 11);
        }
    }
}

#[test]
fn refusals_in_order() {
    let trail = trail_vec(TRIANGLE);
    let wrong = [0, 2, 5];
    let (few, enough) = ([1, 1], [1, 1, 1]);
    let (bad, over) = (Search::Checking(2, 0), Search::Down(1));
    let probe = |listing: &[u8], switch, trail: &[u16], states: &[u8], state| {
        number(calls::run_probe(listing, switch, trail, states, state))
    };
    assert_eq!(probe(&[1, 65], 65, &wrong, &few, bad), 5);
    assert_eq!(probe(&[1, 64], 64, &wrong, &few, bad), 11);
    assert_eq!(probe(&[1, 64], 63, &wrong, &few, bad), 12);
    assert_eq!(probe(TRIANGLE, 3, &wrong, &few, bad), 11);
    assert_eq!(probe(TRIANGLE, 2, &wrong, &few, bad), 12);
    assert_eq!(probe(TRIANGLE, 2, &trail, &few, bad), 13);
    assert_eq!(probe(TRIANGLE, 2, &trail, &enough, bad), 14);
    assert_eq!(probe(TRIANGLE, 2, &trail, &enough, over), 15);
    let go = Search::Checking(3, 0);
    assert_eq!(probe(TRIANGLE, 2, &trail, &enough, go), 0);
    assert_eq!(number(calls::run(TRIANGLE, 3, &[], &few)), 11);
    assert_eq!(number(calls::run(TRIANGLE, 0, &[], &few)), 13);
    assert_eq!(number(calls::full_check(TRIANGLE, 3, &wrong, &few)), 11);
    assert_eq!(number(calls::full_check(TRIANGLE, 0, &wrong, &few)), 12);
    assert_eq!(number(calls::full_check(TRIANGLE, 0, &trail, &few)), 13);
    assert_eq!(number(calls::order(TRIANGLE, 3, &wrong)), 11);
    assert_eq!(number(calls::order(TRIANGLE, 0, &wrong)), 12);
    assert_eq!(number(calls::outward(TRIANGLE, 0, &wrong, bad)), 12);
    assert_eq!(number(calls::outward(TRIANGLE, 0, &trail, bad)), 14);
    assert_eq!(number(calls::outward(TRIANGLE, 0, &trail, over)), 15);
    assert_eq!(number(calls::link_named(TRIANGLE, 0, &trail, bad)), 14);
    assert_eq!(number(calls::new_search(TRIANGLE, 3)), 11);
    assert_eq!(number(calls::perform(TRIANGLE, 3, &[])), 11);
    // No link, no trail, no probe.
    assert_eq!(calls::new_search(&[0], 0), Ok(Search::AllUp));
    assert_eq!(calls::full_check(&[0], 0, &[], &[]), Ok(ended(0, 0)));
    assert_eq!(probe(&[0], 0, &[], &[], Search::AllUp), 15);
    assert_eq!(probe(&[0], 0, &[], &[], Search::Checking(0, 0)), 14);
}

fn round_vec(listing: &[u8]) -> Vec<u16> {
    let round = Round::new(&calls::net(listing).unwrap());
    round.labels().to_vec()
}

#[test]
fn marked_rounds() {
    let cases: &[(&[u8], &[u16])] = &[
        (&[0x00], &[]),
        (ONE_LINK, &[0, 1]),
        (TRIANGLE, &[0, 2, 4, 5, 3, 1]),
        (PARALLEL, &[0, 3, 2, 5, 4, 1]),
        (TAILED, &[0, 2, 4, 5, 3, 1, 6, 7]),
    ];
    for (listing, round) in cases {
        assert_eq!(round_vec(listing), *round);
    }
    let mut five = [9; 5];
    assert_eq!(
        calls::round_trail(PARALLEL, &mut five),
        Err(Refusal::TrailBufferShort)
    );
    assert_eq!(five, [9; 5]);
    let mut six = [9; 6];
    assert_eq!(calls::round_trail(PARALLEL, &mut six), Ok(6));
    assert_eq!(six, [0, 3, 2, 5, 4, 1]);
    let mut eight = [9; 8];
    assert_eq!(calls::round_trail(PARALLEL, &mut eight), Ok(6));
    assert_eq!(eight, [0, 3, 2, 5, 4, 1, 9, 9]);
    assert_eq!(calls::round_trail(&[0x00], &mut []), Ok(0));
    assert_eq!(calls::round_trail(&[0x01, 0x40], &mut []), Ok(0));
}

/// The round trail is a closed walk from the start over each label just once.
#[test]
fn round_trails() {
    for plant in plants(21, 1500, 40) {
        let plain = Plain::new(&plant);
        let round = round_vec(&make::listing_of(&plant));
        assert_eq!(round, plain.round());
        let mut at = plain.start;
        let mut crossed = vec![0; 2 * plain.links.len()];
        for label in round {
            assert_eq!(plain.from(usize::from(label)), at);
            crossed[usize::from(label)] += 1;
            at = plain.to(usize::from(label));
        }
        assert_eq!(at, plain.start);
        assert!(crossed.iter().all(|times| *times == 1));
    }
}

/// A round run is home exactly if every direction is up, from any switch, and
/// else lost at the first label that is down.
#[test]
fn round_runs() {
    let mut chance = Chance::new(22);
    for plant in plants(22, 250, 1) {
        let plain = Plain::new(&plant);
        let listing = make::listing_of(&plant);
        let round = round_vec(&listing);
        let labels = 2 * plain.links.len();
        for switch in 0..plain.switches {
            let (ring, _) = plain.ring(&round, switch);
            assert_eq!(ring == round, switch == plain.start || labels == 0);
            let mut check = |states: &[u8]| {
                let mut lent = round.clone();
                lent.extend((0..chance.below(3)).map(|_| chance.word()));
                let run = calls::round_run(&listing, switch as u8, &lent, states).unwrap();
                let up = |label: &&u16| states[usize::from(**label)] != 0;
                let hops = ring.iter().take_while(up).count();
                let last = match hops {
                    0 => switch,
                    _ => plain.to(usize::from(ring[hops - 1])),
                };
                assert_eq!((run.hops, run.last), (hops, last));
                assert_eq!(run.ended, states[..labels].iter().all(|state| *state != 0));
                assert!(!run.ended || run.last == switch);
            };
            let mut states = vec![1; labels];
            check(&states);
            // Each direction down in turn, those before it down or up.
            for label in 0..labels {
                states[label] = 0;
                check(&states);
                states[label] = [0, 7][label % 2];
            }
            // Past the labels nothing is looked at.
            let mut states = vec![255; labels];
            states.push(0);
            check(&states);
        }
    }
}

/// One state for each label tells what one for each link cannot.
#[test]
fn round_run_one_way() {
    let round = [0, 3, 2, 5, 4, 1];
    let run = |switch, states: &[u8]| calls::round_run(PARALLEL, switch, &round, states).unwrap();
    assert_eq!(run(0, &[1; 6]), ended(6, 0));
    assert_eq!(run(1, &[1; 6]), ended(6, 1));
    assert_eq!(run(0, &[1, 0, 1, 1, 1, 1]), lost(5, 1));
    assert_eq!(run(1, &[1, 0, 1, 1, 1, 1]), lost(4, 1));
    assert_eq!(run(0, &[1, 1, 0, 1, 1, 1]), lost(2, 0));
    assert_eq!(run(0, &[1, 1, 1, 0, 1, 1]), lost(1, 1));
    assert_eq!(run(1, &[1, 1, 1, 0, 1, 1]), lost(0, 1));
    assert_eq!(run(0, &[0; 6]), lost(0, 0));
    // Every way in which directions can be up and down.
    for ups in 0..64u8 {
        let states: [u8; 6] = std::array::from_fn(|label| ups & 1 << label);
        for switch in [0, 1] {
            assert_eq!(run(switch, &states).ended, ups == 63);
        }
    }
}

/// What is handed back is a part of the lent trail that has fewer hops.
#[test]
fn choices() {
    let mut chance = Chance::new(23);
    let mut met = [0; 3];
    for plant in plants(23, 1500, 10) {
        let plain = Plain::new(&plant);
        let listing = make::listing_of(&plant);
        let (trail, round) = (plain.trail(), plain.round());
        let switch = chance.below(plain.switches) as u8;
        let mut spared = |hops: &[u16]| {
            let more = chance.below(3);
            [hops, &round[..more.min(round.len())]].concat()
        };
        let (lent_trail, lent_round) = (spared(&trail), spared(&round));
        let choice = calls::choice(&listing, switch, &lent_trail, &lent_round).unwrap();
        let fewer = round.len() < trail.len();
        let (hops, lent, right) = match choice {
            Choice::Trail(hops) => (hops, &lent_trail, &trail),
            Choice::Round(hops) => (hops, &lent_round, &round),
        };
        assert_eq!(matches!(choice, Choice::Round(_)), fewer);
        assert_eq!(hops, *right);
        assert_eq!(hops.as_ptr(), lent.as_ptr());
        met[1 + usize::from(fewer) - usize::from(trail.len() < round.len())] += 1;

        // A changed label and a missing place of either.
        let refused = |trail: &[u16], round: &[u16]| {
            let answer = calls::choice(&listing, switch, trail, round);
            answer == Err(Refusal::TrailDiffers)
        };
        if !trail.is_empty() {
            assert!(refused(&trail[1..], &round));
            assert!(refused(&trail[..trail.len() - 1], &round));
            assert!(refused(&trail, &round[..round.len() - 1]));
            let mut changed = lent_trail.clone();
            changed[chance.below(trail.len())] ^= 1;
            assert!(refused(&changed, &round));
            let mut changed = lent_round.clone();
            changed[chance.below(round.len())] ^= 1;
            assert!(refused(&trail, &changed));
        }
        assert_eq!(refused(&round, &trail), trail != round);
    }
    assert!(met.iter().all(|times| *times > 50), "{met:?}");
}

#[test]
fn round_refusals_in_order() {
    let (trail, round) = (trail_vec(TRIANGLE), round_vec(TRIANGLE));
    let (wrong, short) = ([0, 3, 4, 5, 3, 1], &round[..5]);
    let (few, enough) = ([1; 5], [1; 6]);
    let run = |listing: &[u8], switch, round: &[u16], states: &[u8]| {
        number(calls::round_run(listing, switch, round, states))
    };
    assert_eq!(run(&[1, 65], 65, &wrong, &few), 5);
    assert_eq!(run(&[1, 64], 64, &wrong, &few), 11);
    assert_eq!(run(&[1, 64], 63, &wrong, &few), 0);
    assert_eq!(run(TRIANGLE, 3, &wrong, &few), 11);
    assert_eq!(run(TRIANGLE, 2, &wrong, &few), 12);
    assert_eq!(run(TRIANGLE, 2, short, &few), 12);
    assert_eq!(run(TRIANGLE, 2, &trail, &enough), 12);
    assert_eq!(run(TRIANGLE, 2, &round, &few), 13);
    assert_eq!(run(TRIANGLE, 2, &round, &enough[..3]), 13);
    assert_eq!(run(TRIANGLE, 2, &round, &enough), 0);
    assert_eq!(run(&[0], 0, &[], &[]), 0);
    assert_eq!(run(&[0], 0, &[5], &[]), 0);
    assert_eq!(run(&[0], 1, &[], &[]), 11);
    let choice = |listing: &[u8], switch, trail: &[u16], round: &[u16]| {
        number(calls::choice(listing, switch, trail, round))
    };
    assert_eq!(choice(&[1, 65], 65, &wrong, &wrong), 5);
    assert_eq!(choice(&[1, 64], 64, &wrong, &wrong), 11);
    assert_eq!(choice(TRIANGLE, 3, &wrong, &wrong), 11);
    assert_eq!(choice(TRIANGLE, 2, &wrong, &round), 12);
    assert_eq!(choice(TRIANGLE, 2, &trail, &wrong), 12);
    assert_eq!(choice(TRIANGLE, 2, &round, &trail), 12);
    assert_eq!(choice(TRIANGLE, 2, &trail, &round), 0);
    // The round trail begins with the trail, and the rest of it is spare.
    assert_eq!(choice(TRIANGLE, 2, &round, &round), 0);
}

/// The reader restated: of each part, the set of refusals that hold.
fn plain_read(bytes: &[u8]) -> Result<Plant, u8> {
    let mut plant = Plant::EMPTY;
    let mut rest = bytes;
    let mut before = [0, 0];
    let mut part = 0;
    loop {
        if part > usize::from(plant.links) {
            return if rest.is_empty() { Ok(plant) } else { Err(8) };
        }
        let Some((map, fields)) = rest.split_first() else {
            return Err(1);
        };
        // Bit 3 is the mark of a link out of service.
        let (map, marked) = match map {
            0..=7 => (*map, false),
            8..=15 if part > 0 => (*map - 8, true),
            _ => return Err(2),
        };
        let widths = if part == 0 { [1, 2, 1] } else { [1, 1, 2] };
        let absent = if part == 0 {
            [1, 0, 0]
        } else {
            [before[0], before[1], 0]
        };
        let wanted: Vec<usize> = (0..3).filter(|bit| map & 1 << bit != 0).collect();
        let length = wanted.iter().map(|bit| widths[*bit]).sum();
        if fields.len() < length {
            return Err(3);
        }
        let (mut fields, after) = fields.split_at(length);
        let mut values: [usize; 3] = absent;
        let mut holds = Vec::new();
        for bit in wanted {
            let (field, next) = fields.split_at(widths[bit]);
            fields = next;
            values[bit] = field
                .iter()
                .rev()
                .fold(0, |sum, byte| 256 * sum + usize::from(*byte));
            if values[bit] == absent[bit] {
                holds.push(4);
            }
        }
        if part == 0 {
            let [switches, links, start] = values;
            if switches == 0 || switches > 64 || links > 256 || start >= switches {
                holds.push(5);
            }
            plant.switches = switches as u8;
            plant.links = links as u16;
            plant.start = start as u8;
        } else {
            let [first, second, tag] = values;
            if first.max(second) >= usize::from(plant.switches) {
                holds.push(6);
            }
            if first == second {
                holds.push(7);
            }
            plant.link[part - 1] = Link {
                first: first as u8,
                second: second as u8,
                tag: tag as u16,
                out_of_service: marked,
            };
            before = [first, second];
        }
        if let Some(least) = holds.iter().min() {
            return Err(*least);
        }
        rest = after;
        part += 1;
    }
}

#[test]
fn reading() {
    let mut chance = Chance::new(7);
    let mut seen = [0; 9];
    for round in 0..60_000 {
        let (switches, links) = chance.of(&[(3, 4), (6, 9), (12, 20)]);
        let mut plant = make::joined(&mut chance, switches, links).mixed(&mut chance);
        if round % 2 == 0 {
            plant = some_out(&mut chance, plant);
        }
        let bytes = if round % 3 == 0 {
            make::noise(&mut chance)
        } else {
            make::damaged(&mut chance, &plant)
        };
        let answer = listing::read(&bytes).map_err(Refusal::number);
        assert_eq!(answer, plain_read(&bytes), "{bytes:02x?}");
        seen[usize::from(answer.as_ref().err().copied().unwrap_or(0))] += 1;
        // What is read can be written, and gives the same bytes.
        if let Ok(plant) = answer {
            assert_eq!(make::listing_of(&plant), bytes);
        }
    }
    assert!(seen.iter().all(|count| *count > 50), "{seen:?}");
    // Every listing of at most two bytes.
    assert_eq!(listing::read(&[]).map_err(Refusal::number), plain_read(&[]));
    for word in 0..=u16::MAX {
        let bytes = word.to_le_bytes();
        for bytes in [&bytes[..1], &bytes] {
            let answer = listing::read(bytes).map_err(Refusal::number);
            assert_eq!(answer, plain_read(bytes));
        }
    }
}

#[test]
fn round_trips() {
    let marked = plants_partly_out(8, 1000, 25);
    for plant in plants(8, 1000, 50).into_iter().chain(marked) {
        let bytes = make::listing_of(&plant);
        assert_eq!(listing::read(&bytes), Ok(plant.clone()));
        let mut buffer = vec![7; bytes.len() + 3];
        assert_eq!(listing::write(&plant, &mut buffer), Ok(bytes.len()));
        assert_eq!(buffer[..bytes.len()], bytes);
        assert_eq!(buffer[bytes.len()..], [7; 3]);
        let mut short = vec![7; bytes.len() - 1];
        assert_eq!(
            listing::write(&plant, &mut short),
            Err(Refusal::ListingBufferShort)
        );
        assert!(short.iter().all(|byte| *byte == 7));
    }
    let longest = make::longest_listing();
    assert_eq!(make::listing_of(&longest).len(), 1285);
    assert_eq!(make::listing_of(&longest).len(), Plant::MAX_LISTING);
    // A mark takes no byte.
    let all: Vec<usize> = (0..Plant::MAX_LINKS).collect();
    let marked = make::marked(longest.clone(), &all);
    let bytes = make::listing_of(&marked);
    assert_eq!(bytes.len(), Plant::MAX_LISTING);
    assert_eq!(listing::read(&bytes), Ok(marked));
}

/// The plant with some links out of service, joined or not.
fn some_out(chance: &mut Chance, plant: Plant) -> Plant {
    let way = chance.below(make::MARKINGS);
    let marks = make::marking(chance, &plant, way);
    make::marked(plant, &marks)
}

/// The writer restated: a field is given unless its value is what its absence
/// means.
fn plain_write(plant: &Plant) -> Result<Vec<u8>, u8> {
    fn put(bytes: &mut Vec<u8>, fields: [(bool, &[u8]); 4]) {
        let weighed = fields.iter().zip([1, 2, 4, 8]);
        bytes.push(weighed.map(|(field, bit)| u8::from(field.0) * bit).sum());
        for (_, field) in fields.iter().filter(|field| field.0) {
            bytes.extend(*field);
        }
    }
    fn two(number: u16) -> [u8; 2] {
        [(number % 256) as u8, (number / 256) as u8]
    }
    let mut places = plant.link.iter();
    let links: Vec<&Link> = places.by_ref().take(usize::from(plant.links)).collect();
    if plant.switches < 1
        || plant.switches > 64
        || plant.links > 256
        || plant.start >= plant.switches
        || !places.all(|place| {
            let numbers = (place.first, place.second, place.tag);
            numbers == (0, 0, 0) && !place.out_of_service
        })
    {
        return Err(5);
    }
    let mut bytes = Vec::new();
    put(
        &mut bytes,
        [
            (plant.switches != 1, &[plant.switches]),
            (plant.links != 0, &two(plant.links)),
            (plant.start != 0, &[plant.start]),
            (false, &[]),
        ],
    );
    let mut before = (0, 0);
    for link in links {
        if link.first.max(link.second) >= plant.switches {
            return Err(6);
        }
        if link.first == link.second {
            return Err(7);
        }
        put(
            &mut bytes,
            [
                (link.first != before.0, &[link.first]),
                (link.second != before.1, &[link.second]),
                (link.tag != 0, &two(link.tag)),
                (link.out_of_service, &[]),
            ],
        );
        before = (link.first, link.second);
    }
    Ok(bytes)
}

/// A buffer of some length around a number of bytes, as it is lent.
fn some_buffer(chance: &mut Chance, length: usize) -> Vec<u8> {
    let less = length.saturating_sub(1);
    let any = chance.below(length + 20);
    let places = chance.of(&[length, length + 1, less, any]);
    (0..places).map(prefilled).collect()
}

/// The buffer after the bytes were put to its front, or refusal 16.
fn put_to_front(bytes: &[u8], buffer: &[u8]) -> Result<Vec<u8>, u8> {
    if buffer.len() < bytes.len() {
        return Err(16);
    }
    Ok([bytes, &buffer[bytes.len()..]].concat())
}

#[test]
fn rewriting() {
    let mut chance = Chance::new(9);
    let mut seen = [0; 18];
    for round in 0..40_000 {
        let (switches, links) = chance.of(&[(3, 4), (6, 9), (12, 20)]);
        let mut plant = make::joined(&mut chance, switches, links).mixed(&mut chance);
        if round % 8 > 3 {
            plant = some_out(&mut chance, plant);
        }
        let bytes = match round % 4 {
            0 => make::noise(&mut chance),
            1 => make::listing_of(&plant),
            _ => make::damaged(&mut chance, &plant),
        };
        let mut buffer = some_buffer(&mut chance, bytes.len());
        // What can be read gives the same bytes.
        let wanted = plain_read(&bytes).and_then(|_| put_to_front(&bytes, &buffer));
        let untouched = buffer.clone();
        let answer = calls::rewrite(&bytes, &mut buffer).map_err(Refusal::number);
        let (after, told) = match wanted {
            Ok(after) => (after, Ok(bytes.len())),
            Err(refusal) => (untouched, Err(refusal)),
        };
        assert_eq!(answer, told, "{bytes:02x?}");
        assert_eq!(buffer, after);
        seen[usize::from(answer.err().unwrap_or(0))] += 1;
    }
    for refusal in (0..=8).chain([16]) {
        assert!(seen[refusal] > 50, "{seen:?}");
    }
}

#[test]
fn writing_and_rereading() {
    let mut chance = Chance::new(10);
    let mut seen = [0; 18];
    for round in 0..40_000 {
        let (switches, links) = chance.of(&[(3, 4), (6, 9), (12, 20), (64, 256)]);
        let mut plant = make::joined(&mut chance, switches, links).mixed(&mut chance);
        if round % 2 == 0 {
            for link in 0..usize::from(plant.links) {
                plant.link[link].out_of_service = chance.percent(30);
            }
        }
        let length = make::listing_of(&plant).len();
        for _ in 0..chance.of(&[0, 1, 1, 2, 3]) {
            make::spoil(&mut chance, &mut plant, &mut 0);
        }
        if chance.percent(5) {
            // A place that may be past the last link.
            plant.link[chance.below(Plant::MAX_LINKS)].out_of_service = true;
        }
        let mut buffer = some_buffer(&mut chance, length);
        let bytes = plain_write(&plant);
        let wanted = bytes
            .clone()
            .and_then(|bytes| put_to_front(&bytes, &buffer));
        let untouched = buffer.clone();
        let mut other = buffer.clone();
        let length = listing::write(&plant, &mut buffer).map_err(Refusal::number);
        let again = calls::reread(&plant, &mut other).map_err(Refusal::number);
        // What was written is read as the same plant.
        match wanted {
            Ok(after) => {
                assert_eq!(length.map(Ok), Ok(bytes.map(|bytes| bytes.len())));
                assert_eq!(again, Ok(plant));
                assert_eq!((&buffer, &other), (&after, &after));
                seen[0] += 1;
            }
            Err(refusal) => {
                assert_eq!(length, Err(refusal));
                assert_eq!(again, Err(refusal));
                assert_eq!((&buffer, &other), (&untouched, &untouched));
                seen[usize::from(refusal)] += 1;
            }
        }
    }
    for refusal in [0, 5, 6, 7, 16] {
        assert!(seen[refusal] > 50, "{seen:?}");
    }
}

#[test]
fn writer_refusals() {
    let triangle = listing::read(TRIANGLE).unwrap();
    let try_plant = |change: &dyn Fn(&mut Plant)| {
        let mut plant = triangle.clone();
        change(&mut plant);
        number(listing::write(&plant, &mut [0; 5]))
    };
    assert_eq!(try_plant(&|_| ()), 16);
    assert_eq!(try_plant(&|plant| plant.switches = 0), 5);
    assert_eq!(try_plant(&|plant| plant.switches = 65), 5);
    assert_eq!(try_plant(&|plant| plant.links = 257), 5);
    assert_eq!(try_plant(&|plant| plant.links = 2), 5);
    assert_eq!(try_plant(&|plant| plant.links = 4), 7);
    assert_eq!(try_plant(&|plant| plant.start = 3), 5);
    assert_eq!(try_plant(&|plant| plant.link[255].tag = 1), 5);
    for place in 3..Plant::MAX_LINKS {
        assert_eq!(
            try_plant(&|plant| plant.link[place].out_of_service = true),
            5
        );
    }
    assert_eq!(
        try_plant(&|plant| {
            plant.link[1].second = plant.link[1].first;
            plant.link[1].out_of_service = true;
        }),
        7
    );
    assert_eq!(
        try_plant(&|plant| {
            plant.link[1].second = 3;
            plant.link[1].out_of_service = true;
        }),
        6
    );
    assert_eq!(try_plant(&|plant| plant.link[2].second = 3), 6);
    assert_eq!(
        try_plant(&|plant| {
            plant.link[1].second = plant.link[1].first;
            plant.link[2].second = 3;
        }),
        7
    );
    assert_eq!(
        try_plant(&|plant| {
            plant.link[0].second = 9;
            plant.link[3].second = 1;
        }),
        5
    );
}

/// A page restated: spaces, with the digits of each number up to its column.
fn plain_page(each: &[(usize, usize)], total: usize, quantity: usize) -> Vec<u8> {
    fn put(page: &mut [u8], column: usize, number: usize) {
        page[column - 1] = b"0123456789"[number % 10];
        if number > 9 {
            put(page, column - 1, number / 10);
        }
    }
    let mut page = vec![b' '; 32 * each.len() + 32];
    for (switch, (rules, links)) in each.iter().enumerate() {
        let line = &mut page[32 * switch..];
        put(line, 6, switch);
        put(line, 14, *rules);
        put(line, 22, *links);
        line[31] = b'\n';
    }
    let line = &mut page[32 * each.len()..];
    line[..5].copy_from_slice(b"total");
    put(line, 14, total);
    put(line, 22, quantity);
    line[31] = b'\n';
    page
}

/// The page's reader restated: the words of the lines, if they make the same
/// page again.
fn plain_counts(page: &[u8]) -> Option<Counts> {
    let text = std::str::from_utf8(page).ok()?;
    let words: Vec<&str> = text.split_whitespace().collect();
    let (each, last) = words.split_at_checked(words.len().checked_sub(3)?)?;
    let number = |word: &str| word.parse::<usize>().ok().filter(|number| *number < 1000);
    let each: Vec<(usize, usize)> = each
        .chunks(3)
        .map(|line| Some((number(line.get(1)?)?, number(line.get(2)?)?)))
        .collect::<Option<_>>()?;
    let (total, quantity) = (number(last[1])?, number(last[2])?);
    let sum: usize = each.iter().map(|(rules, _)| rules).sum();
    if !(1..=64).contains(&each.len()) || total != sum || page != plain_page(&each, total, quantity)
    {
        return None;
    }
    let mut counts = Counts {
        switches: each.len(),
        rules: [0; 64],
        links: [0; 64],
        total: total as u16,
        quantity: quantity as u16,
    };
    for (switch, (rules, links)) in each.into_iter().enumerate() {
        counts.rules[switch] = rules as u16;
        counts.links[switch] = links as u16;
    }
    Some(counts)
}

/// The counts that are read, after a look at the restated reader and, of what
/// is accepted, at what is written.
fn read_page(page: &[u8]) -> Option<Counts> {
    let answer = calls::page_read(page);
    let shown = String::from_utf8_lossy(page);
    assert_eq!(answer.clone().ok(), plain_counts(page), "{shown:?}");
    match &answer {
        Ok(counts) => assert_eq!(page::text(counts).as_bytes(), page),
        Err(refusal) => assert_eq!(refusal.number(), 18),
    }
    answer.ok()
}

#[test]
fn marked_pages() {
    let tailed = concat!(
        "     0       2       3         \n",
        "     1       1       2         \n",
        "     2       1       2         \n",
        "     3       1       1         \n",
        "total        5       6         \n",
    );
    let alone = concat!(
        "     0       0       0         \n",
        "total        0       0         \n",
    );
    let parallel = concat!(
        "     0       1       3         \n",
        "     1       2       3         \n",
        "total        3       6         \n",
    );
    let of_tailed = Counts::told(&[(2, 3), (1, 2), (1, 2), (1, 1)], 5, 6);
    let of_parallel = Counts::told(&[(1, 3), (2, 3)], 3, 6);
    for (listing, spare, text, counts) in [
        (TAILED, 10, tailed, of_tailed),
        (&[0x00], 100, alone, Counts::told(&[(0, 0)], 0, 0)),
        (PARALLEL, 100, parallel, of_parallel),
    ] {
        assert_eq!(calls::print_page(listing, spare.into()), text);
        let mut buffer = vec![7; text.len() + 40];
        let length = calls::page_written(listing, spare, &mut buffer);
        assert_eq!(length, Ok(text.len()));
        assert_eq!(buffer[..text.len()], *text.as_bytes());
        assert_eq!(buffer[text.len()..], [7; 40]);
        assert_eq!(read_page(text.as_bytes()), Some(counts));
    }
}

#[test]
fn pages_written() {
    let mut chance = Chance::new(18);
    for plant in plants(18, 1500, 40) {
        let plain = Plain::new(&plant);
        let listing = make::listing_of(&plant);
        let percent = chance.below(101);
        let by = calls::by_switch(&listing).unwrap();
        let ends = |switch: usize| {
            let labels = plain.labels();
            labels.filter(|label| plain.from(*label) == switch).count()
        };
        let each: Vec<(usize, usize)> = (0..plain.switches)
            .map(|switch| (usize::from(by.rules[switch]), ends(switch)))
            .collect();
        let quantity = (by.total * (100 + percent)).div_ceil(100);
        let page = plain_page(&each, by.total, quantity);

        let mut buffer = some_buffer(&mut chance, page.len());
        let untouched = buffer.clone();
        let answer = calls::page_written(&listing, percent as u8, &mut buffer);
        if untouched.len() < page.len() {
            assert_eq!(answer, Err(Refusal::PageUnfit));
            assert_eq!(buffer, untouched);
        } else {
            assert_eq!(answer, Ok(page.len()));
            assert_eq!(buffer[..page.len()], page);
            assert_eq!(buffer[page.len()..], untouched[page.len()..]);
        }
        assert_eq!(calls::print_page(&listing, percent as u16).as_bytes(), page);

        // The reader gets the counts back.
        let counts = read_page(&page).unwrap();
        assert_eq!(counts.switches, plain.switches);
        assert_eq!(counts.rules, by.rules);
        assert_eq!(usize::from(counts.total), by.total);
        assert_eq!(usize::from(counts.quantity), quantity);
        // Each link is counted at its two ends.
        let links = counts.links.iter().copied().map(usize::from);
        assert_eq!(links.sum::<usize>(), 2 * plain.links.len());
    }
}

/// The largest numbers that a page of a plan can have.
#[test]
fn pages_have_three_digits() {
    // Sixty-two bridges, and all other links between two switches.
    let mut most = make::bundle(Plant::MAX_LINKS - 62);
    most.pairs.extend((2..64).map(|switch| (0, switch)));
    most.switches = 64;
    let net = Net::new(most.plain());
    let counts = Counts::new(&net, 100).unwrap();
    assert_eq!((counts.total, counts.quantity), (318, 636));
    assert_eq!((counts.links[0], counts.links[1]), (256, 194));
    assert_eq!(read_page(page::text(&counts).as_bytes()), Some(counts));

    let mut sketches = vec![
        most,
        make::star(64),
        make::star(64).doubled(),
        make::fan(64),
    ];
    sketches.extend((1..=Plant::MAX_LINKS).map(make::bundle));
    let mut plants = plants(19, 500, 100);
    plants.extend(sketches.iter().map(make::Sketch::plain));
    plants.push(make::longest_listing());
    for plant in plants {
        let counts = Counts::new(&Net::new(plant), 100).unwrap();
        let mut numbers = counts.rules.iter().chain(&counts.links);
        assert!(numbers.all(|number| *number < 1000));
        assert!(counts.total < 1000 && counts.quantity < 1000);
        assert_eq!(read_page(page::text(&counts).as_bytes()), Some(counts));
    }
}

#[test]
fn pages_read() {
    let mut chance = Chance::new(20);
    let mut seen = [0; 2];
    for round in 0..40_000 {
        let most = chance.of(&[1, 2, 4, 12, 64]);
        let switches = chance.within(1, most);
        let counts = make::made_up(&mut chance, switches);
        let page = page::text(&counts).into_bytes();
        assert_eq!(read_page(&page), Some(counts.clone()));
        let damaged = make::damaged_page(&mut chance, &counts);
        let read = read_page(&damaged);
        if damaged != page {
            assert_ne!(read, Some(counts));
        }
        seen[usize::from(read.is_some())] += 1;
        // A page cut short, or with bytes after it.
        if round % 20 == 0 {
            let length = chance.below(page.len());
            let mut more = page.clone();
            more.push(chance.of(&make::TELLING));
            read_page(&page[..length]);
            assert_eq!(read_page(&more), None);
            more.resize(page.len() + page::LINE, b' ');
            assert_eq!(read_page(&more), None);
        }
    }
    assert!(seen.iter().all(|count| *count > 1000), "{seen:?}");
}

/// Every change of one byte is refused or gives other counts.
#[test]
fn changed_pages() {
    let pages: &[&[(u16, u16)]] = &[
        &[(0, 0)],
        &[(1, 1), (1, 1)],
        &[(123, 256), (100, 40)],
        &[(7, 10), (0, 1), (12, 999)],
    ];
    for each in pages {
        let total = each.iter().map(|(rules, _)| rules).sum();
        let counts = Counts::told(each, total, 2 * total);
        let page = page::text(&counts).into_bytes();
        let mut taken = 0;
        for at in 0..page.len() {
            for byte in (0..=255).filter(|byte| *byte != page[at]) {
                let mut changed = page.clone();
                changed[at] = byte;
                let read = read_page(&changed);
                assert_ne!(read, Some(counts.clone()));
                taken += usize::from(read.is_some());
                // Only links and the quantity can be others.
                let Some(other) = read else { continue };
                assert_eq!((other.rules, other.total), (counts.rules, counts.total));
                assert!((14..22).contains(&(at % 32)));
            }
        }
        assert!(taken > 0);
    }
}

/// Every text of some bytes in each field.
#[test]
fn page_fields() {
    let page = page::text(&Counts::told(&[(0, 0)], 0, 0)).into_bytes();
    let bytes = b" 019/:\nt";
    for (end, width) in [(6, 4), (14, 4), (22, 5), (38, 6), (46, 4), (54, 5)] {
        for text in 0..bytes.len().pow(width) {
            let mut page = page.clone();
            let mut left = text;
            for at in 1..=width as usize {
                page[end - at] = bytes[left % bytes.len()];
                left /= bytes.len();
            }
            read_page(&page);
        }
    }
    // Every number of links, and the rules of one switch.
    for number in 0..=9999 {
        let told = plain_page(&[(0, number)], 0, 0);
        assert_eq!(read_page(&told).is_some(), number < 1000);
        let told = plain_page(&[(number, 0)], number, 0);
        assert_eq!(read_page(&told).is_some(), number < 1000);
    }
}

#[test]
fn page_lines() {
    // Every number of switches, without a total and with two.
    for switches in 0..70 {
        let page = plain_page(&vec![(1, 2); switches], switches, 0);
        let accepted = (1..=64).contains(&switches);
        assert_eq!(read_page(&page).is_some(), accepted);
        let (each, total) = page.split_at(32 * switches);
        assert_eq!(read_page(each), None);
        assert_eq!(read_page(&[each, total, total].concat()), None);
    }
    // Sums that do not fit what they might be counted in.
    for (rules, total) in [(999, 936), (999, 192), (16, 24), (16, 0), (4, 0)] {
        let page = plain_page(&[(rules, 0); 64], total, 0);
        assert_eq!(read_page(&page), None);
    }
    // A last switch without rules may be left out, and no other.
    let page = plain_page(&[(0, 1), (5, 2), (0, 3), (0, 4)], 5, 0);
    for line in 0..5 {
        let mut fewer = page.clone();
        fewer.drain(32 * line..32 * line + 32);
        assert_eq!(read_page(&fewer).is_some(), line == 3);
    }
    assert_eq!(read_page(&[]), None);
}

#[test]
fn page_refusals() {
    let mut chance = Chance::new(21);
    let mut seen = [0; 19];
    for round in 0..4000 {
        let plant = make::joined(&mut chance, 6, 9).mixed(&mut chance);
        let bytes = match round % 4 {
            0 => make::noise(&mut chance),
            1 => make::listing_of(&make::apart(&mut chance, 6, 9).mixed(&mut chance)),
            2 => make::damaged(&mut chance, &plant),
            _ => make::listing_of(&plant),
        };
        let percent = chance.of(&[0, 10, 100, 101, 255]);
        let most = chance.of(&[4, 8]);
        let mut buffer: Vec<u8> = (0..chance.below(32 * most)).map(prefilled).collect();
        let untouched = buffer.clone();
        // The lowest of the refusals that hold.
        let wanted = match calls::net(&bytes) {
            Err(refusal) => refusal.number(),
            Ok(_) if percent > 100 => 17,
            Ok(net) if buffer.len() < 32 * (usize::from(net.plant.switches) + 1) => 18,
            Ok(_) => 0,
        };
        let answer = calls::page_written(&bytes, percent, &mut buffer);
        assert_eq!(number(answer), wanted);
        if wanted > 0 {
            assert_eq!(buffer, untouched);
        }
        seen[usize::from(wanted)] += 1;
    }
    for refusal in (0..=8).chain([17, 18]) {
        assert!(seen[refusal] > 20, "{seen:?}");
    }
    let written = |listing: &[u8], spare, places: usize| {
        number(calls::page_written(listing, spare, &mut vec![0; places]))
    };
    assert_eq!(written(&[], 101, 0), 1);
    assert_eq!(written(&[1, 64], 101, 0), 17);
    assert_eq!(written(&[1, 64], 100, 32 * 65 - 1), 18);
    assert_eq!(written(&[1, 64], 100, 32 * 65), 0);
    assert_eq!(written(TRIANGLE, 101, 0), 17);
    assert_eq!(written(TRIANGLE, 255, 128), 17);
    assert_eq!(written(TRIANGLE, 100, 127), 18);
    assert_eq!(written(TRIANGLE, 100, 128), 0);
    assert_eq!(written(&[0], 0, 63), 18);
    assert_eq!(written(&[0], 0, 64), 0);
}

/// What the program `buying` takes as a spare, and what it prints.
#[test]
fn printed_pages() {
    for spare in 0..=999 {
        assert_eq!(page::number(spare.to_string().as_bytes()), Some(spare));
        let text = calls::print_page(TRIANGLE, spare);
        let single = calls::print_page(&[1, 64], spare);
        if spare > 100 {
            assert_eq!(text, "refused 17\n");
            assert_eq!(single, "refused 17\n");
        } else {
            let quantity = quantity(3, spare as u8).unwrap() as u16;
            assert_eq!(read_page(text.as_bytes()).unwrap().quantity, quantity);
            assert_eq!(single.as_bytes(), plain_page(&[(0, 0); 64], 0, 0));
        }
    }
    for text in [
        "", "00", "01", "007", "1000", "0000", "-1", "+1", " 1", "1 ", "1.", "x", "1x", "\u{661}",
    ] {
        assert_eq!(page::number(text.as_bytes()), None, "{text:?}");
    }
}

#[test]
fn longest_trail() {
    let back = Plant::MAX_LINKS - (Plant::MAX_SWITCHES - 1);
    let plant = make::long(Plant::MAX_SWITCHES, back).plain();
    let net = Net::new(plant);
    assert_eq!(Trail::new(&net).hops, back * Plant::MAX_SWITCHES);
}

fn line(case: &Case) -> String {
    let mut output = Vec::new();
    let ((call, _), end) = Answerer::default()
        .answer(&case.bytes, 0, &mut output)
        .unwrap();
    assert_eq!(call, case.bytes[0]);
    assert_eq!(end, case.bytes.len());
    String::from_utf8(output).unwrap()
}

#[test]
fn case_lines() {
    assert_eq!(Sum::of([]).to_string(), "0:0");
    assert_eq!(Sum::of([1, 2]).to_string(), "2:65");
    let trail = [0, 2, 4];
    let sum = |numbers: &[u32]| Sum::of(numbers.iter().copied()).to_string();
    let on = |call| Case::new(call).string(TRIANGLE);
    let at = |call| on(call).byte(1).labels(&trail);
    let long = |switch, first: &[u16], times, more: &[u16], states: &[u8]| {
        let case = on(21).byte(switch).labels(first).word(times);
        case.labels(more).string(states)
    };
    // With a spare place.
    let round = [0, 2, 4, 5, 3, 1, 9];
    let round_at = |switch, states: &[u8]| on(26).byte(switch).labels(&round).string(states);
    // Five times round three switches.
    let five = make::listing_of(&make::long(3, 5).plain());
    let plant = listing::read(TRIANGLE).unwrap();
    let three: [u32; 64] = std::array::from_fn(|switch| u32::from(switch < 3));
    let lent = |places: usize| -> Vec<u32> {
        let lent = (0..places).map(prefilled);
        lent.map(u32::from).collect()
    };
    let wide = lent(14);
    // The page of the triangle with a spare of ten percent.
    let page = calls::print_page(TRIANGLE, 10);
    let page_in = |places: usize| {
        let page = page.bytes().map(u32::from);
        let after = lent(places).split_off(page.len());
        page.chain(after).collect::<Vec<u32>>()
    };
    let mut written = wide.clone();
    for (place, byte) in written.iter_mut().zip(TRIANGLE) {
        *place = u32::from(*byte);
    }
    // Its last link has the mark, a bit of its map.
    let mut marked_written = written.clone();
    marked_written[9] += 8;
    let marked = |call, given, marks: &[u8]| Case::new(call).marked_plant(&plant, given, marks);
    // A desk whose third console has a set, and a search at switch 2 or none; and
    // a desk by the first of the 14 numbers that tell its third console's part.
    let third = |set, search: Option<Search>| {
        let mut desk = Desk::default();
        let search = search.map(|search| Begun { switch: 2, search });
        desk.console[2] = Console { set, search };
        desk
    };
    let desk_sum = |numbers: &[u32]| {
        let mut all = [0; 56];
        all[28..28 + numbers.len()].copy_from_slice(numbers);
        sum(&all)
    };
    let checking = Some(Search::Checking(3, 0));
    let in_checking = [5, 0, 0, 0, 0, 0, 0, 0, 1, 2, 0, 3, 0, 0];
    // A mark past all places.
    let mut past = vec![0; Plant::MAX_LINKS + 1];
    past[Plant::MAX_LINKS] = 1;
    let cases = [
        (
            on(1),
            format!("3 3 0 {}", sum(&[0, 1, 0, 1, 2, 0, 2, 0, 0])),
        ),
        (
            Case::new(2).plant(&plant, 3).word(14),
            format!("12 {}", sum(&written)),
        ),
        (
            Case::new(2).plant(&plant, 2).word(14),
            format!("refused 7 {}", sum(&wide)),
        ),
        (
            Case::new(2).plant(&plant, 3).word(11),
            format!("refused 16 {}", sum(&wide[..11])),
        ),
        (on(3), "3 3 0 3 3".to_string()),
        (on(4), sum(&[0, 0, 0])),
        (on(5), sum(&[0, 0, 1, 1, 2, 2, 2, 4, 0])),
        (
            on(6).word(5),
            format!("3 {}", sum(&[0, 2, 4, wide[3], wide[4]])),
        ),
        (on(6).word(2), format!("refused 10 {}", sum(&wide[..2]))),
        (
            on(7).byte(1).labels(&[2, 4]).string(&[1; 3]),
            "ended 2 0".into(),
        ),
        (
            on(7).byte(0).labels(&[0, 0]).string(&[1; 3]),
            "lost 1 1".into(),
        ),
        (at(8).string(&[1, 2, 255]), "returned 3 1".into()),
        (at(8).string(&[0, 1, 1]), "lost 2 0".into()),
        (at(9), sum(&[1, 2, 0])),
        (at(10).search(Search::Checking(3, 2)), sum(&[2, 4, 0])),
        (at(10).search(Search::Halving(1, 3, 0)), sum(&[2, 4])),
        (at(10).search(Search::Halving(1, 3, 3)), "refused 14".into()),
        (
            at(11).string(&[0, 1, 1]).search(Search::Halving(1, 3, 0)),
            "returned 4 1".into(),
        ),
        (
            at(11).string(&[1, 1, 0]).search(Search::Halving(1, 3, 1)),
            "lost 1 2".into(),
        ),
        (
            at(11).string(&[1; 3]).search(Search::Checking(3, 255)),
            "refused 14".into(),
        ),
        (at(12).search(Search::Down(3)), "link 0".into()),
        (at(12).search(Search::AllUp), "none".into()),
        (at(12).search(Search::Halving(2, 3, 2)), "open".into()),
        (at(12).search(Search::Halving(2, 3, 3)), "refused 14".into()),
        (at(12).search(Search::Down(4)), "refused 14".into()),
        (on(13).byte(2), "Checking 3 0".into()),
        (Case::new(13).string(&[0]).byte(0), "AllUp".into()),
        (Case::new(14).search(Search::Halving(1, 4, 1)), "2".into()),
        (
            Case::new(14).search(Search::Halving(1, 4, 3)),
            "refused 14".into(),
        ),
        (
            Case::new(15).search(Search::Checking(9, 0)).byte(0),
            "Checking 9 1".into(),
        ),
        (
            Case::new(15).search(Search::Checking(9, 2)).byte(0),
            "Halving 1 9 0".into(),
        ),
        (
            Case::new(15).search(Search::Halving(1, 9, 1)).byte(0),
            "Halving 1 9 2".into(),
        ),
        (
            Case::new(15).search(Search::Checking(9, 2)).byte(7),
            "AllUp".into(),
        ),
        (
            Case::new(15).search(Search::Checking(9, 3)).byte(7),
            "refused 14".into(),
        ),
        (
            on(16).byte(0).string(&[0, 2, 2, 2, 1, 1]),
            "Down 3 2 4".into(),
        ),
        (on(16).byte(0).string(&[]), "Checking 3 0 0 0".into()),
        (
            on(16).byte(0).string(&[2, 3, 0, 255, 2, 2]),
            "Halving 1 3 2 1 5".into(),
        ),
        (
            Case::new(16).string(ONE_LINK).byte(1).string(&[2; 4]),
            "Down 1 1 3".into(),
        ),
        (Case::new(17).word(5).byte(10), "6".into()),
        (Case::new(17).word(5).byte(101), "refused 17".into()),
        (on(18).word(14), format!("12 {}", sum(&written))),
        (on(18).word(11), format!("refused 16 {}", sum(&wide[..11]))),
        (
            Case::new(18).string(&[0x08]).word(2),
            format!("refused 2 {}", sum(&wide[..2])),
        ),
        (
            Case::new(19).plant(&plant, 3).word(14),
            format!(
                "3 3 0 {} {}",
                sum(&[0, 1, 0, 1, 2, 0, 2, 0, 0]),
                sum(&written)
            ),
        ),
        (
            Case::new(19).plant(&plant, 2).word(14),
            format!("refused 7 {}", sum(&wide)),
        ),
        (
            Case::new(19).plant(&plant, 3).word(11),
            format!("refused 16 {}", sum(&wide[..11])),
        ),
        (Case::new(20).word(9), "4".into()),
        (Case::new(20).word(0xffff), "16".into()),
        (
            long(0, &trail, 30_000, &[0], &[1; 3]),
            "ended 90001 1".into(),
        ),
        (
            long(0, &trail, 30_000, &[1], &[1; 3]),
            "lost 90000 0".into(),
        ),
        (long(0, &[0, 2], 2, &[], &[1; 3]), "lost 2 2".into()),
        (long(1, &[9], 0, &[2], &[1; 3]), "ended 1 2".into()),
        (long(2, &[], 0xffff, &[], &[1; 3]), "ended 0 2".into()),
        (long(3, &trail, 0xffff, &[], &[]), "refused 11".into()),
        (long(0, &trail, 0xffff, &[], &[1, 1]), "refused 13".into()),
        (on(22), format!("3 {}", sum(&three))),
        (Case::new(22).string(&[0]), format!("0 {}", sum(&[0; 64]))),
        (
            Case::new(22).string(&[1, 64]),
            format!("0 {}", sum(&[0; 64])),
        ),
        (Case::new(22).string(&[]), "refused 1".into()),
        (
            on(23).byte(10).word(130),
            format!("128 {}", sum(&page_in(130))),
        ),
        (
            on(23).byte(10).word(127),
            format!("refused 18 {}", sum(&lent(127))),
        ),
        (
            on(23).byte(101).word(127),
            format!("refused 17 {}", sum(&lent(127))),
        ),
        (
            Case::new(23).string(&[1, 64]).byte(101).word(0),
            "refused 17 0:0".into(),
        ),
        (
            Case::new(24).string(page.as_bytes()),
            format!("3 3 4 {} {}", sum(&three), sum(&three.map(|one| 2 * one))),
        ),
        (
            Case::new(24).string(&page.as_bytes()[1..]),
            "refused 18".into(),
        ),
        (Case::new(24).string(&[]), "refused 18".into()),
        (
            on(25).word(7),
            format!("6 {}", sum(&[0, 2, 4, 5, 3, 1, wide[6]])),
        ),
        (on(25).word(5), format!("refused 10 {}", sum(&wide[..5]))),
        (
            Case::new(25).string(&[1, 64]).word(2),
            format!("0 {}", sum(&wide[..2])),
        ),
        (round_at(1, &[1; 6]), "returned 6 1".into()),
        (round_at(1, &[1, 1, 1, 1, 1, 0]), "lost 2 0".into()),
        (round_at(2, &[1; 5]), "refused 13".into()),
        (
            on(27).byte(2).labels(&trail).labels(&round),
            format!("trail {}", sum(&[0, 2, 4])),
        ),
        (
            Case::new(27)
                .string(&five)
                .byte(0)
                .labels(&trail_vec(&five))
                .labels(&round_vec(&five)),
            format!("round {}", Sum::of_labels(&round_vec(&five))),
        ),
        (
            on(27).byte(2).labels(&round).labels(&trail),
            "refused 12".into(),
        ),
        // The triangle with a link out of service.
        (
            Case::new(1).string(LAST_OUT),
            format!("3 3 0 {}", sum(&[0, 1, 0, 1, 2, 0, 2, 0, 0, 255])),
        ),
        (Case::new(3).string(LAST_OUT), "3 2 2 4 6".into()),
        (Case::new(4).string(LAST_OUT), sum(&[1, 1, 0])),
        (
            marked(28, 3, &[0, 0, 1]).word(14),
            format!("12 {}", sum(&marked_written)),
        ),
        (
            marked(28, 3, &[0, 0, 255, 0, 0]).word(14),
            format!("12 {}", sum(&marked_written)),
        ),
        (marked(28, 3, &[]).word(14), format!("12 {}", sum(&written))),
        (
            marked(28, 3, &past).word(14),
            format!("12 {}", sum(&written)),
        ),
        (
            marked(28, 3, &past[1..]).word(14),
            format!("refused 5 {}", sum(&wide)),
        ),
        (
            marked(28, 3, &[0, 0, 0, 2]).word(11),
            format!("refused 5 {}", sum(&wide[..11])),
        ),
        (
            marked(28, 2, &[0, 0, 1]).word(14),
            format!("refused 7 {}", sum(&wide)),
        ),
        (
            marked(28, 3, &[0, 0, 1]).word(11),
            format!("refused 16 {}", sum(&wide[..11])),
        ),
        (
            marked(29, 3, &[0, 0, 128]).word(14),
            format!(
                "3 3 0 {} {}",
                sum(&[0, 1, 0, 1, 2, 0, 2, 0, 0, 255]),
                sum(&marked_written)
            ),
        ),
        (
            marked(29, 3, &[]).word(14),
            format!(
                "3 3 0 {} {}",
                sum(&[0, 1, 0, 1, 2, 0, 2, 0, 0]),
                sum(&written)
            ),
        ),
        (
            marked(29, 3, &[0, 0, 0, 1]).word(14),
            format!("refused 5 {}", sum(&wide)),
        ),
        (on(33), sum(&[0, 0, 3, 0, 6])),
        (
            Case::new(33).string(LATE_RING),
            sum(&[4, 0, 3, 0, 6, 0, 3, 2, 6, 2]),
        ),
        (Case::new(33).string(&[0]), sum(&[0; 5])),
        (Case::new(33).string(&[]), "refused 1".into()),
        // On a desk whose third console has a set, and later a search too.
        (
            on(30).desk(&Desk::default()).byte(2).set(5),
            format!("5 none {}", desk_sum(&[5])),
        ),
        (
            on(30).desk(&third(5, None)).byte(2).set(8),
            format!("refused 20 {}", desk_sum(&[5])),
        ),
        (
            on(30).desk(&third(5, None)).byte(4).set(5),
            format!("refused 19 {}", desk_sum(&[5])),
        ),
        (
            on(31).desk(&third(5, None)).byte(2).byte(2),
            format!("5 from 2 Checking 3 0 {}", desk_sum(&in_checking)),
        ),
        (
            on(31).desk(&third(5, None)).byte(2).byte(1),
            format!("refused 21 {}", desk_sum(&[5])),
        ),
        (
            on(31).desk(&third(5, None)).byte(2).byte(3),
            format!("refused 11 {}", desk_sum(&[5])),
        ),
        (
            on(32).desk(&third(5, checking)).byte(2).byte(0),
            format!("5 from 2 Checking 3 1 {}", {
                let mut numbers = in_checking;
                numbers[13] = 1;
                desk_sum(&numbers)
            }),
        ),
        (
            on(32).desk(&third(5, checking)).byte(2).byte(128),
            format!("5 from 2 AllUp {}", {
                let mut numbers = in_checking;
                numbers[10..].copy_from_slice(&[2, 0, 0, 0]);
                desk_sum(&numbers)
            }),
        ),
        (
            on(32).desk(&third(5, checking)).byte(0).byte(1),
            format!("refused 15 {}", desk_sum(&in_checking)),
        ),
        (
            Case::new(32)
                .string(LAST_OUT)
                .desk(&third(5, checking))
                .byte(2)
                .byte(1),
            format!("refused 14 {}", desk_sum(&in_checking)),
        ),
        (
            on(30)
                .desk(&third(1 << 63, Some(Search::Halving(258, 7, 9))))
                .byte(2)
                .set(0),
            format!(
                "0 from 2 Halving 258 7 9 {}",
                desk_sum(&[0, 0, 0, 0, 0, 0, 0, 0, 1, 2, 1, 258, 7, 9])
            ),
        ),
        (
            on(31)
                .desk(&third(1 << 63 | 256, Some(Search::Down(700))))
                .byte(2)
                .byte(2),
            format!(
                "refused 20 {}",
                desk_sum(&[0, 1, 0, 0, 0, 0, 0, 128, 1, 2, 3, 700, 0, 0])
            ),
        ),
        (
            Case::new(30)
                .string(&make::listing_of(&make::path(64).plain()))
                .desk(&Desk::default())
                .byte(2)
                .set(u64::MAX),
            format!("18446744073709551615 none {}", desk_sum(&[255; 8])),
        ),
    ];
    for (case, answer) in cases {
        assert_eq!(line(&case), answer + "\n", "{:?}", case.bytes);
    }
}

/// A search takes six bytes, of which those that it does not use are 0.
#[test]
fn search_bytes() {
    let bytes = |search| Case::new(14).search(search).bytes;
    assert_eq!(bytes(Search::Checking(256, 2)), [14, 0, 0, 1, 0, 0, 2]);
    assert_eq!(bytes(Search::Halving(3, 258, 9)), [14, 1, 3, 0, 2, 1, 9]);
    assert_eq!(bytes(Search::AllUp), [14, 2, 0, 0, 0, 0, 0]);
    assert_eq!(bytes(Search::Down(7)), [14, 3, 7, 0, 0, 0, 0]);
    let answered = |bytes: &[u8]| {
        Answerer::default()
            .answer(bytes, 0, &mut Vec::new())
            .is_ok()
    };
    assert!(answered(&[14, 0, 0, 1, 0, 0, 255]));
    for malformed in [
        &[14, 0, 1, 0, 1, 0, 0][..],
        &[14, 2, 0, 0, 0, 0, 1],
        &[14, 2, 1, 0, 0, 0, 0],
        &[14, 3, 1, 0, 0, 0, 1],
        &[14, 3, 1, 0, 1, 0, 0],
        &[14, 4, 1, 0, 0, 0, 0],
        &[14, 0, 1, 0, 0, 0],
    ] {
        assert!(!answered(malformed), "{malformed:?}");
    }
}

/// The line of a long run is that of the run with all its labels.
#[test]
fn long_run_lines() {
    let mut chance = Chance::new(13);
    for plant in plants(13, 400, 0) {
        let plain = Plain::new(&plant);
        let listing = make::listing_of(&plant);
        let used = plain.used();
        let switch = chance.below(plain.switches);
        let first = stray(&mut chance, &plain, &used, switch);
        let more = stray(&mut chance, &plain, &used, switch);
        let states = vec![1; plain.links.len()];
        for times in [0, 1, 2, 5] {
            let labels = [first.repeat(times), more.clone()].concat();
            let head = |call| Case::new(call).string(&listing).byte(switch as u8);
            let long = head(21).labels(&first).word(times).labels(&more);
            assert_eq!(
                line(&long.string(&states)),
                line(&head(7).labels(&labels).string(&states))
            );
        }
    }
}

/// The triangle of order 7: its last link is out of service.
const LAST_OUT: &[u8] = &[3, 3, 3, 0, 2, 1, 3, 1, 2, 0x0b, 2, 0];

/// Small plants by chance with links out of service, chosen in each way, and a
/// few large ones; all of them joined.
fn plants_partly_out(seed: u64, small: usize, large: usize) -> Vec<Plant> {
    let mut chance = Chance::new(seed);
    let mut marked = Vec::new();
    for (turn, plant) in plants(seed, small, large).into_iter().enumerate() {
        let more = chance.below(4);
        let plant = make::with_unplugged(&mut chance, &plant, more);
        let marks = make::marking(&mut chance, &plant, turn % make::MARKINGS);
        let both = make::marked(plant.clone(), &marks);
        let whole = Plain::new(&left_out(&both).0).is_whole();
        marked.push(if whole { both } else { plant });
    }
    marked
}

/// The plant with its links out of service left out of the list, and the number
/// that each of its links has in the listing.
fn left_out(plant: &Plant) -> (Plant, Vec<usize>) {
    let mut left = plant.clone();
    left.link = Plant::EMPTY.link;
    let mut numbers = Vec::new();
    for number in 0..usize::from(plant.links) {
        if !plant.link[number].out_of_service {
            left.link[numbers.len()] = plant.link[number];
            numbers.push(number);
        }
    }
    left.links = numbers.len() as u16;
    (left, numbers)
}

/// The labels of the listing for those of the list with links left out.
fn listed_labels(numbers: &[usize], labels: &[u16]) -> Vec<u16> {
    let listed = |label: &u16| (2 * numbers[usize::from(label / 2)]) as u16 + label % 2;
    labels.iter().map(listed).collect()
}

#[test]
fn out_of_service_triangle() {
    let triangle = LAST_OUT;
    let text = "plant 3 2 2 4 6\nrule 0 0 1\nrule 1 1 0\nrule 1 2 2\nrule 2 3 1\n\
                trail 0 1 0 2 3 1\n";
    assert_eq!(calls::print(triangle), text);
    let page = "     0       1       1         \n     1       2       2         \n     \
                2       1       1         \ntotal        4       5         \n";
    assert_eq!(calls::print_page(triangle, 10), page);
    let (count, flags) = calls::bridges(triangle).unwrap();
    assert_eq!(flags[..count], [true, true, false]);
    assert_eq!(calls::by_switch(triangle), Ok(sending(&[1, 2, 1])));
    let (trail, round) = (trail_vec(triangle), round_vec(triangle));
    assert_eq!(round, [0, 2, 3, 1]);
    // Six hops against four.
    let choice = calls::choice(triangle, 1, &trail, &round);
    assert_eq!(choice, Ok(Choice::Round(&round[..])));
    // No rule for the labels of the last link, whatever its state.
    for state in [0, 1, 255] {
        let run = |switch, labels| calls::run(triangle, switch, labels, &[1, 1, state]);
        assert_eq!(run(0, &[0, 2, 3, 1]), Ok(ended(4, 0)));
        assert_eq!(run(0, &[0, 2, 4]), Ok(lost(2, 2)));
        assert_eq!(run(2, &[4]), Ok(lost(0, 2)));
        assert_eq!(run(0, &[5]), Ok(lost(0, 0)));
        let check = calls::full_check(triangle, 2, &trail, &[1, 1, state]);
        assert_eq!(check, Ok(ended(6, 2)));
    }
    // A search of two links; states of three.
    assert_eq!(calls::new_search(triangle, 0), Ok(Search::Checking(2, 0)));
    let outward = |search| number(calls::outward(triangle, 0, &trail, search));
    assert_eq!(outward(Search::Checking(2, 0)), 0);
    assert_eq!(outward(Search::Checking(3, 0)), 14);
    assert_eq!(outward(Search::Halving(1, 2, 0)), 0);
    assert_eq!(outward(Search::Halving(1, 3, 0)), 14);
    let named = |search| calls::link_named(triangle, 2, &trail, search);
    assert_eq!(named(Search::Down(1)), Ok(Named::Link(1)));
    assert_eq!(named(Search::Down(2)), Ok(Named::Link(0)));
    assert_eq!(named(Search::Down(3)), Err(Refusal::SearchUnsound));
    let losses = calls::perform(triangle, 0, &[2; 9]);
    assert_eq!(losses, Ok((Search::Down(1), 2, 6)));
    for count in 0..8 {
        let states = &[1; 8][..count];
        let run = number(calls::run(triangle, 0, &[], states));
        assert_eq!(run, if count < 3 { 13 } else { 0 });
        let run = number(calls::round_run(triangle, 0, &round, states));
        assert_eq!(run, if count < 6 { 13 } else { 0 });
    }
    // The trails of the triangle with every link in service.
    let order = number(calls::order(triangle, 0, &trail_vec(TRIANGLE)));
    assert_eq!(order, 12);
    let run = calls::round_run(triangle, 0, &round_vec(TRIANGLE), &[1; 6]);
    assert_eq!(number(run), 12);
    // With two links out of service, or all three, it is apart.
    for (maps, text) in [
        (
            [0x0a, 3, 0x0b],
            "plant 3 1 1 2 2\nrule 1 2 2\nrule 2 3 1\ntrail\ntrail 2 3\n",
        ),
        (
            [2, 0x0b, 0x0b],
            "plant 3 1 1 2 2\nrule 0 0 1\nrule 1 1 0\ntrail 0 1\ntrail\n",
        ),
        ([0x0a, 0x0b, 0x0b], "plant 3 0 0 0 0\ntrail\ntrail\ntrail\n"),
    ] {
        let [one, two, three] = maps;
        let listing = [3, 3, 3, 0, one, 1, two, 1, 2, three, 2, 0];
        assert_eq!(number(calls::read(&listing)), 0);
        assert_eq!(calls::print(&listing), text);
    }
}

/// Bridges, rules and counts against those of the plant with the links left
/// out.
#[test]
fn out_of_service_bridges_and_rules() {
    let mut seen = [0; 3];
    for plant in plants_partly_out(20, 900, 12) {
        let (left, numbers) = left_out(&plant);
        let plain = Plain::new(&left);
        let listing = make::listing_of(&plant);
        let links = numbers.len();
        let bridges: Vec<usize> = (0..links)
            .filter(|link| plain.is_bridge(*link))
            .map(|link| numbers[link])
            .collect();
        let (count, flags) = calls::bridges(&listing).unwrap();
        assert_eq!(count, usize::from(plant.links));
        let flagged: Vec<usize> = (0..flags.len()).filter(|link| flags[*link]).collect();
        assert_eq!(flagged, bridges);
        // One rule for each arc in use, by rising label.
        let used = plain.used();
        let labels = plain.labels().filter(|label| used[*label]);
        let rules: Vec<(usize, usize, usize)> = labels
            .map(|label| {
                let listed = 2 * numbers[label / 2] + label % 2;
                (plain.from(label), listed, plain.to(label))
            })
            .collect();
        let page = calls::rules(&listing).unwrap();
        let shown = page.rules().iter().map(|rule| {
            let (from, to) = (usize::from(rule.from), usize::from(rule.to));
            (from, usize::from(rule.label), to)
        });
        assert_eq!(shown.collect::<Vec<_>>(), rules);
        assert_eq!(page.count, links + bridges.len());
        let sent = |switch: usize| rules.iter().filter(|rule| rule.0 == switch).count();
        let sent: Vec<usize> = (0..plain.switches).map(sent).collect();
        let each: Vec<u16> = sent.iter().map(|count| *count as u16).collect();
        assert_eq!(calls::by_switch(&listing), Ok(sending(&each)));
        // The page's links are those in service at each switch.
        let ends = |switch: usize| {
            let ends = plain.links.iter().flat_map(|(one, two)| [*one, *two]);
            ends.filter(|end| *end == switch).count()
        };
        let lines: Vec<(usize, usize)> = (0..plain.switches)
            .map(|switch| (sent[switch], ends(switch)))
            .collect();
        let bought = rules.len() + (rules.len() * 7).div_ceil(100);
        let text = calls::print_page(&listing, 7);
        assert_eq!(
            text.as_bytes(),
            plain_page(&lines, rules.len(), bought),
            "{listing:02x?}"
        );
        let sum = calls::summary(&listing).unwrap();
        assert_eq!((sum.switches, sum.links), (plain.switches, links));
        assert_eq!((sum.bridges, sum.rules), (bridges.len(), rules.len()));
        // Links out of service, bridges, and bridges that would be none.
        let listed = Plain::new(&plant);
        let none = |link: &&usize| !listed.is_bridge(**link);
        seen[0] += usize::from(links < usize::from(plant.links));
        seen[1] += usize::from(!bridges.is_empty());
        seen[2] += bridges.iter().filter(none).count();
    }
    assert!(seen.iter().all(|count| *count > 300), "{seen:?}");
}

/// Trails, orders, runs and searches against those of the plant with the links
/// left out; and the states of links out of service make no difference.
#[test]
fn out_of_service_trails_and_runs() {
    let mut chance = Chance::new(21);
    for plant in plants_partly_out(21, 400, 2) {
        let (left, numbers) = left_out(&plant);
        let plain = Plain::new(&left);
        let listing = make::listing_of(&plant);
        let (all, links) = (usize::from(plant.links), numbers.len());
        let (trail, round) = (plain.trail(), plain.round());
        let lent = listed_labels(&numbers, &trail);
        let lent_round = listed_labels(&numbers, &round);
        assert_eq!(trail_vec(&listing), lent);
        assert_eq!(round_vec(&listing), lent_round);
        assert_eq!(calls::summary(&listing).unwrap().hops, lent.len());
        // Buffers of as many places as hops, and of one fewer.
        let mut buffer = vec![9; lent.len()];
        assert_eq!(calls::trail(&listing, &mut buffer), Ok(lent.len()));
        assert_eq!(buffer, lent);
        let mut buffer = vec![9; lent_round.len()];
        let hops = calls::round_trail(&listing, &mut buffer);
        assert_eq!(hops, Ok(2 * links));
        assert_eq!(buffer, lent_round);
        if links > 0 {
            let mut short = vec![9; lent.len() - 1];
            assert_eq!(number(calls::trail(&listing, &mut short)), 10);
            let mut short = vec![9; lent_round.len() - 1];
            assert_eq!(number(calls::round_trail(&listing, &mut short)), 10);
        }
        let choice = calls::choice(&listing, 0, &lent, &lent_round);
        assert_eq!(
            choice,
            Ok(if lent_round.len() < lent.len() {
                Choice::Round(&lent_round[..])
            } else {
                Choice::Trail(&lent[..])
            })
        );
        let used = plain.used();
        let both = vec![true; used.len()];
        let switch = chance.below(plain.switches);
        let begin = switch as u8;
        let (ring, order) = plain.ring(&trail, switch);
        let listed: Vec<u16> = order.iter().map(|link| numbers[*link] as u16).collect();
        let told = calls::order(&listing, begin, &lent).unwrap();
        assert_eq!(told.links(), listed);
        assert_eq!(
            calls::new_search(&listing, begin),
            Ok(Search::new(links as u16))
        );

        // States of the links in service, and of the directions.
        let mut states = vec![1; links];
        let mut ways = vec![1; 2 * links];
        for _ in 0..chance.below(3).min(links) {
            states[chance.below(links)] = 0;
            ways[chance.below(2 * links)] = 0;
        }
        let mut free = stray(&mut chance, &plain, &used, switch);
        free.retain(|label| usize::from(*label) < used.len());
        // A label over a link out of service, which is lost there.
        let idle: Vec<usize> = (0..all)
            .filter(|link| plant.link[*link].out_of_service)
            .collect();
        let free_run = plain_run(&plain, &used, switch, &free, &states);
        let full = plain_run(&plain, &used, switch, &ring, &states);
        for state in [0, 255] {
            let mut all_states = vec![state; all];
            let mut all_ways = vec![state; 2 * all];
            for (link, number) in numbers.iter().enumerate() {
                all_states[*number] = states[link];
                all_ways[2 * number] = ways[2 * link];
                all_ways[2 * number + 1] = ways[2 * link + 1];
            }
            let mut labels = listed_labels(&numbers, &free);
            let run = calls::run(&listing, begin, &labels, &all_states);
            assert_eq!(run, Ok(free_run));
            if !idle.is_empty() {
                let place = chance.below(labels.len() + 1);
                let over = (2 * chance.of(&idle) + chance.below(2)) as u16;
                labels.insert(place, over);
                let run = calls::run(&listing, begin, &labels, &all_states).unwrap();
                assert!(!run.ended);
                assert_eq!(run.hops, free_run.hops.min(place));
            }
            let run = calls::full_check(&listing, begin, &lent, &all_states);
            assert_eq!(run, Ok(full));
            // The whole round trail, up to the first direction that is down.
            let (way, _) = plain.ring(&round, switch);
            let open: Vec<bool> = ways.iter().map(|way| *way != 0).collect();
            let run = calls::round_run(&listing, begin, &lent_round, &all_ways);
            let up = vec![1; links];
            assert_eq!(run, Ok(plain_run(&plain, &open, switch, &way, &up)));
            for m in 1..=links {
                let search = if m == links {
                    Search::Checking(m as u16, 0)
                } else {
                    Search::Halving(m as u16, m as u16 + 1, 0)
                };
                let crossing = |label: &u16| usize::from(label / 2) == order[m - 1];
                let mut out = ring.clone();
                let mut probe = full;
                if m < links {
                    out.truncate(ring.iter().position(crossing).unwrap() + 1);
                    let back: Vec<u16> = out.iter().rev().map(|label| label ^ 1).collect();
                    let labels = [&out[..], &back].concat();
                    probe = plain_run(&plain, &both, switch, &labels, &states);
                }
                let run = calls::run_probe(&listing, begin, &lent, &all_states, search);
                assert_eq!(run, Ok(probe));
                let (one, two) = calls::outward(&listing, begin, &lent, search).unwrap();
                assert_eq!([one, two].concat(), listed_labels(&numbers, &out));
                let named = calls::link_named(&listing, begin, &lent, Search::Down(m as u16));
                assert_eq!(named, Ok(Named::Link(listed[m - 1])));
            }
            // As many states as links are in service are too few.
            for count in links..all {
                let run = calls::full_check(&listing, begin, &lent, &all_states[..count]);
                assert_eq!(number(run), 13);
            }
            for count in 2 * links..2 * all {
                let run = calls::round_run(&listing, begin, &lent_round, &all_ways[..count]);
                assert_eq!(number(run), 13);
            }
        }
        // A search of more links than are in service.
        for count in links + 1..=all {
            let count = count as u16;
            for search in [
                Search::Checking(count, 0),
                Search::Halving(1, count.max(2), 0),
                Search::Down(count),
            ] {
                let named = calls::link_named(&listing, begin, &lent, search);
                assert_eq!(number(named), 14);
            }
        }
        let list: Vec<u8> = (0..12).map(|_| chance.of(&[0, 1, 2, 2, 2])).collect();
        let bundle = make::listing_of(&make::bundle(links.max(1)).plain());
        if links > 0 {
            let performed = calls::perform(&listing, begin, &list);
            assert_eq!(performed, calls::perform(&bundle, 0, &list));
        }
    }
}

/// Components go by the links in service.
#[test]
fn out_of_service_apart() {
    let mut chance = Chance::new(22);
    let mut seen = [0; 2];
    for turn in 0..600 {
        let plant = make::joined(&mut chance, 6, 9).mixed(&mut chance);
        let marks = make::marking(&mut chance, &plant, turn % make::MARKINGS);
        let marked = make::marked(plant.clone(), &marks);
        let whole = Plain::new(&left_out(&marked).0).is_whole();
        let listing = make::listing_of(&marked);
        assert_eq!(calls::read(&listing), Ok(marked));
        let components = calls::components(&listing).unwrap();
        assert_eq!(components.len() == 1, whole);
        if !marks.is_empty() {
            seen[usize::from(whole)] += 1;
        }
        // Every link out of service joins nothing.
        let links: Vec<usize> = (0..usize::from(plant.links)).collect();
        let none = make::listing_of(&make::marked(plant.clone(), &links));
        let single = calls::components(&none).unwrap();
        assert_eq!(single.len(), usize::from(plant.switches));
        assert_eq!(calls::summary(&none).unwrap().rules, 0);
    }
    assert!(seen.iter().all(|count| *count > 100), "{seen:?}");
}

/// Every map of a record: after a link in service, after one out of service,
/// and as the first.
#[test]
fn out_of_service_maps() {
    for map in 0..=255u8 {
        let has = |bit: u8| map >> bit & 1 == 1;
        let fields = [(0, &[2][..]), (1, &[3]), (2, &[7, 1])];
        let given = fields.iter().filter(|(bit, _)| has(*bit));
        let record: Vec<u8> = given.flat_map(|(_, field)| field.to_vec()).collect();
        for (before, ends) in [
            (&[][..], (0, 0)),
            (&[2, 1][..], (0, 1)),
            (&[2, 1, 11, 1, 0], (1, 0)),
            (&[10, 1, 9, 3], (3, 1)),
        ] {
            let links = before.len().div_ceil(3) as u8 + 1;
            let listing = [&[3, 4, links, 0], before, &[map], &record].concat();
            let first = if has(0) { 2 } else { ends.0 };
            let second = if has(1) { 3 } else { ends.1 };
            let wanted = if map > 15 {
                Err(2)
            } else if first == second {
                Err(7)
            } else {
                Ok(Link {
                    first,
                    second,
                    tag: if has(2) { 263 } else { 0 },
                    out_of_service: has(3),
                })
            };
            let read = calls::read(&listing).map_err(Refusal::number);
            let last = read.map(|plant| plant.link[usize::from(links) - 1]);
            assert_eq!(last, wanted, "{listing:02x?}");
            if wanted.is_ok() {
                let mut buffer = vec![9; listing.len() + 1];
                assert_eq!(calls::rewrite(&listing, &mut buffer), Ok(listing.len()));
                assert_eq!(buffer, [&listing[..], &[9]].concat());
            }
        }
        // As the header's map: bit 3 is undefined.
        let header = number(calls::read(&[map]));
        assert_eq!(header, if map > 7 { 2 } else { 3 * u8::from(map > 0) });
    }
}

/// What is read with no link out of service is what document 01 alone reads;
/// and bit 3 is refusal 2 there.
#[test]
fn reading_by_document_01_alone() {
    let mut chance = Chance::new(23);
    let mut seen = [0; 3];
    for round in 0..6_000 {
        let plant = make::joined(&mut chance, 6, 9).mixed(&mut chance);
        let plant = match round % 2 {
            0 => plant,
            _ => make::with_unplugged(&mut chance, &plant, 1),
        };
        let bytes = match round % 4 {
            3 => make::listing_of(&plant),
            _ => make::damaged(&mut chance, &plant),
        };
        let (read, alone) = (listing::read(&bytes), listing::read_unmarked(&bytes));
        if read == alone {
            seen[0] += 1;
        } else {
            // A mark before or where the reading ends.
            assert_eq!(alone, Err(Refusal::MapUndefined), "{bytes:02x?}");
            seen[1] += 1;
        }
        if let Ok(plant) = read {
            let marked = plant.records().iter().any(|link| link.out_of_service);
            assert_eq!(alone.is_err(), marked);
            seen[2] += usize::from(marked);
        }
    }
    assert!(seen.iter().all(|count| *count > 200), "{seen:?}");
}

/// The generator's own parts: each fault is met, and links are put out of
/// service as they are asked to be.
#[test]
fn out_of_service_made() {
    let mut chance = Chance::new(24);
    for round in 0..2_000 {
        let sketch = make::exact(&mut chance, 4, 5);
        let plant = sketch.mixed(&mut chance);
        let more = chance.within(1, 3);
        let unplugged = make::with_unplugged(&mut chance, &plant, more);
        assert_eq!(usize::from(unplugged.links), 5 + more);
        assert_eq!(left_out(&unplugged).0, plant);
        assert_eq!(left_out(&unplugged).1.len(), 5);
        let refusal = 1 + (round % 8) as u8;
        let listing = make::faulty(&mut chance, &unplugged, refusal);
        assert_eq!(plain_read(&listing), Err(refusal), "{listing:02x?}");
    }
}

/// A console's part of the desk restated: its switches, rising, and its search,
/// if it has one, with the switch.
#[derive(Clone, Debug, PartialEq, Eq)]
struct Room {
    switches: Vec<u8>,
    search: Option<(u8, Search)>,
}

/// The switches of a set, by its bytes from the lowest.
fn switches_of(set: u64) -> Vec<u8> {
    let mut switches = Vec::new();
    for (place, byte) in (0..).zip(set.to_le_bytes()) {
        for (bit, value) in (0..).zip([1, 2, 4, 8, 16, 32, 64, 128]) {
            if byte & value == value {
                switches.push(8 * place + bit);
            }
        }
    }
    switches
}

impl Room {
    fn of(console: &Console) -> Room {
        Room {
            switches: switches_of(console.set),
            search: console.search.map(|begun| (begun.switch, begun.search)),
        }
    }
}

/// Whether a search can be one of so many links.
fn is_sound(search: Search, links: u16) -> bool {
    match search {
        Search::Checking(count, lost) => count > 0 && count == links && lost <= 2,
        Search::Halving(low, high, lost) => 0 < low && low < high && high <= links && lost <= 2,
        Search::AllUp => true,
        Search::Down(place) => place > 0 && place <= links,
    }
}

/// A call of the desk restated: each condition of a refusal in the order tried,
/// and what the console then has.
fn plain_sitting(sitting: &Sitting) -> Result<Room, u8> {
    if sitting.console > 3 {
        return Err(19);
    }
    let plant = plain_read(&sitting.listing)?;
    let plain = Plain::new(&left_out(&plant).0);
    // The links in service that are joined to a switch.
    let links_at = |switch: u8| {
        let ends = plain.links.iter().map(|(first, _)| *first);
        let own = ends.filter(|end| plain.are_joined(usize::from(switch), *end, |_| true));
        own.count() as u16
    };
    let mut room = Room::of(&sitting.desk.console[usize::from(sitting.console)]);
    let is_outcome = matches!(sitting.turn, Turn::Outcome(_));
    // Where the injection is, and the search that the call is about.
    let (injection, judged) = match sitting.turn {
        Turn::Set(set) => {
            room.switches = switches_of(set);
            (None, None)
        }
        Turn::Start(switch) => (Some(switch), None),
        Turn::Outcome(_) => (
            room.search.map(|(switch, _)| switch),
            room.search.map(|(_, search)| search),
        ),
    };
    let past = |switch: &u8| *switch >= plant.switches;
    let has_ended = |search| matches!(search, Search::AllUp | Search::Down(_));
    let refusals = [
        (20, room.switches.iter().any(past)),
        (15, is_outcome && room.search.is_none()),
        (11, injection.iter().any(past)),
        (21, injection.is_some_and(|it| !room.switches.contains(&it))),
    ];
    if let Some((refusal, _)) = refusals.into_iter().find(|(_, met)| *met) {
        return Err(refusal);
    }
    let links = injection.map_or(0, links_at);
    if judged.is_some_and(|it| !is_sound(it, links)) {
        return Err(14);
    }
    if judged.is_some_and(has_ended) {
        return Err(15);
    }
    match (sitting.turn, injection, judged) {
        (Turn::Start(switch), _, _) => {
            let search = match links {
                0 => Search::AllUp,
                _ => Search::Checking(links, 0),
            };
            room.search = Some((switch, search));
        }
        (Turn::Outcome(byte), Some(switch), Some(search)) => {
            let next = search.give(byte > 0).map_err(Refusal::number)?;
            room.search = Some((switch, next));
        }
        _ => {}
    }
    Ok(room)
}

/// Makes a call of the desk, and holds its answer and the desk after it to the
/// restatement. Returns the refusal, 0 for none.
fn hold_sitting(sitting: &Sitting) -> u8 {
    let wanted = plain_sitting(sitting);
    let mut made = sitting.clone();
    let answer = made.make();
    let told = answer.map(|console| Room::of(&console));
    assert_eq!(told.map_err(Refusal::number), wanted, "{sitting:?}");
    let parts = sitting.desk.console.iter().zip(&made.desk.console);
    for (number, (before, after)) in (0..).zip(parts) {
        match &wanted {
            Ok(room) if number == sitting.console => assert_eq!(Room::of(after), *room),
            _ => assert_eq!(after, before),
        }
    }
    number(answer)
}

#[test]
fn desk_by_hand() {
    let mut desk = Desk::default();
    assert_eq!(
        desk.console,
        [Console {
            set: 0,
            search: None
        }; 4]
    );
    let at = |switch, search| Some(Begun { switch, search });
    let steps = [
        (1, TRIANGLE, Turn::Outcome(1), Err(15)),
        (1, TRIANGLE, Turn::Start(0), Err(21)),
        (1, TRIANGLE, Turn::Set(0b110), Ok((0b110, None))),
        (
            1,
            TRIANGLE,
            Turn::Start(2),
            Ok((0b110, at(2, Search::Checking(3, 0)))),
        ),
        (
            1,
            TRIANGLE,
            Turn::Outcome(0),
            Ok((0b110, at(2, Search::Checking(3, 1)))),
        ),
        // Another number of links in service, and fewer switches.
        (1, LAST_OUT, Turn::Outcome(0), Err(14)),
        (1, ONE_LINK, Turn::Outcome(0), Err(20)),
        (1, ONE_LINK, Turn::Start(1), Err(20)),
        (
            1,
            ONE_LINK,
            Turn::Set(0b010),
            Ok((0b010, at(2, Search::Checking(3, 1)))),
        ),
        (1, ONE_LINK, Turn::Outcome(0), Err(11)),
        (1, TRIANGLE, Turn::Outcome(0), Err(21)),
        // Another console, and none.
        (0, TRIANGLE, Turn::Outcome(0), Err(15)),
        (4, TRIANGLE, Turn::Outcome(0), Err(19)),
        (4, &[], Turn::Set(8), Err(19)),
        // The switch again: the search has stayed as it was.
        (
            1,
            TRIANGLE,
            Turn::Set(0b100),
            Ok((0b100, at(2, Search::Checking(3, 1)))),
        ),
        (
            1,
            TRIANGLE,
            Turn::Outcome(0),
            Ok((0b100, at(2, Search::Checking(3, 2)))),
        ),
        (
            1,
            TRIANGLE,
            Turn::Outcome(0),
            Ok((0b100, at(2, Search::Halving(1, 3, 0)))),
        ),
        (
            1,
            TRIANGLE,
            Turn::Outcome(255),
            Ok((0b100, at(2, Search::Down(3)))),
        ),
        (1, TRIANGLE, Turn::Outcome(1), Err(15)),
        // A place that two links do not have.
        (1, LAST_OUT, Turn::Outcome(1), Err(14)),
        (
            1,
            LAST_OUT,
            Turn::Start(2),
            Ok((0b100, at(2, Search::Checking(2, 0)))),
        ),
        (
            1,
            TRIANGLE,
            Turn::Set(0),
            Ok((0, at(2, Search::Checking(2, 0)))),
        ),
        (
            1,
            &[0],
            Turn::Set(1),
            Ok((1, at(2, Search::Checking(2, 0)))),
        ),
        (1, &[0], Turn::Start(0), Ok((1, at(0, Search::AllUp)))),
        (1, &[0], Turn::Outcome(0), Err(15)),
    ];
    for (step, (console, listing, turn, wanted)) in steps.into_iter().enumerate() {
        let mut sitting = Sitting {
            listing: listing.to_vec(),
            desk,
            console,
            turn,
        };
        let answer = sitting.make().map_err(Refusal::number);
        let wanted = wanted.map(|(set, search)| Console { set, search });
        assert_eq!(answer, wanted, "{step}");
        if let Ok(part) = wanted {
            desk.console[usize::from(console)] = part;
        }
        assert_eq!(sitting.desk, desk, "{step}");
    }
}

/// Calls drawn by chance: each refusal is met many times in each call that tries
/// it, and each call is taken.
#[test]
fn desk_calls() {
    let mut chance = Chance::new(25);
    let mut seen = [[0; 22]; 3];
    for _ in 0..16_000 {
        let sitting = make::some_sitting(&mut chance, 6, 9);
        let refusal = hold_sitting(&sitting);
        let call = match sitting.turn {
            Turn::Set(_) => 0,
            Turn::Start(_) => 1,
            Turn::Outcome(_) => 2,
        };
        seen[call][usize::from(refusal)] += 1;
    }
    let tried: [&[usize]; 3] = [
        &[0, 1, 2, 3, 4, 5, 6, 7, 8, 19, 20],
        &[0, 1, 2, 3, 4, 5, 6, 7, 8, 11, 19, 20, 21],
        &[0, 1, 2, 3, 4, 5, 6, 7, 8, 11, 14, 15, 19, 20, 21],
    ];
    for (seen, tried) in seen.iter().zip(tried) {
        for (refusal, count) in seen.iter().enumerate() {
            let least = if tried.contains(&refusal) { 10 } else { 0 };
            assert!(*count >= least, "{seen:?}");
            assert!(least > 0 || *count == 0, "{seen:?}");
        }
    }
}

/// Small plants, every set of three switches and some above, switches in range
/// and not, searches of few links, sound or not, and each console in turn.
#[test]
fn every_small_desk() {
    let listings = [&[0][..], ONE_LINK, TRIANGLE, LAST_OUT, &[1, 2]];
    let sets = [0, 1, 2, 3, 4, 5, 6, 7, 8, 12, 1 << 63, u64::MAX];
    let switches = [0, 1, 2, 3, 63, 64, 255];
    let mut searches = vec![Search::AllUp];
    for one in 0..=4 {
        searches.push(Search::Down(one));
        searches.extend([0, 2, 3].map(|lost| Search::Checking(one, lost)));
        for two in 0..=4 {
            let lost = ((one + two) % 4) as u8;
            searches.push(Search::Halving(one, two, lost));
        }
    }
    let other = Console {
        set: 5,
        search: Some(Begun {
            switch: 2,
            search: Search::Checking(3, 0),
        }),
    };
    let mut turn = 0;
    let mut hold = |listing: &[u8], own: Console, call: Turn| {
        turn += 1;
        let mut desk = Desk {
            console: [other; 4],
        };
        desk.console[turn % 4] = own;
        let mut sitting = Sitting {
            listing: listing.to_vec(),
            desk,
            console: (turn % 4) as u8,
            turn: call,
        };
        hold_sitting(&sitting);
        if turn % 16 < 4 {
            sitting.console += 4;
            assert_eq!(hold_sitting(&sitting), 19);
        }
    };
    for listing in listings {
        for set in sets {
            for switch in switches {
                let at = |search| Some(Begun { switch, search });
                for search in [None, at(Search::AllUp), at(Search::Checking(0, 255))] {
                    let own = Console { set, search };
                    hold(listing, own, Turn::Start(switch));
                    let set = sets[usize::from(switch % 12)];
                    hold(listing, own, Turn::Set(set));
                }
                for search in &searches {
                    let search = at(*search);
                    hold(listing, Console { set, search }, Turn::Outcome(0));
                    hold(listing, Console { set, search }, Turn::Outcome(1));
                }
            }
            hold(listing, Console { set, search: None }, Turn::Outcome(1));
        }
    }
}

/// Every number of switches and every bit of a set: the new one and the stored
/// one.
#[test]
fn sets_in_range() {
    for switches in 1..=64 {
        let listing = make::listing_of(&make::star(switches).plain());
        let links = switches as u16 - 1;
        for bit in 0..64 {
            let refusal = if bit < switches { 0 } else { 20 };
            let own = Console {
                set: 1 | 1 << bit,
                search: Some(Begun {
                    switch: 0,
                    search: Search::new(links),
                }),
            };
            let made = |own: Console, call: Turn| {
                let mut desk = Desk::default();
                desk.console[bit % 4] = own;
                let mut sitting = Sitting {
                    listing: listing.clone(),
                    desk,
                    console: (bit % 4) as u8,
                    turn: call,
                };
                number(sitting.make())
            };
            assert_eq!(made(Console::default(), Turn::Set(1 << bit)), refusal);
            assert_eq!(made(own, Turn::Start(0)), refusal);
            let ended = if links == 0 { 15 } else { 0 };
            assert_eq!(made(own, Turn::Outcome(1)), refusal.max(ended));
            // At the switch itself, and with no other bit.
            let alone = Console {
                set: 1 << bit,
                search: None,
            };
            assert_eq!(made(alone, Turn::Start(bit as u8)), refusal);
        }
        // All switches, and all bits.
        let all = make::all_switches(switches as u8);
        assert_eq!(switches_of(all).len(), switches);
        for (set, refusal) in [(all, 0), (u64::MAX, if switches < 64 { 20 } else { 0 })] {
            let mut desk = Desk::default();
            assert_eq!(number(calls::new_set(&listing, &mut desk, 3, set)), refusal);
            for (switch, wanted) in [(switches - 1, 0), (switches, 11), (255, 11)] {
                desk.console[3].set = set;
                let start = calls::start(&listing, &mut desk, 3, switch as u8);
                assert_eq!(number(start), refusal.max(wanted * u8::from(refusal == 0)));
            }
        }
    }
}

/// Two desks that agree on one console give it equal answers, and leave it the
/// same, whatever the others hold.
#[test]
fn desks_that_agree_on_one_console() {
    let mut chance = Chance::new(26);
    for _ in 0..3_000 {
        let mut one = make::some_sitting(&mut chance, 5, 8);
        let mut two = one.clone();
        two.desk = make::any_desk(&mut chance);
        let own = usize::from(one.console);
        if own < 4 {
            two.desk.console[own] = one.desk.console[own];
        }
        let before = [one.desk, two.desk];
        let answer = one.make();
        assert_eq!(answer, two.make());
        for (before, after) in before.iter().zip([one.desk, two.desk]) {
            for number in 0..4 {
                match answer {
                    Ok(part) if number == own => assert_eq!(after.console[number], part),
                    _ => assert_eq!(after.console[number], before.console[number]),
                }
            }
        }
    }
}

/// Calls of all four consoles in turn by chance on one desk: the answers that
/// each has are those of its own calls alone on a desk where the others have
/// nothing.
#[test]
fn consoles_apart() {
    let mut chance = Chance::new(27);
    for _ in 0..60 {
        let first = make::any_desk(&mut chance);
        let plants = [3, 5].map(|switches| {
            let sketch = make::exact(&mut chance, switches, 6);
            let plant = sketch.mixed(&mut chance);
            make::listing_of(&make::with_unplugged(&mut chance, &plant, 1))
        });
        let mut desk = first;
        let mut answers: [Vec<_>; 4] = Default::default();
        for _ in 0..60 {
            let console = chance.below(4);
            let listing = chance.of(&[0, 0, 0, 1]);
            let switch = chance.below(4) as u8;
            let turn = match chance.below(8) {
                0 => Turn::Set(chance.below(32) as u64),
                1 | 2 => Turn::Start(switch),
                _ => Turn::Outcome(chance.of(&[0, 0, 1])),
            };
            let mut sitting = Sitting {
                listing: plants[listing].clone(),
                desk,
                console: console as u8,
                turn,
            };
            let answer = sitting.make();
            desk = sitting.desk;
            answers[console].push((listing, turn, answer));
        }
        for (console, answers) in answers.into_iter().enumerate() {
            let mut alone = Desk::default();
            alone.console[console] = first.console[console];
            for (listing, turn, answer) in answers {
                let mut sitting = Sitting {
                    listing: plants[listing].clone(),
                    desk: alone,
                    console: console as u8,
                    turn,
                };
                assert_eq!(sitting.make(), answer);
                alone = sitting.desk;
            }
            assert_eq!(alone.console[console], desk.console[console]);
        }
    }
}

/// Searches of all four consoles at once: each is the one that the same list of
/// outcomes leads to without a desk.
#[test]
fn searches_of_a_desk() {
    let mut chance = Chance::new(28);
    let mut ended = 0;
    let mut plants = plants_partly_out(28, 100, 2);
    plants.push(make::bundle(Plant::MAX_LINKS).plain());
    for plant in plants {
        let listing = make::listing_of(&plant);
        let all = make::all_switches(plant.switches);
        let mut desk = make::any_desk(&mut chance);
        let mut lists: [Vec<u8>; 4] = Default::default();
        let switches = [0; 4].map(|_| chance.below(usize::from(plant.switches)) as u8);
        for console in 0..4 {
            let switch = switches[usize::from(console)];
            calls::new_set(&listing, &mut desk, console, all).unwrap();
            let started = calls::start(&listing, &mut desk, console, switch).unwrap();
            let search = calls::new_search(&listing, switch).unwrap();
            assert_eq!(started.search, Some(Begun { switch, search }));
        }
        for _ in 0..60 {
            let console = chance.below(4);
            let (list, switch) = (&mut lists[console], switches[console]);
            let before = desk.console[console].search.unwrap().search;
            let returned = chance.percent(30);
            let answer = calls::outcome(&listing, &mut desk, console as u8, returned);
            let given = before.give(returned);
            let search = answer.map(|part| part.search.unwrap().search);
            assert_eq!(search, given);
            list.push(if returned { 1 } else { 2 });
            let (search, ..) = calls::perform(&listing, switch, list).unwrap();
            let part = Console {
                set: all,
                search: Some(Begun { switch, search }),
            };
            assert_eq!(desk.console[console], part);
            ended += usize::from(given.is_err());
        }
    }
    assert!(ended > 100, "{ended}");
}

/// A desk takes 64 bytes. Any byte but 0 tells of a search, and the bytes of one
/// that is not there tell nothing.
#[test]
fn desk_bytes() {
    let mut desk = Desk::default();
    desk.console[1] = Console {
        set: 0x8007_0605_0403_0201,
        search: Some(Begun {
            switch: 200,
            search: Search::Halving(3, 258, 9),
        }),
    };
    desk.console[3].set = 7;
    let part = [1, 2, 3, 4, 5, 6, 7, 128, 1, 200, 1, 3, 0, 2, 1, 9];
    let last = [7, 0, 0, 0, 0, 0, 0, 0, 0, 0, 0, 0, 0, 0, 0, 0];
    let bytes = [[0; 16], part, [0; 16], last].concat();
    assert_eq!(Case::new(9).desk(&desk).bytes, [&[9], &bytes[..]].concat());
    let answered = |bytes: &[u8]| {
        let case = [&[31, 1, 0, 0], bytes, &[3, 0]].concat();
        let mut output = Vec::new();
        let answer = Answerer::default().answer(&case, 0, &mut output);
        answer.map(|((_, refusal), end)| {
            assert_eq!(end, case.len());
            (refusal, output)
        })
    };
    // Beyond the one switch of the listing.
    let plain = answered(&bytes).unwrap();
    assert_eq!(plain.0, Some(Refusal::SetOutOfRange));
    for has in [2, 127, 128, 255] {
        let mut bytes = bytes.clone();
        bytes[16 + 8] = has;
        assert_eq!(answered(&bytes), Ok(plain.clone()));
    }
    for idle in [9..16, 41..48, 57..64] {
        let mut bytes = bytes.clone();
        bytes[idle].fill(255);
        assert_eq!(answered(&bytes), Ok(plain.clone()));
    }
    // A kind that no search has, and a number that All up has not.
    for (place, byte) in [(26, 4), (26, 2), (26, 0)] {
        let mut bytes = bytes.clone();
        bytes[place] = byte;
        assert!(answered(&bytes).is_err());
    }
    assert!(answered(&bytes[1..]).is_err());
}

/// A component restated: a plant of its own, and the numbers that its switches
/// and its links in service have in the listing, rising.
struct Part {
    plain: Plain,
    switches: Vec<usize>,
    links: Vec<usize>,
}

/// The start's component, and then the others by their lowest switch.
fn parts(plant: &Plant) -> Vec<Part> {
    let (left, numbers) = left_out(plant);
    let whole = Plain::new(&left);
    let mut parts: Vec<Part> = Vec::new();
    for first in [whole.start].into_iter().chain(0..whole.switches) {
        if parts.iter().any(|part| part.switches.contains(&first)) {
            continue;
        }
        let switches: Vec<usize> = (0..whole.switches)
            .filter(|other| whole.are_joined(first, *other, |_| true))
            .collect();
        let place = |switch: usize| switches.iter().position(|other| *other == switch);
        let (mut links, mut pairs) = (Vec::new(), Vec::new());
        for (number, (one, two)) in numbers.iter().zip(&whole.links) {
            if let (Some(one), Some(two)) = (place(*one), place(*two)) {
                links.push(*number);
                pairs.push((one, two));
            }
        }
        let plain = Plain {
            switches: switches.len(),
            start: place(first).unwrap(),
            links: pairs,
        };
        parts.push(Part {
            plain,
            switches,
            links,
        });
    }
    parts
}

impl Part {
    /// The run of labels of the component's own, in the words of the listing.
    fn run(&self, rules: &[bool], at: usize, labels: &[u16], states: &[u8]) -> Run {
        let run = plain_run(&self.plain, rules, at, labels, states);
        Run {
            last: self.switches[run.last],
            ..run
        }
    }

    fn listed(&self, labels: &[u16]) -> Vec<u16> {
        listed_labels(&self.links, labels)
    }
}

/// Plants by chance, most of several components: single switches, components of
/// each kind, links out of service within them and between them.
fn plants_apart(seed: u64, small: usize, large: usize) -> Vec<Plant> {
    let mut chance = Chance::new(seed);
    (0..small + large)
        .map(|turn| {
            let (switches, links) = if turn < small {
                chance.of(&[(3, 4), (7, 10), (12, 24)])
            } else {
                (Plant::MAX_SWITCHES, Plant::MAX_LINKS)
            };
            let plant = make::several(&mut chance, switches, links).mixed(&mut chance);
            let more = chance.below(3);
            let plant = make::with_unplugged(&mut chance, &plant, more);
            let marks = make::marking(&mut chance, &plant, turn % (2 * make::MARKINGS));
            match turn % 3 {
                0 => make::marked(plant, &marks),
                _ => plant,
            }
        })
        .collect()
}

fn stretches(first: u8, trail: (usize, usize), round: (usize, usize)) -> Stretches {
    Stretches {
        first,
        trail: trail.0..trail.0 + trail.1,
        round: round.0..round.0 + round.1,
    }
}

/// A link and a single switch, which is the start.
const LATE_SINGLE: &[u8] = &[7, 3, 1, 0, 2, 2, 1];
/// The link 0 to 2, and the ring 1 3 4 from switch 4.
const LATE_RING: &[u8] = &[7, 5, 4, 0, 4, 2, 2, 3, 1, 3, 3, 3, 4, 3, 4, 1];
/// The ring 0 1 2, the path 3 4 5 and the single switch 6.
const RING_AND_PATH: &[u8] = &[3, 7, 5, 0, 2, 1, 3, 1, 2, 3, 2, 0, 3, 3, 4, 3, 4, 5];

#[test]
fn components_by_hand() {
    let single: Vec<Stretches> = (0..64)
        .map(|first| stretches(first, (0, 0), (0, 0)))
        .collect();
    assert_eq!(calls::components(&[0x01, 0x40]), Ok(single));
    assert_eq!(calls::rules(&[0x01, 0x40]).unwrap().count, 0);
    assert_eq!(trail_vec(&[0x01, 0x40]), []);
    assert_eq!(calls::trail(&[0x01, 0x40], &mut []), Ok(0));
    for switch in 0..64 {
        let search = calls::new_search(&[0x01, 0x40], switch);
        assert_eq!(search, Ok(Search::AllUp));
        let run = calls::full_check(&[0x01, 0x40], switch, &[], &[]);
        assert_eq!(run, Ok(ended(0, usize::from(switch))));
    }
    // The last switch is the start: it comes first, the others rise.
    let firsts: Vec<u8> = calls::components(&[5, 4, 3])
        .unwrap()
        .iter()
        .map(|component| component.first)
        .collect();
    assert_eq!(firsts, [3, 0, 1, 2]);

    let text = "plant 3 1 1 2 2\nrule 0 0 1\nrule 1 1 0\ntrail\ntrail 0 1\n";
    assert_eq!(calls::print(LATE_SINGLE), text);
    let late_single = vec![stretches(2, (0, 0), (0, 0)), stretches(0, (0, 2), (0, 2))];
    assert_eq!(calls::components(LATE_SINGLE), Ok(late_single));

    let text = "plant 5 4 1 5 5\nrule 0 0 2\nrule 2 1 0\nrule 3 3 1\nrule 4 5 3\n\
                rule 1 7 4\ntrail 5 3 7\ntrail 0 1\n";
    assert_eq!(calls::print(LATE_RING), text);
    let late_ring = vec![stretches(4, (0, 3), (0, 6)), stretches(0, (3, 2), (6, 2))];
    assert_eq!(calls::components(LATE_RING), Ok(late_ring));
    assert_eq!(round_vec(LATE_RING), [5, 3, 7, 6, 2, 4, 0, 1]);
    assert_eq!(calls::by_switch(LATE_RING), Ok(sending(&[1, 1, 1, 1, 1])));

    let text = "plant 7 5 2 7 9\nrule 0 0 1\nrule 1 2 2\nrule 2 4 0\nrule 3 6 4\n\
                rule 4 7 3\nrule 4 8 5\nrule 5 9 4\ntrail 0 2 4\ntrail 6 7 6 8 9 7\ntrail\n";
    assert_eq!(calls::print(RING_AND_PATH), text);
    assert_eq!(
        calls::components(RING_AND_PATH),
        Ok(vec![
            stretches(0, (0, 3), (0, 6)),
            stretches(3, (3, 6), (6, 4)),
            stretches(6, (9, 0), (10, 0)),
        ])
    );
}

#[test]
fn component_calls_by_hand() {
    let (trail, round) = (trail_vec(LATE_RING), round_vec(LATE_RING));
    // The ring from switch 3, and the link from switch 2.
    let order = |switch| calls::order(LATE_RING, switch, &trail).unwrap();
    assert_eq!(order(3).links(), [1, 3, 2]);
    assert_eq!(order(2).links(), [0]);
    let check = |switch, states: &[u8]| calls::full_check(LATE_RING, switch, &trail, states);
    assert_eq!(check(2, &[1, 0, 0, 0]), Ok(ended(2, 2)));
    assert_eq!(check(2, &[0, 1, 1, 1]), Ok(lost(0, 2)));
    assert_eq!(check(3, &[0, 1, 1, 1]), Ok(ended(3, 3)));
    assert_eq!(check(3, &[1, 1, 1, 0]), Ok(lost(1, 1)));
    assert_eq!(check(3, &[1, 1, 1]), Err(Refusal::StatesShort));
    // The outward labels of probe 2 go to the end of the stretch, and those of
    // the whole ring then to its beginning.
    let outward = |switch, search| calls::outward(LATE_RING, switch, &trail, search);
    let halving = Search::Halving(2, 3, 0);
    assert_eq!(outward(3, halving), Ok((&trail[1..3], &trail[..0])));
    let checking = Search::Checking(3, 0);
    assert_eq!(outward(3, checking), Ok((&trail[1..3], &trail[..1])));
    let other = Search::Checking(1, 0);
    assert_eq!(outward(2, other), Ok((&trail[4..5], &trail[3..4])));
    // Counts of the whole plant and of the other component.
    for (switch, count, refusal) in [(3, 3, 0), (3, 4, 14), (3, 1, 14), (2, 1, 0), (2, 3, 14)] {
        let search = Search::Checking(count, 0);
        assert_eq!(number(outward(switch, search)), refusal);
    }
    let named = |switch, place| calls::link_named(LATE_RING, switch, &trail, Search::Down(place));
    assert_eq!(named(3, 2), Ok(Named::Link(3)));
    assert_eq!(named(0, 1), Ok(Named::Link(0)));
    assert_eq!(named(0, 2), Err(Refusal::SearchUnsound));
    assert_eq!(calls::new_search(LATE_RING, 1), Ok(Search::Checking(3, 0)));
    assert_eq!(calls::new_search(LATE_RING, 0), Ok(Search::Checking(1, 0)));
    let losses = calls::perform(LATE_RING, 0, &[2; 9]);
    assert_eq!(losses, Ok((Search::Down(1), 1, 3)));
    // Round runs: labels 0 and 1 are of the second component.
    let run = |switch, states: &[u8]| calls::round_run(LATE_RING, switch, &round, states);
    assert_eq!(run(2, &[1, 1, 0, 0, 0, 0, 0, 0]), Ok(ended(2, 2)));
    assert_eq!(run(2, &[0, 1, 1, 1, 1, 1, 1, 1]), Ok(lost(1, 0)));
    assert_eq!(run(3, &[0, 0, 1, 1, 1, 1, 1, 1]), Ok(ended(6, 3)));
    assert_eq!(run(3, &[1, 1, 1, 1, 1, 1, 0, 1]), Ok(lost(2, 4)));
    assert_eq!(run(2, &[1; 7]), Err(Refusal::StatesShort));
    // Each component chooses for itself: the ring has 3 hops against 6, the path
    // 6 against 4, the single switch none.
    let (trail, round) = (trail_vec(RING_AND_PATH), round_vec(RING_AND_PATH));
    let (lent, lent_round) = ([&trail[..], &[7]].concat(), [&round[..], &[8, 9]].concat());
    let choice = |switch| calls::choice(RING_AND_PATH, switch, &lent, &lent_round).unwrap();
    assert_eq!(choice(1), Choice::Trail(&lent[..3]));
    assert_eq!(choice(4), Choice::Round(&lent_round[6..10]));
    assert_eq!(choice(6), Choice::Trail(&lent[9..9]));
    // A component without links.
    let check = calls::full_check(RING_AND_PATH, 6, &trail, &[0; 5]);
    assert_eq!(check, Ok(ended(0, 6)));
    let check = calls::round_run(RING_AND_PATH, 6, &round, &[0; 10]);
    assert_eq!(check, Ok(ended(0, 6)));
    assert_eq!(calls::new_search(RING_AND_PATH, 6), Ok(Search::AllUp));
    let order = calls::order(RING_AND_PATH, 6, &trail).unwrap();
    assert_eq!(order.links(), []);
    let probe = |search| number(calls::outward(RING_AND_PATH, 6, &trail, search));
    assert_eq!(probe(Search::AllUp), 15);
    assert_eq!(probe(Search::Checking(5, 0)), 14);
    assert_eq!(probe(Search::Down(1)), 14);
}

/// Refusals of plants in several components: 12 by the joined trail, 13 by every
/// link of the listing, 14 by the component's links, in this order.
#[test]
fn component_refusals_in_order() {
    let (trail, round) = (trail_vec(RING_AND_PATH), round_vec(RING_AND_PATH));
    let swapped = [&trail[3..], &trail[..3]].concat();
    let longer = [&trail[..], &[0]].concat();
    let own = &trail[..3];
    let whole = Search::Checking(5, 0);
    let probe = |switch, trail: &[u16], states: usize, search| {
        let states = vec![1; states];
        number(calls::run_probe(
            RING_AND_PATH,
            switch,
            trail,
            &states,
            search,
        ))
    };
    for wrong in [own, &swapped, &longer, &trail[..8], &[]] {
        assert_eq!(probe(7, wrong, 3, whole), 11);
        assert_eq!(probe(1, wrong, 3, whole), 12);
        assert_eq!(number(calls::order(RING_AND_PATH, 1, wrong)), 12);
        assert_eq!(number(calls::order(RING_AND_PATH, 6, wrong)), 12);
    }
    assert_eq!(probe(1, &trail, 3, whole), 13);
    assert_eq!(probe(1, &trail, 4, Search::Checking(3, 0)), 13);
    assert_eq!(probe(1, &trail, 5, whole), 14);
    assert_eq!(probe(1, &trail, 5, Search::Down(3)), 15);
    assert_eq!(probe(1, &trail, 5, Search::Down(4)), 14);
    assert_eq!(probe(4, &trail, 5, Search::Down(3)), 14);
    assert_eq!(probe(1, &trail, 5, Search::Checking(3, 0)), 0);
    assert_eq!(probe(4, &trail, 5, Search::Checking(2, 0)), 0);
    let run = |switch, round: &[u16], states: usize| {
        let states = vec![1; states];
        number(calls::round_run(RING_AND_PATH, switch, round, &states))
    };
    let other_way = [&round[6..], &round[..6]].concat();
    assert_eq!(run(7, &other_way, 6), 11);
    assert_eq!(run(1, &other_way, 6), 12);
    assert_eq!(run(1, &round[..6], 10), 12);
    assert_eq!(run(1, &[&round[..], &[3]].concat(), 9), 13);
    assert_eq!(run(1, &[&round[..], &[3]].concat(), 10), 0);
    let choice =
        |trail: &[u16], round: &[u16]| number(calls::choice(RING_AND_PATH, 4, trail, round));
    assert_eq!(choice(&swapped, &round), 12);
    assert_eq!(choice(&trail, &other_way), 12);
    assert_eq!(choice(&trail[3..], &round[6..]), 12);
    assert_eq!(choice(&longer, &round), 0);
    for places in 0..12 {
        let mut buffer = vec![9; places];
        let wanted = if places < 9 { 10 } else { 0 };
        assert_eq!(number(calls::trail(RING_AND_PATH, &mut buffer)), wanted);
        let mut buffer = vec![9; places];
        let wanted = if places < 10 { 10 } else { 0 };
        assert_eq!(
            number(calls::round_trail(RING_AND_PATH, &mut buffer)),
            wanted
        );
    }
}

/// Components, bridges, rules, trails and round trails against those of each
/// component cut out; the counts over the whole plant.
#[test]
fn components_cut_out() {
    let mut seen = [0; 4];
    for plant in plants_apart(31, 900, 12) {
        let listing = make::listing_of(&plant);
        let (mut trail, mut round) = (Vec::new(), Vec::new());
        let mut stretches = Vec::new();
        let mut used = vec![false; 2 * usize::from(plant.links)];
        let mut bridges = Vec::new();
        let parts = parts(&plant);
        for part in &parts {
            assert!(part.plain.is_whole());
            let own = part.listed(&part.plain.trail());
            let own_round = part.listed(&part.plain.round());
            stretches.push(Stretches {
                first: part.switches[part.plain.start] as u8,
                trail: trail.len()..trail.len() + own.len(),
                round: round.len()..round.len() + own_round.len(),
            });
            trail.extend(own);
            round.extend(own_round);
            for (label, is_used) in part.plain.used().into_iter().enumerate() {
                used[2 * part.links[label / 2] + label % 2] = is_used;
            }
            let links = 0..part.links.len();
            let own = links.filter(|link| part.plain.is_bridge(*link));
            bridges.extend(own.map(|link| part.links[link]));
        }
        bridges.sort_unstable();
        assert_eq!(calls::components(&listing), Ok(stretches));
        assert_eq!(trail_vec(&listing), trail);
        assert_eq!(round_vec(&listing), round);
        let (count, flags) = calls::bridges(&listing).unwrap();
        assert_eq!(count, usize::from(plant.links));
        let flagged: Vec<usize> = (0..flags.len()).filter(|link| flags[*link]).collect();
        assert_eq!(flagged, bridges);
        // Rules for exactly the arcs in use, which are those that the joined
        // trail crosses.
        let page = calls::rules(&listing).unwrap();
        let ruled: Vec<usize> = page
            .rules()
            .iter()
            .map(|rule| usize::from(rule.label))
            .collect();
        let labels: Vec<usize> = (0..used.len()).filter(|label| used[*label]).collect();
        assert_eq!(ruled, labels);
        let mut crossed = vec![false; used.len()];
        for label in &trail {
            crossed[usize::from(*label)] = true;
        }
        assert_eq!(crossed, used);
        let mut sent = [0; Plant::MAX_SWITCHES];
        for rule in page.rules() {
            let link = plant.link[usize::from(rule.label / 2)];
            let ends = [(link.first, link.second), (link.second, link.first)];
            assert_eq!((rule.from, rule.to), ends[usize::from(rule.label % 2)]);
            sent[usize::from(rule.from)] += 1;
        }
        let switches = usize::from(plant.switches);
        let by = calls::by_switch(&listing);
        assert_eq!(by, Ok(sending(&sent[..switches])));
        let links = plant.in_service().count();
        let sum = calls::summary(&listing).unwrap();
        assert_eq!((sum.switches, sum.links), (switches, links));
        assert_eq!(sum.bridges, bridges.len());
        assert_eq!((sum.rules, page.count), (links + bridges.len(), sum.rules));
        assert_eq!(sum.hops, trail.len());
        assert_eq!(round.len(), 2 * links);
        assert!(sum.hops <= Plant::MAX_HOPS);
        // What is printed.
        let mut text = format!(
            "plant {switches} {links} {} {} {}\n",
            sum.bridges, sum.rules, sum.hops
        );
        for rule in page.rules() {
            text += &format!("rule {} {} {}\n", rule.from, rule.label, rule.to);
        }
        for part in &parts {
            text += "trail";
            for label in part.listed(&part.plain.trail()) {
                text += &format!(" {label}");
            }
            text += "\n";
        }
        assert_eq!(calls::print(&listing), text);
        // Single switches, several components, the start in a late one and not
        // its lowest switch.
        let lowest = parts[0].switches[0];
        seen[0] += usize::from(parts.iter().any(|part| part.links.is_empty()));
        seen[1] += usize::from(parts.len() > 1);
        seen[2] += usize::from(lowest > 0);
        seen[3] += usize::from(lowest > 0 && lowest < usize::from(plant.start));
    }
    assert!(seen.iter().all(|count| *count > 100), "{seen:?}");
}

/// The most hops that components can have, and the trails of components that are
/// as long as can be.
#[test]
fn component_hops() {
    for parts in [1, 2, 4, 8, 16, 32] {
        let (switches, links) = (Plant::MAX_SWITCHES / parts, Plant::MAX_LINKS / parts);
        let none = make::Sketch::default();
        let one = make::long(switches, links - (switches - 1));
        let sketch = (0..parts).fold(none, |whole, _| whole.beside(&one));
        let listing = make::listing_of(&sketch.plain());
        let mut buffer = vec![0; Plant::MAX_HOPS];
        let hops = calls::trail(&listing, &mut buffer).unwrap();
        assert_eq!(hops % parts, 0);
        let own = calls::summary(&make::listing_of(&one.plain())).unwrap();
        assert_eq!(hops, parts * own.hops);
        assert_eq!(calls::components(&listing).unwrap().len(), parts);
    }
}

/// Runs, orders, probes, searches and choices from every switch, against those of
/// the component cut out, whatever the states of other links.
#[test]
fn runs_in_components() {
    let mut chance = Chance::new(32);
    let mut seen = [0; 3];
    for plant in plants_apart(32, 350, 2) {
        let listing = make::listing_of(&plant);
        let (trail, round) = (trail_vec(&listing), round_vec(&listing));
        let stretches = calls::components(&listing).unwrap();
        let all = usize::from(plant.links);
        let whole = plant.in_service().count() as u16;
        for (part, stretches) in parts(&plant).iter().zip(&stretches) {
            let links = part.links.len();
            let (used, both) = (part.plain.used(), vec![true; 2 * links]);
            let at = chance.below(part.switches.len());
            let begin = part.switches[at] as u8;
            let (ring, order) = part.plain.ring(&part.plain.trail(), at);
            let (way, _) = part.plain.ring(&part.plain.round(), at);
            let listed: Vec<u16> = order.iter().map(|link| part.links[*link] as u16).collect();
            let told = calls::order(&listing, begin, &trail).unwrap();
            assert_eq!(told.links(), listed);
            // The ring is read from a place of the joined trail to the end of
            // the stretch, and then from its beginning.
            let mut outward = Vec::new();
            if links > 0 {
                let checking = Search::Checking(links as u16, 0);
                let (one, two) = calls::outward(&listing, begin, &trail, checking).unwrap();
                outward = [one, two].concat();
                let place = stretches.trail.end - one.len();
                let leaves = |label: &u16| {
                    let link = plant.link[usize::from(label / 2)];
                    [link.first, link.second][usize::from(label % 2)] == begin
                };
                assert_eq!(trail.iter().position(leaves), Some(place));
                assert_eq!(one, &trail[place..stretches.trail.end]);
                assert_eq!(two, &trail[stretches.trail.start..place]);
            }
            assert_eq!(outward, part.listed(&ring));
            // States: all other links down, or up, or any.
            for other in [0, 1, 2] {
                let mut states = vec![1; links];
                let mut ways = vec![1; 2 * links];
                if links > 0 && chance.percent(60) {
                    states[chance.below(links)] = 0;
                    ways[chance.below(2 * links)] = 0;
                }
                let mut any = || [0, 255, chance.byte()][other];
                let mut all_states: Vec<u8> = (0..all).map(|_| any()).collect();
                let mut all_ways: Vec<u8> = (0..2 * all).map(|_| any()).collect();
                for (link, number) in part.links.iter().enumerate() {
                    all_states[*number] = states[link];
                    all_ways[2 * number] = ways[2 * link];
                    all_ways[2 * number + 1] = ways[2 * link + 1];
                }
                let full = part.run(&used, at, &ring, &states);
                let run = calls::full_check(&listing, begin, &trail, &all_states);
                assert_eq!(run, Ok(full));
                assert_eq!(full.ended, states.iter().all(|state| *state != 0));
                let free = stray(&mut chance, &part.plain, &used, at);
                let free: Vec<u16> = free
                    .into_iter()
                    .filter(|label| usize::from(*label) < used.len())
                    .collect();
                let run = calls::run(&listing, begin, &part.listed(&free), &all_states);
                assert_eq!(run, Ok(part.run(&used, at, &free, &states)));
                let open: Vec<bool> = ways.iter().map(|way| *way != 0).collect();
                let run = calls::round_run(&listing, begin, &round, &all_ways);
                let round_home = part.run(&open, at, &way, &vec![1; links]);
                assert_eq!(run, Ok(round_home));
                assert_eq!(round_home.ended, open.iter().all(|up| *up));
                for m in 1..=links {
                    let search = if m == links {
                        Search::Checking(m as u16, 0)
                    } else {
                        Search::Halving(m as u16, m as u16 + 1, 0)
                    };
                    let mut probe = full;
                    if m < links {
                        let crossing = |label: &u16| usize::from(label / 2) == order[m - 1];
                        let out = &ring[..=ring.iter().position(crossing).unwrap()];
                        let back: Vec<u16> = out.iter().rev().map(|label| label ^ 1).collect();
                        probe = part.run(&both, at, &[out, &back].concat(), &states);
                    }
                    let run = calls::run_probe(&listing, begin, &trail, &all_states, search);
                    assert_eq!(run, Ok(probe));
                }
                // A search names the first broken link of its component.
                let mut state = calls::new_search(&listing, begin).unwrap();
                assert_eq!(state, Search::new(links as u16));
                let mut list = Vec::new();
                while state.ask().is_ok() {
                    let run = calls::run_probe(&listing, begin, &trail, &all_states, state);
                    let home = run.unwrap().ended;
                    let times = if home { 1 } else { 3 };
                    for _ in 0..times {
                        state = state.give(home).unwrap();
                        list.push(if home { 1 } else { 2 });
                    }
                }
                let performed = calls::perform(&listing, begin, &list).unwrap();
                assert_eq!(performed.0, state);
                let first = order.iter().position(|link| states[*link] == 0);
                let named = calls::link_named(&listing, begin, &trail, state);
                assert_eq!(
                    named,
                    Ok(first.map_or(Named::None, |place| Named::Link(listed[place])))
                );
                seen[0] += usize::from(first.is_some());
            }
            // Searches of another number of links.
            for count in [links as u16 + 1, whole] {
                if usize::from(count) != links {
                    for search in [
                        Search::Checking(count, 0),
                        Search::Halving(1, count.max(2), 0),
                        Search::Down(count),
                    ] {
                        let named = calls::link_named(&listing, begin, &trail, search);
                        assert_eq!(number(named), 14);
                    }
                    seen[1] += 1;
                }
            }
            let choice = calls::choice(&listing, begin, &trail, &round).unwrap();
            let (own, own_round) = (stretches.trail.clone(), stretches.round.clone());
            let fewer = own_round.len() < own.len();
            assert_eq!(
                choice,
                match fewer {
                    true => Choice::Round(&round[own_round]),
                    false => Choice::Trail(&trail[own]),
                }
            );
            seen[2] += usize::from(fewer != (round.len() < trail.len()));
        }
    }
    assert!(seen.iter().all(|count| *count > 100), "{seen:?}");
}

/// Calls of the desk at switches of several components, with searches of as many
/// links as the component has, as all, and of any number.
#[test]
fn desk_in_components() {
    let mut chance = Chance::new(33);
    let mut seen = [0; 22];
    for plant in plants_apart(33, 3000, 0) {
        let all = make::all_switches(plant.switches);
        let switch = chance.below(usize::from(plant.switches)) as u8;
        let net = Net::new(plant.clone());
        let own = net.links_at(usize::from(switch));
        let links = chance.of(&[own, own, net.links as u16]);
        let any = chance.draw();
        let set = any & all | 1 << switch;
        let begun = Begun {
            switch,
            search: make::some_search(&mut chance, links),
        };
        let mut desk = make::any_desk(&mut chance);
        let console = chance.below(Desk::CONSOLES) as u8;
        desk.console[usize::from(console)] = Console {
            set: chance.of(&[set, set, set, all, any]),
            search: chance.percent(90).then_some(begun),
        };
        let turn = match chance.below(5) {
            0 => Turn::Set(make::some_set(&mut chance, plant.switches)),
            1 | 2 => Turn::Start(switch),
            _ => Turn::Outcome(chance.of(&[0, 0, 1, 255])),
        };
        let refusal = hold_sitting(&Sitting {
            listing: make::listing_of(&plant),
            desk,
            console,
            turn,
        });
        seen[usize::from(refusal)] += 1;
    }
    for refusal in [0, 14, 15, 20] {
        assert!(seen[refusal] > 30, "{seen:?}");
    }
}

/// What `rules` prints of a joined plant: one trail line.
#[test]
fn printed_of_joined_plants() {
    for plant in plants(34, 400, 4) {
        let plain = Plain::new(&plant);
        let (used, trail) = (plain.used(), plain.trail());
        let links = plain.links.len();
        let bridges = (0..links).filter(|link| plain.is_bridge(*link)).count();
        let mut text = format!(
            "plant {} {links} {bridges} {} {}\n",
            plain.switches,
            links + bridges,
            trail.len()
        );
        for label in plain.labels().filter(|label| used[*label]) {
            text += &format!("rule {} {label} {}\n", plain.from(label), plain.to(label));
        }
        let labels: Vec<String> = trail.iter().map(|label| format!(" {label}")).collect();
        text += &format!("trail{}\n", labels.concat());
        assert_eq!(calls::print(&make::listing_of(&plant)), text);
    }
}
