//! The case format and its answers.
//!
//! A case is one byte, the call, and the call's arguments. Its answer is one
//! line of text.

use crate::calls::{self, Choice};
use crate::desk::{Begun, Console, Desk};
use crate::packet::{Fate, Run};
use crate::plant::{Link, Plant, Refusal};
use crate::search::Search;
use std::io::Write;

/// The calls by their number in the case format.
pub const NAMES: [&str; 34] = [
    "",
    "read",
    "write",
    "summary",
    "bridges",
    "rules",
    "trail",
    "run",
    "full check",
    "order",
    "outward",
    "probe run",
    "link named",
    "new search",
    "ask",
    "give",
    "perform",
    "quantity",
    "rewrite",
    "reread",
    "allowance",
    "long run",
    "by switch",
    "page written",
    "page read",
    "round trail",
    "round run",
    "choice",
    "write marked",
    "reread marked",
    "new set",
    "start",
    "outcome",
    "components",
];

/// The input does not follow the format at this byte.
#[derive(Clone, Copy, Debug, PartialEq, Eq)]
pub struct Malformed(pub usize);

/// What a lent buffer holds before the call.
pub fn prefilled(place: usize) -> u8 {
    ((place * 7 + 3) % 251) as u8
}

/// A buffer of so many bytes as it is lent.
fn lend(bytes: &mut Vec<u8>, places: u16) -> &mut [u8] {
    bytes.clear();
    bytes.extend((0..usize::from(places)).map(prefilled));
    bytes
}

/// A buffer of so many labels as it is lent.
fn lend_labels(labels: &mut Vec<u16>, places: u16) -> &mut [u16] {
    labels.clear();
    labels.extend((0..usize::from(places)).map(|place| u16::from(prefilled(place))));
    labels
}

/// Count and checksum of a list of numbers: h = 0, then for each number v
/// h = (h * 31 + v + 1) mod 65521.
#[derive(Clone, Copy, Debug, Default, PartialEq, Eq)]
pub struct Sum {
    count: u32,
    /// Equal to h modulo 65521.
    h: u64,
}

impl Sum {
    const MODULUS: u64 = 65521;

    pub fn add(&mut self, number: u32) {
        self.count += 1;
        self.h = self.h * 31 + u64::from(number) + 1;
        // The remainder is taken only when the next step might not fit.
        if self.h >> 56 != 0 {
            self.h %= Sum::MODULUS;
        }
    }

    pub fn of(numbers: impl IntoIterator<Item = u32>) -> Sum {
        let mut sum = Sum::default();
        numbers.into_iter().for_each(|number| sum.add(number));
        sum
    }

    pub fn of_bytes(bytes: &[u8]) -> Sum {
        Sum::of(bytes.iter().map(|byte| u32::from(*byte)))
    }

    pub fn of_labels(labels: &[u16]) -> Sum {
        Sum::of(labels.iter().map(|label| u32::from(*label)))
    }
}

impl std::fmt::Display for Sum {
    fn fmt(&self, f: &mut std::fmt::Formatter) -> std::fmt::Result {
        write!(f, "{}:{}", self.count, self.h % Sum::MODULUS)
    }
}

impl std::fmt::Display for Search {
    fn fmt(&self, f: &mut std::fmt::Formatter) -> std::fmt::Result {
        match self {
            Search::Checking(count, lost) => write!(f, "Checking {count} {lost}"),
            Search::Halving(low, high, lost) => write!(f, "Halving {low} {high} {lost}"),
            Search::AllUp => write!(f, "AllUp"),
            Search::Down(place) => write!(f, "Down {place}"),
        }
    }
}

impl std::fmt::Display for Console {
    fn fmt(&self, f: &mut std::fmt::Formatter) -> std::fmt::Result {
        match self.search {
            Some(Begun { switch, search }) => write!(f, "{} from {switch} {search}", self.set),
            None => write!(f, "{} none", self.set),
        }
    }
}

/// The kind of a search in the case format, and its two numbers.
fn kind_and_numbers(search: Search) -> (u8, u16, u16) {
    match search {
        Search::Checking(count, _) => (0, count, 0),
        Search::Halving(low, high, _) => (1, low, high),
        Search::AllUp => (2, 0, 0),
        Search::Down(place) => (3, place, 0),
    }
}

/// A desk by the checksum of 14 numbers for each console: the eight bytes of
/// its set, low byte first; whether it has a search; the switch, the kind and
/// the two numbers of the search, and the sendings lost so far. The last six are
/// 0 without a search.
fn sum_of_desk(desk: &Desk) -> Sum {
    Sum::of(desk.console.iter().flat_map(|console| {
        let set = console.set.to_le_bytes().map(u32::from);
        let search = match console.search {
            Some(Begun { switch, search }) => {
                let (kind, a, b) = kind_and_numbers(search);
                let numbers = [a.into(), b.into(), search.lost().into()];
                [[1, switch.into(), kind.into()], numbers]
            }
            None => [[0; 3]; 2],
        };
        set.into_iter().chain(search.into_iter().flatten())
    }))
}

/// What follows the tag of a link out of service in the checksum of the links.
const OUT_OF_SERVICE: u32 = 255;

/// A plant's header values, and its links by their checksum.
struct Shown<'a>(&'a Plant);

impl std::fmt::Display for Shown<'_> {
    fn fmt(&self, f: &mut std::fmt::Formatter) -> std::fmt::Result {
        let Shown(plant) = self;
        let links = plant.records().iter().flat_map(|link| {
            let fields = [
                u32::from(link.first),
                u32::from(link.second),
                u32::from(link.tag),
            ];
            let mark = link.out_of_service.then_some(OUT_OF_SERVICE);
            fields.into_iter().chain(mark)
        });
        write!(
            f,
            "{} {} {} {}",
            plant.switches,
            plant.links,
            plant.start,
            Sum::of(links)
        )
    }
}

/// A run: the word for its fate, that for home being given, the hops made and
/// the switch last reached.
struct Told(&'static str, Run);

impl std::fmt::Display for Told {
    fn fmt(&self, f: &mut std::fmt::Formatter) -> std::fmt::Result {
        let Told(home, run) = self;
        let word = match run.fate() {
            Fate::Home => home,
            Fate::Lost => "lost",
        };
        write!(f, "{word} {} {}", run.hops, run.last)
    }
}

/// Takes arguments from the input in turn.
struct Input<'a> {
    bytes: &'a [u8],
    at: usize,
}

impl<'a> Input<'a> {
    fn take(&mut self, length: usize) -> Result<&'a [u8], Malformed> {
        let taken = self
            .bytes
            .get(self.at..self.at + length)
            .ok_or(Malformed(self.at))?;
        self.at += length;
        Ok(taken)
    }

    fn byte(&mut self) -> Result<u8, Malformed> {
        Ok(self.take(1)?[0])
    }

    fn word(&mut self) -> Result<u16, Malformed> {
        let field = self.take(2)?;
        Ok(u16::from_le_bytes([field[0], field[1]]))
    }

    fn string(&mut self) -> Result<&'a [u8], Malformed> {
        let length = self.word()?;
        self.take(usize::from(length))
    }

    fn labels(&mut self, into: &mut Vec<u16>) -> Result<(), Malformed> {
        let count = self.word()?;
        let bytes = self.take(2 * usize::from(count))?;
        into.clear();
        into.extend(
            bytes
                .chunks_exact(2)
                .map(|pair| u16::from_le_bytes([pair[0], pair[1]])),
        );
        Ok(())
    }

    fn search(&mut self) -> Result<Search, Malformed> {
        let at = self.at;
        let (kind, a, b) = (self.byte()?, self.word()?, self.word()?);
        match (kind, a, b, self.byte()?) {
            (0, count, 0, lost) => Ok(Search::Checking(count, lost)),
            (1, low, high, lost) => Ok(Search::Halving(low, high, lost)),
            (2, 0, 0, 0) => Ok(Search::AllUp),
            (3, place, 0, 0) => Ok(Search::Down(place)),
            _ => Err(Malformed(at)),
        }
    }

    fn plant(&mut self) -> Result<Plant, Malformed> {
        let mut plant = Plant::EMPTY;
        plant.switches = self.byte()?;
        plant.links = self.word()?;
        plant.start = self.byte()?;
        let at = self.at;
        let given = usize::from(self.word()?);
        for place in plant.link.get_mut(..given).ok_or(Malformed(at))? {
            *place = Link {
                first: self.byte()?,
                second: self.byte()?,
                tag: self.word()?,
                out_of_service: false,
            };
        }
        Ok(plant)
    }

    /// A plant, and a string that tells of each link place whether it is out of
    /// service: any byte but 0 says so. Bytes past the last place tell nothing.
    fn marked_plant(&mut self) -> Result<Plant, Malformed> {
        let mut plant = self.plant()?;
        for (place, mark) in plant.link.iter_mut().zip(self.string()?) {
            place.out_of_service = *mark != 0;
        }
        Ok(plant)
    }

    /// A set of switches: eight bytes, low byte first.
    fn set(&mut self) -> Result<u64, Malformed> {
        let mut bytes = [0; 8];
        bytes.copy_from_slice(self.take(8)?);
        Ok(u64::from_le_bytes(bytes))
    }

    /// A desk. The bytes of a search that is not there tell nothing.
    fn desk(&mut self) -> Result<Desk, Malformed> {
        let mut desk = Desk::default();
        for console in &mut desk.console {
            console.set = self.set()?;
            if self.byte()? != 0 {
                console.search = Some(Begun {
                    switch: self.byte()?,
                    search: self.search()?,
                });
            } else {
                self.take(NO_SEARCH.len())?;
            }
        }
        Ok(desk)
    }
}

/// What stands for the switch and the search of a console that has none.
const NO_SEARCH: [u8; 7] = [0; 7];

/// Answers cases in turn, with memory that is used again.
#[derive(Default)]
pub struct Answerer {
    labels: Vec<u16>,
    bytes: Vec<u8>,
    places: Vec<u16>,
}

/// The call of a case, and its refusal if it was refused.
pub type Outcome = (u8, Option<Refusal>);

impl Answerer {
    /// Answers the case at `at` of the input on a line of the output.
    /// Returns the call, its refusal and where the next case begins.
    pub fn answer(
        &mut self,
        input: &[u8],
        at: usize,
        output: &mut Vec<u8>,
    ) -> Result<(Outcome, usize), Malformed> {
        let mut input = Input { bytes: input, at };
        let call = input.byte()?;
        let refusal = self.line(call, &mut input, output)?;
        Ok(((call, refusal), input.at))
    }

    fn line(
        &mut self,
        call: u8,
        input: &mut Input,
        output: &mut Vec<u8>,
    ) -> Result<Option<Refusal>, Malformed> {
        // The buffer's checksum ends the line of a call that was lent one.
        let mut lent = None;
        let refusal = {
            let mut put = |part: std::fmt::Arguments| {
                // Writing to a vector does not fail.
                let _ = output.write_fmt(part);
            };
            match self.call(call, input, &mut put, &mut lent)? {
                Ok(()) => None,
                Err(refusal) => {
                    put(format_args!("refused {}", refusal.number()));
                    Some(refusal)
                }
            }
        };
        if let Some(sum) = lent {
            let _ = write!(output, " {sum}");
        }
        output.push(b'\n');
        Ok(refusal)
    }

    fn call(
        &mut self,
        call: u8,
        input: &mut Input,
        put: &mut dyn FnMut(std::fmt::Arguments),
        lent: &mut Option<Sum>,
    ) -> Result<Result<(), Refusal>, Malformed> {
        let called_at = input.at - 1;
        let labels = &mut self.labels;
        Ok(match call {
            1 => calls::read(input.string()?).map(|plant| put(format_args!("{}", Shown(&plant)))),
            2 | 28 => {
                let plant = if call == 2 {
                    input.plant()?
                } else {
                    input.marked_plant()?
                };
                let buffer = lend(&mut self.bytes, input.word()?);
                let answer = calls::write(&plant, buffer);
                *lent = Some(Sum::of_bytes(buffer));
                answer.map(|length| put(format_args!("{length}")))
            }
            3 => calls::summary(input.string()?).map(|sum| {
                put(format_args!(
                    "{} {} {} {} {}",
                    sum.switches, sum.links, sum.bridges, sum.rules, sum.hops
                ))
            }),
            4 => calls::bridges(input.string()?).map(|(count, flags)| {
                let flags = flags[..count].iter().map(|flag| u32::from(*flag));
                put(format_args!("{}", Sum::of(flags)))
            }),
            5 => calls::rules(input.string()?).map(|page| {
                let numbers = page.rules().iter().flat_map(|rule| {
                    [
                        u32::from(rule.from),
                        u32::from(rule.label),
                        u32::from(rule.to),
                    ]
                });
                put(format_args!("{}", Sum::of(numbers)))
            }),
            6 => {
                let listing = input.string()?;
                let buffer = lend_labels(&mut self.places, input.word()?);
                let answer = calls::trail(listing, buffer);
                *lent = Some(Sum::of_labels(buffer));
                answer.map(|hops| put(format_args!("{hops}")))
            }
            7 => {
                let (listing, switch) = (input.string()?, input.byte()?);
                input.labels(labels)?;
                let states = input.string()?;
                calls::run(listing, switch, labels, states)
                    .map(|run| put(format_args!("{}", Told("ended", run))))
            }
            8 => {
                let (listing, switch) = (input.string()?, input.byte()?);
                input.labels(labels)?;
                let states = input.string()?;
                calls::full_check(listing, switch, labels, states)
                    .map(|run| put(format_args!("{}", Told("returned", run))))
            }
            9 => {
                let (listing, switch) = (input.string()?, input.byte()?);
                input.labels(labels)?;
                calls::order(listing, switch, labels).map(|order| {
                    let links = order.links().iter().map(|link| u32::from(*link));
                    put(format_args!("{}", Sum::of(links)))
                })
            }
            10 => {
                let (listing, switch) = (input.string()?, input.byte()?);
                input.labels(labels)?;
                let search = input.search()?;
                calls::outward(listing, switch, labels, search).map(|(one, two)| {
                    let outward = one.iter().chain(two).map(|label| u32::from(*label));
                    put(format_args!("{}", Sum::of(outward)))
                })
            }
            11 => {
                let (listing, switch) = (input.string()?, input.byte()?);
                input.labels(labels)?;
                let (states, search) = (input.string()?, input.search()?);
                calls::run_probe(listing, switch, labels, states, search)
                    .map(|run| put(format_args!("{}", Told("returned", run))))
            }
            12 => {
                let (listing, switch) = (input.string()?, input.byte()?);
                input.labels(labels)?;
                let search = input.search()?;
                calls::link_named(listing, switch, labels, search).map(|named| match named {
                    calls::Named::Link(link) => put(format_args!("link {link}")),
                    calls::Named::None => put(format_args!("none")),
                    calls::Named::Open => put(format_args!("open")),
                })
            }
            13 => calls::new_search(input.string()?, input.byte()?)
                .map(|search| put(format_args!("{search}"))),
            14 => calls::ask(input.search()?).map(|m| put(format_args!("{m}"))),
            15 => {
                let (search, outcome) = (input.search()?, input.byte()?);
                calls::give(search, outcome != 0).map(|search| put(format_args!("{search}")))
            }
            16 => {
                let (listing, switch) = (input.string()?, input.byte()?);
                calls::perform(listing, switch, input.string()?).map(|(search, probes, packets)| {
                    put(format_args!("{search} {probes} {packets}"))
                })
            }
            17 => calls::quantity(input.word()?, input.byte()?)
                .map(|number| put(format_args!("{number}"))),
            18 => {
                let listing = input.string()?;
                let buffer = lend(&mut self.bytes, input.word()?);
                let answer = calls::rewrite(listing, buffer);
                *lent = Some(Sum::of_bytes(buffer));
                answer.map(|length| put(format_args!("{length}")))
            }
            19 | 29 => {
                let plant = if call == 19 {
                    input.plant()?
                } else {
                    input.marked_plant()?
                };
                let buffer = lend(&mut self.bytes, input.word()?);
                let answer = calls::reread(&plant, buffer);
                *lent = Some(Sum::of_bytes(buffer));
                answer.map(|plant| put(format_args!("{}", Shown(&plant))))
            }
            20 => {
                put(format_args!("{}", calls::allowance(input.word()?)));
                Ok(())
            }
            // Call 7 for a packet of the first list, so many times, and then
            // the second.
            21 => {
                let (listing, switch) = (input.string()?, input.byte()?);
                input.labels(labels)?;
                let times = input.word()?;
                let packet = &mut self.places;
                packet.clear();
                for _ in 0..times {
                    packet.extend_from_slice(labels);
                }
                input.labels(labels)?;
                packet.extend_from_slice(labels);
                calls::run(listing, switch, packet, input.string()?)
                    .map(|run| put(format_args!("{}", Told("ended", run))))
            }
            22 => calls::by_switch(input.string()?).map(|by| {
                let rules = by.rules.iter().map(|count| u32::from(*count));
                put(format_args!("{} {}", by.total, Sum::of(rules)))
            }),
            23 => {
                let (listing, percent) = (input.string()?, input.byte()?);
                let buffer = lend(&mut self.bytes, input.word()?);
                let answer = calls::page_written(listing, percent, buffer);
                *lent = Some(Sum::of_bytes(buffer));
                answer.map(|length| put(format_args!("{length}")))
            }
            24 => calls::page_read(input.string()?).map(|counts| {
                let sum = |list: &[u16]| Sum::of(list.iter().map(|count| u32::from(*count)));
                put(format_args!(
                    "{} {} {} {} {}",
                    counts.switches,
                    counts.total,
                    counts.quantity,
                    sum(&counts.rules),
                    sum(&counts.links)
                ))
            }),
            25 => {
                let listing = input.string()?;
                let buffer = lend_labels(&mut self.places, input.word()?);
                let answer = calls::round_trail(listing, buffer);
                *lent = Some(Sum::of_labels(buffer));
                answer.map(|hops| put(format_args!("{hops}")))
            }
            26 => {
                let (listing, switch) = (input.string()?, input.byte()?);
                input.labels(labels)?;
                let states = input.string()?;
                calls::round_run(listing, switch, labels, states)
                    .map(|run| put(format_args!("{}", Told("returned", run))))
            }
            27 => {
                let (listing, switch) = (input.string()?, input.byte()?);
                let round = &mut self.places;
                input.labels(labels)?;
                input.labels(round)?;
                calls::choice(listing, switch, labels, round).map(|choice| {
                    let (word, hops) = match choice {
                        Choice::Trail(hops) => ("trail", hops),
                        Choice::Round(hops) => ("round", hops),
                    };
                    put(format_args!("{word} {}", Sum::of_labels(hops)))
                })
            }
            30..=32 => {
                let (listing, mut desk) = (input.string()?, input.desk()?);
                let console = input.byte()?;
                let answer = match call {
                    30 => calls::new_set(listing, &mut desk, console, input.set()?),
                    31 => calls::start(listing, &mut desk, console, input.byte()?),
                    _ => calls::outcome(listing, &mut desk, console, input.byte()? != 0),
                };
                *lent = Some(sum_of_desk(&desk));
                answer.map(|console| put(format_args!("{console}")))
            }
            // Of each component its first switch, and where its trail and its
            // round trail begin, each followed by its hops.
            33 => calls::components(input.string()?).map(|components| {
                let numbers = components.iter().flat_map(|component| {
                    let (trail, round) = (&component.trail, &component.round);
                    [
                        u32::from(component.first),
                        trail.start as u32,
                        trail.len() as u32,
                        round.start as u32,
                        round.len() as u32,
                    ]
                });
                put(format_args!("{}", Sum::of(numbers)))
            }),
            _ => return Err(Malformed(called_at)),
        })
    }
}

/// Builds the bytes of one case.
#[derive(Clone, Debug, Default)]
pub struct Case {
    pub bytes: Vec<u8>,
}

impl Case {
    pub fn new(call: u8) -> Case {
        Case { bytes: vec![call] }
    }

    pub fn byte(mut self, number: u8) -> Case {
        self.bytes.push(number);
        self
    }

    /// A number of two bytes. Larger ones do not occur.
    pub fn word(mut self, number: usize) -> Case {
        self.bytes.extend((number as u16).to_le_bytes());
        self
    }

    pub fn string(self, string: &[u8]) -> Case {
        let mut case = self.word(string.len());
        case.bytes.extend(string);
        case
    }

    pub fn labels(self, labels: &[u16]) -> Case {
        labels.iter().fold(self.word(labels.len()), |case, label| {
            case.word(usize::from(*label))
        })
    }

    pub fn search(self, search: Search) -> Case {
        let (kind, a, b) = kind_and_numbers(search);
        let numbers = self.byte(kind).word(usize::from(a)).word(usize::from(b));
        numbers.byte(search.lost())
    }

    /// A plant value of which only the first `given` link places are told, and
    /// no mark.
    pub fn plant(self, plant: &Plant, given: usize) -> Case {
        let head = self
            .byte(plant.switches)
            .word(usize::from(plant.links))
            .byte(plant.start)
            .word(given);
        plant.link[..given].iter().fold(head, |case, link| {
            case.byte(link.first)
                .byte(link.second)
                .word(usize::from(link.tag))
        })
    }

    /// A plant value as above, and the bytes that tell of its link places
    /// whether they are out of service.
    pub fn marked_plant(self, plant: &Plant, given: usize, marks: &[u8]) -> Case {
        self.plant(plant, given).string(marks)
    }

    pub fn set(mut self, set: u64) -> Case {
        self.bytes.extend(set.to_le_bytes());
        self
    }

    /// A desk, with zeros for a search that is not there.
    pub fn desk(self, desk: &Desk) -> Case {
        desk.console.iter().fold(self, |case, console| {
            let case = case.set(console.set);
            match console.search {
                Some(Begun { switch, search }) => case.byte(1).byte(switch).search(search),
                None => NO_SEARCH.into_iter().fold(case.byte(0), Case::byte),
            }
        })
    }
}
