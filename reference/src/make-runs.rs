//! Writes the listings that the gate gives to the programs `rules` and
//! `buying`.
//!
//! `make-runs OUT_DIR` writes the cases of documents 01 and 02, plants of known
//! shapes and plants drawn by chance, sound listings of many lengths up to the
//! longest, listings that meet each of the refusals 1 to 8, and inputs that are
//! longer than any sound listing. Each file is named for what it is.

use reference::listing;
use reference::make::{self, Chance, Sketch};
use reference::plant::{Link, Plant};
use std::path::Path;
use std::process::ExitCode;

const SEED: u64 = 37;

const SWITCHES: usize = Plant::MAX_SWITCHES;
const LINKS: usize = Plant::MAX_LINKS;
const LONGEST: usize = Plant::MAX_LISTING;

/// Plants drawn by chance.
const PLANTS: usize = 160;
/// Listings for each refusal: with any damage, and at a link out of service.
const DAMAGED: usize = 12;
const FAULTY: usize = 4;
/// The lengths of sound listings go up in steps of so many bytes, and the last
/// lengths one by one.
const STEP: usize = 7;
const LAST: usize = 6;
/// The lengths of inputs that are longer than any sound listing.
const LONGER: [usize; 10] = [
    LONGEST + 1,
    LONGEST + 2,
    2048,
    4095,
    4096,
    4097,
    4098,
    8192,
    65_537,
    100_000,
];

type Run = (String, Vec<u8>);

fn main() -> ExitCode {
    let Some(out) = std::env::args().nth(1) else {
        eprintln!("usage: make-runs OUT_DIR");
        return ExitCode::FAILURE;
    };
    let chance = &mut Chance::new(SEED);
    let mut runs = cases();
    runs.extend(shapes(chance));
    runs.extend((0..PLANTS).map(|number| {
        let plant = some_plant(chance);
        (format!("plant-{number:03}"), make::listing_of(&plant))
    }));
    runs.extend(lengths(chance));
    runs.extend(refusals(chance));
    runs.extend(longer(chance));
    for (name, bytes) in runs {
        let file = Path::new(&out).join(name + ".listing");
        if let Err(error) = std::fs::write(&file, bytes) {
            eprintln!("{}: {error}", file.display());
            return ExitCode::FAILURE;
        }
    }
    ExitCode::SUCCESS
}

/// Cases that documents 01 and 02 write out, and others as small.
fn cases() -> Vec<Run> {
    let listings: [&[u8]; 26] = [
        &[],
        &[0],
        &[8],
        &[1],
        &[1, 1],
        &[1, 0],
        &[1, 64],
        &[1, 65],
        &[0, 0],
        // Two switches and one link; and the link out of service.
        &[3, 2, 1, 0, 2, 1],
        &[3, 2, 1, 0, 10, 1],
        // A triangle; and its last link out of service.
        &[3, 3, 3, 0, 2, 1, 3, 1, 2, 3, 2, 0],
        &[3, 3, 3, 0, 2, 1, 3, 1, 2, 11, 2, 0],
        // Three parallel links; one out of service; all.
        &[3, 2, 3, 0, 2, 1, 0, 0],
        &[3, 2, 3, 0, 2, 1, 8, 0],
        &[3, 2, 3, 0, 10, 1, 8, 8],
        // A ring of three links, and a link to a fourth switch.
        &[3, 4, 4, 0, 2, 1, 3, 1, 2, 3, 2, 0, 3, 0, 3],
        // Four switches, two of them joined, the start another.
        &[7, 4, 1, 0, 3, 3, 1, 2],
        // The lowest number goes first within a part, and records go in turn.
        &[3, 1],
        &[3, 2, 1, 0, 0],
        &[3, 3, 1, 0, 3, 5, 5],
        &[3, 3, 2, 0, 3, 1, 1, 2, 9],
        &[3, 2, 1, 0, 2],
        &[3, 2, 1, 0, 2, 0],
        &[3, 2, 1, 0, 18, 1],
        &[3, 2, 1, 0, 2, 1, 0],
    ];
    let named = listings.iter().enumerate();
    named
        .map(|(number, bytes)| (format!("case-{number:02}"), bytes.to_vec()))
        .collect()
}

/// Plants of known shapes, most of them as large as can be.
fn shapes(chance: &mut Chance) -> Vec<Run> {
    let beside = |parts: Vec<Sketch>| {
        let none = Sketch::default();
        parts.iter().fold(none, |whole, part| whole.beside(part))
    };
    let eights = (0..8).map(|_| make::exact(chance, SWITCHES / 8, LINKS / 8));
    let eights = beside(eights.collect());
    let sketches = [
        ("path", make::path(SWITCHES)),
        ("star", make::star(SWITCHES)),
        ("ring", make::cycle(SWITCHES)),
        ("tree", make::tree(chance, SWITCHES)),
        ("rings", make::rings(chance, &[SWITCHES / 4; 4])),
        ("fan", make::fan(SWITCHES)),
        ("bundle", make::bundle(LINKS)),
        ("complete", make::complete(23)),
        ("table-one", make::table_one()),
        ("long", make::long(SWITCHES, LINKS - SWITCHES + 1)),
        ("deep", make::deep(chance, SWITCHES, LINKS)),
        ("full", make::exact(chance, SWITCHES, LINKS)),
        ("doubled", make::tree(chance, SWITCHES).doubled()),
        ("singles", beside(vec![make::path(1); SWITCHES])),
        ("pairs", beside(vec![make::path(2); SWITCHES / 2])),
        ("eights", eights),
    ];
    let named = sketches.iter();
    named
        .map(|(name, sketch)| {
            let bytes = make::listing_of(&sketch.plain());
            (format!("shape-{name}"), bytes)
        })
        .collect()
}

/// A plant of any size in one component or several, now and then with links out
/// of service.
fn some_plant(chance: &mut Chance) -> Plant {
    let switches = chance.of(&[2, 3, 5, 9, 20, 40, SWITCHES]);
    let links = chance.of(&[1, 4, 8, 20, 60, 150, LINKS]);
    let sketch = match chance.below(5) {
        0 | 1 => make::joined(chance, switches, links),
        2 => make::exact(chance, switches, links.max(switches - 1)),
        _ => make::several(chance, switches, links),
    };
    let plant = sketch.mixed(chance);
    match chance.below(4) {
        0 => {
            let way = chance.below(make::MARKINGS);
            let links = make::marking(chance, &plant, way);
            make::marked(plant, &links)
        }
        1 => {
            let more = chance.within(1, 9);
            make::with_unplugged(chance, &plant, more)
        }
        _ => plant,
    }
}

/// A sound listing of so many bytes, 12 at least. Each record has all its
/// fields, but that one or two of them have no tag; and the header has all but
/// the start at times.
fn of_length(chance: &mut Chance, length: usize) -> Vec<u8> {
    let links = (length - 5).div_ceil(5);
    let less = 5 + 5 * links - length;
    let (no_tags, no_start) = (less / 2, less % 2);
    let mut plant = Plant::EMPTY;
    plant.switches = chance.of(&[4, 16, 33, SWITCHES]) as u8;
    plant.links = links as u16;
    if no_start == 0 {
        plant.start = chance.within(1, usize::from(plant.switches) - 1) as u8;
    }
    let mut before = Link::default();
    for place in &mut plant.link[..links] {
        let other_than = |chance: &mut Chance, not: &[u8]| loop {
            let end = chance.below(usize::from(plant.switches)) as u8;
            if !not.contains(&end) {
                break end;
            }
        };
        place.first = other_than(chance, &[before.first]);
        place.second = other_than(chance, &[before.second, place.first]);
        place.tag = chance.within(1, usize::from(u16::MAX)) as u16;
        place.out_of_service = chance.percent(5);
        before = *place;
    }
    for place in plant.link.iter_mut().take(no_tags) {
        place.tag = 0;
    }
    let bytes = make::listing_of(&plant);
    assert_eq!(bytes.len(), length);
    bytes
}

/// Sound listings of many lengths, the longest among them twice.
fn lengths(chance: &mut Chance) -> Vec<Run> {
    let lengths = (12..LONGEST - LAST).step_by(STEP);
    let mut runs: Vec<Run> = lengths
        .chain(LONGEST - LAST..=LONGEST)
        .map(|length| (format!("length-{length:04}"), of_length(chance, length)))
        .collect();
    let longest = make::listing_of(&make::longest_listing());
    assert_eq!(longest.len(), LONGEST);
    runs.push((format!("length-{LONGEST}-all"), longest));
    runs
}

/// Listings that meet each of the refusals 1 to 8: plants drawn by chance, first
/// with any damage, then with one at a link out of service.
fn refusals(chance: &mut Chance) -> Vec<Run> {
    let mut runs = Vec::new();
    for refusal in 1..=8 {
        let meets = |bytes: &[u8]| listing::read(bytes).is_err_and(|met| met.number() == refusal);
        let mut found = 0;
        while found < DAMAGED + FAULTY {
            let plant = some_plant(chance);
            let bytes = if found < DAMAGED {
                make::damaged(chance, &plant)
            } else if plant.records().iter().any(|link| link.out_of_service) {
                make::faulty(chance, &plant, refusal)
            } else {
                continue;
            };
            if meets(&bytes) {
                runs.push((format!("refused-{refusal}-{found:02}"), bytes));
                found += 1;
            }
        }
    }
    runs
}

/// Inputs that are longer than any sound listing: a listing of few bytes, the
/// longest, and one that meets a refusal, with more bytes after them.
fn longer(chance: &mut Chance) -> Vec<Run> {
    let mut runs = Vec::new();
    for length in LONGER {
        let plant = some_plant(chance);
        let fronts = [
            ("few", make::listing_of(&make::table_one().plain())),
            ("longest", make::listing_of(&make::longest_listing())),
            ("refused", make::damaged(chance, &plant)),
        ];
        for (name, mut bytes) in fronts {
            let after = chance.below(3);
            while bytes.len() < length {
                bytes.push(match after {
                    0 => 0,
                    1 => chance.byte(),
                    _ => chance.below(4) as u8,
                });
            }
            runs.push((format!("longer-{length:06}-{name}"), bytes));
        }
    }
    runs
}
