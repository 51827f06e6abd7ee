//! Writes the listings of `bench/listings` that are made by rule.
//!
//! `make-listings OUT_DIR` writes a path, a star, a tree and a plant whose
//! visit is as deep as can be, one switch alone, plants drawn by chance, and
//! five of several components: single switches, pairs of switches, eight parts
//! drawn by chance, 21 small parts drawn by chance, and a part drawn by chance
//! beside single switches. The last two have one hop more than 512.

use reference::make::{self, Chance, Sketch};
use reference::net::Net;
use reference::plant::Plant;
use reference::trail::Trail;
use std::path::Path;
use std::process::ExitCode;

const SEED: u64 = 64;
/// The seed of the plants in several components.
const SEVERAL: u64 = 8;

const SWITCHES: usize = Plant::MAX_SWITCHES;
const LINKS: usize = Plant::MAX_LINKS;

/// The hops of the last two: from so many on the planner's program `rules` needs
/// its long page.
const HOPS: usize = 513;

/// The first of the sketches drawn whose trails have that many hops.
fn drawn_to_measure(mut draw: impl FnMut() -> Sketch) -> Sketch {
    loop {
        let sketch = draw();
        if Trail::new(&Net::new(sketch.plain())).hops == HOPS {
            return sketch;
        }
    }
}

fn main() -> ExitCode {
    let Some(out) = std::env::args().nth(1) else {
        eprintln!("usage: make-listings OUT_DIR");
        return ExitCode::FAILURE;
    };
    let chance = &mut Chance::new(SEED);
    let mut sketches: Vec<(String, Sketch)> = vec![
        ("alone".into(), make::path(1)),
        ("path".into(), make::path(SWITCHES)),
        ("star".into(), make::star(SWITCHES)),
        ("tree".into(), make::tree(chance, SWITCHES)),
        ("deep".into(), make::deep(chance, SWITCHES, LINKS)),
    ];
    for links in [SWITCHES, 128, 200] {
        sketches.push((
            format!("random-{links}"),
            make::exact(chance, SWITCHES, links),
        ));
    }
    let chance = &mut Chance::new(SEVERAL);
    let beside = |parts: Vec<Sketch>| {
        let none = Sketch::default();
        parts.iter().fold(none, |whole, part| whole.beside(part))
    };
    let singles = vec![make::path(1); SWITCHES];
    let pairs = vec![make::path(2); SWITCHES / 2];
    let eights = (0..8).map(|_| make::exact(chance, SWITCHES / 8, LINKS / 8));
    sketches.push(("singles".into(), beside(singles)));
    sketches.push(("pairs".into(), beside(pairs)));
    sketches.push(("eights".into(), beside(eights.collect())));
    let threes = || beside((0..21).map(|_| make::exact(chance, 3, 12)).collect());
    sketches.push(("threes".into(), drawn_to_measure(threes)));
    let lone = vec![make::path(1); SWITCHES - 8];
    let hub = || make::exact(chance, 8, 132).beside(&beside(lone.clone()));
    sketches.push(("hub-and-singles".into(), drawn_to_measure(hub)));
    for (name, sketch) in sketches {
        let file = Path::new(&out).join(name + ".listing");
        if let Err(error) = std::fs::write(&file, make::listing_of(&sketch.plain())) {
            eprintln!("{}: {error}", file.display());
            return ExitCode::FAILURE;
        }
    }
    ExitCode::SUCCESS
}
