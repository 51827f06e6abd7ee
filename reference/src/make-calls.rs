//! Writes the cases that `bench/calls` and `bench/stack` count.
//!
//! `make-calls OUT_DIR LISTING...` writes a file of cases for each call, named
//! as the call is here: a case for each of the listings, in turn. The arguments
//! are those of a call that is taken where the listing allows it: switch 0, the
//! listing's own trail and round trail, all links up, buffers that are just long
//! enough, a spare of 10 percent, a console with every switch in its set. A
//! packet has the first eight labels of the ring. A search is a new one, over
//! the links of the component of switch 0; the probe wanted is that of the
//! first halving, and the link named the last of the order. Without a link
//! there are neither, and the search is All up.

use reference::calls;
use reference::cases::Case;
use reference::desk::{Begun, Desk};
use reference::listing;
use reference::make;
use reference::net::Net;
use reference::packet;
use reference::page::{self, Counts};
use reference::plant::Refusal;
use reference::round::Round;
use reference::search::Search;
use reference::trail::Trail;
use std::path::Path;
use std::process::ExitCode;

const SWITCH: u8 = 0;
const CONSOLE: u8 = 0;
const SPARE: u8 = 10;
const UP: u8 = 1;
/// The labels of a packet.
const LABELS: usize = 8;
/// Calls to a search: it asks, loses three sendings, asks, and two return.
const TO_A_SEARCH: [u8; 7] = [0, 2, 2, 2, 0, 1, 1];

/// The case of each call for a listing.
fn cases(listing: &[u8]) -> Result<Vec<(&'static str, Case)>, Refusal> {
    let plant = listing::read(listing)?;
    let net = Net::new(plant.clone());
    let round = Round::new(&net).labels().to_vec();
    let trail = Trail::new(&net);
    let labels = trail.to_vec();
    let own = &labels[trail.stretch(net.component_of(usize::from(SWITCH)))];
    let (rest, front) = packet::ring(own, packet::place(&net, own, usize::from(SWITCH)));
    let packet: Vec<u16> = rest.iter().chain(front).copied().take(LABELS).collect();
    let states = vec![UP; net.listed()];
    let by_label = vec![UP; 2 * net.listed()];
    let page = page::text(&Counts::new(&net, SPARE)?);

    let links = net.links_at(usize::from(SWITCH));
    let search = Search::new(links);
    let halving = search.count(false).unwrap_or(search);
    let down = match links {
        0 => Search::AllUp,
        _ => Search::Down(links),
    };
    let set = make::all_switches(plant.switches);
    let mut desk = Desk::default();
    desk.console[usize::from(CONSOLE)].set = set;
    let mut begun = desk;
    begun.console[usize::from(CONSOLE)].search = Some(Begun {
        switch: SWITCH,
        search,
    });

    let given = |call: u8| Case::new(call).string(listing);
    let at = |call: u8| given(call).byte(SWITCH);
    let held = |call: u8, desk: &Desk| given(call).desk(desk).byte(CONSOLE);
    let written = |call: u8| Case::new(call).plant(&plant, net.listed());
    let rules = calls::rules(listing)?.rules().len();
    Ok(vec![
        ("read", given(1)),
        ("write", written(2).word(listing.len())),
        ("summary", given(3)),
        ("bridges", given(4)),
        ("rules", given(5)),
        ("trail", given(6).word(labels.len())),
        ("run", at(7).labels(&packet).string(&states)),
        ("full_check", at(8).labels(&labels).string(&states)),
        ("order", at(9).labels(&labels)),
        ("outward", at(10).labels(&labels).search(halving)),
        (
            "run_probe",
            at(11).labels(&labels).string(&states).search(halving),
        ),
        ("link_named", at(12).labels(&labels).search(down)),
        ("new_search", at(13)),
        ("ask", Case::new(14).search(halving)),
        ("give", Case::new(15).search(halving).byte(UP)),
        ("perform", at(16).string(&TO_A_SEARCH)),
        ("quantity", Case::new(17).word(rules).byte(SPARE)),
        ("rewrite", given(18).word(listing.len())),
        ("reread", written(19).word(listing.len())),
        ("allowance", Case::new(20).word(usize::from(links))),
        ("by_switch", given(22)),
        ("page_written", given(23).byte(SPARE).word(page.len())),
        ("page_read", Case::new(24).string(page.as_bytes())),
        ("round_trail", given(25).word(round.len())),
        ("round_run", at(26).labels(&round).string(&by_label)),
        ("choice", at(27).labels(&labels).labels(&round)),
        ("new_set", held(30, &begun).set(set)),
        ("start", held(31, &desk).byte(SWITCH)),
        ("outcome", held(32, &begun).byte(UP)),
        ("components", given(33)),
    ])
}

/// Adds the cases of each listing to the files of their calls.
fn make(out: &Path, listings: &[String]) -> Result<(), String> {
    let mut files: Vec<(&'static str, Vec<u8>)> = Vec::new();
    for path in listings {
        let listing = std::fs::read(path).map_err(|error| format!("{path}: {error}"))?;
        let refused = |refusal: Refusal| format!("{path}: refused {}", refusal.number());
        for (number, (name, case)) in cases(&listing).map_err(refused)?.into_iter().enumerate() {
            if files.len() == number {
                files.push((name, Vec::new()));
            }
            files[number].1.extend(case.bytes);
        }
    }
    for (name, bytes) in files {
        let file = out.join(name);
        std::fs::write(&file, bytes).map_err(|error| format!("{}: {error}", file.display()))?;
    }
    Ok(())
}

fn main() -> ExitCode {
    let words: Vec<String> = std::env::args().skip(1).collect();
    let Some((out, listings)) = words.split_first() else {
        eprintln!("usage: make-calls OUT_DIR LISTING...");
        return ExitCode::FAILURE;
    };
    match make(Path::new(out), listings) {
        Ok(()) => ExitCode::SUCCESS,
        Err(error) => {
            eprintln!("{error}");
            ExitCode::FAILURE
        }
    }
}
