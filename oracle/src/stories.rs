//! 02's S-13: every history of at most four of sixteen events, each run by the Rust from a new station, and how many end with each size of the
//! two views. The histories of n events are the numbers of n digits in base 16, so they are counted up and not generated.

use std::fmt::Write;

use rand::Draws;

use crate::{
    record::{kind, message, Node, Peer, Record},
    station::{Settings, Station, DEFAULTS, ROOM},
};

const ME: Peer = 1;
const PEERS: [Peer; 2] = [2, 3];
const LONGEST: u32 = 4;
/// 512 draws of 0 always suffice for an event.
const DRAWS: usize = 512 * LONGEST as usize;

/// How many histories end so, by active size and then passive size: 0 0, 0 1, 1 0, 1 1.
pub type Ends = [u32; 4];

fn settings() -> Settings {
    let mut settings = DEFAULTS;
    settings[0] = 1;
    settings[1] = 1;
    settings
}

fn flagged(message: u8, flags: u8, peer: Peer, nodes: Vec<Node>) -> Record {
    Record {
        flags,
        ..Record::message(message, peer, nodes)
    }
}

/// The events in the order of the request, as bytes.
pub fn events() -> Vec<Vec<u8>> {
    let node = || vec![Node::default()];
    let mut records = Vec::new();
    for peer in PEERS {
        records.extend([
            Record::of(kind::REQUEST_JOIN, peer),
            Record::message(message::JOIN, peer, node()),
            flagged(message::NEIGHBOR, 1, peer, node()),
            flagged(message::NEIGHBOR, 0, peer, node()),
            flagged(message::DISCONNECT, 1, peer, Vec::new()),
            flagged(message::DISCONNECT, 0, peer, Vec::new()),
            Record::of(kind::PEER_DISCONNECTED, peer),
        ]);
    }
    records.push(Record::of(kind::DO_MAINTENANCE, 0));
    records.push(Record::of(kind::QUIT, 0));
    records.iter().map(Record::write).collect()
}

/// Where a history ends; `Err` names one with a refused event or with a view of more than one peer.
fn end(events: &[Vec<u8>], history: &[usize]) -> Result<usize, String> {
    let draws = Draws::new(vec![0; DRAWS]);
    let mut station = Station::new(ME, &settings(), draws).expect("settings in range");
    for &event in history {
        let code = station.handle(&events[event], ROOM).code;
        if code != 0 {
            return Err(format!(
                "history {history:?}: event {event} is refused with {code}\n"
            ));
        }
    }
    let parts = station.parts();
    match (parts.active.len(), parts.passive.len()) {
        (active @ 0..=1, passive @ 0..=1) => Ok(2 * active + passive),
        sizes => Err(format!("history {history:?} ends with {sizes:?}\n")),
    }
}

/// The ends of the histories of each length, from 0 on.
pub fn by_length() -> Result<Vec<Ends>, String> {
    let events = events();
    let base = events.len();
    let of_length = |length: u32| {
        let mut ends = Ends::default();
        for number in 0..base.pow(length) {
            let digit = |place: u32| number / base.pow(place) % base;
            let history: Vec<_> = (0..length).rev().map(digit).collect();
            ends[end(&events, &history)?] += 1;
        }
        Ok(ends)
    };
    (0..=LONGEST).map(of_length).collect()
}

/// A line for each end: active size, passive size and how many end there.
fn lines(prefix: &str, ends: &Ends) -> String {
    let mut text = String::new();
    for (place, count) in ends.iter().enumerate() {
        writeln!(text, "{prefix}{} {} {count}", place / 2, place % 2).expect("a string takes text");
    }
    text
}

/// The lines for all histories, as the program `stories` prints them.
pub fn all(lengths: &[Ends]) -> String {
    let mut all = Ends::default();
    for ends in lengths {
        for (sum, count) in all.iter_mut().zip(ends) {
            *sum += count;
        }
    }
    lines("", &all)
}

/// The lines for each length in turn, with the length in front.
pub fn in_turn(lengths: &[Ends]) -> String {
    let of_length = |(length, ends)| lines(&format!("{length} "), ends);
    lengths.iter().enumerate().map(of_length).collect()
}
