//! The state as the 559 words that a controller is lent: its numbers, then a section for each set and map.

use std::fmt::Write;

use rand::Draws;

use crate::{
    hyparview::access::{Parts, Refill},
    input::Input,
    record::{Peer, MOST_DATA},
    station::{Settings, Station},
    text::Start,
};

// The words of a state, by tools/make/layout.py
pub const WORDS: usize = 559;
// end

/// The words of a state, in the order of the layout; `None` where a list has more than its places.
pub fn words(me: Peer, settings: &Settings, parts: &Parts) -> Option<Vec<u64>> {
    let own = parts.me_data.as_deref();
    let (low, high) = halves(own.unwrap_or_default())?;
    let (kind, left) = match parts.refill {
        Refill::Automatic => (0, 0),
        Refill::Requests(left) => (1, left as u64),
        Refill::Recovery => (2, 0),
    };
    let counters = &parts.counters;
    let mut words = vec![me, own.is_some().into(), own.map_or(0, <[u8]>::len) as u64];
    words.extend(settings.map(u64::from));
    words.extend([u64::from(parts.timers), parts.interval]);
    words.extend([counters.passes_alone, counters.passes_short].map(u64::from));
    words.extend([
        kind,
        left,
        counters.next_request,
        counters.next_join,
        low,
        high,
    ]);
    // The sections, by tools/make/layout.py
    words.extend(section(8, &set(&parts.active))?);
    words.extend(section(32, &set(&parts.passive))?);
    words.extend(section(32, &set(&parts.alive))?);
    words.extend(section(32, &set(&parts.refused))?);
    words.extend(section(32, &map(&parts.requests))?);
    words.extend(section(8, &set(&parts.bootstrap))?);
    words.extend(section(8, &set(&parts.recent))?);
    words.extend(section(8, &map(&parts.joins))?);
    words.extend(section(80, &data(&parts.data)?)?);
    words.extend(section(7, &set(&parts.pins))?);
    // end
    assert_eq!(words.len(), WORDS);
    Some(words)
}

fn set(peers: &[Peer]) -> Vec<[u64; 1]> {
    peers.iter().map(|peer| [*peer]).collect()
}

fn map(numbers: &[(Peer, u64)]) -> Vec<[u64; 2]> {
    let row = |(peer, number): &(Peer, u64)| [*peer, *number];
    numbers.iter().map(row).collect()
}

fn data(entries: &[(Peer, Vec<u8>)]) -> Option<Vec<[u64; 4]>> {
    let row = |(peer, bytes): &(Peer, Vec<u8>)| {
        let (low, high) = halves(bytes)?;
        Some([*peer, bytes.len() as u64, low, high])
    };
    entries.iter().map(row).collect()
}

/// At most 16 bytes as two little-endian words.
fn halves(bytes: &[u8]) -> Option<(u64, u64)> {
    let mut all = [0; MOST_DATA];
    all.get_mut(..bytes.len())?.copy_from_slice(bytes);
    let number = u128::from_le_bytes(all);
    Some((number as u64, (number >> 64) as u64))
}

/// A column of `places` words for each part of a row, zeroes after the last row, then the count.
fn section<const N: usize>(places: usize, rows: &[[u64; N]]) -> Option<Vec<u64>> {
    let unused = places.checked_sub(rows.len())?;
    let mut words = Vec::new();
    for column in 0..N {
        words.extend(rows.iter().map(|row| row[column]));
        words.extend(vec![0; unused]);
    }
    words.push(rows.len() as u64);
    Some(words)
}

/// A line for the new station's state and one for the state after each event: the words, in base ten.
pub fn run(input: &[u8], start: Start) -> String {
    let mut text = String::new();
    let Some(input) = Input::read(input) else {
        return text;
    };
    let draws = Draws::new(&input.draws[..]);
    let Some(mut station) = Station::new(input.me, &input.settings, draws) else {
        return text;
    };
    station.start(start);
    let mut tell = |station: &Station| {
        let words = words(input.me, &input.settings, &station.parts()).expect("a state fits");
        let words: Vec<_> = words.iter().map(u64::to_string).collect();
        writeln!(text, "{}", words.join(" ")).unwrap();
    };
    tell(&station);
    for event in &input.events {
        station.handle(event, start.room);
        tell(&station);
    }
    text
}
