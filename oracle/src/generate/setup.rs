//! What a history starts with: peers, settings, room, counters and draws.

use super::{
    mix::{Numbers, SettingsRule, Twist},
    source::Source,
};
use crate::{
    hyparview::access::Counters,
    record::Peer,
    station::{Settings, DEFAULTS, RANGES},
    text::Start,
};

/// More draws than a history needs, and few enough to fit in an input.
const DRAWS: usize = 6000;

/// Numbers about 2^32 and the largest one, rising; the last but one has the low half of peer 1.
const LARGE_PEERS: [Peer; 4] = [(1 << 32) - 1, 1 << 32, (1 << 32) + 1, Peer::MAX];

/// The upper halves of wide numbers, which each lower half has in turn.
const UPPER_HALVES: [Peer; 4] = [0, 1, 1 << 31, (1 << 32) - 1];

/// The first wide numbers are those with the lower halves 2^32 - 1 and 0, the least and the largest number among them.
pub const FIRST_WIDE: usize = 2 * UPPER_HALVES.len();

/// The peers of a history, each once.
pub fn peers(source: &mut Source, rule: Numbers, (least, most): (usize, usize)) -> Vec<Peer> {
    let count = source.within(least, most);
    match rule {
        Numbers::Small => small_peers(source, count),
        Numbers::Wide => (0..count).map(wide_peer).collect(),
    }
}

/// Numbers from 0 on; in some histories two or four large ones stand in place of the last.
fn small_peers(source: &mut Source, count: usize) -> Vec<Peer> {
    let mut peers: Vec<_> = (0..count as Peer).collect();
    if source.chance(20) {
        let large = &LARGE_PEERS[if count < 8 { 2 } else { 0 }..];
        peers[count - large.len()..].copy_from_slice(large);
    }
    peers
}

/// Four numbers in a row have the same lower half: 2^32 - 1, then 0, 1 and so on.
fn wide_peer(place: usize) -> Peer {
    let lower = match (place / UPPER_HALVES.len()) as Peer {
        0 => (1 << 32) - 1,
        later => later - 1,
    };
    UPPER_HALVES[place % UPPER_HALVES.len()] << 32 | lower
}

/// Ranges of the settings for views of a few peers.
const SMALL: [(u32, u32); 9] = [
    (1, 3),
    (1, 4),
    (0, 4),
    (0, 4),
    (0, 4),
    (0, 3),
    (0, 3),
    (1, 5000),
    (1, 5000),
];

/// The largest views and counts.
const LARGE: [(u32, u32); 9] = [
    (8, 8),
    (30, 32),
    (0, 6),
    (0, 6),
    (0, 6),
    (8, 8),
    (23, 23),
    (60_000, 60_000),
    (3000, 3000),
];

/// An active view that is short for long.
const ROOMY: [(u32, u32); 9] = [
    (5, 8),
    (4, 32),
    (0, 6),
    (0, 6),
    (0, 6),
    (0, 4),
    (0, 4),
    (1, 60_000),
    (1, 5000),
];

pub fn settings(source: &mut Source, rule: SettingsRule) -> Settings {
    let any = |(least, most): (u32, u32)| {
        if least == most {
            return least;
        }
        match source.below(4) {
            0 => least,
            1 => most,
            _ => source.within(least as usize, most as usize) as u32,
        }
    };
    match rule {
        SettingsRule::Usual => DEFAULTS,
        SettingsRule::Any => RANGES.map(any),
        SettingsRule::Small => SMALL.map(any),
        SettingsRule::Large => LARGE.map(any),
        SettingsRule::Roomy => ROOMY.map(any),
    }
}

pub fn start(source: &mut Source, twist: Twist) -> Start {
    let mut start = Start::default();
    match twist {
        Twist::SmallRoom => {
            let most = source.one_of(&[200, 1000]);
            start.room = source.below(most);
        }
        Twist::HighCounters => {
            start.counters = Some(Counters {
                next_request: u64::MAX - source.below(4) as u64,
                next_join: u64::MAX - source.below(4) as u64,
                passes_alone: u32::MAX - source.below(3) as u32,
                passes_short: u32::MAX - source.below(3) as u32,
            });
        }
        _ => {}
    }
    start
}

pub fn draws(source: &mut Source, twist: Twist) -> Vec<u32> {
    let count = match twist {
        Twist::ShortDraws => source.below(60),
        _ => DRAWS,
    };
    let high = if twist == Twist::HighDraws { 50 } else { 0 };
    let draw = |source: &mut Source| match source.below(10) {
        _ if high > 0 && source.chance(high) => u32::MAX - source.below(32) as u32,
        0 => 0,
        1 => u32::MAX - source.below(4) as u32,
        2..5 => source.below(64) as u32,
        _ => source.next() as u32,
    };
    (0..count).map(|_| draw(source)).collect()
}
