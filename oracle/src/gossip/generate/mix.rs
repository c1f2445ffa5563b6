//! The mixes: what kind of histories the generator makes for the broadcast half.

use crate::{generate::mix::Numbers, machine::Machine};

/// One way to make an event. In a joined history the first three are events of the membership half.
#[derive(Clone, Copy, Debug, PartialEq, Eq)]
pub enum Act {
    Up,
    Down,
    Quit,
    /// A Gossip of a body that was not received.
    New,
    /// A Gossip of a body that was.
    Again,
    /// A Gossip of a body that was announced.
    Missing,
    /// A Gossip of a body that was asked for, most often from a peer that was asked.
    Late,
    /// A Gossip under another id than its body's.
    False,
    Broadcast,
    Prune,
    IHave,
    /// An IHave of many ids.
    Announce,
    Graft,
    SendGraft,
    Dispatch,
    Evict,
    /// A Gossip or a broadcast of a body over 256 bytes.
    Long,
    Damaged,
}

/// The bodies of a history.
#[derive(Clone, Copy, PartialEq, Eq)]
pub enum Bodies {
    /// So many, of a few bytes.
    Few(usize),
    /// As many, of lengths at the edges of a block and at the largest.
    Edges(usize),
    /// As many of 256 bytes.
    Full(usize),
}

/// How the times of events go.
#[derive(Clone, Copy, PartialEq, Eq)]
pub enum Clock {
    /// By some milliseconds, seldom by seconds, and in a few histories near the largest time.
    Usual,
    /// By less than it takes for anything to expire.
    Slow,
    /// Often by the times after which entries go, and back.
    Leaps,
}

/// The room for the output.
#[derive(Clone, Copy, PartialEq, Eq)]
pub enum Room {
    /// 8,192 bytes.
    Whole,
    /// Some hundred bytes.
    Small,
    /// One or two records (9 at a dispatch and at a Graft's answer).
    Tight,
}

pub struct Mix {
    pub name: &'static str,
    pub acts: &'static [(Act, usize)],
    pub peers: (usize, usize),
    pub numbers: Numbers,
    pub bodies: Bodies,
    pub clock: Clock,
    pub room: Room,
    /// Of 100 events of a joined history so many are of the membership half, by its mix of this name.
    pub swarm: (usize, &'static str),
}

use Act::*;

const EVEN: &[(Act, usize)] = &[
    (Up, 6),
    (Down, 3),
    (Quit, 1),
    (New, 5),
    (Again, 4),
    (Missing, 4),
    (Late, 3),
    (False, 1),
    (Broadcast, 3),
    (Prune, 3),
    (IHave, 6),
    (Graft, 4),
    (SendGraft, 5),
    (Dispatch, 3),
    (Evict, 2),
];

const ORDERS: &[(Act, usize)] = &[
    (Up, 4),
    (Down, 1),
    (New, 8),
    (Again, 4),
    (Broadcast, 4),
    (Prune, 4),
    (Graft, 4),
    (Dispatch, 2),
    (Evict, 1),
];

const GRAFTING: &[(Act, usize)] = &[
    (Up, 3),
    (Down, 1),
    (IHave, 8),
    (SendGraft, 10),
    (Missing, 4),
    (Late, 12),
    (Again, 2),
    (Prune, 2),
    (Graft, 1),
    (Evict, 1),
];

const OPTIMIZING: &[(Act, usize)] = &[
    (Up, 3),
    (Down, 1),
    (Prune, 5),
    (IHave, 10),
    (Missing, 10),
    (SendGraft, 1),
    (Dispatch, 1),
];

const RECEIVING: &[(Act, usize)] = &[
    (Up, 2),
    (New, 24),
    (Broadcast, 6),
    (Again, 2),
    (Dispatch, 2),
    (Graft, 1),
];

const ANNOUNCING: &[(Act, usize)] = &[
    (Up, 4),
    (IHave, 3),
    (Announce, 6),
    (SendGraft, 2),
    (Missing, 1),
    (Prune, 1),
];

const TIMING: &[(Act, usize)] = &[(Up, 6), (Down, 6), (Announce, 6), (IHave, 2)];

const ASKING: &[(Act, usize)] = &[
    (Up, 2),
    (Announce, 3),
    (IHave, 2),
    (SendGraft, 40),
    (Late, 1),
];

const QUEUEING: &[(Act, usize)] = &[
    (Up, 3),
    (Prune, 6),
    (New, 8),
    (Broadcast, 6),
    (Graft, 1),
    (Down, 1),
];

const CROWD: &[(Act, usize)] = &[
    (Up, 12),
    (Down, 2),
    (Prune, 2),
    (New, 2),
    (IHave, 1),
    (Quit, 1),
];

const AGEING: &[(Act, usize)] = &[
    (Up, 2),
    (New, 4),
    (Again, 4),
    (Broadcast, 3),
    (Graft, 3),
    (IHave, 2),
    (SendGraft, 3),
    (Late, 3),
    (Evict, 8),
];

const LARGEST: &[(Act, usize)] = &[
    (Up, 4),
    (New, 6),
    (Broadcast, 2),
    (Announce, 3),
    (Prune, 2),
    (Dispatch, 2),
    (Graft, 2),
];

const TIGHT: &[(Act, usize)] = &[
    (Up, 4),
    (Prune, 6),
    (Broadcast, 6),
    (New, 3),
    (Graft, 5),
    (Dispatch, 4),
    (IHave, 2),
    (SendGraft, 2),
    (Evict, 1),
];

const DAMAGED: &[(Act, usize)] = &[
    (Damaged, 12),
    (Up, 2),
    (New, 1),
    (Broadcast, 1),
    (Prune, 1),
    (IHave, 1),
    (Graft, 1),
    (SendGraft, 1),
    (Dispatch, 1),
    (Evict, 1),
];

const LONG: &[(Act, usize)] = &[
    (Up, 2),
    (Long, 6),
    (New, 2),
    (Again, 1),
    (Broadcast, 1),
    (Prune, 1),
];

const fn mix(name: &'static str, acts: &'static [(Act, usize)], bodies: Bodies) -> Mix {
    Mix {
        name,
        acts,
        peers: (3, 12),
        numbers: Numbers::Small,
        bodies,
        clock: Clock::Usual,
        room: Room::Whole,
        swarm: (30, "usual"),
    }
}

const fn slow(mix: Mix) -> Mix {
    Mix {
        clock: Clock::Slow,
        ..mix
    }
}

const fn among(peers: (usize, usize), swarm: (usize, &'static str), mix: Mix) -> Mix {
    Mix {
        peers,
        swarm,
        ..mix
    }
}

const fn within(room: Room, mix: Mix) -> Mix {
    Mix { room, ..mix }
}

pub const MIXES: &[Mix] = &[
    mix("even", EVEN, Bodies::Few(30)),
    among((2, 5), (40, "tiny"), mix("tiny", EVEN, Bodies::Few(6))),
    mix("orders", ORDERS, Bodies::Edges(24)),
    mix("grafting", GRAFTING, Bodies::Few(40)),
    mix("optimizing", OPTIMIZING, Bodies::Few(60)),
    slow(mix("receiving", RECEIVING, Bodies::Few(90))),
    slow(mix("announcing", ANNOUNCING, Bodies::Few(40))),
    slow(mix("timing", TIMING, Bodies::Few(20))),
    slow(mix("asking", ASKING, Bodies::Few(20))),
    slow(among(
        (6, 14),
        (30, "crowded"),
        mix("queueing", QUEUEING, Bodies::Few(50)),
    )),
    among(
        (10, 20),
        (60, "arriving"),
        mix("crowd", CROWD, Bodies::Few(10)),
    ),
    Mix {
        clock: Clock::Leaps,
        ..mix("ageing", AGEING, Bodies::Few(20))
    },
    among(
        (8, 14),
        (30, "crowded"),
        mix("largest", LARGEST, Bodies::Full(30)),
    ),
    mix("damaged", DAMAGED, Bodies::Few(6)),
    mix("long", LONG, Bodies::Edges(6)),
    within(Room::Small, mix("room", EVEN, Bodies::Edges(24))),
    within(Room::Tight, mix("tight", TIGHT, Bodies::Few(24))),
    Mix {
        numbers: Numbers::Wide,
        swarm: (30, "wide"),
        ..mix("wide", EVEN, Bodies::Few(30))
    },
];

/// Of joined histories alone: the membership half runs out of draws, or asks more peers than it may.
pub const JOINED: &[Mix] = &[
    among((2, 2), (60, "short"), mix("short", EVEN, Bodies::Few(30))),
    among(
        (2, 2),
        (80, "asking"),
        mix("requests", EVEN, Bodies::Few(30)),
    ),
];

/// The mixes of a machine of the broadcast half.
pub fn of(machine: Machine) -> impl Iterator<Item = &'static Mix> {
    let joined = (machine == Machine::Topic).then_some(JOINED);
    MIXES.iter().chain(joined.into_iter().flatten())
}

pub fn named(machine: Machine, name: &str) -> Option<&'static Mix> {
    of(machine).find(|mix| mix.name == name)
}
