//! The mixes: what kind of histories the generator makes.

/// One way to make an event.
#[derive(Clone, Copy, Debug, PartialEq, Eq)]
pub enum Act {
    Join,
    ForwardJoin,
    /// A ForwardJoin whose walk has ended, so that its peer is asked.
    ExpiredForwardJoin,
    Shuffle,
    ShuffleReply,
    /// A ShuffleReply from a peer that was asked, as before its Disconnect.
    RefusalReply,
    NeighborHigh,
    NeighborLow,
    Disconnect,
    /// An alive Disconnect from a peer that was asked.
    Refusal,
    DoShuffle,
    DoMaintenance,
    RequestTimer,
    RetryTimer,
    PeerDisconnected,
    RequestJoin,
    UpdatePeerData,
    Quit,
    /// Only in histories with pins (02, S-14).
    Pin,
    Damaged,
}

#[derive(Clone, Copy, PartialEq, Eq)]
pub enum SettingsRule {
    /// The default settings.
    Usual,
    /// Each setting at an edge of its range or anywhere in it.
    Any,
    /// Capacities and counts of a few peers.
    Small,
    /// The largest views and counts.
    Large,
    /// An active view of 5 to 8, so that a node is short for long.
    Roomy,
}

#[derive(Clone, Copy, PartialEq, Eq)]
pub enum DataRule {
    /// Absent, empty, short and 16 bytes.
    Mixed,
    /// Mostly present, empty or one byte.
    Tiny,
    /// Always 16 bytes.
    Full,
    /// Never.
    Absent,
}

/// How peers are numbered (02, S-8).
#[derive(Clone, Copy, PartialEq, Eq)]
pub enum Numbers {
    /// From 0 on; in some histories the last are about 2^32 and 2^64 - 1.
    Small,
    /// In fours that have the same lower half and different upper halves, 0 and 2^64 - 1 among them.
    Wide,
}

/// What is special about a mix's histories.
#[derive(Clone, Copy, PartialEq, Eq)]
pub enum Twist {
    None,
    /// The draw list is short (code 5).
    ShortDraws,
    /// Half of the draws are among the last 32, which choices pass over (02, S-6).
    HighDraws,
    /// The passive view and most open requests are filled first (code 8).
    Filled,
    /// A small room for the output (code 9).
    SmallRoom,
    /// Counters start near their largest values (code 10).
    HighCounters,
    /// The run program's input itself is damaged.
    DamagedInput,
}

pub struct Mix {
    pub name: &'static str,
    pub acts: &'static [(Act, usize)],
    pub settings: SettingsRule,
    /// The smallest and the largest number of peers.
    pub peers: (usize, usize),
    pub numbers: Numbers,
    pub data: DataRule,
    pub twist: Twist,
}

use Act::*;

const EVEN: &[(Act, usize)] = &[
    (Join, 3),
    (ForwardJoin, 4),
    (ExpiredForwardJoin, 2),
    (Shuffle, 4),
    (ShuffleReply, 4),
    (RefusalReply, 2),
    (NeighborHigh, 3),
    (NeighborLow, 4),
    (Disconnect, 5),
    (Refusal, 2),
    (DoShuffle, 3),
    (DoMaintenance, 4),
    (RequestTimer, 3),
    (RetryTimer, 3),
    (PeerDisconnected, 4),
    (RequestJoin, 4),
    (UpdatePeerData, 2),
    (Quit, 1),
    (Damaged, 1),
];

const JOINING: &[(Act, usize)] = &[
    (Join, 6),
    (ForwardJoin, 8),
    (NeighborHigh, 2),
    (NeighborLow, 2),
    (RequestJoin, 5),
    (RetryTimer, 4),
    (PeerDisconnected, 1),
    (UpdatePeerData, 1),
    (Disconnect, 1),
];

/// More than eight bootstrap peers.
const REQUESTING: &[(Act, usize)] = &[
    (RequestJoin, 12),
    (RetryTimer, 3),
    (Join, 1),
    (Disconnect, 1),
    (NeighborLow, 1),
    (DoMaintenance, 1),
];

/// More than eight neighbours in turn.
const ARRIVING: &[(Act, usize)] = &[
    (Join, 6),
    (NeighborHigh, 6),
    (NeighborLow, 1),
    (DoMaintenance, 2),
    (PeerDisconnected, 1),
    (Disconnect, 1),
];

const SHUFFLING: &[(Act, usize)] = &[
    (Join, 3),
    (Shuffle, 8),
    (ShuffleReply, 6),
    (RefusalReply, 2),
    (DoShuffle, 6),
    (NeighborLow, 2),
    (UpdatePeerData, 1),
    (PeerDisconnected, 1),
];

/// Few neighbours, many passive peers, requests that fail.
const REFILLING: &[(Act, usize)] = &[
    (NeighborLow, 2),
    (ShuffleReply, 5),
    (RefusalReply, 4),
    (Refusal, 6),
    (RequestTimer, 5),
    (DoMaintenance, 6),
    (PeerDisconnected, 2),
    (Disconnect, 2),
];

const ALONE: &[(Act, usize)] = &[
    (RequestJoin, 4),
    (DoMaintenance, 14),
    (RetryTimer, 2),
    (Join, 1),
    (Disconnect, 2),
    (PeerDisconnected, 2),
    (Quit, 2),
    (UpdatePeerData, 1),
];

const ASKING: &[(Act, usize)] = &[
    (ExpiredForwardJoin, 30),
    (ForwardJoin, 2),
    (Join, 1),
    (NeighborHigh, 1),
    (RequestTimer, 1),
    (ShuffleReply, 1),
];

const DECLINING: &[(Act, usize)] = &[
    (ExpiredForwardJoin, 20),
    (Refusal, 24),
    (ShuffleReply, 1),
    (RefusalReply, 1),
    (Join, 1),
];

const LEAKING: &[(Act, usize)] = &[
    (ExpiredForwardJoin, 20),
    (Refusal, 20),
    (ShuffleReply, 2),
    (Join, 1),
    (NeighborLow, 1),
    (PeerDisconnected, 1),
];

const CROWDED: &[(Act, usize)] = &[
    (Join, 8),
    (Shuffle, 6),
    (ShuffleReply, 4),
    (NeighborHigh, 4),
    (NeighborLow, 2),
    (ForwardJoin, 2),
    (DoShuffle, 3),
    (DoMaintenance, 2),
    (UpdatePeerData, 1),
    (RequestJoin, 2),
    (Disconnect, 1),
    (PeerDisconnected, 1),
    (Quit, 1),
];

/// A full passive view that is picked from and shuffled.
const FULL: &[(Act, usize)] = &[(ShuffleReply, 6), (Shuffle, 4), (Join, 2), (DoShuffle, 1)];

const DAMAGED: &[(Act, usize)] = &[(Damaged, 8), (Join, 1), (Shuffle, 1), (RequestJoin, 1)];

const fn mix(
    name: &'static str,
    acts: &'static [(Act, usize)],
    settings: SettingsRule,
    peers: (usize, usize),
) -> Mix {
    Mix {
        name,
        acts,
        settings,
        peers,
        numbers: Numbers::Small,
        data: DataRule::Mixed,
        twist: Twist::None,
    }
}

const fn twisted(twist: Twist, mix: Mix) -> Mix {
    Mix { twist, ..mix }
}

const fn wide(mix: Mix) -> Mix {
    Mix {
        numbers: Numbers::Wide,
        ..mix
    }
}

/// All events, with settings anywhere, among 2 to so many peers.
const fn even(name: &'static str, twist: Twist, most: usize) -> Mix {
    twisted(twist, mix(name, EVEN, SettingsRule::Any, (2, most)))
}

const fn with_data(data: DataRule, mix: Mix) -> Mix {
    Mix { data, ..mix }
}

pub const MIXES: &[Mix] = &[
    even("even", Twist::None, 200),
    mix("usual", EVEN, SettingsRule::Usual, (4, 60)),
    mix("tiny", EVEN, SettingsRule::Small, (2, 6)),
    mix("joining", JOINING, SettingsRule::Small, (3, 20)),
    mix("requesting", REQUESTING, SettingsRule::Small, (10, 24)),
    mix("arriving", ARRIVING, SettingsRule::Small, (10, 24)),
    mix("shuffling", SHUFFLING, SettingsRule::Any, (4, 60)),
    mix("refilling", REFILLING, SettingsRule::Roomy, (6, 30)),
    mix("alone", ALONE, SettingsRule::Any, (2, 14)),
    mix("crowded", CROWDED, SettingsRule::Any, (8, 200)),
    with_data(
        DataRule::Full,
        mix("largest", CROWDED, SettingsRule::Large, (50, 200)),
    ),
    mix("damaged", DAMAGED, SettingsRule::Small, (2, 20)),
    even("short", Twist::ShortDraws, 40),
    even("passing", Twist::HighDraws, 60),
    twisted(
        Twist::HighDraws,
        mix("passing_crowd", CROWDED, SettingsRule::Any, (8, 200)),
    ),
    twisted(
        Twist::HighDraws,
        with_data(
            DataRule::Absent,
            mix("passing_full", FULL, SettingsRule::Any, (60, 80)),
        ),
    ),
    wide(mix("wide", EVEN, SettingsRule::Any, (4, 60))),
    wide(mix("wide_crowd", CROWDED, SettingsRule::Any, (8, 200))),
    mix("asking", ASKING, SettingsRule::Any, (40, 200)),
    with_data(
        DataRule::Absent,
        mix("declining", DECLINING, SettingsRule::Any, (100, 200)),
    ),
    twisted(
        Twist::Filled,
        with_data(
            DataRule::Tiny,
            mix("leaking", LEAKING, SettingsRule::Large, (92, 99)),
        ),
    ),
    even("room", Twist::SmallRoom, 40),
    even("counters", Twist::HighCounters, 20),
    even("input", Twist::DamagedInput, 10),
];

pub fn named(name: &str) -> Option<&'static Mix> {
    MIXES.iter().find(|mix| mix.name == name)
}
