//! The station rules and demand 3's claims about a state.

use std::collections::BTreeSet;

use crate::{
    hyparview::access::{Parts, Refill},
    record::{Peer, MOST_DATA},
    station::Settings,
};

/// A claim's name and whether it holds.
pub type Claim = (&'static str, bool);

pub fn broken(me: Peer, settings: &Settings, parts: &Parts) -> Vec<&'static str> {
    let claims = [
        &views(me, settings, parts)[..],
        &lists(parts)[..],
        &joins(me, parts)[..],
        &numbers(me, settings, parts)[..],
        &pins(settings, parts)[..],
    ];
    failing(&claims.concat())
}

/// The names of the claims that do not hold.
pub fn failing(claims: &[Claim]) -> Vec<&'static str> {
    claims
        .iter()
        .filter(|(_, holds)| !holds)
        .map(|(name, _)| *name)
        .collect()
}

fn views(me: Peer, settings: &Settings, parts: &Parts) -> [Claim; 5] {
    let [active, passive] = [0, 1].map(|index| settings[index] as usize);
    let is_passive = |peer: &Peer| parts.passive.contains(peer);
    [
        ("active capacity", parts.active.len() <= active),
        ("passive capacity", parts.passive.len() <= passive),
        ("views disjoint", !parts.active.iter().any(is_passive)),
        (
            "views without self",
            !parts.active.contains(&me) && !is_passive(&me),
        ),
        ("alive marks passive", parts.alive.iter().all(is_passive)),
    ]
}

fn lists(parts: &Parts) -> [Claim; 7] {
    let once = |list: &&Vec<Peer>| list.iter().collect::<BTreeSet<_>>().len() == list.len();
    let lists = [
        &parts.active,
        &parts.passive,
        &parts.bootstrap,
        &parts.recent,
    ];
    [
        ("lists without repeats", lists.iter().all(once)),
        ("eight bootstrap peers", parts.bootstrap.len() <= 8),
        ("eight recent peers", parts.recent.len() <= 8),
        ("32 requests", parts.requests.len() <= 32),
        ("32 refused peers", parts.refused.len() <= 32),
        ("80 data entries", parts.data.len() <= 80),
        (
            "three requests of a refill",
            !matches!(parts.refill, Refill::Requests(4..)),
        ),
    ]
}

/// 02, S-14.
fn pins(settings: &Settings, parts: &Parts) -> [Claim; 2] {
    let is_active = |peer: &Peer| parts.active.contains(peer);
    [
        ("pins are neighbors", parts.pins.iter().all(is_active)),
        (
            "a neighbor is left without a pin",
            parts.pins.len() < settings[0] as usize,
        ),
    ]
}

fn joins(me: Peer, parts: &Parts) -> [Claim; 3] {
    let all = |test: &dyn Fn(&Peer) -> bool| parts.joins.iter().all(|(peer, _)| test(peer));
    [
        (
            "joins are bootstrap peers",
            all(&|peer| parts.bootstrap.contains(peer)),
        ),
        (
            "joins are no neighbors",
            all(&|peer| !parts.active.contains(peer)),
        ),
        ("joins without self", all(&|peer| *peer != me)),
    ]
}

fn numbers(me: Peer, settings: &Settings, parts: &Parts) -> [Claim; 6] {
    let below = |open: &[(Peer, u64)], next| open.iter().all(|(_, number)| *number < next);
    // 02, S-5: in a view, or with an open request.
    let is_known = |peer: &Peer| {
        parts.active.contains(peer)
            || parts.passive.contains(peer)
            || parts.requests.iter().any(|(asked, _)| asked == peer)
    };
    let mut held = parts
        .data
        .iter()
        .map(|(_, data)| data)
        .chain(&parts.me_data);
    [
        (
            "request numbers",
            below(&parts.requests, parts.counters.next_request),
        ),
        (
            "join numbers",
            below(&parts.joins, parts.counters.next_join),
        ),
        (
            "no data under self",
            parts.data.iter().all(|(peer, _)| *peer != me),
        ),
        (
            "data of known peers",
            parts.data.iter().all(|(peer, _)| is_known(peer)),
        ),
        ("16 bytes of data", held.all(|data| data.len() <= MOST_DATA)),
        (
            "interval",
            (1..=u64::from(settings[7])).contains(&parts.interval),
        ),
    ]
}
