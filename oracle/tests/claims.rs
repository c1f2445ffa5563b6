//! The tools that hold demand 3 and S-10 against the Rust do tell a claim that fails.

use std::collections::BTreeSet;

use oracle::{
    chatter::Chatter,
    hyparview::access::{Parts, Refill},
    input::Input,
    ledger::Ledger,
    record::{kind, message, Node, Peer, Record},
    rules, shrink,
    station::{Answer, Station, DEFAULTS, ROOM},
};
use rand::Draws;

const ME: Peer = 1;

fn station() -> Station {
    Station::new(ME, &DEFAULTS, Draws::new(vec![0; 64])).expect("settings in range")
}

fn join(peer: Peer) -> Vec<u8> {
    Record::message(message::JOIN, peer, vec![Node::default()]).write()
}

/// 01: after the listing the set is empty, with messages 1 and allowance 1.
#[test]
fn the_ledger_after_the_listing() {
    let event = Record::of(kind::REQUEST_JOIN, 7).write();
    let answer = station().handle(&event, ROOM);
    let mut ledger = Ledger::default();
    ledger.enter(DEFAULTS[0], &event, &answer);
    assert_eq!(ledger.neighbors, BTreeSet::new());
    assert_eq!((ledger.messages, ledger.allowance), (1, 1));
}

/// A Join is answered by a Neighbor and an up notice; a Quit empties the set first.
#[test]
fn the_ledger_follows_notices_and_quits() {
    let (mut station, mut ledger) = (station(), Ledger::default());
    let quit = Record::of(kind::QUIT, 0).write();
    for event in [join(7), join(8), quit] {
        let answer = station.handle(&event, ROOM);
        ledger.enter(DEFAULTS[0], &event, &answer);
        let active: BTreeSet<_> = station.parts().active.into_iter().collect();
        assert_eq!(ledger.neighbors, active);
    }
    // Two Neighbors, a ForwardJoin to 7, and ShuffleReply and Disconnect to each.
    assert_eq!((ledger.messages, ledger.allowance), (7, 14));
}

/// A change of a station's state, and the rule that it breaks.
type Damage = (fn(&mut Parts), &'static str);

#[test]
fn each_damaged_state_breaks_its_rule() {
    let mut station = station();
    station.handle(&join(7), ROOM);
    assert_eq!(rules::broken(ME, &DEFAULTS, &station.parts()), [""; 0]);
    let damages: [Damage; 11] = [
        (|parts| parts.passive.push(7), "views disjoint"),
        (|parts| parts.active.push(7), "lists without repeats"),
        (|parts| parts.active = (2..8).collect(), "active capacity"),
        (|parts| parts.passive.push(ME), "views without self"),
        (|parts| parts.alive.push(9), "alive marks passive"),
        (
            |parts| parts.joins.push((9, 0)),
            "joins are bootstrap peers",
        ),
        (|parts| parts.requests.push((9, 1)), "request numbers"),
        (|parts| parts.data.push((ME, vec![])), "no data under self"),
        (|parts| parts.data.push((9, vec![])), "data of known peers"),
        (
            |parts| parts.refill = Refill::Requests(4),
            "three requests of a refill",
        ),
        (|parts| parts.interval = 0, "interval"),
    ];
    for (damage, rule) in damages {
        let mut parts = station.parts();
        damage(&mut parts);
        assert!(
            rules::broken(ME, &DEFAULTS, &parts).contains(&rule),
            "{rule}"
        );
    }
}

#[test]
fn shrinking_keeps_what_shows() {
    let quit = Record::of(kind::QUIT, 0).write();
    let events = (0..9).map(|i| if i == 5 { quit.clone() } else { join(i) });
    let input = Input {
        me: ME,
        settings: DEFAULTS,
        events: events.collect(),
        draws: vec![0; 100],
    };
    let shows = |less: &Input| less.events.contains(&quit) && less.draws.len() >= 3;
    let small = shrink::smallest(&input, shows);
    assert_eq!((small.events, small.draws.len()), (vec![quit.clone()], 3));
}

fn neighbor(peer: Peer) -> Vec<u8> {
    Record::message(message::NEIGHBOR, peer, vec![Node::default()]).write()
}

fn timer(kind: u8, peer: Peer, number: u64) -> Vec<u8> {
    let record: Record = Record {
        number,
        ..Record::of(kind, peer)
    };
    record.write()
}

/// The claims of S-10 that fail after these events, each with the records that it wrote.
fn chatter(steps: &[(Vec<u8>, Vec<Vec<u8>>)], requests: &[(Peer, u64)]) -> Vec<&'static str> {
    let mut chatter = Chatter::default();
    for (event, records) in steps {
        let answer = Answer {
            out: records.concat(),
            ..Answer::default()
        };
        chatter.enter(event, &answer);
    }
    rules::failing(&chatter.claims(requests, &[]))
}

/// What the first event of a station that is asked to send 7 a Neighbor writes.
fn first() -> (Vec<u8>, Vec<Vec<u8>>) {
    let records = vec![
        neighbor(7),
        timer(kind::PENDING_NEIGHBOR_REQUEST, 7, 0),
        timer(kind::DO_SHUFFLE, 0, 0),
        timer(kind::DO_MAINTENANCE, 0, 0),
    ];
    (join(7), records)
}

/// A second Neighbor to a peer has a reason where the event that sends it, or one before, is one.
#[test]
fn a_second_neighbor_wants_a_reason() {
    let again = || vec![neighbor(7), timer(kind::PENDING_NEIGHBOR_REQUEST, 7, 1)];
    let chattered = "a reason between two Neighbors";
    let events = [
        (join(7), true),
        (join(8), false),
        (neighbor(7), true),
        (timer(kind::PENDING_NEIGHBOR_REQUEST, 7, 0), true),
        (timer(kind::PENDING_NEIGHBOR_REQUEST, 7, 1), false),
        (timer(kind::PENDING_NEIGHBOR_REQUEST, 8, 0), false),
        (timer(kind::RETRY_JOIN, 7, 0), false),
        (Record::of(kind::PEER_DISCONNECTED, 7).write(), true),
        (Record::of(kind::QUIT, 0).write(), true),
    ];
    for (event, holds) in events {
        let failing = chatter(&[first(), (event.clone(), again())], &[]);
        assert_eq!(!failing.contains(&chattered), holds, "{event:?}");
    }
    let mut twice = first();
    twice.1.push(neighbor(7));
    assert_eq!(
        chatter(&[twice], &[]),
        [chattered, "one Neighbor to a peer in an event"]
    );
}

/// A clock that is started twice, or not started again, and a request with another number than its timer.
#[test]
fn clocks_and_requests_want_their_timers() {
    let expired = |records| (timer(kind::DO_MAINTENANCE, 0, 0), records);
    let next = || timer(kind::DO_MAINTENANCE, 0, 0);
    let ahead = ["one maintenance timer ahead"];
    assert_eq!(chatter(&[first()], &[(7, 0)]), [""; 0]);
    assert_eq!(chatter(&[first(), expired(vec![next()])], &[]), [""; 0]);
    assert_eq!(
        chatter(&[first(), expired(vec![next(), next()])], &[]),
        ahead
    );
    assert_eq!(chatter(&[first(), expired(vec![])], &[]), ahead);
    let timed = ["each request has its timer"];
    assert_eq!(chatter(&[first()], &[(7, 1)]), timed);
    let late = (timer(kind::PENDING_NEIGHBOR_REQUEST, 7, 0), vec![]);
    assert_eq!(chatter(&[first(), late], &[(7, 0)]), timed);
}
