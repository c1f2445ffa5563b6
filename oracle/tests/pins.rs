//! Pins (02, S-14), the oracle's own side: the event, its refusals, whom a High arrival demotes, and what ends a pin.

use oracle::{
    check,
    input::Input,
    machine::Machine,
    record::{kind, message, Node, Peer, Record},
    station::{Settings, Station, DEFAULTS, ROOM},
};
use rand::Draws;

const ME: Peer = 1;
/// Refusals of a pin.
const NOT_ACTIVE: u8 = 17;
const LIMIT: u8 = 18;

fn settings(capacity: u32) -> Settings {
    let mut settings = DEFAULTS;
    settings[0] = capacity;
    settings
}

/// A station with the neighbours from 2 on, as many as its capacity; the first draw is its first shuffle's.
fn full(capacity: u32, draws: &[u32]) -> Station {
    let draws: Vec<_> = [&[0], draws, &[0; 64]].concat();
    let station = Station::new(ME, &settings(capacity), Draws::new(draws));
    let mut station = station.expect("settings in range");
    for peer in 0..capacity {
        assert_eq!(code(&mut station, join(2 + Peer::from(peer))), 0);
    }
    station
}

fn join(peer: Peer) -> Record {
    Record::message(message::JOIN, peer, vec![Node::default()])
}

fn pin(peer: Peer) -> Record {
    Record::of(kind::PIN, peer)
}

fn code(station: &mut Station, event: Record) -> u8 {
    station.handle(&event.write(), ROOM).code
}

#[test]
fn a_pin_names_its_peer_alone() {
    let event = pin(7).write();
    assert_eq!(Record::read_event(&event), Ok(pin(7)));
    for place in [1, 2, 3, 12, 20, 24] {
        let mut damaged = event.clone();
        damaged[place] = 1;
        assert_eq!(Record::read_event(&damaged), Err(3), "byte {place}");
    }
    let mut nodes = event.clone();
    nodes[3] = 33;
    assert_eq!(Record::read_event(&nodes), Err(4));
    assert_eq!(Record::read_event(&[&event[..], &[0]].concat()), Err(3));
    assert_eq!(Record::read_event(&event[1..]), Err(3));
}

#[test]
fn strangers_first_then_the_limit() {
    let mut station = full(3, &[]);
    for (peer, answer) in [(9, 17), (4, 0), (2, 0), (3, 18), (9, 17), (4, 0), (ME, 17)] {
        let before = station.parts();
        let told = station.handle(&pin(peer).write(), 0);
        assert_eq!((told.code, told.drawn, told.out.len()), (answer, 0, 0));
        let mut after = station.parts();
        after.pins = before.pins.clone();
        assert_eq!(after, before, "a pin changes pins alone");
    }
    assert_eq!(station.parts().pins, [2, 4]);
}

#[test]
fn a_neighbor_alone_is_never_pinned() {
    let mut station = full(1, &[]);
    assert_eq!(code(&mut station, pin(2)), LIMIT);
    assert_eq!(code(&mut station, pin(3)), NOT_ACTIVE);
}

/// Whom a Join to a full view demotes is the d-th of those without a pin, and the last one moves into its place.
#[test]
fn demoted_is_one_without_a_pin() {
    for (pins, draws, active) in [
        (&[][..], &[1][..], [2, 5, 4, 9]),
        (&[3], &[0], [5, 3, 4, 9]),
        (&[3], &[1], [2, 3, 5, 9]),
        (&[3], &[5], [2, 3, 4, 9]),
        (&[3], &[u32::MAX, u32::MAX - 1], [2, 3, 4, 9]),
        (&[3, 5], &[u32::MAX], [2, 3, 5, 9]),
        (&[2, 3, 5], &[8], [2, 3, 5, 9]),
    ] {
        let mut station = full(4, draws);
        for peer in pins {
            assert_eq!(code(&mut station, pin(*peer)), 0);
        }
        assert_eq!(code(&mut station, join(9)), 0);
        assert_eq!(station.parts().active, active, "{pins:?} {draws:?}");
        assert_eq!(station.parts().pins, pins);
    }
}

#[test]
fn a_pin_ends_with_its_neighbor() {
    let disconnect = |flags| Record {
        flags,
        ..Record::message(message::DISCONNECT, 2, vec![])
    };
    for event in [
        disconnect(0),
        disconnect(1),
        Record::of(kind::PEER_DISCONNECTED, 2),
        Record::of(kind::QUIT, 0),
    ] {
        let mut station = full(3, &[]);
        assert_eq!(code(&mut station, pin(2)), 0);
        assert_eq!(code(&mut station, event), 0);
        assert_eq!(station.parts().pins, [0; 0]);
        assert_eq!(code(&mut station, join(2)), 0);
        assert_eq!(station.parts().pins, [0; 0], "one that returns has none");
    }
}

/// No message of its own but a Disconnect costs a pinned neighbour its place, nor does its open request's timer.
#[test]
fn other_events_of_its_own_leave_it() {
    let neighbor = |flags| Record {
        flags,
        ..Record::message(message::NEIGHBOR, 2, vec![Node::default()])
    };
    let timer = |number| Record {
        number,
        ..Record::of(kind::PENDING_NEIGHBOR_REQUEST, 2)
    };
    let mut station = full(2, &[]);
    assert_eq!(code(&mut station, pin(2)), 0);
    for event in [
        timer(0),
        neighbor(0),
        timer(2),
        neighbor(1),
        join(2),
        join(7),
    ] {
        assert_eq!(code(&mut station, event), 0);
        assert!(station.parts().active.contains(&2));
        assert_eq!(station.parts().pins, [2]);
    }
}

#[test]
fn histories_have_pins_only_where_asked_for() {
    let pins = |machine: Machine, seed| {
        let history = machine.history("even", seed, 60).expect("a mix");
        let input = Input::read(&history.input).expect("an input");
        let is_pin = |event: &&Vec<u8>| event[0] == kind::PIN;
        input.events.iter().filter(is_pin).count()
    };
    assert_eq!(
        (1..40).map(|seed| pins(Machine::Hyparview, seed)).max(),
        Some(0)
    );
    assert!((1..40).map(|seed| pins(Machine::Pins, seed)).sum::<usize>() > 100);
}

#[test]
fn the_claims_hold_with_pins() {
    let text = check::run(Machine::Pins, 1, 4000, 60);
    assert!(text.ends_with("\n0 claims fail\n"), "{text}");
    assert!(
        text.contains("code 17") && text.contains("code 18"),
        "{text}"
    );
}
