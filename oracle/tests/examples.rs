//! 01's own examples and the examples of its table, on the Rust.

use n0_future::time::Duration;
use oracle::{
    hyparview::access::{is_backoff_due, Counters},
    input::Input,
    record::{kind, message, Node, Peer, Record},
    station::{Answer, Settings, Station, DEFAULTS, ROOM},
    text::{self, Form, Start},
    words::{words, WORDS},
};
use rand::{seq::SliceRandom, Draws, RngExt};

const ME: Peer = 1;

fn station(settings: &Settings) -> Station {
    Station::new(ME, settings, Draws::new(vec![0; 4096])).expect("settings in range")
}

fn handle(station: &mut Station, record: Record) -> Answer {
    station.handle(&record.write(), ROOM)
}

fn join(peer: Peer) -> Record {
    Record::message(message::JOIN, peer, vec![Node::default()])
}

/// A ForwardJoin of `id` at the end of its walk.
fn expired_join(id: Peer, data: Option<Vec<u8>>) -> Record {
    Record::message(message::FORWARD_JOIN, 2, vec![Node { id, data }])
}

fn alive_disconnect(peer: Peer) -> Record {
    Record {
        flags: 1,
        ..Record::message(message::DISCONNECT, peer, vec![])
    }
}

fn accepted(station: &mut Station, record: Record) {
    assert_eq!(handle(station, record).code, 0);
}

#[test]
fn the_listing() {
    let input = Input {
        me: 1,
        settings: DEFAULTS,
        events: vec![Record::of(kind::REQUEST_JOIN, 7).write()],
        draws: vec![0],
    };
    let bytes = input.write();
    assert_eq!(bytes[48..52], 60u32.to_le_bytes());
    assert_eq!(bytes[56..60], 92u32.to_le_bytes());
    let lines =
        "0 0 0 7 0 0 0 1\n0 4 0 7 10000 0 0 0\n0 1 0 0 750 0 0 0\n0 2 0 0 5000 0 0 0\n= 0 1\n";
    assert_eq!(text::run(&bytes, Start::default(), Form::Station), lines);
}

#[test]
fn the_shuffle() {
    let mut items = [10, 11, 12];
    items.shuffle(&mut Draws::new(vec![0, 0]));
    assert_eq!(items, [11, 12, 10]);
}

#[test]
fn draws_passed_over() {
    // 2^32 - 1 is no draw for three items, nor are the last four for six; powers of two keep all.
    for (items, draws, place, used) in [
        (3, vec![u32::MAX, 5], 2, 2),
        (3, vec![u32::MAX - 1], 2, 1),
        (6, vec![u32::MAX, u32::MAX - 3, u32::MAX - 4], 5, 3),
        (1, vec![u32::MAX], 0, 1),
        (32, vec![u32::MAX], 31, 1),
    ] {
        let mut draws = Draws::new(draws);
        assert_eq!(draws.random_range(0..items), place);
        assert_eq!(draws.place(), used);
    }
    let mut items = [10, 11, 12];
    let mut draws = Draws::new(vec![u32::MAX, 0, u32::MAX]);
    items.shuffle(&mut draws);
    assert_eq!((items, draws.place()), ([12, 11, 10], 3));
}

#[test]
fn the_delays() {
    for (draw, delay) in [(0, 750), (1 << 31, 1000), (u32::MAX, 1249)] {
        let jitter = Draws::new(vec![draw]).random_range(0.75..1.25);
        assert_eq!(
            Duration::from_millis(1000).mul_f64(jitter),
            Duration::from_millis(delay)
        );
    }
}

#[test]
fn the_backoff() {
    assert!([1, 2, 4, 8, 12, 24].into_iter().all(is_backoff_due));
    assert!(![0, 3, 11, 16].into_iter().any(is_backoff_due));
}

#[test]
fn the_removal() {
    let mut station = station(&DEFAULTS);
    for peer in 10..14 {
        accepted(&mut station, join(peer));
    }
    assert_eq!(station.parts().active, [10, 11, 12, 13]);
    accepted(&mut station, Record::of(kind::PEER_DISCONNECTED, 11));
    assert_eq!(station.parts().active, [10, 13, 12]);
}

#[test]
fn code_1_active_capacity_0() {
    let mut settings = DEFAULTS;
    settings[0] = 0;
    assert!(Station::new(ME, &settings, Draws::new(vec![])).is_none());
}

#[test]
fn codes_3_and_4_by_the_event_bytes() {
    let mut station = station(&DEFAULTS);
    let before = station.parts();
    assert_eq!(station.handle(&[0; 31], ROOM).code, 3);
    let mut shuffle = Record::message(message::SHUFFLE, 2, vec![]).write();
    shuffle[3] = 33;
    assert_eq!(station.handle(&shuffle, ROOM).code, 4);
    assert_eq!(station.parts(), before);
}

#[test]
fn code_5_first_event_and_empty_draw_list() {
    let mut station = Station::new(ME, &DEFAULTS, Draws::new(vec![])).unwrap();
    assert_eq!(handle(&mut station, Record::of(kind::QUIT, 0)).code, 5);
}

#[test]
fn code_6_a_33rd_open_request() {
    let mut station = station(&DEFAULTS);
    for id in 100..132 {
        accepted(&mut station, expired_join(id, None));
    }
    let before = station.parts();
    assert_eq!(handle(&mut station, expired_join(132, None)).code, 6);
    assert_eq!(station.parts(), before);
}

#[test]
fn code_7_a_33rd_refused_peer() {
    let mut station = station(&DEFAULTS);
    for id in 100..132 {
        accepted(&mut station, expired_join(id, None));
        accepted(&mut station, alive_disconnect(id));
    }
    accepted(&mut station, expired_join(132, None));
    assert_eq!(handle(&mut station, alive_disconnect(132)).code, 7);
}

/// 02, S-5: 81 peers with data decline, and none of it is left, so that code 8 is not met; a neighbour that
/// leaves clears the refused peers in between.
#[test]
fn data_of_those_who_declined_is_forgotten() {
    let mut station = station(&DEFAULTS);
    for id in 100..181 {
        accepted(&mut station, expired_join(id, Some(vec![7])));
        assert_eq!(station.parts().data, [(id, vec![7])]);
        accepted(&mut station, alive_disconnect(id));
        assert_eq!(station.parts().data, []);
        if id % 30 == 0 {
            accepted(&mut station, join(9));
            accepted(&mut station, Record::of(kind::PEER_DISCONNECTED, 9));
        }
    }
}

#[test]
fn code_9_first_event_and_0_bytes() {
    let quit = Record::of(kind::QUIT, 0).write();
    assert_eq!(station(&DEFAULTS).handle(&quit, 0).code, 9);
    assert_eq!(station(&DEFAULTS).handle(&quit, 64).code, 0);
}

#[test]
fn code_10_each_counter() {
    let top = Counters {
        next_request: u64::MAX,
        next_join: u64::MAX,
        passes_alone: u32::MAX,
        passes_short: u32::MAX,
    };
    let refused = |settings: &Settings, first: &[Record], record: Record| {
        let mut station = station(settings);
        for record in first {
            accepted(&mut station, record.clone());
        }
        station.set_counters(top);
        handle(&mut station, record).code
    };
    let maintenance = Record::of(kind::DO_MAINTENANCE, 0);
    assert_eq!(
        refused(&DEFAULTS, &[], Record::of(kind::REQUEST_JOIN, 7)),
        10
    );
    assert_eq!(refused(&DEFAULTS, &[], join(7)), 10);
    assert_eq!(refused(&DEFAULTS, &[], maintenance.clone()), 10);
    assert_eq!(refused(&DEFAULTS, &[join(7)], maintenance), 10);
}

/// `send_neighbor` meets 10, 6, 9 in this order, RequestJoin 9, 10, 9.
#[test]
fn the_first_refusal_met_wins() {
    let mut full = station(&DEFAULTS);
    for id in 100..132 {
        accepted(&mut full, expired_join(id, None));
    }
    let code =
        |station: &mut Station, record: Record, room| station.handle(&record.write(), room).code;
    assert_eq!(code(&mut full, expired_join(132, None), 0), 6);
    assert_eq!(code(&mut full, expired_join(131, None), 0), 0);
    let top = Counters {
        next_request: u64::MAX,
        next_join: u64::MAX,
        ..Counters::default()
    };
    full.set_counters(top);
    assert_eq!(code(&mut full, expired_join(132, None), 0), 10);
    let request = Record::of(kind::REQUEST_JOIN, 7);
    assert_eq!(code(&mut full, request.clone(), 43), 9);
    assert_eq!(code(&mut full, request.clone(), 44), 10);
    full.set_counters(Counters::default());
    assert_eq!(code(&mut full, request.clone(), 75), 9);
    assert_eq!(code(&mut full, request, 76), 0);
}

/// The layout's places for the station of 01's listing, after RequestJoin 7.
#[test]
fn words_of_the_listing() {
    let mut station = station(&DEFAULTS);
    accepted(&mut station, Record::of(kind::REQUEST_JOIN, 7));
    let mut expected = [0; WORDS];
    expected[0] = ME;
    expected[3..12].copy_from_slice(&DEFAULTS.map(u64::from));
    // Timers scheduled, the next interval, the next join.
    (expected[12], expected[13], expected[19]) = (1, 2000, 1);
    // The bootstrap peer and the pending join of number 0, with their counts.
    (expected[195], expected[203]) = (7, 1);
    (expected[213], expected[229]) = (7, 1);
    assert_eq!(
        words(ME, &DEFAULTS, &station.parts()).expect("a state fits"),
        expected
    );
}

/// A Join with nine bytes of data, answered by a Neighbor of number 0, and own data of two bytes.
#[test]
fn words_of_data() {
    let node = |data: &[u8]| Node {
        id: 0,
        data: Some(data.into()),
    };
    let mut station = station(&DEFAULTS);
    let held = node(&[1, 2, 3, 4, 5, 6, 7, 8, 9]);
    accepted(&mut station, Record::message(message::JOIN, 3, vec![held]));
    let nodes = vec![node(&[5, 6])];
    accepted(
        &mut station,
        Record {
            nodes,
            ..Record::of(kind::UPDATE_PEER_DATA, 0)
        },
    );
    let words = words(ME, &DEFAULTS, &station.parts()).expect("a state fits");
    assert_eq!(
        [words[1], words[2], words[20], words[21]],
        [1, 2, 0x0605, 0]
    );
    assert_eq!([words[22], words[30], words[204], words[212]], [3, 1, 3, 1]);
    assert_eq!(
        [words[18], words[130], words[162], words[194]],
        [1, 3, 0, 1]
    );
    let data = [words[230], words[310], words[390], words[470], words[550]];
    assert_eq!(data, [3, 9, 0x0807_0605_0403_0201, 9, 1]);
}
