//! The Rust doing a controller's whole call, as the benchmark measures it.

use oracle::{
    generate::{self, mix::MIXES},
    hyparview::access::whole::{Book, Done, BREAKS, RULE},
    input::Input,
    record::{kind, message, Node, Record},
    station::{Station, DEFAULTS, ROOM},
};
use rand::Draws;

/// Every event of histories of every mix, refused ones too: the station's code, draws, bytes, the
/// zeroes after them, and the state.
#[test]
fn a_call_answers_as_the_station() {
    refusal::quiet_counters();
    for mix in MIXES {
        let history = generate::history(mix, 7, 120);
        let Some(input) = Input::read(&history.input) else {
            continue;
        };
        let draws = Draws::new(&input.draws[..]);
        let Some(mut station) = Station::new(input.me, &input.settings, draws) else {
            continue;
        };
        station.start(history.start);
        let mut state = station.state().clone();
        let mut book = Book::new(&state);
        for event in &input.events {
            let mut out = vec![1; history.start.room];
            let done = book.call(&mut state, event, &mut out);
            let mut answer = station.handle(event, history.start.room);
            answer.out.resize(history.start.room, 0);
            let (code, drawn) = (answer.code, answer.drawn);
            assert_eq!((done, out), (Done { code, drawn }, answer.out));
            assert_eq!(state.parts(), station.parts());
        }
    }
}

/// A state with a neighbor, a passive peer, a pending join and an open request.
fn station() -> Station {
    let mut station = Station::new(1, &DEFAULTS, Draws::new(vec![0; 64])).expect("in range");
    let nodes = vec![Node { id: 9, data: None }];
    let events = [
        Record::of(kind::REQUEST_JOIN, 7),
        Record::message(message::JOIN, 3, vec![Node::default()]),
        Record::message(message::SHUFFLE_REPLY, 3, nodes),
    ];
    for event in events {
        assert_eq!(station.handle(&event.write(), ROOM).code, 0);
    }
    station
}

#[test]
fn a_broken_rule_is_met_with_2() {
    let sound = station();
    let quit = Record::of(kind::QUIT, 0).write();
    for (place, change) in BREAKS.iter().enumerate() {
        let mut state = sound.state().clone();
        change(&mut state);
        let before = state.parts();
        let mut out = [1; 100];
        let done = Book::new(&state).call(&mut state, &quit, &mut out);
        assert_eq!(
            (done, out),
            (
                Done {
                    code: RULE,
                    drawn: 0
                },
                [0; 100]
            ),
            "{place}"
        );
        assert_eq!(state.parts(), before);
    }
    let mut state = sound.state().clone();
    let done = Book::new(&state).call(&mut state, &quit, &mut [1; ROOM]);
    assert_eq!(done.code, 0);
}
