//! The run program's input and the event reader: what is refused before the Rust sees it.

use oracle::{
    input::Input,
    record::{kind, message, Node, Record},
    station::DEFAULTS,
    text::{self, Form, Start},
};

fn run(bytes: &[u8]) -> String {
    text::run(bytes, Start::default(), Form::Station)
}

fn input() -> Input {
    let quit = Record::of(kind::QUIT, 0).write();
    Input {
        me: 1,
        settings: DEFAULTS,
        events: vec![quit.clone(), quit],
        draws: vec![0, 0],
    }
}

/// The input with the number at `index` of the header changed.
fn with(index: usize, number: u32) -> Vec<u8> {
    let mut bytes = input().write();
    bytes[4 * index..4 * index + 4].copy_from_slice(&number.to_le_bytes());
    bytes
}

#[test]
fn reading_undoes_writing() {
    assert_eq!(Input::read(&input().write()), Some(input()));
}

#[test]
fn inputs_that_are_not_exactly_filled_print_3() {
    let good = input().write();
    assert_ne!(run(&good), "= 3 0\n");
    for bad in [
        with(11, 1),
        with(11, 3),
        with(12, 92),
        with(13, 1),
        with(14, 92),
    ] {
        assert_eq!(run(&bad), "= 3 0\n");
    }
    assert_eq!(run(&good[..59]), "= 3 0\n");
    assert_eq!(run(&[&good[..], &[0]].concat()), "= 3 0\n");
    let mut short_event = good.clone();
    short_event[60 + 22] = 31;
    assert_eq!(run(&short_event), "= 3 0\n");
}

#[test]
fn the_largest_input_is_taken_and_one_more_byte_is_not() {
    let mut largest = input();
    largest.draws = vec![0; (65_536 - 60 - 64) / 4];
    let bytes = largest.write();
    assert_eq!(bytes.len(), 65_536);
    assert_ne!(run(&bytes), "= 3 0\n");
    assert_eq!(run(&[&bytes[..], &[0]].concat()), "= 3 0\n");
}

#[test]
fn settings_are_looked_at_after_the_layout() {
    assert_eq!(run(&with(2, 0)), "= 1 0\n");
    assert_eq!(run(&with(4, 65_536)), "= 1 0\n");
    let mut both = with(2, 0);
    both.push(0);
    assert_eq!(run(&both), "= 3 0\n");
}

/// 02, S-8: self is the low half and then the high one.
#[test]
fn self_has_64_bits() {
    let mut far = input();
    far.me = (7 << 32) + 1;
    assert_eq!(far.write()[..8], [1, 0, 0, 0, 7, 0, 0, 0]);
    assert_eq!(Input::read(&far.write()), Some(far));
}

#[test]
fn no_event_prints_nothing() {
    let mut none = input();
    none.events.clear();
    assert_eq!(run(&none.write()), "");
}

/// Every record that the reader takes is written back byte for byte.
#[test]
fn writing_undoes_reading() {
    let data = [None, Some(vec![]), Some(vec![1, 2, 3]), Some(vec![9; 16])];
    let nodes: Vec<_> = (0..4)
        .map(|i| Node {
            id: i,
            data: data[i as usize].clone(),
        })
        .collect();
    let shuffle = Record {
        second: 5,
        ttl: 6,
        ..Record::message(message::SHUFFLE, 2, nodes)
    };
    assert_eq!(Record::read_event(&shuffle.write()), Ok(shuffle));
}

/// Changing one of the `places`, by the bits beside it, makes the record malformed.
fn tells(record: Record, places: &[(usize, u8)]) {
    assert_eq!(Record::read_event(&record.write()), Ok(record.clone()));
    for (place, bits) in places {
        let mut bytes = record.write();
        bytes[*place] ^= bits;
        assert_eq!(
            Record::read_event(&bytes),
            Err(3),
            "{record:?}, byte {place}"
        );
    }
}

#[test]
fn damaged_headers_are_malformed() {
    let timer = Record::of(kind::PENDING_NEIGHBOR_REQUEST, 2);
    let disconnect = Record::message(message::DISCONNECT, 2, vec![]);
    tells(
        Record::of(kind::DO_SHUFFLE, 0),
        &[(1, 1), (4, 1), (11, 1), (12, 1), (19, 1), (24, 1)],
    );
    tells(timer, &[(2, 1), (12, 1), (19, 1), (20, 1)]);
    tells(
        Record::of(kind::PEER_DISCONNECTED, 2),
        &[(3, 1), (22, 1), (24, 1)],
    );
    tells(disconnect, &[(1, 2), (2, 4)]);
}

#[test]
fn damaged_nodes_are_malformed() {
    let node = |id| {
        vec![Node {
            id,
            data: Some(vec![1]),
        }]
    };
    let join = Record::message(message::JOIN, 2, node(0));
    let neighbor = Record::message(message::NEIGHBOR, 2, node(0));
    let forward_join = Record::message(message::FORWARD_JOIN, 2, node(3));
    tells(
        join,
        &[(12, 1), (32, 1), (39, 1), (40, 1), (42, 1), (43, 2)],
    );
    tells(neighbor, &[(2, 2), (3, 3), (20, 1)]);
    tells(forward_join, &[(3, 1), (43, 1)]);
}

#[test]
fn output_kinds_and_long_data_are_malformed_as_events() {
    for output in [kind::NEIGHBOR_UP, kind::NEIGHBOR_DOWN, kind::EVICTED] {
        assert_eq!(Record::read_event(&Record::of(output, 2).write()), Err(3));
    }
    let long = Node {
        id: 0,
        data: Some(vec![0; 17]),
    };
    assert_eq!(
        Record::read_event(&Record::message(message::JOIN, 2, vec![long]).write()),
        Err(3)
    );
    let absent = Record {
        nodes: vec![Node::default()],
        ..Record::of(kind::UPDATE_PEER_DATA, 0)
    };
    assert_eq!(Record::read_event(&absent.write()), Err(3));
}
