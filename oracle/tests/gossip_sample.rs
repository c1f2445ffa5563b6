//! The stored sample of the broadcast half: it is made again from its names, every history holds, and what it is to meet is met.

use std::{collections::BTreeSet, fs, path::Path};

use oracle::{
    input::Input,
    record,
    stored::{self, Stored},
};

fn sample(file: &str) -> String {
    let path = Path::new(env!("CARGO_MANIFEST_DIR"))
        .join("sample")
        .join(file);
    fs::read_to_string(path).expect("the sample is stored")
}

fn histories() -> Vec<Stored> {
    stored::read_all(&sample("gossip.txt")).expect("the stored form")
}

#[test]
fn every_history_holds() {
    let broken = histories().into_iter().filter(|history| !history.holds());
    let broken: Vec<_> = broken.map(|history| history.name).collect();
    assert_eq!(broken, Vec::<String>::new());
}

#[test]
fn every_history_is_made_again_from_its_name() {
    let names = sample("gossip_names.txt");
    let histories = histories();
    assert_eq!(names.lines().count(), histories.len());
    for (name, history) in names.lines().zip(histories) {
        assert_eq!(name, history.name);
        assert_eq!(Stored::generate(name), Some(history));
    }
}

/// The kind and message of each event of a history, with the code that it is answered.
fn answers(history: &Stored) -> Vec<(u8, u8, u8)> {
    let input = Input::read(&history.input).expect("an input");
    let codes = history
        .trace
        .lines()
        .filter_map(|line| line.strip_prefix("= "));
    let codes = codes.map(|line| {
        line.split(' ')
            .next()
            .expect("a code")
            .parse()
            .expect("a number")
    });
    let events = input.events.iter().map(|event| record::header_of(event));
    events
        .zip(codes)
        .map(|(fields, code)| (fields.kind, fields.message, code))
        .collect()
}

/// Both machines, every message and timer, each refusal of S-7, and 9 at a dispatch and at a Graft's answer.
#[test]
fn everything_is_met() {
    let histories = histories();
    for machine in ["plumtree:", "topic:"] {
        assert!(histories
            .iter()
            .any(|history| history.name.starts_with(machine)));
    }
    let met: BTreeSet<_> = histories.iter().flat_map(answers).collect();
    for event in [
        (32, 0),
        (32, 1),
        (32, 2),
        (32, 3),
        (33, 0),
        (34, 0),
        (35, 0),
        (36, 0),
        (9, 0),
        (10, 0),
    ] {
        assert!(met.contains(&(event.0, event.1, 0)), "{event:?}");
    }
    for refused in [
        (34, 0, 9),
        (32, 2, 9),
        (32, 0, 10),
        (32, 0, 15),
        (32, 3, 15),
        (36, 0, 15),
        (9, 0, 15),
    ] {
        assert!(met.contains(&refused), "{refused:?}");
    }
    let codes: BTreeSet<_> = met.into_iter().map(|(_, _, code)| code).collect();
    assert!([0, 3, 4, 9, 10, 15]
        .into_iter()
        .all(|code| codes.contains(&code)));
}
