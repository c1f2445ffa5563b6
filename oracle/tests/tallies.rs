//! What the program test_tally runs on and must print is the Rust's.

use std::{fs, path::Path};

use oracle::{
    record::{cut, kind},
    tallies::{self, REFUSALS},
};

/// The bytes of input that are too many for the program.
const BUFFER: usize = 65_536;

fn stored(file: &str) -> Vec<u8> {
    let path = Path::new(env!("CARGO_MANIFEST_DIR")).join("../crates/test_tally");
    fs::read(path.join(file)).expect("the cases are stored")
}

#[test]
fn the_stored_cases_are_the_rusts() {
    refusal::quiet_counters();
    let cases = tallies::cases();
    assert!(tallies::to_bytes(&cases) == stored("stdin"));
    assert!(tallies::to_text(&cases).into_bytes() == stored("stdout"));
}

/// In the histories: every kind of message, accepted events without output, refused ones with messages in it.
#[test]
fn the_cases_are_of_every_kind() {
    refusal::quiet_counters();
    let cases = tallies::cases();
    let histories = &cases[..cases.len() - REFUSALS.len() - 1];
    let last = histories.last().expect("a case");
    assert!(last.counts.iter().all(|count| *count > 1));
    let (accepted, refused): (Vec<_>, Vec<_>) = histories.iter().partition(|case| case.code == 0);
    assert!(accepted.iter().any(|case| case.out.is_empty()));
    assert!(refused.iter().any(|case| !case.out.is_empty()));
    assert!(tallies::to_bytes(&cases).len() < BUFFER);
}

/// The messages that were sent are those that stand in the outputs of accepted events.
#[test]
fn the_counts_are_those_of_the_bytes() {
    refusal::quiet_counters();
    let mut counts = [0; 6];
    for case in tallies::cases() {
        let sent = |record: &&[u8]| case.code == 0 && record[0] == kind::MESSAGE;
        for record in cut(&case.out).into_iter().filter(sent) {
            counts[usize::from(record[1])] += 1;
        }
        assert_eq!(counts, case.counts);
    }
}
