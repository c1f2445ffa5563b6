//! 02's S-13: what the program `stories` must print, and the stored counts for each length, are the Rust's.

use std::{fs, path::Path};

use oracle::stories;

fn stored(file: &str) -> String {
    let path = Path::new(env!("CARGO_MANIFEST_DIR")).join(file);
    fs::read_to_string(path).expect("the counts are stored")
}

/// `by_length` fails where an event is refused or a history ends outside the four.
#[test]
fn the_stored_counts_are_the_rusts() {
    let lengths = stories::by_length().expect("no event is refused");
    assert_eq!(lengths.iter().flatten().sum::<u32>(), 69_905);
    assert_eq!(stories::all(&lengths), stored("../crates/run_stories/stdout"));
    assert_eq!(stories::in_turn(&lengths), stored("sample/stories.txt"));
}

#[test]
fn sixteen_events_that_differ() {
    let mut events = stories::events();
    assert_eq!(events.len(), 16);
    events.sort();
    events.dedup();
    assert_eq!(events.len(), 16);
}
