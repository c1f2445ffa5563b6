//! The stored sample: it is made again from its names, and every history holds.

use std::{fs, path::Path};

use oracle::stored::{self, Stored};

fn sample(file: &str) -> String {
    let path = Path::new(env!("CARGO_MANIFEST_DIR"))
        .join("sample")
        .join(file);
    fs::read_to_string(path).expect("the sample is stored")
}

fn histories() -> Vec<Stored> {
    ["histories.txt", "limits.txt"]
        .into_iter()
        .flat_map(|file| stored::read_all(&sample(file)).expect("the stored form"))
        .collect()
}

#[test]
fn every_history_holds() {
    let broken: Vec<_> = histories()
        .into_iter()
        .filter(|history| !history.holds())
        .map(|history| history.name)
        .collect();
    assert_eq!(broken, Vec::<String>::new());
}

#[test]
fn every_history_is_made_again_from_its_name() {
    let names = sample("names.txt");
    let histories = histories();
    assert_eq!(names.lines().count(), histories.len());
    for history in histories {
        assert!(names.lines().any(|name| name == history.name));
        assert_eq!(Stored::generate(&history.name), Some(history));
    }
}

/// Codes 1, 3 to 7, 17 and 18 stand in the format's own sample, 9 and 10 beside it; 8 is met by no history (02, S-5).
#[test]
fn every_code_is_met() {
    let codes = |file| {
        let text = sample(file);
        let code = |line: &str| line.strip_prefix("= ")?.split(' ').next()?.parse().ok();
        let mut codes: Vec<u8> = text.lines().filter_map(code).collect();
        codes.sort();
        codes.dedup();
        codes
    };
    assert_eq!(codes("histories.txt"), [0, 1, 3, 4, 5, 6, 7, 17, 18]);
    let limits = codes("limits.txt");
    assert!([9, 10].iter().all(|code| limits.contains(code)));
}

#[test]
fn a_changed_answer_is_told() {
    let mut history = Stored::generate("tiny 1 6").expect("a mix");
    assert!(history.holds());
    history.trace = history.trace.replacen("active=[", "active=[9", 1);
    assert!(!history.holds());
}
