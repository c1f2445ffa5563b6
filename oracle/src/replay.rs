//! `replay FILE...`: which stored histories does this build answer otherwise?

use std::{env, fs, process::ExitCode};

fn main() -> ExitCode {
    refusal::quiet_counters();
    let read =
        |file: String| fs::read_to_string(&file).unwrap_or_else(|error| panic!("{file}: {error}"));
    let texts: Vec<_> = env::args().skip(1).map(read).collect();
    let (text, failed) = match oracle::stored::replay(&texts) {
        Ok(text) => (text, false),
        Err(text) => (text, true),
    };
    print!("{text}");
    ExitCode::from(u8::from(failed))
}
