//! The linked library beside the Rust: the same histories, in one process.
//!
//! usage: bench [SEEDS] [EVENTS] [ROUNDS]

mod ours;
mod stack;

use std::{
    collections::BTreeMap,
    env,
    hint::black_box,
    process,
    time::{Duration, Instant},
};

use oracle::{
    generate::{self, mix::MIXES},
    hyparview::access::whole::Book,
    input::Input,
    record::HEADER,
    station::ROOM,
    text::Start,
    timing::{cases, fastest, in_a_row, on_copies, Case},
};

use ours::Ours;
use stack::Stack;

const COVERS: &str = "\
handle: the Rust's handle alone, on an event already read; what it hands out is dropped
whole:  the Rust doing the job of a call: reads the event's bytes, checks the station rules that its
        types leave open, keeps a copy of the state for a refusal, handles, writes the records into
        8192 bytes, clears the rest and raises a tally
ours:   a call of the library, which does the same over the state's memory, every rule checked
";

/// How many states the parts of a call are measured on, and how often the rounds are made for them.
const STATES: usize = 50;
const AGAIN: usize = 20;

/// An accepted event, with the library's state and the draws that it met.
struct Call<'a> {
    before: Ours,
    event: &'a [u8],
    draws: &'a [u32],
}

/// The accepted events of a history, as the library meets them.
fn calls(input: &Input) -> Vec<Call<'_>> {
    let mut calls = Vec::new();
    let Some(mut station) = Ours::new(input) else {
        return calls;
    };
    let mut out = [0; ROOM];
    let mut draws = &input.draws[..];
    for event in &input.events {
        let before = station.clone();
        let (code, drawn) = station.handle(event, draws, &mut out);
        if code == 0 {
            calls.push(Call {
                before,
                event,
                draws,
            });
            draws = &draws[drawn..];
        }
    }
    calls
}

/// Both do the same: every code, count of draws, byte of output and count of the tally.
fn assert_same(cases: &[Case], calls: &[Call]) {
    assert_eq!(cases.len(), calls.len(), "accepted events");
    let Some((case, call)) = cases.first().zip(calls.first()) else {
        return;
    };
    let (mut state, mut station) = (case.before.clone(), call.before.clone());
    let mut book = Book::new(&state);
    let (mut rust_out, mut out) = ([1; ROOM], [2; ROOM]);
    for (case, call) in cases.iter().zip(calls) {
        let rust = book.call(&mut state, case.event, &mut rust_out);
        let done = station.handle(call.event, call.draws, &mut out);
        assert_eq!((u32::from(rust.code), rust.drawn), done, "code and draws");
        assert!(rust_out == out, "output of {}", case.label);
        assert_eq!(book.tally, station.tally(), "tally");
    }
}

/// The time of each call of the library on its own copy of its state.
fn ours_on_copies(calls: &[&Call]) -> Duration {
    let mut copies: Vec<_> = calls.iter().map(|call| call.before.clone()).collect();
    let mut out = vec![0; ROOM];
    let start = Instant::now();
    for (call, copy) in calls.iter().zip(&mut copies) {
        black_box(copy.handle(call.event, call.draws, &mut out));
    }
    let elapsed = start.elapsed();
    black_box((copies, out));
    elapsed
}

/// The time of a whole history on one state of the library, event after event.
fn ours_in_a_row(calls: &[Call]) -> Duration {
    let Some(first) = calls.first() else {
        return Duration::ZERO;
    };
    let mut station = first.before.clone();
    let mut out = [0; ROOM];
    let start = Instant::now();
    for call in calls {
        black_box(station.handle(call.event, call.draws, &mut out));
    }
    let elapsed = start.elapsed();
    black_box((station, out));
    elapsed
}

/// The time of the Rust's whole job for each case, on its own copy of its state.
fn whole_on_copies(cases: &[&Case]) -> Duration {
    let mut copies: Vec<_> = cases.iter().map(|case| case.before.clone()).collect();
    let mut book = Book::new(&cases[0].before);
    let mut out = vec![0; ROOM];
    let start = Instant::now();
    for (case, copy) in cases.iter().zip(&mut copies) {
        black_box(book.call(copy, case.event, &mut out));
    }
    let elapsed = start.elapsed();
    drop(black_box((copies, out)));
    elapsed
}

/// The time of the Rust's whole job over a whole history on one state, event after event.
fn whole_in_a_row(cases: &[Case]) -> Duration {
    let Some(first) = cases.first() else {
        return Duration::ZERO;
    };
    let mut state = first.before.clone();
    let mut book = Book::new(&state);
    let mut out = [0; ROOM];
    let start = Instant::now();
    for case in cases {
        black_box(book.call(&mut state, case.event, &mut out));
    }
    let elapsed = start.elapsed();
    drop(black_box((state, out)));
    elapsed
}

/// The time of a piece of work for each call.
fn each(rounds: usize, calls: &[&Call], work: impl Fn(&Call)) -> u128 {
    let time = || {
        let start = Instant::now();
        calls.iter().for_each(|call| work(call));
        start.elapsed()
    };
    fastest(rounds, time) / calls.len() as u128
}

/// Parts of a call, on some states that stay in the cache: each is measured alone, by a call that does little else.
fn parts(rounds: usize, calls: &[Call]) {
    let some: Vec<&Call> = calls.iter().step_by(calls.len().div_ceil(STATES)).collect();
    let malformed = [0; HEADER - 1];
    let refused = |room: usize| {
        each(rounds, &some, |call| {
            let mut copy = call.before.clone();
            let mut out = [0; ROOM];
            black_box(copy.handle(&malformed, &[], &mut out[..room]));
        })
    };
    let read = each(rounds, &some, |call| {
        black_box(ours::read(call.event));
    });
    let checked = each(rounds, &some, |call| {
        black_box(call.before.spare_addresses());
    });
    let cleared = refused(ROOM).saturating_sub(refused(0));
    println!("ours: reading a record {read} ns, checking the state {checked} ns, clearing {ROOM} bytes {cleared} ns");
}

/// The most bytes of stack that a call takes, of every event of the histories, refused ones too.
fn deepest(inputs: &[Input]) -> (usize, usize) {
    let mut stack = Stack::new();
    let mut out = [0; ROOM];
    let (mut most, mut count) = (0, 0);
    let none = stack.touched(&mut || ());
    for input in inputs {
        let Some(mut station) = Ours::new(input) else {
            continue;
        };
        let mut draws = &input.draws[..];
        for event in &input.events {
            let mut drawn = 0;
            let touched = stack.touched(&mut || drawn = station.handle(event, draws, &mut out).1);
            draws = &draws[drawn..];
            most = most.max(touched - none);
            count += 1;
        }
    }
    (most, count)
}

/// The fastest round of each piece of work. They take turns, so that what else the machine does falls
/// on all of them.
fn in_turn(rounds: usize, works: [&dyn Fn() -> Duration; 3]) -> [u128; 3] {
    let mut least = [Duration::MAX; 3];
    for _ in 0..rounds {
        for (least, work) in least.iter_mut().zip(works) {
            *least = work().min(*least);
        }
    }
    least.map(|time| time.as_nanos())
}

/// A line of the table: nanoseconds an event, and ours beside each of the Rust's.
fn line(name: &str, count: usize, times: [u128; 3]) {
    let ratio = |rust: u128| times[2] as f64 / rust as f64;
    let (to_handle, to_whole) = (ratio(times[0]), ratio(times[1]));
    let [handle, whole, ours] = times.map(|time| time / count as u128);
    println!("{name:24} {count:6} {handle:8} {whole:8} {ours:8} {to_handle:12.2} {to_whole:11.2}");
}

/// The generator's histories of all mixes that start as a new station does.
fn inputs(seeds: usize, events: usize) -> Vec<Input> {
    let mut inputs = Vec::new();
    for seed in 1..=seeds as u64 {
        for mix in MIXES {
            let history = generate::history(mix, seed, events);
            if history.start == Start::default() {
                inputs.extend(Input::read(&history.input));
            }
        }
    }
    inputs
}

/// The arguments in order, with their usual values; a text in place of one ends the program.
fn numbers(usual: [usize; 3]) -> [usize; 3] {
    let mut arguments = env::args().skip(1);
    usual.map(|usual| {
        let number = arguments.next().map_or(Ok(usual), |text| text.parse());
        match number {
            Ok(number) if number > 0 => number,
            _ => {
                eprintln!("usage: bench [SEEDS] [EVENTS] [ROUNDS], each a number from 1 on");
                process::exit(1)
            }
        }
    })
}

fn main() {
    let [seeds, events, rounds] = numbers([5, 200, 30]);
    refusal::quiet_counters();
    let inputs = inputs(seeds, events);
    let rust: Vec<_> = inputs
        .iter()
        .map(|input| cases(input, Start::default()))
        .collect();
    let ours: Vec<_> = inputs.iter().map(calls).collect();
    let mut kinds: BTreeMap<_, (Vec<&Case>, Vec<&Call>)> = BTreeMap::new();
    for (cases, calls) in rust.iter().zip(&ours) {
        assert_same(cases, calls);
        for (case, call) in cases.iter().zip(calls) {
            let kind = kinds.entry(case.label).or_default();
            kind.0.push(case);
            kind.1.push(call);
        }
    }
    print!("{COVERS}");
    println!(
        "{:24} {:>6} {:>8} {:>8} {:>8} {:>12} {:>11}",
        "event, ns", "cases", "handle", "whole", "ours", "ours/handle", "ours/whole"
    );
    for (name, (cases, calls)) in &kinds {
        let times = in_turn(
            rounds,
            [&|| on_copies(cases), &|| whole_on_copies(cases), &|| {
                ours_on_copies(calls)
            }],
        );
        line(name, cases.len(), times);
    }
    let mut sum = [0; 3];
    for (cases, calls) in rust.iter().zip(&ours) {
        let times = in_turn(
            rounds,
            [&|| in_a_row(cases), &|| whole_in_a_row(cases), &|| {
                ours_in_a_row(calls)
            }],
        );
        for (sum, time) in sum.iter_mut().zip(times) {
            *sum += time;
        }
    }
    line("all, in a row", rust.iter().map(Vec::len).sum(), sum);
    let longest = ours.iter().max_by_key(|calls| calls.len());
    parts(rounds * AGAIN, longest.expect("a history"));
    let (most, count) = deepest(&inputs);
    println!("stack of a call, painted: {most} bytes at the most of {count} calls");
}
