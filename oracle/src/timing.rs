//! How long the Rust's `handle` takes, and nothing else: no reading, copying or writing is timed.

use std::{
    collections::BTreeMap,
    fmt::Write,
    hint::black_box,
    time::{Duration, Instant},
};

use rand::Draws;

use crate::{
    check::label,
    generate::{self, mix::MIXES},
    hyparview::{access, InEvent, State},
    input::Input,
    record::{Peer, View},
    station::Station,
    text::Start,
    topic::{Event, Message, Timer, IO},
    PeerData,
};

/// Takes what the station hands out and drops it.
pub struct Silent;

impl IO<Peer> for Silent {
    fn send(&mut self, peer: Peer, message: impl Into<Message<Peer>>) -> Option<Message<Peer>> {
        black_box((peer, message.into()));
        None
    }

    fn emit(&mut self, event: Event<Peer>) {
        black_box(event);
    }

    fn schedule(&mut self, delay: n0_future::time::Duration, timer: impl Into<Timer<Peer>>) {
        black_box((delay, timer.into()));
    }

    fn peer_data(&mut self, peer: Peer, data: PeerData) {
        black_box((peer, data));
    }
}

pub type RustState = State<Peer, Draws>;

/// An accepted event, the kind's name, and the state that it met.
pub struct Case<'a> {
    pub before: RustState,
    pub label: &'static str,
    pub event: &'a [u8],
}

impl Case<'_> {
    fn event(&self) -> InEvent<Peer> {
        access::event(&View::event(self.event).expect("an accepted event"))
    }
}

/// The accepted events of a history, in order; refused ones are none of the Rust's.
pub fn cases(input: &Input, start: Start) -> Vec<Case<'_>> {
    let draws = Draws::new(&input.draws[..]);
    let Some(mut station) = Station::new(input.me, &input.settings, draws) else {
        return Vec::new();
    };
    station.start(start);
    let mut cases = Vec::new();
    for event in &input.events {
        let before = station.state().clone();
        if station.handle(event, start.room).code == 0 {
            cases.push(Case {
                before,
                label: label(event),
                event,
            });
        }
    }
    cases
}

/// The time of each case on its own copy of its state.
pub fn on_copies(cases: &[&Case]) -> Duration {
    let copy = |case: &&Case| Some((case.before.clone(), case.event()));
    let mut work: Vec<_> = cases.iter().map(copy).collect();
    let mut states = Vec::with_capacity(work.len());
    let start = Instant::now();
    for slot in &mut work {
        let (mut state, event) = slot.take().expect("each case once");
        state.handle(event, &mut Silent);
        states.push(state);
    }
    let elapsed = start.elapsed();
    drop(black_box(states));
    elapsed
}

/// The time of a whole history on one state, event after event.
pub fn in_a_row(cases: &[Case]) -> Duration {
    let Some(first) = cases.first() else {
        return Duration::ZERO;
    };
    let mut state = first.before.clone();
    let events: Vec<_> = cases.iter().map(Case::event).collect();
    let start = Instant::now();
    for event in events {
        state.handle(event, &mut Silent);
    }
    let elapsed = start.elapsed();
    drop(black_box(state));
    elapsed
}

pub fn fastest(rounds: usize, time: impl Fn() -> Duration) -> u128 {
    (0..rounds)
        .map(|_| time())
        .min()
        .expect("a round")
        .as_nanos()
}

/// Nanoseconds of one `handle`: the fastest of `rounds` rounds, for each kind on copies and for
/// all in a row.
pub fn run(seed: u64, histories: u64, length: usize, rounds: usize) -> String {
    let mut inputs = Vec::new();
    for seed in seed..seed + histories {
        for mix in MIXES {
            let history = generate::history(mix, seed, length);
            inputs.extend(Input::read(&history.input).map(|input| (input, history.start)));
        }
    }
    let all: Vec<_> = inputs
        .iter()
        .map(|(input, start)| cases(input, *start))
        .collect();
    let mut kinds: BTreeMap<_, Vec<_>> = BTreeMap::new();
    for case in all.iter().flatten() {
        kinds.entry(case.label).or_default().push(case);
    }
    let mut text = format!("{:24} {:>6} {:>8}\n", "event", "cases", "ns");
    for (label, cases) in &kinds {
        let each = fastest(rounds, || on_copies(cases)) / cases.len() as u128;
        writeln!(text, "{label:24} {:6} {each:8}", cases.len()).unwrap();
    }
    let count: usize = all.iter().map(Vec::len).sum();
    let total: u128 = all
        .iter()
        .map(|cases| fastest(rounds, || in_a_row(cases)))
        .sum();
    let each = total / count as u128;
    writeln!(text, "{:24} {count:6} {each:8}", "all, in a row").unwrap();
    text
}
