//! The outputs that crates/test_tally runs on and the counts that it must print. A message is counted where the Rust sends it,
//! and not read from the bytes.
//!
//! A case is the length of an output and the code of its event, four bytes each, lowest first, and then the output.

use rand::Draws;

use crate::{
    generate::{
        self,
        mix::{Mix, MIXES},
    },
    input::Input,
    record::{message, Node, Record, HEADER},
    station::{Answer, Station},
};

const SEED: u64 = 1;
const EVENTS: usize = 12;

/// So many zeroes stand behind the records of accepted events in turn: none, fewer than a header has bytes, as many, and more.
const ZEROES: [usize; 5] = [0, 1, HEADER - 1, HEADER, 100];

/// The codes of 01, and numbers whose lowest bytes are 0 or that have every bit.
pub const REFUSALS: [u32; 13] = [1, 2, 3, 4, 5, 6, 7, 8, 9, 10, 1 << 8, 1 << 16, u32::MAX];

/// What the program prints of a case that is cut off.
const CUT_OFF: &str = "! a case that is cut off\n";

pub struct Case {
    pub code: u32,
    pub out: Vec<u8>,
    /// The messages sent so far, by byte 1.
    pub counts: [u64; 6],
}

#[derive(Default)]
struct Sample {
    cases: Vec<Case>,
    counts: [u64; 6],
    /// The last output with a message.
    full: Vec<u8>,
}

/// Short histories of every mix, one tally through all of them; then one message of each kind, accepted and with every refusal.
pub fn cases() -> Vec<Case> {
    let mut sample = Sample::default();
    for mix in MIXES {
        sample.run(mix);
    }
    let one_of_each = one_of_each();
    sample.counts = sample.counts.map(|count| count + 1);
    sample.enter(0, one_of_each.clone());
    for code in REFUSALS {
        sample.enter(code, one_of_each.clone());
    }
    sample.cases
}

fn one_of_each() -> Vec<u8> {
    let message = |message| Record::message(message, 7, Vec::new()).write();
    (message::JOIN..=message::DISCONNECT)
        .flat_map(message)
        .collect()
}

impl Sample {
    fn enter(&mut self, code: u32, out: Vec<u8>) {
        let counts = self.counts;
        self.cases.push(Case { code, out, counts });
    }

    /// The answers to the events of a history; none where 01 refuses the whole input.
    fn run(&mut self, mix: &Mix) {
        let history = generate::history(mix, SEED, EVENTS);
        let Some(input) = Input::read(&history.input) else {
            return;
        };
        let draws = Draws::new(input.draws);
        let Some(mut station) = Station::new(input.me, &input.settings, draws) else {
            return;
        };
        station.start(history.start);
        for event in &input.events {
            self.answered(station.handle(event, history.start.room));
        }
    }

    /// An accepted event with its records and some zeroes, a refused one with the bytes of another's messages.
    fn answered(&mut self, answer: Answer) {
        if answer.code != 0 {
            return self.enter(answer.code.into(), self.full.clone());
        }
        for (count, sent) in self.counts.iter_mut().zip(answer.sent) {
            *count += sent;
        }
        let mut out = answer.out;
        out.resize(out.len() + ZEROES[self.cases.len() % ZEROES.len()], 0);
        if answer.sent != [0; 6] {
            self.full.clone_from(&out);
        }
        self.enter(0, out);
    }
}

fn head(length: usize, code: u32) -> Vec<u8> {
    let length = u32::try_from(length).expect("an output is short");
    [length.to_le_bytes(), code.to_le_bytes()].concat()
}

/// The cases as standard input, and behind them an accepted one with a Join whose last byte is missing.
pub fn to_bytes(cases: &[Case]) -> Vec<u8> {
    let mut bytes = Vec::new();
    for case in cases {
        bytes.extend(head(case.out.len(), case.code));
        bytes.extend(&case.out);
    }
    let join = Record::message(message::JOIN, 7, vec![Node::default()]).write();
    bytes.extend(head(join.len(), 0));
    bytes.extend(&join[..join.len() - 1]);
    bytes
}

/// The counts after each case, one line each, and the line for the one that is cut off.
pub fn to_text(cases: &[Case]) -> String {
    let line = |case: &Case| case.counts.map(|count| count.to_string()).join(" ") + "\n";
    cases.iter().map(line).collect::<String>() + CUT_OFF
}
