//! The texts that a run prints: `station`'s lines (01) and the trace form (TRACE.md).

use std::fmt::Write;

use rand::Draws;

use crate::{
    hyparview::access::{Counters, Parts, Refill},
    input::Input,
    record::{self, Peer},
    station::{Answer, Station, ROOM},
};

#[derive(Clone, Copy, PartialEq, Eq)]
pub enum Form {
    Station,
    Trace,
}

/// What a run starts with beside its input; in 01 that is 8,192 bytes of room and the counters
/// of a new station.
#[derive(Clone, Copy, Debug, PartialEq, Eq)]
pub struct Start {
    pub room: usize,
    pub counters: Option<Counters>,
}

impl Default for Start {
    fn default() -> Self {
        Self {
            room: ROOM,
            counters: None,
        }
    }
}

/// Everything that a run of `input` prints.
pub fn run(input: &[u8], start: Start, form: Form) -> String {
    let Some(input) = Input::read(input) else {
        return "= 3 0\n".into();
    };
    let draws = Draws::new(input.draws);
    let Some(mut station) = Station::new(input.me, &input.settings, draws) else {
        return "= 1 0\n".into();
    };
    station.start(start);
    let mut text = String::new();
    for (index, event) in input.events.iter().enumerate() {
        let answer = station.handle(event, start.room);
        text += &match form {
            Form::Station => station_lines(index, &answer),
            Form::Trace => trace_lines(&answer, &station.parts()),
        };
    }
    text
}

pub fn station_lines(index: usize, answer: &Answer) -> String {
    let mut text = String::new();
    for record in record::cut(&answer.out) {
        let fields = record::header_of(record);
        let (kind, message, peer, second) =
            (fields.kind, fields.message, fields.peer, fields.second);
        let (ttl, number, count) = (fields.ttl, fields.number, record[3]);
        writeln!(
            text,
            "{index} {kind} {message} {peer} {second} {ttl} {number} {count}"
        )
        .unwrap();
    }
    text + &end_line(answer)
}

fn end_line(answer: &Answer) -> String {
    format!("= {} {}\n", answer.code, answer.drawn)
}

pub fn trace_lines(answer: &Answer, parts: &Parts) -> String {
    answer_lines(answer) + &state_line(parts)
}

/// The records, the code and the draws.
pub fn answer_lines(answer: &Answer) -> String {
    let mut text = String::new();
    for record in record::cut(&answer.out) {
        text += &hex(record);
        text += "\n";
    }
    text + &end_line(answer)
}

pub fn state_line(parts: &Parts) -> String {
    let refill = match parts.refill {
        Refill::Automatic => "A".into(),
        Refill::Requests(left) => format!("R{left}"),
        Refill::Recovery => "V".into(),
    };
    let data = parts
        .data
        .iter()
        .map(|(peer, data)| format!("{peer}:{}", hex(data)));
    let fields = [
        (
            "me",
            parts
                .me_data
                .as_ref()
                .map_or("-".into(), |data| format!("x{}", hex(data))),
        ),
        ("active", list(&parts.active)),
        ("passive", list(&parts.passive)),
        ("bootstrap", list(&parts.bootstrap)),
        ("recent", list(&parts.recent)),
        ("requests", list(pairs(&parts.requests))),
        ("next_request", parts.counters.next_request.to_string()),
        ("joins", list(pairs(&parts.joins))),
        ("next_join", parts.counters.next_join.to_string()),
        ("data", list(data)),
        ("alive", list(&parts.alive)),
        ("refused", list(&parts.refused)),
        ("refill", refill),
        ("timers", u8::from(parts.timers).to_string()),
        ("interval", parts.interval.to_string()),
        ("alone", parts.counters.passes_alone.to_string()),
        ("short", parts.counters.passes_short.to_string()),
        ("pins", list(&parts.pins)),
    ];
    let fields = fields.map(|(name, value)| format!(" {name}={value}"));
    format!("state{}\n", fields.concat())
}

pub fn list<T: ToString>(items: impl IntoIterator<Item = T>) -> String {
    let items: Vec<_> = items.into_iter().map(|item| item.to_string()).collect();
    format!("[{}]", items.join(","))
}

fn pairs(items: &[(Peer, u64)]) -> impl Iterator<Item = String> + '_ {
    items
        .iter()
        .map(|(peer, number)| format!("{peer}:{number}"))
}

pub fn hex(bytes: &[u8]) -> String {
    bytes.iter().map(|byte| format!("{byte:02x}")).collect()
}

/// The bytes of a hex text; `None` if it is not one.
pub fn unhex(text: &str) -> Option<Vec<u8>> {
    let pairs = text.as_bytes().chunks(2);
    let byte = |pair| u8::from_str_radix(std::str::from_utf8(pair).ok()?, 16).ok();
    pairs.map(byte).collect()
}
