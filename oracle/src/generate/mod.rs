//! Histories from a seed: a station runs beside the generator and lends it its state.

pub(crate) mod damage;
mod events;
pub mod mix;
pub(crate) mod setup;
pub(crate) mod source;

use rand::Draws;

use self::{
    mix::{Act, Mix, Twist},
    source::Source,
};
use crate::{
    hyparview::access::Parts,
    input::Input,
    record::{self, kind, message, Peer, Record},
    station::{Settings, Station},
    text::{self, Form, Start},
};

/// A generated history: the run program's input, and what it starts with.
pub struct History {
    pub start: Start,
    pub input: Vec<u8>,
}

/// So many draws suffice for an event where none is passed over, so a history ends before draws run out by chance.
const MOST_DRAWN: usize = 512;
const MOST_EVENT_BYTES: usize = 40_000;

/// In histories with pins so many percent of the events are meant as one (02, S-14).
const PINS: usize = 10;

/// The history of `mix` and `seed` with at most `length` events, none of them a pin.
pub fn history(mix: &Mix, seed: u64, length: usize) -> History {
    made(Generator::new(mix, seed), mix, length)
}

/// The same with pins among the events.
pub fn pinned_history(mix: &Mix, seed: u64, length: usize) -> History {
    let mut generator = Generator::new(mix, seed);
    generator.pins = true;
    made(generator, mix, length)
}

fn made(mut generator: Generator, mix: &Mix, length: usize) -> History {
    if mix.twist == Twist::Filled {
        generator.fill();
    }
    while generator.events.len() < length && generator.has_space() {
        generator.step(generator.start.room);
    }
    generator.finish()
}

pub(crate) struct Generator<'a> {
    mix: &'a Mix,
    source: Source,
    me: Peer,
    peers: Vec<Peer>,
    settings: Settings,
    start: Start,
    draws: Vec<u32>,
    station: Station,
    parts: Parts,
    events: Vec<Vec<u8>>,
    event_bytes: usize,
    /// Timers that earlier answers scheduled for a peer: kind, peer, number.
    timers: Vec<(u8, Peer, u64)>,
    /// The place of the next peer that a filled history brings.
    fresh: usize,
    /// Whether pins are among the events.
    pins: bool,
}

impl<'a> Generator<'a> {
    pub(crate) fn new(mix: &'a Mix, seed: u64) -> Self {
        let mut source = Source::new(seed);
        let peers = setup::peers(&mut source, mix.numbers, mix.peers);
        let me = source.one_of(&peers);
        let settings = setup::settings(&mut source, mix.settings);
        let start = setup::start(&mut source, mix.twist);
        let draws = setup::draws(&mut source, mix.twist);
        let mut station =
            Station::new(me, &settings, Draws::new(&draws[..])).expect("settings in range");
        station.start(start);
        Self {
            mix,
            me,
            peers,
            settings,
            start,
            draws,
            parts: station.parts(),
            station,
            source,
            events: Vec::new(),
            event_bytes: 0,
            timers: Vec::new(),
            fresh: 0,
            pins: false,
        }
    }

    pub(crate) fn me(&self) -> Peer {
        self.me
    }

    pub(crate) fn peers(&self) -> &[Peer] {
        &self.peers
    }

    pub(crate) fn settings(&self) -> Settings {
        self.settings
    }

    pub(crate) fn draws(&self) -> &[u32] {
        &self.draws
    }

    pub(crate) fn has_space(&self) -> bool {
        let drawn = self.station.place() + MOST_DRAWN;
        let short = self.mix.twist == Twist::ShortDraws;
        self.event_bytes < MOST_EVENT_BYTES && (short || drawn <= self.draws.len())
    }

    /// Makes the next event and handles it with so much room.
    pub(crate) fn step(&mut self, room: usize) -> Vec<u8> {
        let act = if self.pins && self.source.chance(PINS) {
            Act::Pin
        } else {
            self.source.weighted(self.mix.acts)
        };
        let event = self.event(act);
        self.handle_within(event.clone(), room);
        event
    }

    fn handle(&mut self, event: Vec<u8>) {
        self.handle_within(event, self.start.room);
    }

    fn handle_within(&mut self, event: Vec<u8>, room: usize) {
        let answer = self.station.handle(&event, room);
        for output in record::cut(&answer.out) {
            let fields = record::header_of(output);
            if matches!(
                fields.kind,
                kind::PENDING_NEIGHBOR_REQUEST | kind::RETRY_JOIN
            ) {
                self.timers.push((fields.kind, fields.peer, fields.number));
            }
        }
        self.parts = self.station.parts();
        self.event_bytes += event.len();
        self.events.push(event);
    }

    /// Fills the passive view and most open requests with peers that have data.
    fn fill(&mut self) {
        let nodes = (0..32).map(|_| self.fresh_node()).collect();
        self.handle(Record::message(message::SHUFFLE, self.me, nodes).write());
        for _ in 0..30 {
            let nodes = vec![self.fresh_node()];
            self.handle(Record::message(message::FORWARD_JOIN, self.me, nodes).write());
        }
    }

    /// The input, with its draws cut where that changes no answer.
    fn finish(mut self) -> History {
        let mut input = Input {
            me: self.me,
            settings: self.settings,
            events: self.events,
            draws: self.draws,
        };
        let print = |input: &Input| text::run(&input.write(), self.start, Form::Trace);
        let whole = print(&input);
        let all = input.draws.clone();
        for spare in [0, 8, 64, MOST_DRAWN] {
            let most = (self.station.place() + spare).min(all.len());
            input.draws = all[..most].to_vec();
            if print(&input) == whole {
                break;
            }
        }
        let mut bytes = input.write();
        if self.mix.twist == Twist::DamagedInput {
            bytes = damage::damaged_input(&mut self.source, &bytes);
        }
        History {
            start: self.start,
            input: bytes,
        }
    }

    fn event(&mut self, act: Act) -> Vec<u8> {
        if act == Act::Damaged {
            let whole = self.mix.acts.iter().filter(|(act, _)| *act != Act::Damaged);
            let pin = self.pins.then_some((Act::Pin, 1));
            let whole: Vec<_> = whole.copied().chain(pin).collect();
            let act = self.source.weighted(&whole);
            let event = self.event(act);
            let damaged = damage::damaged_event(&mut self.source, &event);
            return if self.pins {
                damaged
            } else {
                damage::no_pin(damaged)
            };
        }
        self.record(act).write()
    }
}
