//! A station: the Rust's `State` behind 01's refusals. Code 2 is not the oracle's.

use n0_future::time::Duration;
use rand::Draws;

use crate::{
    hyparview::{
        access::{self, pins, Counters, Parts},
        Config, State,
    },
    record::{Peer, View, Writer},
    text::Start,
};

/// The room that 01 says always suffices.
pub const ROOM: usize = 8192;

/// The nine settings in `Config`'s order, as numbers.
pub type Settings = [u32; 9];

/// The Rust's default settings.
pub const DEFAULTS: Settings = [5, 30, 6, 3, 6, 3, 4, 60_000, 3_000];

/// The range of each setting (01, "Settings and station rules").
pub const RANGES: [(u32, u32); 9] = [
    (1, 8),
    (1, 32),
    (0, 65_535),
    (0, 65_535),
    (0, 65_535),
    (0, 8),
    (0, 23),
    (1, 3_600_000),
    (1, 3_600_000),
];

/// What one event is answered with; the output is cut where the zeroes start.
#[derive(Clone, Debug, Default, PartialEq, Eq)]
pub struct Answer {
    pub code: u8,
    pub drawn: usize,
    pub out: Vec<u8>,
    /// The messages sent, by byte 1, counted where the Rust sends them.
    pub sent: [u64; 6],
}

#[derive(Clone)]
pub struct Station {
    state: State<Peer, Draws>,
}

impl Station {
    /// `None` where 01 answers 1: a setting is out of range.
    pub fn new(me: Peer, settings: &Settings, draws: Draws) -> Option<Self> {
        let config = config(settings)?;
        let state = State::limited(me, None, config, draws);
        Some(Self { state })
    }

    pub fn set_counters(&mut self, counters: Counters) {
        self.state.set_counters(counters);
    }

    /// Takes over the counters that a run starts with, if it names any.
    pub fn start(&mut self, start: Start) {
        if let Some(counters) = start.counters {
            self.set_counters(counters);
        }
    }

    pub fn parts(&self) -> Parts {
        self.state.parts()
    }

    /// The place reached in the draw list.
    pub fn place(&self) -> usize {
        self.state.rng().place()
    }

    pub fn state(&self) -> &State<Peer, Draws> {
        &self.state
    }

    /// Handles an event on a copy, which is kept only when no refusal was met.
    pub fn handle(&mut self, event: &[u8], room: usize) -> Answer {
        match self.try_handle(event, room) {
            Ok((state, out, sent)) => {
                let drawn = state.rng().place() - self.place();
                self.state = state;
                Answer {
                    code: 0,
                    drawn,
                    out,
                    sent,
                }
            }
            Err(code) => Answer {
                code,
                ..Answer::default()
            },
        }
    }

    fn try_handle(
        &self,
        event: &[u8],
        room: usize,
    ) -> Result<(State<Peer, Draws>, Vec<u8>, [u64; 6]), u8> {
        let view = View::event(event)?;
        refusal::first_refusal(|| {
            let mut state = self.state.clone();
            let mut bytes = vec![0; room];
            let mut output = Writer::new(&mut bytes);
            match pins::pinned(&view) {
                Some(peer) => state.pin(peer),
                None => state.handle(access::event(&view), &mut output),
            }
            let (written, sent) = (output.written(), output.sent);
            bytes.truncate(written);
            (state, bytes, sent)
        })
    }
}

pub fn config(settings: &Settings) -> Option<Config> {
    let fits = |(value, (least, most)): (&u32, (u32, u32))| (least..=most).contains(value);
    if !settings.iter().zip(RANGES).all(fits) {
        return None;
    }
    let millis = |value: u32| Duration::from_millis(value.into());
    let mut config = Config::default();
    config.active_view_capacity = settings[0] as usize;
    config.passive_view_capacity = settings[1] as usize;
    config.active_random_walk_length = settings[2] as u16;
    config.passive_random_walk_length = settings[3] as u16;
    config.shuffle_random_walk_length = settings[4] as u16;
    config.shuffle_active_view_count = settings[5] as usize;
    config.shuffle_passive_view_count = settings[6] as usize;
    config.shuffle_interval = millis(settings[7]);
    config.neighbor_request_timeout = millis(settings[8]);
    Some(config)
}
