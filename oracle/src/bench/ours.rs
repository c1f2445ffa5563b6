//! The linked library, as the benchmark calls it: the one place that knows the form of its state.

use oracle::input::Input;

#[path = "../../../examples/rust/hyparview.rs"]
mod hyparview;

use hyparview::{Config, Station};

/// A station of the library, with its tally.
pub struct Ours(Station);

impl Clone for Ours {
    fn clone(&self) -> Self {
        let Station { words, tally } = self.0;
        Self(Station { words, tally })
    }
}

impl Ours {
    /// A new station without own data; `None` where it is refused.
    pub fn new(input: &Input) -> Option<Self> {
        Station::new(input.me, None, config(input)).ok().map(Self)
    }

    /// One event: the code and the draws used.
    pub fn handle(&mut self, event: &[u8], draws: &[u32], out: &mut [u8]) -> (u32, usize) {
        let done = self.0.handle(event, draws, out);
        (done.code, done.draws)
    }

    /// A query, which checks the state and does little else.
    pub fn spare_addresses(&self) -> usize {
        self.0.spare_addresses()
    }

    /// The messages sent, by byte 1.
    pub fn tally(&self) -> [u64; 6] {
        let tally = self.0.tally;
        [
            tally.join,
            tally.forward_join,
            tally.shuffle,
            tally.shuffle_reply,
            tally.neighbor,
            tally.disconnect,
        ]
    }
}

/// Reads a record and answers with its kind.
pub fn read(event: &[u8]) -> Option<u8> {
    hyparview::read(event).map(|header| header.kind)
}

fn config(input: &Input) -> Config {
    let [active, passive, joins, passes, shuffles, some_active, some_passive, interval, timeout] =
        input.settings;
    Config {
        active_view_capacity: active,
        passive_view_capacity: passive,
        active_random_walk_length: joins,
        passive_random_walk_length: passes,
        shuffle_random_walk_length: shuffles,
        shuffle_active_view_count: some_active,
        shuffle_passive_view_count: some_passive,
        shuffle_interval: interval,
        neighbor_request_timeout: timeout,
    }
}
