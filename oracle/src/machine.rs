//! What a history is run on: a file of the Rust.

#[cfg(feature = "tools")]
use crate::generate::{self, mix, History};
use crate::{
    gossip,
    text::{self, Form, Start},
};

#[derive(Clone, Copy, Debug, Default, PartialEq, Eq)]
pub enum Machine {
    /// The membership half.
    #[default]
    Hyparview,
    /// The membership half with pins among its events (02, S-14), a side of our own.
    Pins,
    /// The broadcast half, fed with notices.
    Plumtree,
    /// Both, joined.
    Topic,
}

/// The machines, each by the name of its file; `pins` is hyparview.rs with ours.
const NAMED: [(&str, Machine); 4] = [
    ("hyparview", Machine::Hyparview),
    ("pins", Machine::Pins),
    ("plumtree", Machine::Plumtree),
    ("topic", Machine::Topic),
];

impl Machine {
    pub fn named(name: &str) -> Option<Self> {
        let named = NAMED.iter().find(|(known, _)| *known == name);
        named.map(|(_, machine)| *machine)
    }

    /// The machine of a mix or of a history, and the rest of its name: `plumtree:even`, or `even` for the membership half.
    pub fn of(name: &str) -> Option<(Self, &str)> {
        match name.split_once(':') {
            Some((machine, rest)) => Some((Self::named(machine)?, rest)),
            None => Some((Self::Hyparview, name)),
        }
    }

    /// Whether it is the membership half alone.
    pub fn is_membership(self) -> bool {
        matches!(self, Machine::Hyparview | Machine::Pins)
    }

    /// Everything that a run of `input` prints.
    pub fn run(self, input: &[u8], start: Start, form: Form) -> String {
        match self {
            Machine::Hyparview | Machine::Pins => text::run(input, start, form),
            _ => gossip::text::run(self, input, start, form),
        }
    }

    /// The names of its mixes.
    #[cfg(feature = "tools")]
    pub fn mixes(self) -> Vec<&'static str> {
        match self {
            Machine::Hyparview | Machine::Pins => mix::MIXES.iter().map(|mix| mix.name).collect(),
            _ => gossip::generate::mix::of(self)
                .map(|mix| mix.name)
                .collect(),
        }
    }

    /// The history of a mix and a seed with at most so many events, or a written one, which has neither;
    /// `None` where no mix has this name.
    #[cfg(feature = "tools")]
    pub fn history(self, mix: &str, seed: u64, length: usize) -> Option<History> {
        let written = gossip::cases::named(mix).filter(|_| self == Machine::Plumtree);
        match (self, written) {
            (Machine::Hyparview, _) => Some(generate::history(mix::named(mix)?, seed, length)),
            (Machine::Pins, _) => Some(generate::pinned_history(mix::named(mix)?, seed, length)),
            (_, Some(case)) => (seed == 0 && length == 0).then(|| case.history()),
            _ => {
                let mix = gossip::generate::mix::named(self, mix)?;
                Some(gossip::generate::history(self, mix, seed, length))
            }
        }
    }

    /// The name of a history: its mix, with its machine in front but for the membership half, seed and most events.
    pub fn name(self, mix: &str, seed: u64, length: usize) -> String {
        let front = match self {
            Machine::Hyparview => "",
            Machine::Pins => "pins:",
            Machine::Plumtree => "plumtree:",
            Machine::Topic => "topic:",
        };
        format!("{front}{mix} {seed} {length}")
    }
}
