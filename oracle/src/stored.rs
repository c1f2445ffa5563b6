//! Stored histories: a text with a few head lines, the input in hex, the trace, and an empty line.
//!
//! ```text
//! history MIX SEED EVENTS             the mix with its machine in front but for the membership half: plumtree:even
//! room BYTES                          only where it is not 8192
//! counters REQUEST,JOIN,ALONE,SHORT   only where they are not a new station's
//! input HEX
//! (the trace, TRACE.md)
//! ```

use std::panic::{self, AssertUnwindSafe};

use crate::{
    hyparview::access::Counters,
    machine::Machine,
    text::{self, Form, Start},
};

#[derive(Clone, Debug, PartialEq, Eq)]
pub struct Stored {
    /// The mix, the seed and the most events, from which the history is made again.
    pub name: String,
    pub start: Start,
    pub input: Vec<u8>,
    pub trace: String,
}

impl Stored {
    /// Makes the history of a name, `MIX SEED EVENTS`.
    #[cfg(feature = "tools")]
    pub fn generate(name: &str) -> Option<Self> {
        let words: Vec<_> = name.split(' ').collect();
        let [mix, seed, events] = words[..] else {
            return None;
        };
        let (machine, mix) = Machine::of(mix)?;
        let history = machine.history(mix, seed.parse().ok()?, events.parse().ok()?)?;
        Some(Self {
            name: name.into(),
            trace: machine.run(&history.input, history.start, Form::Trace),
            start: history.start,
            input: history.input,
        })
    }

    pub fn write(&self) -> String {
        let usual = Start::default();
        let mut text = format!("history {}\n", self.name);
        if self.start.room != usual.room {
            text += &format!("room {}\n", self.start.room);
        }
        if let Some(counters) = &self.start.counters {
            text += &format!("counters {}\n", write_counters(counters));
        }
        text + &format!("input {}\n{}\n", text::hex(&self.input), self.trace)
    }

    /// `None` where the text is no stored history.
    fn read(text: &str) -> Option<Self> {
        let mut stored = Self {
            name: String::new(),
            start: Start::default(),
            input: Vec::new(),
            trace: String::new(),
        };
        let mut lines = text.lines();
        for line in lines.by_ref() {
            match line.split_once(' ')? {
                ("history", name) => stored.name = name.into(),
                ("room", room) => stored.start.room = room.parse().ok()?,
                ("counters", counters) => stored.start.counters = Some(read_counters(counters)?),
                ("input", hex) => {
                    stored.input = text::unhex(hex)?;
                    break;
                }
                _ => return None,
            }
        }
        stored.trace = lines.map(|line| line.to_owned() + "\n").collect();
        Machine::of(&stored.name)?;
        Some(stored)
    }

    /// Whether a run now prints the stored trace; a panic of the Rust counts as another answer.
    pub fn holds(&self) -> bool {
        let machine = Machine::of(&self.name).map_or(Machine::Hyparview, |(machine, _)| machine);
        let run = || machine.run(&self.input, self.start, Form::Trace);
        panic::catch_unwind(AssertUnwindSafe(run)).is_ok_and(|trace| trace == self.trace)
    }
}

/// All stored histories of a text.
pub fn read_all(text: &str) -> Option<Vec<Stored>> {
    text.split_terminator("\n\n").map(Stored::read).collect()
}

/// Replays the stored histories of the texts; `Err` where one does not hold now.
pub fn replay(texts: &[String]) -> Result<String, String> {
    let (mut held, mut text) = (0, String::new());
    for stored in texts {
        let stored = read_all(stored).ok_or("not in the stored form\n")?;
        for history in &stored {
            if history.holds() {
                held += 1;
            } else {
                text += &format!("differs: {}\n", history.name);
            }
        }
    }
    let differ = text.lines().count();
    text += &format!("{held} histories hold, {differ} differ\n");
    if differ == 0 {
        Ok(text)
    } else {
        Err(text)
    }
}

pub fn read_counters(text: &str) -> Option<Counters> {
    let numbers: Result<Vec<u64>, _> = text.split(',').map(str::parse).collect();
    let [next_request, next_join, alone, short] = numbers.ok()?[..] else {
        return None;
    };
    Some(Counters {
        next_request,
        next_join,
        passes_alone: alone.try_into().ok()?,
        passes_short: short.try_into().ok()?,
    })
}

fn write_counters(counters: &Counters) -> String {
    let Counters {
        next_request,
        next_join,
        passes_alone,
        passes_short,
    } = counters;
    format!("{next_request},{next_join},{passes_alone},{passes_short}")
}
