//! The run program's input (01, "The run program", and 02, S-8): header, events, draws, without gaps.

use crate::{
    record::{self, Peer},
    station::Settings,
};

pub const HEADER: usize = 60;
pub const MOST: usize = 65_536;

#[derive(Clone, Debug, PartialEq, Eq)]
pub struct Input {
    pub me: Peer,
    pub settings: Settings,
    pub events: Vec<Vec<u8>>,
    pub draws: Vec<u32>,
}

impl Input {
    pub fn write(&self) -> Vec<u8> {
        let events = self.events.concat();
        let numbers = [
            self.events.len() as u32,
            HEADER as u32,
            self.draws.len() as u32,
            (HEADER + events.len()) as u32,
        ];
        let me = [self.me as u32, (self.me >> 32) as u32];
        let head = me.into_iter().chain(self.settings).chain(numbers);
        let mut bytes: Vec<u8> = head.flat_map(u32::to_le_bytes).collect();
        bytes.extend(events);
        bytes.extend(self.draws.iter().flat_map(|draw| draw.to_le_bytes()));
        bytes
    }

    /// `None` where the run program prints only `= 3 0`.
    pub fn read(bytes: &[u8]) -> Option<Self> {
        if bytes.len() < HEADER || bytes.len() > MOST {
            return None;
        }
        let words: Vec<_> = bytes[..HEADER].chunks_exact(4).map(u32_of).collect();
        let number = |index: usize| words[index];
        let place = |index: usize| number(index) as usize;
        let (count, start, draws, end) = (place(11), place(12), place(13), place(14));
        if start != HEADER || end < HEADER || end + 4 * draws != bytes.len() {
            return None;
        }
        let events = record::cut(&bytes[start..end]);
        let filled: usize = events.iter().map(|event| event.len()).sum();
        if events.len() != count || start + filled != end {
            return None;
        }
        Some(Self {
            me: Peer::from(number(0)) | Peer::from(number(1)) << 32,
            settings: std::array::from_fn(|index| number(2 + index)),
            events: events.into_iter().map(<[u8]>::to_vec).collect(),
            draws: bytes[end..].chunks_exact(4).map(u32_of).collect(),
        })
    }
}

fn u32_of(bytes: &[u8]) -> u32 {
    u32::from_le_bytes(bytes.try_into().expect("four bytes"))
}
