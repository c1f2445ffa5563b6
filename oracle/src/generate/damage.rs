//! Damage to records and to the run program's input.

use super::source::Source;
use crate::{record, station::RANGES};

/// A damaged copy of an event; its header still holds its length, so a run can be cut.
pub fn damaged_event(source: &mut Source, event: &[u8]) -> Vec<u8> {
    let mut bytes = event.to_vec();
    match source.below(7) {
        0 => bytes[3] = source.within(33, 255) as u8,
        1 => bytes[0] = source.within(9, 255) as u8,
        2 => bytes.extend(source.bytes(1 + excess(event))),
        3 => bytes.truncate(record::HEADER.max(bytes.len() - 1 - source.below(8))),
        4 => {
            let place = source.one_of(&[0, 1, 2, 3, 4, 8, 12, 16, 19, 20, 24, 31]);
            bytes[place] ^= 1 << source.below(8);
        }
        _ => {
            let place = source.below(bytes.len());
            bytes[place] ^= 1 << source.below(8);
        }
    }
    let length = (bytes.len() as u16).to_le_bytes();
    bytes[record::LENGTH..record::LENGTH + 2].copy_from_slice(&length);
    bytes
}

/// A damaged event whose kind became a pin's has the next one instead, which is none: so a history without pins stays so.
pub fn no_pin(mut event: Vec<u8>) -> Vec<u8> {
    if event[0] == record::kind::PIN {
        event[0] += 1;
    }
    event
}

/// How many bytes too many: one for a record without nodes, a node's for others.
fn excess(event: &[u8]) -> usize {
    if event.len() == record::HEADER {
        0
    } else {
        record::NODE - 1
    }
}

/// The number of the run program's input that is the first setting, after self's two halves.
const FIRST_SETTING: usize = 2;

/// A damaged copy of a run program's input, most of which it answers by `= 3 0` or `= 1 0`.
pub fn damaged_input(source: &mut Source, input: &[u8]) -> Vec<u8> {
    let mut bytes = input.to_vec();
    let mut set = |index: usize, number: u32| {
        bytes[4 * index..4 * index + 4].copy_from_slice(&number.to_le_bytes());
    };
    match source.below(6) {
        0 => bytes.truncate(source.below(input.len())),
        1 => bytes.extend(source.bytes(4)),
        2 => set(source.within(11, 14), source.below(100) as u32),
        3 => set(source.within(11, 14), u32::MAX - source.below(4) as u32),
        4 => {
            let setting = source.below(RANGES.len());
            set(FIRST_SETTING + setting, RANGES[setting].1 + 1);
        }
        _ => {
            let setting = source.one_of(&[0, 1, 7, 8]);
            set(FIRST_SETTING + setting, 0);
        }
    }
    bytes
}
