//! util.rs's `TimerMap` behind the calls of 02's S-1: the answers that crates/test_timer must print.
//!
//! A call is six 64-bit words: what, time or limit, delay, kind, peer, number. The Rust's queue has no
//! limits; 02's answers 3, 12 and 11 are given here, before it is asked.

use std::fmt::Write;

use n0_future::time::Instant;

use crate::{proto::TimerMap, record::Record};

pub const WORDS: usize = 6;
pub type Call = [u64; WORDS];

const INSERT: u64 = 0;
const POP: u64 = 1;
const FIRST: u64 = 2;
const LEN: u64 = 3;
const EVENT: u64 = 4;
const NEW: u64 = 5;

const CAPACITY: usize = 64;
const MALFORMED: u64 = 3;
const FULL: u64 = 11;
const TOO_LATE: u64 = 12;

#[derive(Clone, Copy, Debug)]
struct Item {
    kind: u64,
    peer: u64,
    number: u64,
}

/// Whether an event record can say the timer: kinds 1 and 2 have neither peer nor number.
fn is_timer(item: &Item) -> bool {
    let bare = item.peer == 0 && item.number == 0;
    (1..=4).contains(&item.kind) && (item.kind > 2 || bare)
}

/// The event record of a timer, as four words.
fn event(item: &Item) -> [u64; 4] {
    let record: Record = Record {
        number: item.number,
        ..Record::of(item.kind as u8, item.peer)
    };
    let bytes = record.write();
    let word = |at: usize| u64::from_le_bytes(bytes[at..at + 8].try_into().expect("8 bytes"));
    [word(0), word(8), word(16), word(24)]
}

/// The Rust's queue, and how many it holds.
struct Queue {
    map: TimerMap<Item>,
    held: usize,
}

fn millis(at: Instant) -> u64 {
    u64::try_from(at.as_millis()).expect("a due time of 64 bits")
}

impl Queue {
    fn new() -> Self {
        Self {
            map: TimerMap::default(),
            held: 0,
        }
    }

    fn insert(&mut self, time: u64, delay: u64, item: Item) -> u64 {
        if !is_timer(&item) {
            return MALFORMED;
        }
        let Some(due) = time.checked_add(delay) else {
            return TOO_LATE;
        };
        if self.held == CAPACITY {
            return FULL;
        }
        self.held += 1;
        self.map.insert(Instant::from_millis(due), item);
        0
    }

    fn pop(&mut self, limit: u64) -> Option<(u64, Item)> {
        let (at, item) = self.map.pop_before(Instant::from_millis(limit))?;
        self.held -= 1;
        Some((millis(at), item))
    }

    fn first(&self) -> Option<u64> {
        self.map.first().copied().map(millis)
    }
}

/// The lines of a list of calls.
pub fn answers(calls: &[Call]) -> String {
    let mut queue = Queue::new();
    let mut text = String::new();
    for &[what, time, delay, kind, peer, number] in calls {
        let item = Item { kind, peer, number };
        let words: Vec<u64> = match what {
            INSERT => vec![queue.insert(time, delay, item)],
            POP => match queue.pop(time) {
                Some((due, i)) => vec![0, 1, due, i.kind, i.peer, i.number, 0, 0, 0, 0],
                None => vec![0; 10],
            },
            FIRST => match queue.first() {
                Some(due) => vec![0, 1, due],
                None => vec![0; 3],
            },
            LEN => vec![0, queue.held as u64],
            EVENT => match queue.pop(time) {
                Some((due, i)) => {
                    let [a, b, c, d] = event(&i);
                    vec![0, 1, due, a, b, c, d]
                }
                None => vec![0; 7],
            },
            _ => {
                queue = Queue::new();
                vec![0]
            }
        };
        write!(text, "{what} ").expect("a string grows");
        for word in words {
            write!(text, "{word} ").expect("a string grows");
        }
        text.push('\n');
    }
    text
}

/// Numbers that follow from a seed (splitmix64).
struct Numbers(u64);

impl Numbers {
    fn next(&mut self) -> u64 {
        self.0 = self.0.wrapping_add(0x9e37_79b9_7f4a_7c15);
        let mut z = self.0;
        z = (z ^ (z >> 30)).wrapping_mul(0xbf58_476d_1ce4_e5b9);
        z = (z ^ (z >> 27)).wrapping_mul(0x94d0_49bb_1331_11eb);
        z ^ (z >> 31)
    }

    fn below(&mut self, n: u64) -> u64 {
        self.next() % n
    }

    /// A time or a delay of one of five manners: few values, so that many are equal; the upper edge;
    /// the lower edge; any; a clock's.
    fn time(&mut self, manner: u64) -> u64 {
        match manner {
            0 => self.below(4),
            1 => u64::MAX - self.below(4),
            2 => [0, 1, u64::MAX - 1, u64::MAX][self.below(4) as usize],
            3 => self.next(),
            _ => self.below(100) * 250,
        }
    }

    fn item(&mut self) -> [u64; 3] {
        let kind = match self.below(30) {
            0 => [0, 5, 32, u64::MAX][self.below(4) as usize],
            n => 1 + n % 4,
        };
        if kind <= 2 && self.below(10) != 0 {
            return [kind, 0, 0];
        }
        let peer = match self.below(6) {
            0 => [(1 << 32) - 1, 1 << 32, (1 << 32) + 7, u64::MAX][self.below(4) as usize],
            n => n,
        };
        [kind, peer, self.below(1 << 40)]
    }
}

/// Calls that fill and drain the queue in turn, in blocks of one manner each.
pub fn generate(seed: u64, count: usize) -> Vec<Call> {
    let mut numbers = Numbers(seed);
    let mut calls = vec![[NEW, 0, 0, 0, 0, 0]];
    let (mut manner, mut inserts) = (0, 7);
    while calls.len() < count {
        if numbers.below(150) == 0 {
            manner = numbers.below(5);
            inserts = [2, 3, 4, 5, 7][numbers.below(5) as usize];
        }
        let time = numbers.time(manner);
        let call = if numbers.below(10) < inserts {
            let delay = if manner == 1 {
                numbers.below(6)
            } else {
                numbers.time(manner)
            };
            let [kind, peer, number] = numbers.item();
            [INSERT, time, delay, kind, peer, number]
        } else {
            let what = match numbers.below(20) {
                0 => FIRST,
                1 => LEN,
                2..=6 => EVENT,
                7 if numbers.below(20) == 0 => NEW,
                _ => POP,
            };
            [what, time, 0, 0, 0, 0]
        };
        calls.push(call);
    }
    calls
}

pub fn to_bytes(calls: &[Call]) -> Vec<u8> {
    calls
        .iter()
        .flatten()
        .flat_map(|w| w.to_le_bytes())
        .collect()
}

/// The calls that stand in the bytes; what is cut off is left out.
pub fn from_bytes(bytes: &[u8]) -> Vec<Call> {
    let word = |b: &[u8]| u64::from_le_bytes(b.try_into().expect("8 bytes"));
    bytes
        .chunks_exact(8 * WORDS)
        .map(|call| std::array::from_fn(|i| word(&call[8 * i..8 * i + 8])))
        .collect()
}
