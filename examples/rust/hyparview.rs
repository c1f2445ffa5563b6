//! include/hyparview.h in Rust, with safe functions over it: a slice has what the library asks of a pointer and a length.
//! The header says what each name means.
#![allow(dead_code)]

use std::mem::{offset_of, size_of};

pub const VERSION: u32 = 3;
// The words of a state, by tools/make/layout.py
pub const WORDS: usize = 559;
// end
pub const OUTPUT: usize = 8192;
pub const DRAWS: usize = 512;
pub const HEADER: usize = 32;
pub const RECORD: usize = 928;

pub const ACCEPTED: u32 = 0;
pub const CODE_STATE: u32 = 2;
pub const CODE_EVENT: u32 = 3;
pub const CODE_DRAWS: u32 = 5;
pub const KIND_MESSAGE: u8 = 0;
pub const FIRST_TIMER: u8 = 1;
pub const LAST_TIMER: u8 = 4;

#[repr(C)]
#[derive(Clone, Copy)]
pub struct Config {
    pub active_view_capacity: u32,
    pub passive_view_capacity: u32,
    pub active_random_walk_length: u32,
    pub passive_random_walk_length: u32,
    pub shuffle_random_walk_length: u32,
    pub shuffle_active_view_count: u32,
    pub shuffle_passive_view_count: u32,
    pub shuffle_interval: u32,
    pub neighbor_request_timeout: u32,
}

pub const DEFAULTS: Config = Config {
    active_view_capacity: 5,
    passive_view_capacity: 30,
    active_random_walk_length: 6,
    passive_random_walk_length: 3,
    shuffle_random_walk_length: 6,
    shuffle_active_view_count: 3,
    shuffle_passive_view_count: 4,
    shuffle_interval: 60000,
    neighbor_request_timeout: 3000,
};

#[repr(C)]
#[derive(Clone, Copy, Default, PartialEq)]
pub struct Tally {
    pub join: u64,
    pub forward_join: u64,
    pub shuffle: u64,
    pub shuffle_reply: u64,
    pub neighbor: u64,
    pub disconnect: u64,
}

#[repr(C)]
pub struct Done {
    pub code: u32,
    pub draws: usize,
}

#[repr(C)]
pub struct Header {
    pub kind: u8,
    pub message: u8,
    pub flags: u8,
    pub nodes: u8,
    pub peer: u64,
    pub second: u64,
    pub ttl: u16,
    pub size: u16,
    pub number: u64,
}

#[repr(C)]
struct HeaderReading {
    ok: bool,
    header: Header,
}

#[repr(C)]
struct Entry {
    id: u64,
    offset: u16,
    len: u8,
    present: u8,
}

#[repr(C)]
struct NodeReading {
    ok: bool,
    node: Entry,
}

// The layout that the library was compiled with.
const _: () = {
    assert!(size_of::<usize>() == 8 && size_of::<Config>() == 36 && size_of::<Tally>() == 48);
    assert!(size_of::<Done>() == 16 && offset_of!(Done, draws) == 8);
    assert!(size_of::<Header>() == 40 && size_of::<Entry>() == 16);
    assert!(size_of::<HeaderReading>() == 48 && offset_of!(HeaderReading, header) == 8);
    assert!(size_of::<NodeReading>() == 24 && offset_of!(NodeReading, node) == 8);
};

#[link(name = "controller", kind = "static")]
extern "C" {
    fn hyparview_version() -> u32;
    fn hyparview_new(
        state: *mut u64,
        words: usize,
        tally: *mut Tally,
        me: u64,
        present: u8,
        own: *const u8,
        own_len: usize,
        config: Config,
    ) -> u32;
    fn hyparview_handle(
        state: *mut u64,
        words: usize,
        tally: *mut Tally,
        radio: bool,
        event: *const u8,
        event_len: usize,
        draws: *const u32,
        draws_len: usize,
        out: *mut u8,
        out_len: usize,
    ) -> Done;
    fn hyparview_wants_connection(state: *const u64, words: usize, peer: u64) -> bool;
    fn hyparview_is_neighbor(state: *const u64, words: usize, peer: u64) -> bool;
    fn hyparview_neighbor_count(state: *const u64, words: usize) -> usize;
    fn hyparview_neighbor(state: *const u64, words: usize, i: usize) -> u64;
    fn hyparview_spare_addresses(state: *const u64, words: usize) -> usize;
    fn hyparview_read(record: *const u8, len: usize) -> HeaderReading;
    fn hyparview_node(record: *const u8, len: usize, i: usize) -> NodeReading;
}

/// The version of the library, which is to be VERSION.
pub fn version() -> u32 {
    // SAFETY: it takes nothing.
    unsafe { hyparview_version() }
}

/// A station's words and its tally.
pub struct Station {
    pub words: [u64; WORDS],
    pub tally: Tally,
}

impl Station {
    /// A new station, or the code of the refusal.
    pub fn new(me: u64, own: Option<&[u8]>, config: Config) -> Result<Station, u32> {
        let mut s = Station {
            words: [0; WORDS],
            tally: Tally::default(),
        };
        let (present, bytes) = (own.is_some() as u8, own.unwrap_or(&[]));
        // SAFETY: each pointer is a reference's or a slice's, and what is written is borrowed alone.
        let code = unsafe {
            let (own, len) = (bytes.as_ptr(), bytes.len());
            hyparview_new(
                s.words.as_mut_ptr(),
                WORDS,
                &mut s.tally,
                me,
                present,
                own,
                len,
                config,
            )
        };
        match code {
            ACCEPTED => Ok(s),
            code => Err(code),
        }
    }

    /// One event from the wired side.
    pub fn handle(&mut self, event: &[u8], draws: &[u32], out: &mut [u8]) -> Done {
        // SAFETY: each pointer is a reference's or a slice's, and what is written is borrowed alone.
        unsafe {
            hyparview_handle(
                self.words.as_mut_ptr(),
                WORDS,
                &mut self.tally,
                false,
                event.as_ptr(),
                event.len(),
                draws.as_ptr(),
                draws.len(),
                out.as_mut_ptr(),
                out.len(),
            )
        }
    }

    pub fn wants_connection(&self, peer: u64) -> bool {
        // SAFETY: the pointer is a reference's.
        unsafe { hyparview_wants_connection(self.words.as_ptr(), WORDS, peer) }
    }

    pub fn is_neighbor(&self, peer: u64) -> bool {
        // SAFETY: the pointer is a reference's.
        unsafe { hyparview_is_neighbor(self.words.as_ptr(), WORDS, peer) }
    }

    /// The neighbours, in order.
    pub fn neighbors(&self) -> Vec<u64> {
        // SAFETY: the pointer is a reference's.
        let count = unsafe { hyparview_neighbor_count(self.words.as_ptr(), WORDS) };
        let at = |i| unsafe { hyparview_neighbor(self.words.as_ptr(), WORDS, i) };
        (0..count).map(at).collect()
    }

    pub fn spare_addresses(&self) -> usize {
        // SAFETY: the pointer is a reference's.
        unsafe { hyparview_spare_addresses(self.words.as_ptr(), WORDS) }
    }
}

/// The header of a record.
pub fn read(record: &[u8]) -> Option<Header> {
    // SAFETY: the pointer is a slice's.
    let r = unsafe { hyparview_read(record.as_ptr(), record.len()) };
    r.ok.then_some(r.header)
}

/// The i-th node of a record: the peer, and its data as a part of the record.
pub fn node(record: &[u8], i: usize) -> Option<(u64, Option<&[u8]>)> {
    // SAFETY: the pointer is a slice's.
    let r = unsafe { hyparview_node(record.as_ptr(), record.len(), i) };
    let at = r.node.offset as usize;
    let data = (r.node.present == 1).then(|| &record[at..at + r.node.len as usize]);
    r.ok.then_some((r.node.id, data))
}

/// The whole length of the record with this header.
pub fn size(header: &[u8]) -> usize {
    u16::from_le_bytes([header[22], header[23]]) as usize
}

/// The record that begins the bytes, by its whole length; none where that is under a header or over the bytes.
pub fn first(bytes: &[u8]) -> Option<&[u8]> {
    let size = size(bytes.get(..HEADER)?);
    bytes.get(..size).filter(|r| r.len() >= HEADER)
}

/// The records of an output, one after the other, to the zeroes after them.
pub fn records(mut out: &[u8]) -> impl Iterator<Item = &[u8]> {
    std::iter::from_fn(move || {
        let r = first(out)?;
        out = &out[r.len()..];
        Some(r)
    })
}
