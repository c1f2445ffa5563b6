//! Stored histories of the Rust (oracle/sample) over the exported functions from Rust: their records, codes, draws and states
//! are met byte for byte, or the program stops with 1 at the first difference; so too where a file has no event.
//!
//! usage: histories FILE...   (the form of the files: oracle/sample/README.md)

#[path = "../examples/rust/hyparview.rs"]
mod hyparview;

use hyparview::{first, node, read, records, Config, Station, Tally, CODE_EVENT, OUTPUT};
use std::process::exit;

/// A section of the words, by its HYPARVIEW_WORD_ constants: the first place, how many there are, and the count.
struct Section(usize, usize, usize);

// The places, by tools/make/layout.py
const ACTIVE: Section = Section(22, 8, 30);
const PASSIVE: Section = Section(31, 32, 63);
const ALIVE: Section = Section(64, 32, 96);
const REFUSED: Section = Section(97, 32, 129);
const REQUESTS: Section = Section(130, 32, 194);
const BOOTSTRAP: Section = Section(195, 8, 203);
const RECENT: Section = Section(204, 8, 212);
const JOINS: Section = Section(213, 8, 229);
const PEER_DATA: Section = Section(230, 80, 550);
const PINS: Section = Section(551, 7, 558);
const OWN_PRESENT: usize = 1;
const OWN_LEN: usize = 2;
const TIMERS_SCHEDULED: usize = 12;
const NEXT_SHUFFLE_INTERVAL: usize = 13;
const PASSES_ALONE: usize = 14;
const PASSES_SHORT: usize = 15;
const REFILL_KIND: usize = 16;
const REFILL_REQUESTS: usize = 17;
const NEXT_NEIGHBOR_REQUEST: usize = 18;
const NEXT_JOIN: usize = 19;
const OWN_LOW: usize = 20;
const OWN_HIGH: usize = 21;
// end

impl Section {
    /// A column of the places in use.
    fn column<'a>(&self, words: &'a [u64], k: usize) -> &'a [u64] {
        let at = self.0 + k * self.1;
        &words[at..at + words[self.2] as usize]
    }

    fn peers<'a>(&self, words: &'a [u64]) -> &'a [u64] {
        self.column(words, 0)
    }
}

fn stop(words: String) -> ! {
    eprintln!("{words}");
    exit(1)
}

fn config(n: &[u32]) -> Config {
    Config {
        active_view_capacity: n[0],
        passive_view_capacity: n[1],
        active_random_walk_length: n[2],
        passive_random_walk_length: n[3],
        shuffle_random_walk_length: n[4],
        shuffle_active_view_count: n[5],
        shuffle_passive_view_count: n[6],
        shuffle_interval: n[7],
        neighbor_request_timeout: n[8],
    }
}

fn hex(bytes: &[u8]) -> String {
    bytes.iter().map(|b| format!("{b:02x}")).collect()
}

fn joined(items: Vec<String>) -> String {
    format!("[{}]", items.join(","))
}

fn set(w: &[u64], s: Section) -> String {
    joined(s.peers(w).iter().map(u64::to_string).collect())
}

fn numbers(w: &[u64], s: Section) -> String {
    let pairs = s.peers(w).iter().zip(s.column(w, 1));
    joined(pairs.map(|(p, n)| format!("{p}:{n}")).collect())
}

/// Bytes of data in two words, the first lowest.
fn data(len: u64, low: u64, high: u64) -> String {
    let bytes = (low as u128 | (high as u128) << 64).to_le_bytes();
    hex(&bytes[..len as usize])
}

fn map(w: &[u64], s: Section) -> String {
    let entry = |i: usize| {
        let [p, len, low, high] = [0, 1, 2, 3].map(|k| s.column(w, k)[i]);
        format!("{p}:{}", data(len, low, high))
    };
    joined((0..s.peers(w).len()).map(entry).collect())
}

/// The state that the words hold, in the trace form.
fn state(w: &[u64]) -> String {
    let own = if w[OWN_PRESENT] == 1 { "x" } else { "-" };
    let refill = match w[REFILL_KIND] {
        0 => "A".to_string(),
        1 => format!("R{}", w[REFILL_REQUESTS]),
        _ => "V".to_string(),
    };
    let lists = format!(
        "active={} passive={} bootstrap={} recent={} requests={} next_request={} joins={} next_join={} data={} alive={} refused={}",
        set(w, ACTIVE),
        set(w, PASSIVE),
        set(w, BOOTSTRAP),
        set(w, RECENT),
        numbers(w, REQUESTS),
        w[NEXT_NEIGHBOR_REQUEST],
        numbers(w, JOINS),
        w[NEXT_JOIN],
        map(w, PEER_DATA),
        set(w, ALIVE),
        set(w, REFUSED),
    );
    format!(
        "state me={own}{} {lists} refill={refill} timers={} interval={} alone={} short={} pins={}",
        data(w[OWN_LEN], w[OWN_LOW], w[OWN_HIGH]),
        w[TIMERS_SCHEDULED],
        w[NEXT_SHUFFLE_INTERVAL],
        w[PASSES_ALONE],
        w[PASSES_SHORT],
        set(w, PINS),
    )
}

/// Whether the tally and the queries say what the records and the state say.
fn agrees(s: &Station, t: &Tally) -> bool {
    let w = &s.words;
    s.tally == *t
        && s.neighbors() == ACTIVE.peers(w)
        && s.spare_addresses() == PASSIVE.peers(w).len()
        && ACTIVE.peers(w).iter().all(|p| s.is_neighbor(*p))
        && PASSIVE.peers(w).iter().all(|p| !s.is_neighbor(*p))
        && REQUESTS.peers(w).iter().all(|p| s.wants_connection(*p))
        && JOINS.peers(w).iter().all(|p| s.wants_connection(*p))
}

fn raise(t: &mut Tally, message: u8) {
    match message {
        0 => t.join += 1,
        1 => t.forward_join += 1,
        2 => t.shuffle += 1,
        3 => t.shuffle_reply += 1,
        4 => t.neighbor += 1,
        _ => t.disconnect += 1,
    }
}

/// An output record read back: its header's length is its own, and each of its nodes is there, and none after them.
fn check_record(r: &[u8], sent: &mut Tally) -> bool {
    let Some(h) = read(r) else { return false };
    if h.kind == 0 {
        raise(sent, h.message);
    }
    let nodes = h.nodes as usize;
    h.size as usize == r.len()
        && (0..nodes).all(|i| node(r, i).is_some())
        && node(r, nodes).is_none()
}

/// The bytes of the input's numbers: self in two halves, the settings, two counts and two places.
const HEAD: usize = 15 * 4;

/// The input's numbers, events and draws, where they exactly fill it.
fn cut(input: &[u8]) -> Option<(Vec<u32>, Vec<&[u8]>, Vec<u32>)> {
    if input.len() < HEAD || input.len() > 65536 {
        return None;
    }
    let words = |b: &[u8]| {
        b.chunks_exact(4)
            .map(|w| u32::from_le_bytes(w.try_into().unwrap()))
            .collect::<Vec<_>>()
    };
    let head = words(&input[..HEAD]);
    let mut rest = &input[HEAD..];
    let mut events = Vec::new();
    for _ in 0..head[11] {
        let event = first(rest)?;
        events.push(event);
        rest = &rest[event.len()..];
    }
    let draws = words(rest);
    let filled = head[12] as usize == HEAD && head[14] as usize == input.len() - rest.len();
    (filled && rest.len() % 4 == 0 && head[13] as usize == draws.len())
        .then_some((head, events, draws))
}

/// The answers to one event, a line each, and how many draws it used.
fn answer(
    s: &mut Station,
    event: &[u8],
    draws: &[u32],
    room: usize,
    sent: &mut Tally,
) -> (Vec<String>, usize) {
    let mut out = vec![0xff; room];
    let done = s.handle(event, draws, &mut out);
    let mut lines = Vec::new();
    let mut end = 0;
    for r in records(&out) {
        end += r.len();
        let words = if check_record(r, sent) {
            ""
        } else {
            "malformed "
        };
        lines.push(format!("{words}{}", hex(r)));
    }
    if out[end..].iter().any(|b| *b != 0) {
        lines.push("no zeroes after the records".to_string());
    }
    lines.push(format!("= {} {}", done.code, done.draws));
    lines.push(state(&s.words));
    if !agrees(s, sent) {
        lines.push("tally or queries differ".to_string());
    }
    (lines, done.draws)
}

/// The answers to one input, a line each, and how many events it has.
fn answers(input: &[u8], room: usize, counters: Option<&str>) -> (Vec<String>, usize) {
    let Some((head, events, draws)) = cut(input) else {
        return (vec![format!("= {CODE_EVENT} 0")], 0);
    };
    let me = head[0] as u64 | (head[1] as u64) << 32;
    let mut s = match Station::new(me, None, config(&head[2..11])) {
        Ok(s) => s,
        Err(code) => return (vec![format!("= {code} 0")], 0),
    };
    if let Some(n) = counters {
        let n: Vec<u64> = n.split(',').map(|n| n.parse().unwrap()).collect();
        (s.words[NEXT_NEIGHBOR_REQUEST], s.words[NEXT_JOIN]) = (n[0], n[1]);
        (s.words[PASSES_ALONE], s.words[PASSES_SHORT]) = (n[2], n[3]);
    }
    let mut sent = Tally::default();
    let mut lines = Vec::new();
    let mut left = &draws[..];
    for event in &events {
        let (more, used) = answer(&mut s, event, left, room, &mut sent);
        lines.extend(more);
        left = &left[used..];
    }
    (lines, events.len())
}

fn unhex(text: &str) -> Vec<u8> {
    (0..text.len() / 2)
        .map(|i| u8::from_str_radix(&text[2 * i..2 * i + 2], 16).unwrap())
        .collect()
}

/// One stored history: its lines to the empty one. Returns how many events it has.
fn history(name: &str, stored: &str) -> usize {
    let field = |word: &str| stored.lines().find_map(|l| l.strip_prefix(word));
    let title = field("history ").unwrap_or("?");
    let room = field("room ").map_or(OUTPUT, |n| n.parse().unwrap());
    let Some(input) = field("input ") else {
        stop(format!("{name}: history {title} has no input"))
    };
    let (got, events) = answers(&unhex(input), room, field("counters "));
    let kept = stored.lines().skip_while(|l| !l.starts_with("input "));
    let kept: Vec<&str> = kept.skip(1).collect();
    for i in 0..got.len().max(kept.len()) {
        let was = kept.get(i).unwrap_or(&"nothing");
        let is = got.get(i).map_or("nothing", |l| l);
        if *was != is {
            let place = format!("{name}: history {title}: answer line {}", i + 1);
            stop(format!("{place}: stored\n{was}\nand got\n{is}"));
        }
    }
    events
}

fn main() {
    let mut events = 0;
    for name in std::env::args().skip(1) {
        let text = std::fs::read_to_string(&name).unwrap_or_else(|e| stop(format!("{name}: {e}")));
        let stored = text.split("\n\n").filter(|h| !h.is_empty());
        let more: usize = stored.map(|h| history(&name, h)).sum();
        if more == 0 {
            stop(format!("{name}: no events"));
        }
        events += more;
    }
    if events == 0 {
        stop("histories: no file".to_string());
    }
    println!("histories: {events} events, same as stored");
}
