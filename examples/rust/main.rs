//! A station to copy, as examples/c/main.c: it waits for an event, hands it to the library, and does what the records that
//! come back say. The functions up to `handle` are a controller's own; here they read the events from standard input,
//! record after record, and print.

mod hyparview;

use hyparview::{
    read, records, size, version, Header, Station, ACCEPTED, CODE_DRAWS, CODE_STATE, DEFAULTS,
    DRAWS, FIRST_TIMER, HEADER, KIND_MESSAGE, LAST_TIMER, OUTPUT, RECORD, VERSION,
};
use std::io::Read;

/// With new draws, before an event counts as refused for want of them.
const TRIES: u32 = 3;
/// Milliseconds until a timer that was refused is brought again.
const AGAIN: u64 = 1000;

/// The next event: a message, an expired timer, a closed connection, a wish of the application. Empty at the end.
fn wait_for_event() -> Vec<u8> {
    let mut event = Vec::new();
    let mut input = std::io::stdin().lock();
    input
        .by_ref()
        .take(HEADER as u64)
        .read_to_end(&mut event)
        .unwrap();
    if event.len() == HEADER {
        let size = size(&event);
        let rest = if size <= RECORD {
            size.saturating_sub(HEADER)
        } else {
            0
        };
        input.take(rest as u64).read_to_end(&mut event).unwrap();
    }
    event
}

/// The draws of a call, and the last number drawn.
struct Draws([u32; DRAWS], u32);

impl Draws {
    /// The first n anew. Any random numbers; better ones than these where a controller has them.
    fn draw(&mut self, n: usize) {
        for d in &mut self.0[..n] {
            self.1 = self.1.wrapping_mul(1664525).wrapping_add(1013904223);
            *d = self.1;
        }
    }
}

fn send_message(h: &Header, record: &[u8]) {
    println!(
        "send message {} to {}: {} bytes",
        h.message,
        h.peer,
        record.len()
    );
}

fn start_timer(h: &Header) {
    println!(
        "start timer {} for {}, number {}, in {} ms",
        h.kind, h.peer, h.number, h.second
    );
}

fn tell(h: &Header) {
    println!("tell kind {} of {}", h.kind, h.peer);
}

/// The library's answer. Where the draws did not suffice the event did not happen, and others may.
fn answer(station: &mut Station, event: &[u8], draws: &mut Draws, out: &mut [u8]) -> u32 {
    for _ in 0..TRIES {
        let done = station.handle(event, &draws.0, out);
        if done.code != CODE_DRAWS {
            draws.draw(done.draws);
            return done.code;
        }
        draws.draw(DRAWS);
    }
    CODE_DRAWS
}

/// A refused event. A message counts as lost; a timer comes again, since only its event starts it anew.
fn refused(event: &[u8]) {
    match read(event) {
        Some(mut h) if (FIRST_TIMER..=LAST_TIMER).contains(&h.kind) => {
            h.second = AGAIN;
            start_timer(&h);
        }
        _ => {}
    }
}

/// What an accepted event brings about.
fn do_records(out: &[u8]) {
    for record in records(out) {
        let h = read(record).expect("each record is well-formed");
        match h.kind {
            KIND_MESSAGE => send_message(&h, record),
            kind if kind <= LAST_TIMER => start_timer(&h),
            _ => tell(&h),
        }
    }
}

/// One event.
fn handle(station: &mut Station, event: &[u8], draws: &mut Draws) {
    let mut out = [0; OUTPUT];
    let code = answer(station, event, draws, &mut out);
    println!("event of {} bytes: code {}", event.len(), code);
    match code {
        ACCEPTED => do_records(&out),
        CODE_STATE => panic!("the memory is damaged: begin anew with Station::new"),
        _ => refused(event),
    }
}

fn main() {
    assert!(
        version() == VERSION,
        "the library is another than this header's"
    );
    let mut station = Station::new(1, None, DEFAULTS).expect("the settings are in range");
    let mut draws = Draws([0; DRAWS], 1);
    draws.draw(DRAWS);
    loop {
        let event = wait_for_event();
        if event.is_empty() {
            break;
        }
        handle(&mut station, &event, &mut draws);
    }
    println!(
        "{} neighbours, {} spare addresses",
        station.neighbors().len(),
        station.spare_addresses()
    );
}
