//! Demand 3's claims and those of 02, S-10, checked on the Rust after every event of many histories.

use std::{
    collections::{BTreeMap, BTreeSet},
    fmt::Write,
};

use rand::{Draws, PICKS, SHUFFLES};

use crate::{
    chatter::Chatter,
    hyparview::access::Parts,
    input::Input,
    ledger::Ledger,
    machine::Machine,
    record::{kind, message, peer_of, Peer, Record},
    rules::{self, Claim},
    shrink,
    station::{Answer, Station, ROOM},
    text::{self, Start},
};

/// So many draws suffice, if no choice passes over any of them.
const ENOUGH_DRAWS: u64 = 512;

/// The draws that choices passed over so far (02, S-6).
fn passed_over() -> u64 {
    PICKS.counts().into_iter().chain(SHUFFLES.counts()).sum()
}

/// What a step is found to do.
struct Told {
    answer: Answer,
    /// The neighbours with a pin that left.
    unpinned: usize,
    /// The neighbours without one that left beside a pinned one, by another's event.
    demoted: usize,
    broken: Vec<&'static str>,
}

/// One history under way, with its books.
struct Watch {
    input: Input,
    start: Start,
    station: Station,
    ledger: Ledger,
    chatter: Chatter,
}

impl Watch {
    fn new(input: Input, start: Start) -> Option<Self> {
        let draws = Draws::new(&input.draws[..]);
        let mut station = Station::new(input.me, &input.settings, draws)?;
        station.start(start);
        Some(Self {
            input,
            start,
            station,
            ledger: Ledger::default(),
            chatter: Chatter::default(),
        })
    }

    /// Handles the event at `index`.
    fn step(&mut self, index: usize) -> Told {
        let event = &self.input.events[index];
        let left = &self.input.draws[self.station.place().min(self.input.draws.len())..];
        let (lent, passed) = (left.len(), passed_over());
        let before = self.station.parts();
        let answer = self.station.handle(event, self.start.room);
        // Where a draw is wanted and none is left, all that were lent are read.
        let kept = (lent as u64).saturating_sub(passed_over() - passed);
        let capacity = self.input.settings[0];
        self.ledger.enter(capacity, event, &answer);
        self.chatter.enter(event, &answer);
        let parts = self.station.parts();
        let mut broken = rules::broken(self.input.me, &self.input.settings, &parts);
        let ledger = &self.ledger;
        let active: BTreeSet<_> = parts.active.iter().copied().collect();
        let sum = ledger.messages + 2 * ledger.neighbors.len() as u64;
        let claims = [
            ("notices are the active view", ledger.neighbors == active),
            ("message bound", sum <= ledger.allowance),
            ("draws lent", answer.drawn <= lent),
            (
                "no 5 with 512 draws kept",
                answer.code != 5 || kept < ENOUGH_DRAWS,
            ),
            ("8192 bytes", answer.out.len() <= ROOM),
            (
                "no 9 with 8192 bytes",
                answer.code != 9 || self.start.room < ROOM,
            ),
        ];
        broken.extend(rules::failing(&claims));
        broken.extend(rules::failing(
            &self.chatter.claims(&parts.requests, &parts.joins),
        ));
        broken.extend(rules::failing(&pin_claims(
            capacity, event, &answer, &before, &parts,
        )));
        let left = before
            .active
            .iter()
            .copied()
            .filter(|peer| !active.contains(peer));
        let (pinned, free): (Vec<Peer>, Vec<Peer>) =
            left.partition(|peer| before.pins.contains(peer));
        let demoted = free.iter().filter(|peer| !is_own(event, **peer));
        Told {
            unpinned: pinned.len(),
            demoted: if parts.pins.is_empty() {
                0
            } else {
                demoted.count()
            },
            answer,
            broken,
        }
    }
}

/// 02, S-14: when a pin is refused, what it changes, and by which events a pinned neighbour leaves.
fn pin_claims(
    capacity: u32,
    event: &[u8],
    answer: &Answer,
    before: &Parts,
    after: &Parts,
) -> [Claim; 5] {
    let asked = Record::read_event(event).is_ok_and(|record| record.kind == kind::PIN);
    let peer = asked.then(|| peer_of(event));
    let mut expected = before.clone();
    let code = match peer {
        None => answer.code,
        Some(peer) if !before.active.contains(&peer) => refusal::NOT_ACTIVE,
        Some(peer) if before.pins.contains(&peer) => 0,
        Some(_) if before.pins.len() as u32 == capacity - 1 => refusal::PINS,
        Some(peer) => {
            expected.pins.push(peer);
            expected.pins.sort();
            0
        }
    };
    let is_active = |peer: &&Peer| after.active.contains(peer);
    let stay = expected.pins.iter().filter(is_active);
    let left = before.pins.iter().filter(|peer| !is_active(peer));
    [
        ("pins are refused by 17 and 18", code == answer.code),
        (
            "a pin changes the pins alone",
            !asked || *after == expected && answer.out.is_empty() && answer.drawn == 0,
        ),
        (
            "other events answer neither 17 nor 18",
            asked || !matches!(answer.code, refusal::NOT_ACTIVE | refusal::PINS),
        ),
        (
            "a pin stays while its peer is active",
            after.pins.iter().eq(stay),
        ),
        (
            "a pinned neighbor leaves by its own event or Quit",
            left.copied().all(|peer| is_own(event, peer)),
        ),
    ]
}

/// Whether the event is a Disconnect from the peer, its closed connection, or Quit.
fn is_own(event: &[u8], peer: Peer) -> bool {
    match (event[0], event[1]) {
        (kind::MESSAGE, message::DISCONNECT) => peer_of(event) == peer,
        (kind::PEER_DISCONNECTED, _) => peer_of(event) == peer,
        (kind, _) => kind == kind::QUIT,
    }
}

fn breaks(input: &Input, start: Start, claim: &str) -> bool {
    let Some(mut watch) = Watch::new(input.clone(), start) else {
        return false;
    };
    (0..input.events.len()).any(|index| watch.step(index).broken.contains(&claim))
}

#[derive(Default)]
struct Largest {
    accepted: u64,
    refused: u64,
    drawn: usize,
    bytes: usize,
}

#[derive(Default)]
struct Report {
    events: u64,
    histories: u64,
    codes: BTreeMap<u8, u64>,
    kinds: BTreeMap<&'static str, Largest>,
    /// How many neighbours with a pin left the active view, by the event's kind.
    unpinned: BTreeMap<&'static str, usize>,
    /// How many left beside a pinned one for another's arrival.
    demoted: usize,
    /// The first history in which each claim failed.
    broken: BTreeMap<&'static str, (Input, Start)>,
}

impl Report {
    fn enter(&mut self, label: &'static str, answer: &Answer) {
        self.events += 1;
        *self.codes.entry(answer.code).or_default() += 1;
        let largest = self.kinds.entry(label).or_default();
        if answer.code == 0 {
            largest.accepted += 1;
        } else {
            largest.refused += 1;
        }
        largest.drawn = largest.drawn.max(answer.drawn);
        largest.bytes = largest.bytes.max(answer.out.len());
    }

    fn history(&mut self, input: Input, start: Start) {
        let Some(mut watch) = Watch::new(input, start) else {
            return;
        };
        self.histories += 1;
        for index in 0..watch.input.events.len() {
            let told = watch.step(index);
            let label = label(&watch.input.events[index]);
            self.enter(label, &told.answer);
            if told.unpinned > 0 {
                *self.unpinned.entry(label).or_default() += told.unpinned;
            }
            self.demoted += told.demoted;
            for claim in told.broken {
                self.broken
                    .entry(claim)
                    .or_insert((watch.input.clone(), start));
            }
        }
    }

    fn print(&self) -> String {
        let mut text = format!("{} events in {} histories\n", self.events, self.histories);
        for (code, count) in &self.codes {
            writeln!(text, "code {code}: {count}").unwrap();
        }
        writeln!(
            text,
            "{:24} {:>9} {:>8} {:>6} {:>6}",
            "event", "accepted", "refused", "draws", "bytes"
        )
        .unwrap();
        for (label, largest) in &self.kinds {
            let Largest {
                accepted,
                refused,
                drawn,
                bytes,
            } = largest;
            writeln!(
                text,
                "{label:24} {accepted:9} {refused:8} {drawn:6} {bytes:6}"
            )
            .unwrap();
        }
        for (label, count) in &self.unpinned {
            writeln!(text, "pinned neighbors that left by {label}: {count}").unwrap();
        }
        if self.demoted > 0 {
            let count = self.demoted;
            writeln!(text, "neighbors demoted beside a pinned one: {count}").unwrap();
        }
        for (claim, (input, start)) in &self.broken {
            let small = shrink::smallest(input, |input| breaks(input, *start, claim));
            writeln!(
                text,
                "FAILS: {claim}, {start:?}, input {}",
                text::hex(&small.write())
            )
            .unwrap();
        }
        writeln!(text, "{} claims fail", self.broken.len()).unwrap();
        text
    }
}

/// The name of an event's kind in reports.
pub fn label(event: &[u8]) -> &'static str {
    let Ok(record) = Record::read_event(event) else {
        return "damaged";
    };
    match (record.kind, record.message) {
        (kind::MESSAGE, message::JOIN) => "Join",
        (kind::MESSAGE, message::FORWARD_JOIN) => "ForwardJoin",
        (kind::MESSAGE, message::SHUFFLE) => "Shuffle",
        (kind::MESSAGE, message::SHUFFLE_REPLY) => "ShuffleReply",
        (kind::MESSAGE, message::NEIGHBOR) => "Neighbor",
        (kind::MESSAGE, _) => "Disconnect",
        (kind::DO_SHUFFLE, _) => "DoShuffle",
        (kind::DO_MAINTENANCE, _) => "DoMaintenance",
        (kind::PENDING_NEIGHBOR_REQUEST, _) => "PendingNeighborRequest",
        (kind::RETRY_JOIN, _) => "RetryJoin",
        (kind::PEER_DISCONNECTED, _) => "PeerDisconnected",
        (kind::REQUEST_JOIN, _) => "RequestJoin",
        (kind::UPDATE_PEER_DATA, _) => "UpdatePeerData",
        (kind::PIN, _) => "Pin",
        _ => "Quit",
    }
}

/// Checks at least `events` events of the membership half, over all mixes in turn; a failing claim is shown shrunk.
pub fn run(machine: Machine, seed: u64, events: u64, length: usize) -> String {
    let mut report = Report::default();
    let mut seeds = seed..;
    while report.events < events {
        let seed = seeds.next().expect("seeds without end");
        for mix in machine.mixes() {
            let history = machine.history(mix, seed, length).expect("a mix");
            if let Some(input) = Input::read(&history.input) {
                report.history(input, history.start);
            }
        }
    }
    report.print()
}
