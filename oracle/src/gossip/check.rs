//! S-7's claims, checked on the Rust after every event of many histories.

use std::{
    collections::{BTreeMap, BTreeSet},
    fmt::Write,
};

use super::{
    claims::{self, Step},
    generate::{self, mix},
    record::{Id, Message, Said, Scope},
    station::{Notice, Station},
};
use crate::{
    check,
    hyparview::access,
    input::Input,
    limits,
    machine::Machine,
    plumtree::access::Parts,
    record::{self, kind},
    rules::{failing, Claim},
    shrink, station,
    station::Answer,
    text::{self, Start},
};

/// One history under way.
struct Watch {
    input: Input,
    start: Start,
    station: Station,
    /// Of a joined history: the membership half by itself.
    alone: Option<station::Station>,
    /// The orders delivered whose ids are remembered.
    delivered: BTreeSet<Id>,
}

impl Watch {
    fn new(machine: Machine, input: Input, start: Start) -> Option<Self> {
        let draws = rand::Draws::new(&input.draws[..]);
        let alone = station::Station::new(input.me, &input.settings, draws)?;
        Some(Self {
            station: Station::new(machine, &input)?,
            alone: (machine == Machine::Topic).then_some(alone),
            input,
            start,
            delivered: BTreeSet::new(),
        })
    }

    /// Handles the event at `index`; answers with the answer and the claims that fail.
    fn step(&mut self, index: usize) -> (Answer, Vec<&'static str>) {
        let event = self.input.events[index].clone();
        let old = self.station.clone();
        let answer = self.station.handle(&event, self.start.room);
        let (before, after) = (old.gossip(), self.station.gossip());
        let step = Step {
            room: self.start.room,
            event: &event,
            before: &before,
            answer: &answer,
            after: &after,
        };
        let mut broken = failing(&claims::rules(&after));
        broken.extend(failing(&step.claims()));
        broken.extend(failing(&[self.delivers_once(&answer, &after)]));
        broken.extend(failing(&self.joined(&old, &event, &answer)));
        (answer, broken)
    }

    /// The book of what was delivered, kept apart from the half's own.
    fn delivers_once(&mut self, answer: &Answer, after: &Parts) -> Claim {
        let mut once = true;
        for record in record::cut(&answer.out) {
            if let Some(Said::Received(_, Scope::Swarm(_), body)) = Said::read(record) {
                once &= self.delivered.insert(Id::of(&body));
            }
        }
        self.delivered.retain(|id| after.has_received(id));
        ("delivered at most once while its id is remembered", once)
    }

    /// What a joined station is to its two halves; nothing is claimed of the half alone.
    fn joined(&mut self, old: &Station, event: &[u8], answer: &Answer) -> Vec<Claim> {
        let (Station::Joined(was), Station::Joined(state)) = (old, &self.station) else {
            return Vec::new();
        };
        let Some(alone) = &mut self.alone else {
            return Vec::new();
        };
        let swarm = state.swarm.parts();
        let mut neighbors = swarm.active.clone();
        neighbors.sort();
        let gossip = state.gossip.parts();
        let mut claims = vec![("the peers are the neighbours", neighbors == gossip.peers())];
        if claims::is_membership(event) {
            let mut fed = was.gossip.clone();
            if answer.code == 0 {
                let quit = (event[0] == kind::QUIT).then_some(Notice::Quit);
                let notices = quit.into_iter().chain(Notice::of_output(&answer.out));
                notices.for_each(|notice| notice.feed(&mut fed));
            }
            claims.push((
                "the membership half answers as alone",
                alone.handle(event, self.start.room) == *answer,
            ));
            claims.push((
                "notices fed after the event do the same",
                fed.parts() == gossip,
            ));
        } else {
            claims.push(("no draw for the broadcast half", answer.drawn == 0));
        }
        claims.push((
            "the membership half is as alone",
            same(&alone.parts(), &swarm),
        ));
        claims
    }
}

fn same(alone: &access::Parts, joined: &access::Parts) -> bool {
    alone == joined
}

fn breaks(machine: Machine, input: &Input, start: Start, claim: &str) -> bool {
    let Some(mut watch) = Watch::new(machine, input.clone(), start) else {
        return false;
    };
    (0..input.events.len()).any(|index| watch.step(index).1.contains(&claim))
}

/// What was seen of one kind of event.
#[derive(Default)]
struct Seen {
    codes: BTreeMap<u8, u64>,
    bytes: usize,
}

/// A claim that failed: how often, and the first history in which it did.
struct Failure {
    events: u64,
    input: Input,
    start: Start,
}

struct Report {
    machine: Machine,
    events: u64,
    histories: u64,
    kinds: BTreeMap<&'static str, Seen>,
    broken: BTreeMap<&'static str, Failure>,
}

impl Report {
    fn history(&mut self, input: Input, start: Start) {
        let Some(mut watch) = Watch::new(self.machine, input, start) else {
            return;
        };
        self.histories += 1;
        for index in 0..watch.input.events.len() {
            let (answer, broken) = watch.step(index);
            self.events += 1;
            let seen = self
                .kinds
                .entry(label(&watch.input.events[index]))
                .or_default();
            *seen.codes.entry(answer.code).or_default() += 1;
            seen.bytes = seen.bytes.max(answer.out.len());
            for claim in broken {
                let failure = self.broken.entry(claim).or_insert_with(|| Failure {
                    events: 0,
                    input: watch.input.clone(),
                    start,
                });
                failure.events += 1;
            }
        }
    }

    fn print(&self) -> String {
        let mut text = format!("{} events in {} histories\n", self.events, self.histories);
        writeln!(text, "{:24} {:>6}  how often each code", "event", "bytes").unwrap();
        for (label, seen) in &self.kinds {
            let codes = seen
                .codes
                .iter()
                .map(|(code, count)| format!("{code}: {count}"));
            let codes: Vec<_> = codes.collect();
            writeln!(text, "{label:24} {:6}  {}", seen.bytes, codes.join("; ")).unwrap();
        }
        for (claim, failure) in &self.broken {
            let shows = |input: &Input| breaks(self.machine, input, failure.start, claim);
            let small = shrink::smallest(&failure.input, shows);
            let (events, count) = (failure.events, small.events.len());
            writeln!(
                text,
                "FAILS at {events} events: {claim}; room {}, smallest of {count} events, input {}",
                failure.start.room,
                text::hex(&small.write())
            )
            .unwrap();
        }
        writeln!(text, "{} claims fail", self.broken.len()).unwrap();
        text
    }
}

/// The name of an event's kind in reports.
fn label(event: &[u8]) -> &'static str {
    match (event[0], Said::read_event(event)) {
        (kind::NEIGHBOR_UP, _) => "NeighborUp",
        (kind::NEIGHBOR_DOWN, _) => "NeighborDown",
        (0..super::record::kind::MESSAGE, _) => check::label(event),
        (_, Err(refusal::FULL)) => "long body",
        (_, Err(_)) => "damaged",
        (_, Ok((_, said))) => said_label(&said),
    }
}

fn said_label(said: &Said) -> &'static str {
    match said {
        Said::Message(_, Message::Gossip(_, Scope::Swarm(_), _)) => "Gossip",
        Said::Message(_, Message::Gossip(..)) => "Gossip to neighbours",
        Said::Message(_, Message::Prune) => "Prune",
        Said::Message(_, Message::Graft(..)) => "Graft",
        Said::Message(_, Message::IHave(_)) => "IHave",
        Said::SendGraft(_) => "SendGraft",
        Said::DispatchLazyPush => "DispatchLazyPush",
        Said::EvictCache => "EvictCache",
        Said::Broadcast(Scope::Swarm(_), _) => "broadcast",
        Said::Broadcast(..) => "broadcast to neighbours",
        Said::Received(..) => "damaged",
    }
}

/// Checks at least `events` events, over all mixes in turn; a failing claim is shown shrunk. With
/// `skips` plumtree.rs runs as it is, and leaves out the peers grafted for an order.
pub fn run(machine: Machine, seed: u64, events: u64, length: usize, skips: bool) -> String {
    limits::skip_grafted(skips);
    let mut report = Report {
        machine,
        events: 0,
        histories: 0,
        kinds: BTreeMap::new(),
        broken: BTreeMap::new(),
    };
    let mut seeds = seed..;
    while report.events < events {
        let seed = seeds.next().expect("seeds without end");
        for mix in mix::of(machine) {
            let history = generate::history(machine, mix, seed, length);
            if let Some(input) = Input::read(&history.input) {
                report.history(input, history.start);
            }
        }
    }
    let text = report.print();
    limits::skip_grafted(false);
    text
}
