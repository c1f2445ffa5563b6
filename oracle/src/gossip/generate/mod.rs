//! Histories of the broadcast half from a seed: a station runs beside the generator and lends it its state.

mod events;
pub mod mix;

use self::mix::{Act, Bodies, Clock, Mix, Room};
use super::{
    record::{Id, Said},
    station::Station,
};
use crate::{
    generate::{damage, mix as swarm_mix, setup, source::Source, Generator as Swarm, History},
    input::Input,
    machine::Machine,
    plumtree::access::Parts,
    record::{self, kind, Peer, Record},
    station::DEFAULTS,
    text::{Form, Start},
};

const MOST_EVENT_BYTES: usize = 40_000;

/// The history of `mix` and `seed` with at most `length` events.
pub fn history(machine: Machine, mix: &Mix, seed: u64, length: usize) -> History {
    let mut generator = Generator::new(machine, mix, seed);
    while generator.events.len() < length && generator.has_space() {
        let event = generator.event();
        generator.handle(event);
    }
    generator.finish()
}

struct Generator<'a> {
    machine: Machine,
    mix: &'a Mix,
    source: Source,
    /// The membership half of a joined history, with a station of its own.
    swarm: Option<Swarm<'static>>,
    me: Peer,
    peers: Vec<Peer>,
    bodies: Vec<(Id, Vec<u8>)>,
    start: Start,
    now: u64,
    station: Station,
    parts: Parts,
    events: Vec<Vec<u8>>,
    event_bytes: usize,
    /// The ids of graft timers that earlier answers started.
    timers: Vec<Id>,
}

impl<'a> Generator<'a> {
    fn new(machine: Machine, mix: &'a Mix, seed: u64) -> Self {
        let mut source = Source::new(seed);
        let swarm = (machine == Machine::Topic).then(|| {
            let mix = swarm_mix::named(mix.swarm.1).expect("a mix of the membership half");
            Swarm::new(mix, source.next())
        });
        let peers = match &swarm {
            Some(swarm) => swarm.peers().to_vec(),
            None => setup::peers(&mut source, mix.numbers, mix.peers),
        };
        let me = swarm
            .as_ref()
            .map_or_else(|| source.one_of(&peers), Swarm::me);
        let input = input(swarm.as_ref(), me, Vec::new());
        let station = Station::new(machine, &input).expect("settings in range");
        Self {
            machine,
            mix,
            bodies: bodies(&mut source, mix.bodies),
            start: start(&mut source, mix.room),
            now: first_time(&mut source),
            me,
            peers,
            swarm,
            parts: station.gossip(),
            station,
            source,
            events: Vec::new(),
            event_bytes: 0,
            timers: Vec::new(),
        }
    }

    fn has_space(&self) -> bool {
        let drawn = self.swarm.as_ref().is_none_or(Swarm::has_space);
        self.event_bytes < MOST_EVENT_BYTES && drawn
    }

    fn handle(&mut self, event: Vec<u8>) {
        let answer = self.station.handle(&event, self.start.room);
        for output in record::cut(&answer.out) {
            if let Some(Said::SendGraft(id)) = Said::read(output) {
                self.timers.push(id);
            }
        }
        self.parts = self.station.gossip();
        self.event_bytes += event.len();
        self.events.push(event);
    }

    /// The next event; one of the membership half is handled by its own station too.
    fn event(&mut self) -> Vec<u8> {
        let turn = self.source.chance(self.mix.swarm.0) || self.parts.peers().is_empty();
        if let (Some(swarm), true) = (&mut self.swarm, turn) {
            return swarm.step(self.start.room);
        }
        self.now = self.next_time();
        loop {
            let act = self.source.weighted(self.mix.acts);
            if let Some(event) = self.act(act) {
                return event;
            }
        }
    }

    /// `None` where the act is none of this machine.
    fn act(&mut self, act: Act) -> Option<Vec<u8>> {
        match act {
            Act::Up | Act::Down | Act::Quit => self.notice(act),
            Act::Damaged => {
                let event = self.said(Act::Damaged).event(self.now);
                let event = damage::no_pin(damage::damaged_event(&mut self.source, &event));
                let own: Record = Record::of(kind::NEIGHBOR_UP, self.me);
                (event != own.write()).then_some(event)
            }
            _ => Some(self.said(act).event(self.now)),
        }
    }

    fn notice(&mut self, act: Act) -> Option<Vec<u8>> {
        if self.swarm.is_some() {
            return None;
        }
        let (kind, peer) = match act {
            // A membership half never has itself as a neighbour.
            Act::Up => (kind::NEIGHBOR_UP, self.newcomer()?),
            Act::Down => (kind::NEIGHBOR_DOWN, self.sender(90)),
            _ => (kind::QUIT, 0),
        };
        let record: Record = Record::of(kind, peer);
        Some(record.write())
    }

    fn next_time(&mut self) -> u64 {
        let steps: &[u64] = match self.mix.clock {
            Clock::Slow => &[0, 0, 1, 5, 40],
            Clock::Usual => &[0, 1, 5, 40, 80, 80, 500, 1000, 5000],
            Clock::Leaps => &[
                0, 1, 80, 1000, 10_000, 29_999, 30_000, 30_001, 60_000, 90_000,
            ],
        };
        let step = self.source.one_of(steps);
        let back = self.mix.clock == Clock::Leaps && self.source.chance(10);
        if back || self.source.chance(1) {
            self.now.saturating_sub(step)
        } else {
            self.now.saturating_add(step)
        }
    }

    /// The input, with its draws cut where that changes no answer.
    fn finish(self) -> History {
        let mut input = input(self.swarm.as_ref(), self.me, self.events);
        let print = |input: &Input| self.machine.run(&input.write(), self.start, Form::Trace);
        let whole = print(&input);
        let all = input.draws.clone();
        for spare in [0, 8, 64, all.len()] {
            let most = (self.station.place() + spare).min(all.len());
            input.draws = all[..most].to_vec();
            if print(&input) == whole {
                break;
            }
        }
        History {
            start: self.start,
            input: input.write(),
        }
    }
}

/// The half alone has default settings, which it does not read, and no draws.
fn input(swarm: Option<&Swarm>, me: Peer, events: Vec<Vec<u8>>) -> Input {
    Input {
        me,
        settings: swarm.map_or(DEFAULTS, Swarm::settings),
        events,
        draws: swarm.map_or(Vec::new(), |swarm| swarm.draws().to_vec()),
    }
}

fn bodies(source: &mut Source, rule: Bodies) -> Vec<(Id, Vec<u8>)> {
    let (count, lengths): (_, &[usize]) = match rule {
        Bodies::Few(count) => (count, &[0, 1, 2, 2, 3, 3]),
        Bodies::Edges(count) => (
            count,
            &[0, 1, 3, 31, 32, 63, 64, 65, 127, 128, 129, 192, 255, 256],
        ),
        Bodies::Full(count) => (count, &[256]),
    };
    let mut body = || {
        let length = source.one_of(lengths);
        let body = source.bytes(length);
        (Id::of(&body), body)
    };
    (0..count).map(|_| body()).collect()
}

fn start(source: &mut Source, rule: Room) -> Start {
    let mut start = Start::default();
    match rule {
        Room::Whole => {}
        Room::Small => start.room = source.below(700),
        Room::Tight => start.room = source.within(30, 140),
    }
    start
}

/// Most histories start at some second, a few at 0 or so near the largest time that what expires lies past it.
fn first_time(source: &mut Source) -> u64 {
    match source.below(8) {
        0 => 0,
        1 => u64::MAX - source.below(100_000) as u64,
        _ => source.below(1_000_000) as u64,
    }
}
