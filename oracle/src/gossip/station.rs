//! A station with the broadcast half: plumtree.rs alone, or joined with hyparview.rs by topic.rs.

use n0_future::time::Instant;
use rand::Draws;

use super::record::Said;
use crate::{
    hyparview::{
        self,
        access::{self, pins},
    },
    input::Input,
    machine::Machine,
    plumtree::{self, access::Parts},
    record::{kind, length_of, Peer, View, Writer, HEADER, MALFORMED, MOST_NODES, NODE_COUNT},
    station::{config, Answer},
    topic::{self, Command, InEvent, Message, Timer},
};

/// The first kind of the broadcast half.
const FIRST_KIND: u8 = super::record::kind::MESSAGE;

pub enum Station {
    /// Fed with the up and down notices of a membership half, and with Quit.
    Alone(plumtree::State<Peer>),
    Joined(topic::State<Peer, Draws>),
}

impl Clone for Station {
    fn clone(&self) -> Self {
        match self {
            Station::Alone(state) => Station::Alone(state.clone()),
            Station::Joined(state) => Station::Joined(topic::State {
                swarm: state.swarm.clone(),
                gossip: state.gossip.clone(),
            }),
        }
    }
}

impl Station {
    /// `None` where 01 answers 1: a setting is out of range.
    pub fn new(machine: Machine, input: &Input) -> Option<Self> {
        let membership = config(&input.settings)?;
        if machine == Machine::Plumtree {
            return Some(Station::Alone(plumtree::State::limited(input.me)));
        }
        let draws = Draws::new(&input.draws[..]);
        let mut settings = topic::Config::default();
        settings.membership = membership;
        let state = topic::State::with_rng(input.me, None, settings, draws);
        Some(Station::Joined(topic::State {
            swarm: state.swarm.with_limits(),
            gossip: state.gossip.with_limits(),
        }))
    }

    pub fn gossip(&self) -> Parts {
        match self {
            Station::Alone(state) => state.parts(),
            Station::Joined(state) => state.gossip.parts(),
        }
    }

    /// The state of the membership half, where it is there.
    pub fn swarm(&self) -> Option<access::Parts> {
        match self {
            Station::Alone(_) => None,
            Station::Joined(state) => Some(state.swarm.parts()),
        }
    }

    /// The place reached in the draw list.
    pub fn place(&self) -> usize {
        match self {
            Station::Alone(_) => 0,
            Station::Joined(state) => state.swarm.rng().place(),
        }
    }

    /// Handles an event on a copy, which is kept only when no refusal was met.
    pub fn handle(&mut self, event: &[u8], room: usize) -> Answer {
        match self.try_handle(event, room) {
            Ok((state, out, sent)) => {
                let drawn = state.place() - self.place();
                *self = state;
                Answer {
                    code: 0,
                    drawn,
                    out,
                    sent,
                }
            }
            Err(code) => Answer {
                code,
                ..Answer::default()
            },
        }
    }

    fn try_handle(&self, event: &[u8], room: usize) -> Result<(Self, Vec<u8>, [u64; 6]), u8> {
        let event = self.read(event)?;
        refusal::first_refusal(|| {
            let mut state = self.clone();
            let mut bytes = vec![0; room];
            let mut output = Writer::new(&mut bytes);
            state.feed(event, &mut output);
            let (written, sent) = (output.written(), output.sent);
            bytes.truncate(written);
            (state, bytes, sent)
        })
    }

    fn read(&self, bytes: &[u8]) -> Result<Event, u8> {
        let first = bytes.first().copied().unwrap_or_default();
        match self {
            _ if first >= FIRST_KIND => {
                Said::read_event(bytes).map(|(now, said)| Event::Said(now, said))
            }
            Station::Alone(_) => Notice::read(bytes).map(Event::Notice),
            Station::Joined(_) => View::event(bytes).map(|view| match pins::pinned(&view) {
                Some(peer) => Event::Pin(peer),
                None => Event::Swarm(access::event(&view)),
            }),
        }
    }

    fn feed(&mut self, event: Event, output: &mut Writer) {
        match (self, event) {
            (Station::Alone(state), Event::Said(now, said)) => {
                let event = plumtree::access::event(&said);
                state.handle(event, Instant::from_millis(now), output);
            }
            (Station::Alone(state), Event::Notice(notice)) => notice.feed(state),
            (Station::Joined(state), Event::Said(now, said)) => {
                let event = of_gossip(plumtree::access::event(&said));
                state.handle(event, Instant::from_millis(now), output);
            }
            (Station::Joined(state), Event::Swarm(event)) => {
                // The membership half has no clock, and notices take no time.
                state.handle(of_swarm(event), Instant::from_millis(0), output);
            }
            (Station::Joined(state), Event::Pin(peer)) => state.swarm.pin(peer),
            _ => unreachable!("each station reads its own events"),
        }
    }
}

enum Event {
    Said(u64, Said),
    Notice(Notice),
    Swarm(hyparview::InEvent<Peer>),
    Pin(Peer),
}

/// What the membership half tells the broadcast half: its records of kinds 9 and 10, and that it quits.
#[derive(Clone, Copy, Debug, PartialEq, Eq)]
pub enum Notice {
    Up(Peer),
    Down(Peer),
    Quit,
}

impl Notice {
    fn read(bytes: &[u8]) -> Result<Self, u8> {
        if bytes.len() < HEADER {
            return Err(MALFORMED);
        }
        if bytes[3] > MOST_NODES {
            return Err(NODE_COUNT);
        }
        let fields = crate::record::header_of(bytes);
        let bare = bytes[3] == 0 && bytes.len() == HEADER && length_of(bytes) == HEADER;
        match fields.kind {
            _ if !bare || !fields.fit() => Err(MALFORMED),
            kind::NEIGHBOR_UP => Ok(Notice::Up(fields.peer)),
            kind::NEIGHBOR_DOWN => Ok(Notice::Down(fields.peer)),
            kind::QUIT => Ok(Notice::Quit),
            _ => Err(MALFORMED),
        }
    }

    /// The notices of a membership output, in order.
    pub fn of_output(out: &[u8]) -> Vec<Self> {
        let records = crate::record::cut(out).into_iter();
        records
            .filter(|record| matches!(record[0], kind::NEIGHBOR_UP | kind::NEIGHBOR_DOWN))
            .map(|record| Self::read(record).expect("a notice as written"))
            .collect()
    }

    pub fn feed(self, state: &mut plumtree::State<Peer>) {
        match self {
            Notice::Up(peer) => state.note_up(peer),
            Notice::Down(peer) => state.note_down(peer),
            Notice::Quit => state.note_quit(),
        }
    }
}

fn of_gossip(event: plumtree::InEvent<Peer>) -> InEvent<Peer> {
    match event {
        plumtree::InEvent::RecvMessage(peer, message) => {
            InEvent::RecvMessage(peer, Message::Gossip(message))
        }
        plumtree::InEvent::Broadcast(body, scope) => {
            InEvent::Command(Command::Broadcast(body, scope))
        }
        plumtree::InEvent::TimerExpired(timer) => InEvent::TimerExpired(Timer::Gossip(timer)),
    }
}

fn of_swarm(event: hyparview::InEvent<Peer>) -> InEvent<Peer> {
    use hyparview::InEvent as Swarm;
    match event {
        Swarm::RecvMessage(peer, message) => InEvent::RecvMessage(peer, Message::Swarm(message)),
        Swarm::TimerExpired(timer) => InEvent::TimerExpired(Timer::Swarm(timer)),
        Swarm::PeerDisconnected(peer) => InEvent::PeerDisconnected(peer),
        Swarm::RequestJoin(peer) => InEvent::Command(Command::Join(vec![peer])),
        Swarm::UpdatePeerData(data) => InEvent::UpdatePeerData(data),
        Swarm::Quit => InEvent::Command(Command::Quit),
    }
}
