//! A child module of the Rust's hyparview.rs: records in and out, and the state as plain data.

use super::*;
use std::iter;

use crate::{
    collections::Limit,
    record::{kind, message, NodeParts, Peer, Record, View, Writer},
};

pub mod pins;
#[cfg(feature = "tools")]
pub mod whole;

/// 01: the most open requests, refused peers and data entries.
const MOST_REQUESTS: usize = 32;
const MOST_REFUSED: usize = 32;
const MOST_ENTRIES: usize = 80;

/// The counters of 01's code 10, at their values in a new station or chosen to start near the top.
#[derive(Clone, Copy, Debug, Default, PartialEq, Eq)]
pub struct Counters {
    pub next_request: u64,
    pub next_join: u64,
    pub passes_alone: u32,
    pub passes_short: u32,
}

/// Every field of the state that TRACE.md prints, maps and sets in rising order of peer.
#[derive(Clone, Debug, PartialEq, Eq)]
pub struct Parts {
    pub me_data: Option<Vec<u8>>,
    pub active: Vec<Peer>,
    pub passive: Vec<Peer>,
    pub bootstrap: Vec<Peer>,
    pub recent: Vec<Peer>,
    pub requests: Vec<(Peer, u64)>,
    pub joins: Vec<(Peer, u64)>,
    pub data: Vec<(Peer, Vec<u8>)>,
    pub alive: Vec<Peer>,
    pub refused: Vec<Peer>,
    pub refill: Refill,
    pub timers: bool,
    pub interval: u64,
    pub counters: Counters,
    /// Ours (02, S-14).
    pub pins: Vec<Peer>,
}

#[derive(Clone, Copy, Debug, PartialEq, Eq)]
pub enum Refill {
    Automatic,
    Requests(usize),
    Recovery,
}

impl<RG: Rng + Clone> State<Peer, RG> {
    /// The Rust's `State::new` with 01's limits on its maps and sets.
    pub fn limited(me: Peer, me_data: Option<&[u8]>, config: Config, rng: RG) -> Self {
        Self::new(me, me_data.map(PeerData::new), config, rng).with_limits()
    }

    pub fn with_limits(mut self) -> Self {
        let limit = |most, code| Limit { most, code };
        self.pending_neighbor_requests
            .set_limit(limit(MOST_REQUESTS, refusal::REQUESTS));
        self.refused
            .set_limit(limit(MOST_REFUSED, refusal::REFUSED));
        self.peer_data.set_limit(limit(MOST_ENTRIES, refusal::DATA));
        self
    }

    pub fn set_counters(&mut self, counters: Counters) {
        self.next_neighbor_request = counters.next_request;
        self.next_join = counters.next_join;
        self.passes_alone = counters.passes_alone;
        self.passes_short = counters.passes_short;
    }

    pub fn rng(&self) -> &RG {
        &self.rng
    }

    pub fn parts(&self) -> Parts {
        Parts {
            me_data: self.me_data.as_ref().map(plain),
            active: self.active_view.iter().copied().collect(),
            passive: self.passive_view.iter().copied().collect(),
            bootstrap: self.bootstrap_peers.iter().copied().collect(),
            recent: self.recent_neighbors.iter().copied().collect(),
            requests: rising(self.pending_neighbor_requests.iter().map(|(p, n)| (*p, *n))),
            joins: rising(self.pending_joins.iter().map(|(p, n)| (*p, *n))),
            data: rising(self.peer_data.iter().map(|(p, d)| (*p, plain(d)))),
            alive: rising(self.alive_disconnect_peers.iter().copied()),
            refused: rising(self.refused.iter().copied()),
            refill: match self.refill {
                RefillLimit::Automatic => Refill::Automatic,
                RefillLimit::Requests(left) => Refill::Requests(left),
                RefillLimit::Recovery => Refill::Recovery,
            },
            timers: self.timers_scheduled,
            interval: self.next_shuffle_interval.as_millis(),
            counters: Counters {
                next_request: self.next_neighbor_request,
                next_join: self.next_join,
                passes_alone: self.passes_alone,
                passes_short: self.passes_short,
            },
            pins: rising(self.pins.iter().copied()),
        }
    }
}

impl<RG: Clone> Clone for State<Peer, RG> {
    fn clone(&self) -> Self {
        Self {
            me: self.me,
            me_data: self.me_data.clone(),
            active_view: self.active_view.clone(),
            passive_view: self.passive_view.clone(),
            config: self.config.clone(),
            timers_scheduled: self.timers_scheduled,
            next_shuffle_interval: self.next_shuffle_interval,
            bootstrap_peers: self.bootstrap_peers.clone(),
            passes_alone: self.passes_alone,
            passes_short: self.passes_short,
            recent_neighbors: self.recent_neighbors.clone(),
            rng: self.rng.clone(),
            stats: self.stats.clone(),
            pending_neighbor_requests: self.pending_neighbor_requests.clone(),
            next_neighbor_request: self.next_neighbor_request,
            pending_joins: self.pending_joins.clone(),
            next_join: self.next_join,
            peer_data: self.peer_data.clone(),
            alive_disconnect_peers: self.alive_disconnect_peers.clone(),
            refused: self.refused.clone(),
            refill: self.refill,
            pins: self.pins.clone(),
        }
    }

    /// The same in the memory that is there, where the parts can.
    fn clone_from(&mut self, other: &Self) {
        self.me = other.me;
        self.me_data.clone_from(&other.me_data);
        self.active_view.clone_from(&other.active_view);
        self.passive_view.clone_from(&other.passive_view);
        self.config.clone_from(&other.config);
        self.timers_scheduled = other.timers_scheduled;
        self.next_shuffle_interval = other.next_shuffle_interval;
        self.bootstrap_peers.clone_from(&other.bootstrap_peers);
        self.passes_alone = other.passes_alone;
        self.passes_short = other.passes_short;
        self.recent_neighbors.clone_from(&other.recent_neighbors);
        self.rng.clone_from(&other.rng);
        self.stats.clone_from(&other.stats);
        self.pending_neighbor_requests
            .clone_from(&other.pending_neighbor_requests);
        self.next_neighbor_request = other.next_neighbor_request;
        self.pending_joins.clone_from(&other.pending_joins);
        self.next_join = other.next_join;
        self.peer_data.clone_from(&other.peer_data);
        self.alive_disconnect_peers
            .clone_from(&other.alive_disconnect_peers);
        self.refused.clone_from(&other.refused);
        self.refill = other.refill;
        self.pins.clone_from(&other.pins);
    }
}

fn rising<T: Ord>(items: impl Iterator<Item = T>) -> Vec<T> {
    let mut items: Vec<_> = items.collect();
    items.sort();
    items
}

fn plain(data: &PeerData) -> Vec<u8> {
    data.as_bytes().to_vec()
}

fn parts_of(info: &PeerInfo<Peer>) -> NodeParts<'_> {
    (info.id, bytes_of(&info.data))
}

fn bytes_of(data: &Option<PeerData>) -> Option<&[u8]> {
    data.as_ref().map(PeerData::as_bytes)
}

fn info((id, data): NodeParts) -> PeerInfo<Peer> {
    PeerInfo {
        id,
        data: data.map(PeerData::new),
    }
}

/// The Rust's event of a record that the reader accepted.
pub fn event(view: &View) -> InEvent<Peer> {
    let fields = view.fields();
    let (peer, number) = (fields.peer, fields.number);
    match fields.kind {
        kind::MESSAGE => InEvent::RecvMessage(peer, received(view, &fields)),
        kind::DO_SHUFFLE => InEvent::TimerExpired(Timer::DoShuffle),
        kind::DO_MAINTENANCE => InEvent::TimerExpired(Timer::DoMaintenance),
        kind::PENDING_NEIGHBOR_REQUEST => {
            InEvent::TimerExpired(Timer::PendingNeighborRequest(peer, number))
        }
        kind::RETRY_JOIN => InEvent::TimerExpired(Timer::RetryJoin(peer, number)),
        kind::PEER_DISCONNECTED => InEvent::PeerDisconnected(peer),
        kind::REQUEST_JOIN => InEvent::RequestJoin(peer),
        kind::UPDATE_PEER_DATA => {
            InEvent::UpdatePeerData(single(view).data.expect("kind 7 has data"))
        }
        kind::QUIT => InEvent::Quit,
        other => panic!("kind {other} is no event"),
    }
}

/// The one node of a record whose kind has one.
fn single(view: &View) -> PeerInfo<Peer> {
    view.nodes().next().map(info).expect("a node")
}

fn received(view: &View, fields: &Record<()>) -> Message<Peer> {
    let ttl = Ttl(fields.ttl);
    match fields.message {
        message::JOIN => Message::Join(single(view).data),
        message::FORWARD_JOIN => Message::ForwardJoin(ForwardJoin {
            peer: single(view),
            ttl,
        }),
        message::SHUFFLE => Message::Shuffle(Shuffle {
            origin: fields.second,
            nodes: view.nodes().map(info).collect(),
            ttl,
        }),
        message::SHUFFLE_REPLY => Message::ShuffleReply(ShuffleReply {
            nodes: view.nodes().map(info).collect(),
        }),
        message::NEIGHBOR => Message::Neighbor(Neighbor {
            priority: if fields.flags == 1 {
                Priority::High
            } else {
                Priority::Low
            },
            data: single(view).data,
        }),
        message::DISCONNECT => Message::Disconnect(Disconnect {
            alive: fields.flags & 1 != 0,
            _respond: fields.flags & 2 != 0,
        }),
        other => panic!("message {other} is unknown"),
    }
}

impl Writer<'_> {
    /// A message of the membership half.
    pub fn put_message(&mut self, peer: Peer, sent: &Message<Peer>) {
        let nameless = |data| iter::once((0, bytes_of(data)));
        match sent {
            Message::Join(data) => self.put(Record::message(message::JOIN, peer, nameless(data))),
            Message::ForwardJoin(join) => self.put(Record {
                ttl: join.ttl.0,
                ..Record::message(
                    message::FORWARD_JOIN,
                    peer,
                    iter::once(parts_of(&join.peer)),
                )
            }),
            Message::Shuffle(shuffle) => self.put(Record {
                second: shuffle.origin,
                ttl: shuffle.ttl.0,
                ..Record::message(message::SHUFFLE, peer, shuffle.nodes.iter().map(parts_of))
            }),
            Message::ShuffleReply(reply) => self.put(Record::message(
                message::SHUFFLE_REPLY,
                peer,
                reply.nodes.iter().map(parts_of),
            )),
            Message::Neighbor(neighbor) => self.put(Record {
                flags: u8::from(neighbor.priority == Priority::High),
                ..Record::message(message::NEIGHBOR, peer, nameless(&neighbor.data))
            }),
            Message::Disconnect(disconnect) => self.put(Record {
                flags: u8::from(disconnect.alive) | u8::from(disconnect._respond) << 1,
                ..Record::message(message::DISCONNECT, peer, iter::empty())
            }),
        }
    }

    /// A timer of the membership half.
    pub fn put_timer(&mut self, delay: Duration, timer: Timer<Peer>) {
        let (kind, peer, number) = match timer {
            Timer::DoShuffle => (kind::DO_SHUFFLE, 0, 0),
            Timer::DoMaintenance => (kind::DO_MAINTENANCE, 0, 0),
            Timer::PendingNeighborRequest(peer, id) => (kind::PENDING_NEIGHBOR_REQUEST, peer, id),
            Timer::RetryJoin(peer, id) => (kind::RETRY_JOIN, peer, id),
        };
        self.put(Record {
            second: delay.as_millis(),
            number,
            ..Record::<iter::Empty<_>>::of(kind, peer)
        });
    }
}

/// The Rust's backoff test, for 01's examples.
pub fn is_backoff_due(n: u32) -> bool {
    backoff_due(n)
}
