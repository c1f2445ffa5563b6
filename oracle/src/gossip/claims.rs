//! 02's claims on the broadcast half (S-7): station rules, and what an event may send, deliver and change.

use super::record::{Id, Message, Said, Scope};
use crate::{
    limits::{BODY, LIST, PEERS},
    plumtree::access::Parts,
    record::{self, kind, Peer},
    rules::Claim,
    station::{Answer, ROOM},
};

/// How long the Rust's default settings keep messages and ids, in ms.
const CACHE_RETENTION: u64 = 30_000;
const ID_RETENTION: u64 = 90_000;

/// The claim that plumtree.rs as it is breaks.
pub const ORDERS: &str = "an order to each peer eager before it but its sender, and to no other";

/// An event between two states.
pub struct Step<'a> {
    pub room: usize,
    pub event: &'a [u8],
    pub before: &'a Parts,
    pub answer: &'a Answer,
    pub after: &'a Parts,
}

/// The station rules of a state, and two facts more that hold of every state met.
pub fn rules(parts: &Parts) -> Vec<Claim> {
    let received = |id: &Id, time: u64| parts.received.contains(&(*id, time));
    let mut cached = parts.cache.iter();
    let met = [
        (
            "cached ids are received, at one time",
            cached.all(|cached| received(&cached.id, cached.time)),
        ),
        (
            "a queue only while its timer runs",
            parts.queued.is_empty() || parts.dispatch,
        ),
    ];
    [&peer_rules(parts)[..], &limits(parts), &met].concat()
}

/// S-7's three, and that who announced a message or was asked for one is a peer.
fn peer_rules(parts: &Parts) -> [Claim; 5] {
    let is_peer = |peer: &Peer| parts.is_peer(*peer);
    let mut asked = parts.grafted.iter().flat_map(|grafted| &grafted.peers);
    [
        (
            "no peer both eager and lazy",
            !parts.eager.iter().any(|peer| parts.lazy.contains(peer)),
        ),
        (
            "queued announcements are for peers",
            parts.queued.iter().all(|(peer, ..)| is_peer(peer)),
        ),
        ("a missing message has an announcer", parts.unannounced == 0),
        (
            "announcers are peers",
            parts.announced.iter().all(|(_, peer, _)| is_peer(peer)),
        ),
        (
            "grafted peers are peers",
            asked.all(|(peer, _)| is_peer(peer)),
        ),
    ]
}

fn limits(parts: &Parts) -> [Claim; 3] {
    let lengths = [
        parts.received.len(),
        parts.cache.len(),
        parts.announced.len(),
        parts.queued.len(),
        parts.timers.len(),
        parts.grafted.len(),
    ];
    let mut lengths = lengths.into_iter();
    [
        ("64 entries", lengths.all(|length| length <= LIST)),
        ("eight peers", parts.eager.len() + parts.lazy.len() <= PEERS),
        (
            "bodies of 256 bytes",
            parts.cache.iter().all(|cached| cached.body.len() <= BODY),
        ),
    ]
}

impl Step<'_> {
    pub fn claims(&self) -> Vec<Claim> {
        let whole = self.room >= ROOM;
        let mut claims = vec![
            (
                "a refusal changes nothing",
                self.answer.code == 0 || self.before == self.after,
            ),
            ("8192 bytes", self.answer.out.len() <= ROOM),
            ("no 9 with 8192 bytes", self.answer.code != 9 || !whole),
        ];
        match Said::read_event(self.event) {
            Ok((now, said)) if self.event[0] >= super::record::kind::MESSAGE => {
                claims.push((
                    "a timer is refused at 64 grafted ids alone",
                    !whole || self.timer_fits(&said),
                ));
                if self.answer.code == 0 {
                    claims.extend(self.accepted(now, &said));
                }
            }
            _ => claims.extend(self.noticed()),
        }
        claims
    }

    fn accepted(&self, now: u64, said: &Said) -> [Claim; 6] {
        let records = self.records();
        let orders = |said: &&Said| matches!(said, Said::Message(_, Message::Gossip(..)));
        let sent: Vec<_> = records.iter().filter(orders).cloned().collect();
        let told = |said: &&Said| matches!(said, Said::Received(..));
        let delivered: Vec<_> = records.iter().filter(told).cloned().collect();
        [
            (ORDERS, sent == self.orders(said)),
            (
                "a new order is delivered once, and no other",
                delivered == self.deliveries(said),
            ),
            (
                "only notices change the peers",
                self.before.peers() == self.after.peers(),
            ),
            (
                "strangers change nothing",
                !self.is_strange(said) || self.changes_nothing(&records),
            ),
            (
                "started by the first event",
                self.after.started && self.starts(&records),
            ),
            (
                "the cache timer drops what is past retention",
                *said != Said::EvictCache || self.expired(now),
            ),
        ]
    }

    /// What a notice, a Quit or an event of the membership half leaves alone.
    fn noticed(&self) -> [Claim; 2] {
        let (before, after) = (self.before, self.after);
        let ids = |parts: &Parts| {
            (
                parts.received.clone(),
                parts.cache.clone(),
                parts.timers.clone(),
            )
        };
        let said = self.records();
        [
            (
                "no notice starts the cache timer",
                before.started == after.started && said.is_empty(),
            ),
            (
                "ids, cache and timers stay at a notice",
                ids(before) == ids(after),
            ),
        ]
    }

    /// The records of kinds 32 to 37 of the output.
    fn records(&self) -> Vec<Said> {
        let records = record::cut(&self.answer.out).into_iter();
        let gossip = records.filter(|record| record[0] >= super::record::kind::MESSAGE);
        gossip
            .map(|record| Said::read(record).expect("a record in form"))
            .collect()
    }

    /// The Gossip records that the event is to send.
    fn orders(&self, said: &Said) -> Vec<Said> {
        let eager = self.before.eager.iter().copied();
        match said {
            Said::Message(from, Message::Gossip(id, Scope::Swarm(round), body))
                if self.is_new(id, body) =>
            {
                let order = Message::Gossip(*id, Scope::Swarm(round + 1), body.clone());
                to_each(eager.filter(|peer| peer != from), &order)
            }
            Said::Message(from, Message::Graft(Some(id), _)) if self.before.is_peer(*from) => {
                let cached = self.before.cache.iter().find(|cached| cached.id == *id);
                let order = cached.map(|cached| {
                    Message::Gossip(*id, Scope::Swarm(cached.round), cached.body.clone())
                });
                order.map_or(Vec::new(), |order| to_each([*from].into_iter(), &order))
            }
            Said::Broadcast(scope, body) => {
                to_each(eager, &Message::Gossip(Id::of(body), *scope, body.clone()))
            }
            _ => Vec::new(),
        }
    }

    fn deliveries(&self, said: &Said) -> Vec<Said> {
        match said {
            Said::Message(from, Message::Gossip(id, scope, body)) if self.is_new(id, body) => {
                vec![Said::Received(*from, *scope, body.clone())]
            }
            _ => Vec::new(),
        }
    }

    fn is_new(&self, id: &Id, body: &[u8]) -> bool {
        Id::of(body) == *id && !self.before.has_received(id)
    }

    fn is_strange(&self, said: &Said) -> bool {
        match said {
            Said::Message(_, Message::Gossip(..)) => false,
            Said::Message(from, _) => !self.before.is_peer(*from),
            _ => false,
        }
    }

    /// But for the first event, which starts the cache timer.
    fn changes_nothing(&self, records: &[Said]) -> bool {
        let started = Parts {
            started: true,
            ..self.before.clone()
        };
        started == *self.after && records.iter().all(|said| *said == Said::EvictCache)
    }

    /// The first event's cache timer stands first; only it and the timer itself start one.
    fn starts(&self, records: &[Said]) -> bool {
        let first = !self.before.started;
        let own = self.event[0] == super::record::kind::EVICT_CACHE;
        let timers = records
            .iter()
            .filter(|said| **said == Said::EvictCache)
            .count();
        timers == usize::from(first) + usize::from(own)
            && (!first || records[0] == Said::EvictCache)
    }

    fn expired(&self, now: u64) -> bool {
        let kept = |time: u64, most: u64| now < time || now - time < most;
        let (before, after) = (self.before, self.after);
        let received = before
            .received
            .iter()
            .filter(|(_, time)| kept(*time, ID_RETENTION));
        let cache = before
            .cache
            .iter()
            .filter(|cached| kept(cached.time, CACHE_RETENTION));
        let grafted = before
            .grafted
            .iter()
            .filter(|grafted| kept(grafted.time, CACHE_RETENTION));
        after.received.iter().eq(received)
            && after.cache.iter().eq(cache)
            && after.grafted.iter().eq(grafted)
    }

    fn timer_fits(&self, said: &Said) -> bool {
        match (said, self.answer.code) {
            (_, 0) => true,
            (Said::SendGraft(_), refusal::FULL) => self.before.grafted.len() == LIST,
            (Said::SendGraft(_) | Said::DispatchLazyPush | Said::EvictCache, _) => false,
            _ => true,
        }
    }
}

fn to_each(peers: impl Iterator<Item = Peer>, order: &Message) -> Vec<Said> {
    peers
        .map(|peer| Said::Message(peer, order.clone()))
        .collect()
}

/// Whether an event is one of the membership half.
pub fn is_membership(event: &[u8]) -> bool {
    event.first().is_some_and(|first| *first <= kind::QUIT)
}
