//! A child module of the Rust's plumtree.rs: records in and out, and the state as plain data.

use super::*;

use crate::{
    gossip::record::{self, Id, Said},
    limits::FULL_LIST,
    record::{Peer, Writer},
};

/// A cached message, and the time at which it came.
#[derive(Clone, Debug, PartialEq, Eq)]
pub struct Cached {
    pub id: Id,
    pub time: u64,
    pub round: u16,
    pub body: Vec<u8>,
}

/// The grafts sent for a message, and the time of the first.
#[derive(Clone, Debug, PartialEq, Eq)]
pub struct Grafted {
    pub id: Id,
    pub time: u64,
    /// Rising; the Rust keeps them in another order, which is never seen.
    pub peers: Vec<(Peer, u16)>,
    pub first: Option<(Peer, u16)>,
    pub kept: Option<Peer>,
}

/// The state without what is dead here: ids and peers rising, announcements of an id and a peer's queue in the order put in.
#[derive(Clone, Debug, PartialEq, Eq)]
pub struct Parts {
    pub started: bool,
    pub dispatch: bool,
    pub eager: Vec<Peer>,
    pub lazy: Vec<Peer>,
    pub received: Vec<(Id, u64)>,
    pub cache: Vec<Cached>,
    pub announced: Vec<(Id, Peer, u16)>,
    pub queued: Vec<(Peer, Id, u16)>,
    pub timers: Vec<Id>,
    pub grafted: Vec<Grafted>,
    /// Missing messages without an announcer, which 02 rules out.
    pub unannounced: usize,
}

impl State<Peer> {
    /// The Rust's `State::new` with default settings, and a limit on its one set; the other limits stand in its lines.
    pub fn limited(me: Peer) -> Self {
        let most = topic::max_plumtree_size(topic::Config::default().max_message_size);
        Self::new(me, Config::default(), most).with_limits()
    }

    pub fn with_limits(mut self) -> Self {
        self.graft_timer_scheduled.set_limit(FULL_LIST);
        self
    }

    pub fn note_up(&mut self, peer: Peer) {
        self.on_neighbor_up(peer);
        self.check();
    }

    pub fn note_down(&mut self, peer: Peer) {
        self.on_neighbor_down(peer);
        self.check();
    }

    /// 02, S-7: a down notice for all.
    pub fn note_quit(&mut self) {
        for peer in self.parts().peers() {
            self.note_down(peer);
        }
    }

    /// The Rust's own check of its state, which it makes after events but not after notices.
    fn check(&self) {
        #[cfg(feature = "invariants")]
        self.check_invariants();
    }

    pub fn parts(&self) -> Parts {
        let dead = self.dropped.is_empty() && !self.announce_dropped_scheduled;
        assert!(dead, "no message is dropped here");
        Parts {
            started: self.init,
            dispatch: self.dispatch_timer_scheduled,
            eager: self.eager_push_peers.iter().copied().collect(),
            lazy: self.lazy_push_peers.iter().copied().collect(),
            received: self.received(),
            cache: self.cached(),
            announced: self.announced(),
            queued: self.queued(),
            timers: rising(self.graft_timer_scheduled.iter().map(id_of)),
            grafted: self.grafts(),
            unannounced: self
                .missing_messages
                .values()
                .filter(|list| list.is_empty())
                .count(),
        }
    }

    fn received(&self) -> Vec<(Id, u64)> {
        let kept = self.config.message_id_retention;
        let entries = self.received_messages.entries();
        rising(entries.map(|(id, expires, _)| (id_of(id), put_in(expires, kept))))
    }

    fn cached(&self) -> Vec<Cached> {
        let kept = self.config.message_cache_retention;
        let entry = |(id, expires, gossip): (&MessageId, Instant, &Gossip)| {
            assert_eq!(*id, gossip.id, "a message is cached under its id");
            Cached {
                id: id_of(id),
                time: put_in(expires, kept),
                round: gossip.round().expect("only swarm messages are cached").0,
                body: gossip.content.to_vec(),
            }
        };
        let mut cached: Vec<_> = self.cache.entries().map(entry).collect();
        cached.sort_by_key(|cached| cached.id);
        cached
    }

    fn announced(&self) -> Vec<(Id, Peer, u16)> {
        let missing = self.missing_messages.iter();
        let mut lists: Vec<_> = missing.map(|(id, list)| (id_of(id), list)).collect();
        lists.sort_by_key(|(id, _)| *id);
        let entries = lists
            .into_iter()
            .flat_map(|(id, list)| list.iter().map(move |(peer, round)| (id, *peer, round.0)));
        entries.collect()
    }

    fn queued(&self) -> Vec<(Peer, Id, u16)> {
        let lists = self.lazy_push_queue.iter();
        let entry = |peer: &Peer, ihave: &IHave| (*peer, id_of(&ihave.id), ihave.round.0);
        lists
            .flat_map(|(peer, list)| list.iter().map(move |ihave| entry(peer, ihave)))
            .collect()
    }

    fn grafts(&self) -> Vec<Grafted> {
        let kept = self.config.message_cache_retention;
        let entry = |(id, expires, grafts): (&MessageId, Instant, &Grafts<Peer>)| Grafted {
            id: id_of(id),
            time: put_in(expires, kept),
            peers: rising(grafts.peers.iter().map(|(peer, round)| (*peer, round.0))),
            first: grafts.first.map(|(peer, round)| (peer, round.0)),
            kept: grafts.kept,
        };
        let mut grafted: Vec<_> = self.grafted.entries().map(entry).collect();
        grafted.sort_by_key(|grafted| grafted.id);
        grafted
    }
}

impl Parts {
    /// Eager and lazy peers together, rising.
    pub fn peers(&self) -> Vec<Peer> {
        rising(self.eager.iter().chain(&self.lazy).copied())
    }

    pub fn is_peer(&self, peer: Peer) -> bool {
        self.eager.contains(&peer) || self.lazy.contains(&peer)
    }

    pub fn has_received(&self, id: &Id) -> bool {
        self.received.iter().any(|(known, _)| known == id)
    }
}

fn id_of(id: &MessageId) -> Id {
    Id(*id.as_bytes())
}

/// The time at which an entry was put in that is kept so long.
fn put_in(expires: Instant, kept: Duration) -> u64 {
    let time = expires.as_millis() - u128::from(kept.as_millis());
    u64::try_from(time).expect("a time of 64 bits")
}

fn rising<T: Ord>(items: impl Iterator<Item = T>) -> Vec<T> {
    let mut items: Vec<_> = items.collect();
    items.sort();
    items
}

impl Clone for Grafts<Peer> {
    fn clone(&self) -> Self {
        Self {
            peers: self.peers.clone(),
            first: self.first,
            kept: self.kept,
        }
    }
}

impl Clone for State<Peer> {
    fn clone(&self) -> Self {
        Self {
            me: self.me,
            config: self.config.clone(),
            eager_push_peers: self.eager_push_peers.clone(),
            lazy_push_peers: self.lazy_push_peers.clone(),
            lazy_push_queue: self.lazy_push_queue.clone(),
            dropped: self.dropped.clone(),
            missing_messages: self.missing_messages.clone(),
            received_messages: self.received_messages.clone(),
            grafted: self.grafted.clone(),
            cache: self.cache.clone(),
            graft_timer_scheduled: self.graft_timer_scheduled.clone(),
            dispatch_timer_scheduled: self.dispatch_timer_scheduled,
            announce_dropped_scheduled: self.announce_dropped_scheduled,
            init: self.init,
            stats: self.stats.clone(),
            max_message_size: self.max_message_size,
        }
    }
}

/// The Rust's event of what a record of kinds 32 to 36 says.
pub fn event(said: &Said) -> InEvent<Peer> {
    let message_id = |id: &Id| MessageId::from_bytes(id.0);
    match said {
        Said::Message(peer, message) => InEvent::RecvMessage(*peer, received(message)),
        Said::SendGraft(id) => InEvent::TimerExpired(Timer::SendGraft(message_id(id))),
        Said::DispatchLazyPush => InEvent::TimerExpired(Timer::DispatchLazyPush),
        Said::EvictCache => InEvent::TimerExpired(Timer::EvictCache),
        Said::Broadcast(record::Scope::Swarm(_), body) => {
            InEvent::Broadcast(Bytes::from(&body[..]), Scope::Swarm)
        }
        Said::Broadcast(record::Scope::Neighbors, body) => {
            InEvent::Broadcast(Bytes::from(&body[..]), Scope::Neighbors)
        }
        Said::Received(..) => panic!("kind 37 is no event"),
    }
}

fn received(message: &record::Message) -> Message {
    let ihave = |(id, round): &(Id, u16)| IHave {
        id: MessageId::from_bytes(id.0),
        round: Round(*round),
    };
    match message {
        record::Message::Gossip(id, scope, body) => Message::Gossip(Gossip {
            id: MessageId::from_bytes(id.0),
            content: Bytes::from(&body[..]),
            scope: match scope {
                record::Scope::Swarm(round) => DeliveryScope::Swarm(Round(*round)),
                record::Scope::Neighbors => DeliveryScope::Neighbors,
            },
        }),
        record::Message::Prune => Message::Prune,
        record::Message::Graft(id, round) => Message::Graft(Graft {
            id: id.map(|id| MessageId::from_bytes(id.0)),
            round: Round(*round),
        }),
        record::Message::IHave(entries) => Message::IHave(entries.iter().map(ihave).collect()),
    }
}

/// What a message of the Rust says in a record.
fn sent(message: &Message) -> record::Message {
    match message {
        Message::Gossip(gossip) => record::Message::Gossip(
            id_of(&gossip.id),
            scope_of(gossip.scope),
            gossip.content.to_vec(),
        ),
        Message::Prune => record::Message::Prune,
        Message::Graft(graft) => {
            record::Message::Graft(graft.id.as_ref().map(id_of), graft.round.0)
        }
        Message::IHave(ihaves) => {
            let entry = |ihave: &IHave| (id_of(&ihave.id), ihave.round.0);
            record::Message::IHave(ihaves.iter().map(entry).collect())
        }
    }
}

fn scope_of(scope: DeliveryScope) -> record::Scope {
    match scope {
        DeliveryScope::Swarm(round) => record::Scope::Swarm(round.0),
        DeliveryScope::Neighbors => record::Scope::Neighbors,
    }
}

impl Writer<'_> {
    /// A message of the broadcast half.
    pub fn put_gossip(&mut self, peer: Peer, message: &Message) {
        Said::Message(peer, sent(message)).put(self, 0);
    }

    /// A timer of the broadcast half.
    pub fn put_gossip_timer(&mut self, delay: Duration, timer: &Timer) {
        let said = match timer {
            Timer::SendGraft(id) => Said::SendGraft(id_of(id)),
            Timer::DispatchLazyPush => Said::DispatchLazyPush,
            Timer::EvictCache => Said::EvictCache,
            Timer::AnnounceDropped => panic!("no message is dropped here"),
        };
        said.put(self, delay.as_millis());
    }

    /// A message handed to the application.
    pub fn put_received(&mut self, event: &GossipEvent<Peer>) {
        let (from, scope) = (event.delivered_from, scope_of(event.scope));
        Said::Received(from, scope, event.content.to_vec()).put(self, 0);
    }
}
