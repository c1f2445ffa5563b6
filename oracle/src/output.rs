//! What a station hands out while it handles an event, written as records: topic.rs's `IO`.

use std::iter;

use n0_future::time::Duration;

use crate::{
    record::{kind, tells_evicted, Peer, Record, Writer},
    topic::{Event, Message, Timer, IO},
    PeerData,
};

impl IO<Peer> for Writer<'_> {
    /// A message is written or the event is refused, so that none is ever handed back as dropped.
    fn send(&mut self, peer: Peer, message: impl Into<Message<Peer>>) -> Option<Message<Peer>> {
        match message.into() {
            Message::Swarm(message) => self.put_message(peer, &message),
            Message::Gossip(message) => self.put_gossip(peer, &message),
        }
        None
    }

    fn emit(&mut self, event: Event<Peer>) {
        let (kind, peer) = match event {
            Event::NeighborUp(peer) => (kind::NEIGHBOR_UP, peer),
            Event::NeighborDown(peer) => (kind::NEIGHBOR_DOWN, peer),
            Event::Received(received) => return self.put_received(&received),
            Event::Evicted(_) if !tells_evicted() => return,
            Event::Evicted(peer) => (kind::EVICTED, peer),
        };
        self.put(Record::<iter::Empty<_>>::of(kind, peer));
    }

    fn schedule(&mut self, delay: Duration, timer: impl Into<Timer<Peer>>) {
        match timer.into() {
            Timer::Swarm(timer) => self.put_timer(delay, timer),
            Timer::Gossip(timer) => self.put_gossip_timer(delay, &timer),
        }
    }

    fn peer_data(&mut self, peer: Peer, data: PeerData) {
        let nodes = iter::once((0, Some(data.as_bytes())));
        self.put(Record::<()>::of(kind::PEER_DATA, peer).with_nodes(nodes));
    }
}
