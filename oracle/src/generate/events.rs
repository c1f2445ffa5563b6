//! Single events: which peers, data and numbers they name.

use super::{
    mix::{Act, DataRule, Numbers, SettingsRule, Twist},
    setup::FIRST_WIDE,
    Generator,
};
use crate::record::{kind, message, Node, Peer, Record, MOST_DATA};

/// Which peers of the station an event may name.
#[derive(Clone, Copy)]
enum Pool {
    Any,
    Me,
    Active,
    Passive,
    Requested,
    Joining,
    Bootstrap,
    Alive,
    Recent,
    Pinned,
}

impl Generator<'_> {
    /// An event of the kind that `act` names, about peers that the station's state suggests.
    pub(super) fn record(&mut self, act: Act) -> Record {
        use Pool::*;
        match act {
            Act::Join => self.join(),
            Act::ForwardJoin => self.forward_join(None),
            Act::ExpiredForwardJoin => self.forward_join(Some(0)),
            Act::Shuffle => self.shuffle(),
            Act::ShuffleReply => self.shuffle_reply(&[Active, Active, Any]),
            Act::RefusalReply => self.shuffle_reply(&[Requested]),
            Act::NeighborHigh => self.neighbor(1),
            Act::NeighborLow => self.neighbor(0),
            Act::Disconnect => {
                self.disconnect(&[Active, Requested, Passive, Joining, Alive, Recent, Any])
            }
            Act::Refusal => Record {
                flags: 1,
                ..self.disconnect(&[Requested])
            },
            Act::DoShuffle => Record::of(kind::DO_SHUFFLE, 0),
            Act::DoMaintenance => Record::of(kind::DO_MAINTENANCE, 0),
            Act::RequestTimer => self.timer(kind::PENDING_NEIGHBOR_REQUEST),
            Act::RetryTimer => self.timer(kind::RETRY_JOIN),
            Act::PeerDisconnected => {
                let peer = self.peer(&[Active, Active, Requested, Passive, Alive, Alive, Any]);
                Record::of(kind::PEER_DISCONNECTED, peer)
            }
            Act::RequestJoin => {
                let peer = self.peer(&[Any, Any, Any, Active, Bootstrap, Passive, Me]);
                Record::of(kind::REQUEST_JOIN, peer)
            }
            Act::UpdatePeerData => self.update_peer_data(),
            Act::Pin => {
                let peer = self.peer(&[Active, Active, Active, Active, Pinned, Passive, Any]);
                Record::of(kind::PIN, peer)
            }
            Act::Quit | Act::Damaged => Record::of(kind::QUIT, 0),
        }
    }

    /// A peer of one of the pools; any peer where the pool is empty, of wide ones often one of the first.
    fn peer(&mut self, pools: &[Pool]) -> Peer {
        if self.source.chance(2) {
            return self.me;
        }
        let pool = self.source.one_of(pools);
        let parts = &self.parts;
        let keys = |pairs: &[(Peer, u64)]| pairs.iter().map(|(peer, _)| *peer).collect::<Vec<_>>();
        let pool = match pool {
            Pool::Any => Vec::new(),
            Pool::Me => vec![self.me],
            Pool::Active => parts.active.clone(),
            Pool::Passive => parts.passive.clone(),
            Pool::Requested => keys(&parts.requests),
            Pool::Joining => keys(&parts.joins),
            Pool::Bootstrap => parts.bootstrap.clone(),
            Pool::Alive => parts.alive.clone(),
            Pool::Recent => parts.recent.clone(),
            Pool::Pinned => parts.pins.clone(),
        };
        if !pool.is_empty() {
            return self.source.one_of(&pool);
        }
        let often = match self.mix.numbers {
            Numbers::Wide if self.source.chance(30) => FIRST_WIDE.min(self.peers.len()),
            _ => self.peers.len(),
        };
        self.source.one_of(&self.peers[..often])
    }

    /// The next peer that no event has brought, with data.
    pub(super) fn fresh_node(&mut self) -> Node {
        if self.peers[self.fresh] == self.me {
            self.fresh += 1;
        }
        self.fresh += 1;
        Node {
            id: self.peers[self.fresh - 1],
            data: Some(self.bytes()),
        }
    }

    fn bytes(&mut self) -> Vec<u8> {
        let len = match self.mix.data {
            DataRule::Full | DataRule::Absent => MOST_DATA,
            DataRule::Tiny => self.source.below(2),
            DataRule::Mixed => self.source.one_of(&[0, 1, 1, 2, 3, 15, 16]),
        };
        // Few values, so that equal data comes again.
        vec![self.source.below(3) as u8 + 1; len]
    }

    fn data(&mut self) -> Option<Vec<u8>> {
        let percent = match self.mix.data {
            DataRule::Full => 100,
            DataRule::Tiny => 90,
            DataRule::Mixed => 60,
            DataRule::Absent => 0,
        };
        self.source.chance(percent).then(|| self.bytes())
    }

    fn nameless(&mut self) -> Vec<Node> {
        vec![Node {
            id: 0,
            data: self.data(),
        }]
    }

    fn ttl(&mut self) -> u16 {
        let [active, passive, shuffle] = [2, 3, 4].map(|index| self.settings[index] as u16);
        let near = [
            0,
            1,
            active,
            passive,
            passive,
            passive.saturating_add(1),
            shuffle,
        ];
        let any = self.source.next() as u16;
        if self.source.chance(90) {
            self.source.one_of(&near)
        } else {
            any
        }
    }

    fn join(&mut self) -> Record {
        use Pool::*;
        let peer = self.peer(&[Any, Any, Any, Any, Passive, Active, Requested, Joining]);
        Record::message(message::JOIN, peer, self.nameless())
    }

    fn update_peer_data(&mut self) -> Record {
        let data = Some(self.bytes());
        Record {
            nodes: vec![Node { id: 0, data }],
            ..Record::of(kind::UPDATE_PEER_DATA, 0)
        }
    }

    fn forward_join(&mut self, ttl: Option<u16>) -> Record {
        use Pool::*;
        let sender = self.peer(&[Active, Active, Any]);
        let id = self.peer(&[Any, Any, Any, Any, Any, Any, Active, Passive, Requested]);
        let mut node = Node {
            id,
            data: self.data(),
        };
        if self.mix.twist == Twist::Filled && self.fresh + 1 < self.peers.len() {
            node = self.fresh_node();
        }
        let ttl = ttl.unwrap_or_else(|| self.ttl());
        Record {
            ttl,
            ..Record::message(message::FORWARD_JOIN, sender, vec![node])
        }
    }

    fn nodes(&mut self) -> Vec<Node> {
        use Pool::*;
        let most = match self.mix.settings {
            SettingsRule::Large => 32,
            SettingsRule::Small => 3,
            _ => self.source.one_of(&[2, 4, 8, 32]),
        };
        let count = if self.source.chance(30) {
            most
        } else {
            self.source.within(0, most)
        };
        let node = |generator: &mut Self| Node {
            id: generator.peer(&[Any, Any, Any, Any, Passive, Active]),
            data: generator.data(),
        };
        (0..count).map(|_| node(self)).collect()
    }

    fn shuffle(&mut self) -> Record {
        use Pool::*;
        let sender = self.peer(&[Active, Active, Any]);
        let origin = self.peer(&[Active, Any, Any]);
        let nodes = self.nodes();
        Record {
            second: origin,
            ttl: self.ttl(),
            ..Record::message(message::SHUFFLE, sender, nodes)
        }
    }

    fn shuffle_reply(&mut self, senders: &[Pool]) -> Record {
        let sender = self.peer(senders);
        let nodes = self.nodes();
        Record::message(message::SHUFFLE_REPLY, sender, nodes)
    }

    fn neighbor(&mut self, flags: u8) -> Record {
        use Pool::*;
        let peer = self.peer(&[Any, Any, Requested, Requested, Passive, Active, Joining]);
        Record {
            flags,
            ..Record::message(message::NEIGHBOR, peer, self.nameless())
        }
    }

    fn disconnect(&mut self, senders: &[Pool]) -> Record {
        let peer = self.peer(senders);
        Record {
            flags: self.source.below(4) as u8,
            ..Record::message(message::DISCONNECT, peer, Vec::new())
        }
    }

    /// A timer with its live number, one scheduled earlier, or one never scheduled.
    fn timer(&mut self, kind: u8) -> Record {
        let live = match kind {
            kind::RETRY_JOIN => &self.parts.joins,
            _ => &self.parts.requests,
        };
        let live: Vec<_> = live
            .iter()
            .map(|(peer, number)| (kind, *peer, *number))
            .collect();
        let earlier: Vec<_> = self
            .timers
            .iter()
            .filter(|timer| timer.0 == kind)
            .copied()
            .collect();
        let never = (
            kind,
            self.source.one_of(&self.peers),
            self.source.below(9) as u64,
        );
        let (_, peer, number) = match self.source.below(10) {
            0..6 if !live.is_empty() => self.source.one_of(&live),
            0..9 if !earlier.is_empty() => self.source.one_of(&earlier),
            _ => never,
        };
        Record {
            number,
            ..Record::of(kind, peer)
        }
    }
}
