//! Single events: which ids, peers, bodies and rounds they name, live, stale or strange.

use super::{mix::Act, Generator};
use crate::{
    gossip::record::{Id, Message, Said, Scope},
    limits::BODY,
    record::Peer,
};

/// Rounds about the threshold of 7, and at the end of their range.
const ROUNDS: [u16; 16] = [0, 0, 1, 1, 2, 3, 5, 6, 7, 8, 9, 14, 15, 20, 65_534, 65_535];

/// What a damaged event was before.
const WHOLE: [(Act, usize); 9] = [
    (Act::New, 2),
    (Act::Broadcast, 2),
    (Act::Prune, 2),
    (Act::IHave, 2),
    (Act::Graft, 2),
    (Act::SendGraft, 2),
    (Act::Dispatch, 1),
    (Act::Evict, 1),
    (Act::Long, 1),
];

impl Generator<'_> {
    /// What an event of this kind says, about ids and peers that the station's state suggests.
    pub(super) fn said(&mut self, act: Act) -> Said {
        match act {
            Act::New => {
                let fresh = self.fresh();
                self.gossip(fresh, 70)
            }
            Act::Again => self.again(),
            Act::Missing => self.missing(),
            Act::Late => self.late(),
            Act::False => self.false_id(),
            Act::Broadcast => self.broadcast(),
            Act::Prune => Said::Message(self.sender(85), Message::Prune),
            Act::IHave => self.ihave(),
            Act::Announce => self.announce(),
            Act::Graft => self.graft(),
            Act::SendGraft => Said::SendGraft(self.timer()),
            Act::Dispatch => Said::DispatchLazyPush,
            Act::Evict => Said::EvictCache,
            Act::Long => self.long(),
            Act::Damaged => {
                let act = self.source.weighted(&WHOLE);
                self.said(act)
            }
            Act::Up | Act::Down | Act::Quit => unreachable!("notices are made apart"),
        }
    }

    /// A peer of the half in so many of 100, else anyone, the station itself among them.
    pub(super) fn sender(&mut self, percent: usize) -> Peer {
        let peers = self.parts.peers();
        if !peers.is_empty() && self.source.chance(percent) {
            return self.source.one_of(&peers);
        }
        if self.source.chance(4) {
            return self.me;
        }
        self.source.one_of(&self.peers)
    }

    /// Most often one that is no peer yet; never the station itself.
    pub(super) fn newcomer(&mut self) -> Option<Peer> {
        let (parts, me) = (&self.parts, self.me);
        let strangers = self.peers.iter().copied();
        let strangers = strangers.filter(|peer| *peer != me && !parts.is_peer(*peer));
        let strangers: Vec<_> = strangers.collect();
        if !strangers.is_empty() && self.source.chance(85) {
            return Some(self.source.one_of(&strangers));
        }
        let peers = self.parts.peers();
        (!peers.is_empty()).then(|| self.source.one_of(&peers))
    }

    fn strange_id(&mut self) -> Id {
        let bytes = self.source.bytes(32);
        Id(bytes.try_into().expect("32 bytes"))
    }

    /// A body that was not received, if there is one.
    fn fresh(&mut self) -> (Id, Vec<u8>) {
        let parts = &self.parts;
        let fresh = self.bodies.iter().filter(|(id, _)| !parts.has_received(id));
        let fresh: Vec<_> = fresh.cloned().collect();
        self.one_or_any(&fresh)
    }

    fn one_or_any(&mut self, bodies: &[(Id, Vec<u8>)]) -> (Id, Vec<u8>) {
        let bodies = if bodies.is_empty() {
            &self.bodies
        } else {
            bodies
        };
        bodies[self.source.below(bodies.len())].clone()
    }

    /// The bodies of these ids that are known.
    fn known(&self, ids: &[Id]) -> Vec<(Id, Vec<u8>)> {
        let known = self.bodies.iter().filter(|(id, _)| ids.contains(id));
        known.cloned().collect()
    }

    fn scope(&mut self) -> Scope {
        if self.source.chance(12) {
            return Scope::Neighbors;
        }
        Scope::Swarm(self.round())
    }

    fn round(&mut self) -> u16 {
        let near = self.source.below(4);
        // The last two are seldom.
        let rounds = if near == 0 {
            &ROUNDS[..]
        } else {
            &ROUNDS[..14]
        };
        self.source.one_of(rounds)
    }

    fn gossip(&mut self, (id, body): (Id, Vec<u8>), percent: usize) -> Said {
        let scope = self.scope();
        let from = self.sender(percent);
        Said::Message(from, Message::Gossip(id, scope, body))
    }

    fn again(&mut self) -> Said {
        let received: Vec<_> = self.parts.received.iter().map(|(id, _)| *id).collect();
        let bodies = self.known(&received);
        let body = self.one_or_any(&bodies);
        self.gossip(body, 75)
    }

    /// A body that was announced, after a number of hops about that of its announcement and the threshold.
    fn missing(&mut self) -> Said {
        let ids: Vec<_> = self.parts.announced.iter().map(|entry| entry.0).collect();
        let bodies = self.known(&ids);
        let (id, body) = self.one_or_any(&bodies);
        let entries = self.parts.announced.iter().filter(|entry| entry.0 == id);
        let entries: Vec<_> = entries.copied().collect();
        if entries.is_empty() || self.source.chance(10) {
            return self.gossip((id, body), 80);
        }
        let (_, announcer, round) = self.source.one_of(&entries);
        let further = self.source.one_of(&[0, 4, 5, 6, 7, 20]);
        let from = match self.source.below(4) {
            0 => announcer,
            _ => self.sender(90),
        };
        let scope = Scope::Swarm(round.saturating_add(further));
        Said::Message(from, Message::Gossip(id, scope, body))
    }

    /// A body that was asked for, with about as many hops as its first copy.
    fn late(&mut self) -> Said {
        let ids: Vec<_> = self.parts.grafted.iter().map(|entry| entry.id).collect();
        let bodies = self.known(&ids);
        let (id, body) = self.one_or_any(&bodies);
        let Some(grafted) = self
            .parts
            .grafted
            .iter()
            .find(|entry| entry.id == id)
            .cloned()
        else {
            return self.gossip((id, body), 80);
        };
        let asked: Vec<_> = grafted.peers.iter().map(|(peer, _)| *peer).collect();
        let first = grafted.first.map_or(3, |(_, round)| round);
        let from = match self.source.below(10) {
            0..7 if !asked.is_empty() => self.source.one_of(&asked),
            7 => grafted.first.map_or(self.me, |(peer, _)| peer),
            8 => grafted.kept.unwrap_or(self.me),
            _ => self.sender(90),
        };
        let rounds = [
            first,
            first,
            first.saturating_sub(1),
            first.saturating_add(1),
        ];
        let scope = match self.source.below(10) {
            0 => Scope::Neighbors,
            1 => Scope::Swarm(self.round()),
            _ => Scope::Swarm(self.source.one_of(&rounds)),
        };
        Said::Message(from, Message::Gossip(id, scope, body))
    }

    fn false_id(&mut self) -> Said {
        let (_, body) = self.fresh();
        let other = self.fresh().0;
        let id = if Id::of(&body) == other || self.source.chance(50) {
            self.strange_id()
        } else {
            other
        };
        self.gossip((id, body), 80)
    }

    fn broadcast(&mut self) -> Said {
        let (_, body) = if self.source.chance(70) {
            self.fresh()
        } else {
            self.one_or_any(&[])
        };
        let scope = if self.source.chance(25) {
            Scope::Neighbors
        } else {
            Scope::Swarm(0)
        };
        Said::Broadcast(scope, body)
    }

    /// An id to announce: most often one of a body that was not received.
    fn announced_id(&mut self) -> Id {
        match self.source.below(10) {
            0 => self.strange_id(),
            1 => self.one_or_any(&[]).0,
            2 | 3 if !self.parts.announced.is_empty() => {
                let place = self.source.below(self.parts.announced.len());
                self.parts.announced[place].0
            }
            _ => self.fresh().0,
        }
    }

    fn ihave(&mut self) -> Said {
        let count = self.source.one_of(&[0, 1, 1, 1, 2, 2, 3, 5]);
        let entry = |generator: &mut Self| (generator.announced_id(), generator.round());
        let entries = (0..count).map(|_| entry(self)).collect();
        Said::Message(self.sender(85), Message::IHave(entries))
    }

    fn announce(&mut self) -> Said {
        let count = self.source.one_of(&[8, 16, 32, 63, 64, 65]);
        let entry = |generator: &mut Self| match generator.source.below(4) {
            0 => (generator.announced_id(), generator.round()),
            _ => (generator.strange_id(), generator.round()),
        };
        let entries = (0..count).map(|_| entry(self)).collect();
        Said::Message(self.sender(95), Message::IHave(entries))
    }

    fn graft(&mut self) -> Said {
        let cached: Vec<_> = self.parts.cache.iter().map(|cached| cached.id).collect();
        let id = match self.source.below(10) {
            0..6 if !cached.is_empty() => Some(self.source.one_of(&cached)),
            6 => Some(self.strange_id()),
            7 => Some(self.one_or_any(&[]).0),
            _ => None,
        };
        Said::Message(self.sender(85), Message::Graft(id, self.round()))
    }

    /// A graft timer's id: one that runs, one of a message still missing, one started earlier, or any.
    fn timer(&mut self) -> Id {
        let missing: Vec<_> = self.parts.announced.iter().map(|entry| entry.0).collect();
        let (live, earlier) = (self.parts.timers.clone(), self.timers.clone());
        match self.source.below(10) {
            0..5 if !live.is_empty() => self.source.one_of(&live),
            0..8 if !missing.is_empty() => self.source.one_of(&missing),
            0..9 if !earlier.is_empty() => self.source.one_of(&earlier),
            9 => self.strange_id(),
            _ => self.one_or_any(&[]).0,
        }
    }

    fn long(&mut self) -> Said {
        let length = self
            .source
            .one_of(&[BODY + 1, BODY + 1, BODY + 2, 512, 1025, 5000]);
        let body = vec![self.source.below(4) as u8; length];
        if self.source.chance(40) {
            return Said::Broadcast(Scope::Swarm(0), body);
        }
        let id = self.strange_id();
        self.gossip((id, body), 60)
    }
}
