//! Records of kinds 32 to 37 (docs/FORMAT.md): one reader for events, one writer for output.

use std::{cmp::Ordering, fmt};

use crate::{
    limits::BODY,
    record::{
        header_of, length_of, Peer, Record, Writer, HEADER, MALFORMED, MOST_NODES, NODE_COUNT,
    },
};

pub const ID: usize = 32;
/// An announcement: an id and a round.
pub const ENTRY: usize = ID + 2;

/// Byte 0.
pub mod kind {
    pub const MESSAGE: u8 = 32;
    pub const SEND_GRAFT: u8 = 33;
    pub const DISPATCH_LAZY_PUSH: u8 = 34;
    pub const EVICT_CACHE: u8 = 35;
    pub const BROADCAST: u8 = 36;
    pub const RECEIVED: u8 = 37;
}

/// Byte 1 of a message, in the order of plumtree.rs.
pub mod message {
    pub const GOSSIP: u8 = 0;
    pub const PRUNE: u8 = 1;
    pub const GRAFT: u8 = 2;
    pub const IHAVE: u8 = 3;
}

/// A message's id; its order is that of the number whose bytes stand lowest first.
#[derive(Clone, Copy, PartialEq, Eq, Hash)]
pub struct Id(pub [u8; ID]);

impl Id {
    pub fn of(body: &[u8]) -> Self {
        Self(blake3::hash(body).into())
    }
}

impl Ord for Id {
    fn cmp(&self, other: &Self) -> Ordering {
        self.0.iter().rev().cmp(other.0.iter().rev())
    }
}

impl PartialOrd for Id {
    fn partial_cmp(&self, other: &Self) -> Option<Ordering> {
        Some(self.cmp(other))
    }
}

impl fmt::Display for Id {
    fn fmt(&self, f: &mut fmt::Formatter<'_>) -> fmt::Result {
        self.0.iter().try_for_each(|byte| write!(f, "{byte:02x}"))
    }
}

impl fmt::Debug for Id {
    fn fmt(&self, f: &mut fmt::Formatter<'_>) -> fmt::Result {
        write!(f, "{self}")
    }
}

/// How far a message goes: from station to station with its hops, or to neighbours only.
#[derive(Clone, Copy, Debug, PartialEq, Eq)]
pub enum Scope {
    Swarm(u16),
    Neighbors,
}

impl Scope {
    fn flags(self) -> u8 {
        u8::from(self == Scope::Neighbors)
    }

    fn round(self) -> u16 {
        match self {
            Scope::Swarm(round) => round,
            Scope::Neighbors => 0,
        }
    }

    /// `None` where a message to neighbours has a round.
    fn read(fields: &Record<()>) -> Option<Self> {
        match (fields.flags, fields.ttl) {
            (0, round) => Some(Scope::Swarm(round)),
            (1, 0) => Some(Scope::Neighbors),
            _ => None,
        }
    }
}

#[derive(Clone, Debug, PartialEq, Eq)]
pub enum Message {
    Gossip(Id, Scope, Vec<u8>),
    Prune,
    Graft(Option<Id>, u16),
    IHave(Vec<(Id, u16)>),
}

/// What a record of kinds 32 to 37 says, beside its time and its delay.
#[derive(Clone, Debug, PartialEq, Eq)]
pub enum Said {
    /// From or to a peer.
    Message(Peer, Message),
    SendGraft(Id),
    DispatchLazyPush,
    EvictCache,
    Broadcast(Scope, Vec<u8>),
    Received(Peer, Scope, Vec<u8>),
}

impl Said {
    /// The record in the form of an event.
    pub fn event(&self, now: u64) -> Vec<u8> {
        let (record, tail) = self.parts();
        let mut bytes = vec![0; HEADER + tail.len()];
        let record = Record {
            number: now,
            ..record
        };
        Writer::new(&mut bytes).put_tail(record, &tail);
        bytes
    }

    /// Puts the record into an output; a timer has a delay.
    pub fn put(&self, output: &mut Writer, delay: u64) {
        let (record, tail) = self.parts();
        let record = Record {
            second: delay,
            ..record
        };
        output.put_tail(record, &tail);
    }

    /// The header but for time and delay, and what stands after it.
    fn parts(&self) -> (Record<()>, Vec<u8>) {
        let of = |kind, peer| Record::<()>::of(kind, peer);
        let scoped = |kind, peer, scope: &Scope| Record {
            flags: scope.flags(),
            ttl: scope.round(),
            ..of(kind, peer)
        };
        match self {
            Said::Message(peer, message) => message.parts(*peer),
            Said::SendGraft(id) => (of(kind::SEND_GRAFT, 0), id.0.to_vec()),
            Said::DispatchLazyPush => (of(kind::DISPATCH_LAZY_PUSH, 0), Vec::new()),
            Said::EvictCache => (of(kind::EVICT_CACHE, 0), Vec::new()),
            Said::Broadcast(scope, body) => (scoped(kind::BROADCAST, 0, scope), body.clone()),
            Said::Received(peer, scope, body) => {
                (scoped(kind::RECEIVED, *peer, scope), body.clone())
            }
        }
    }

    /// Reads an event, with its time. Order of refusals: 3 if under 32 bytes, 4, any other 3, 15 for a body over 256.
    pub fn read_event(bytes: &[u8]) -> Result<(u64, Self), u8> {
        if bytes.len() < HEADER {
            return Err(MALFORMED);
        }
        if bytes[3] > MOST_NODES {
            return Err(NODE_COUNT);
        }
        let fields = header_of(bytes);
        let said = Self::read(bytes).filter(|said| fields.second == 0 && said.is_event());
        match said.ok_or(MALFORMED)? {
            Said::Message(_, Message::Gossip(_, _, body)) | Said::Broadcast(_, body)
                if body.len() > BODY =>
            {
                Err(refusal::FULL)
            }
            said => Ok((fields.number, said)),
        }
    }

    fn is_event(&self) -> bool {
        !matches!(self, Said::Received(..))
    }

    /// What a record says whose whole length is there; `None` where it is malformed. Delay and number are not read.
    pub fn read(bytes: &[u8]) -> Option<Self> {
        let fields = header_of(bytes);
        if bytes[3] != 0 || length_of(bytes) != bytes.len() {
            return None;
        }
        let rest = &bytes[HEADER..];
        if fields.kind == kind::MESSAGE {
            return Message::read(&fields, rest).map(|message| Said::Message(fields.peer, message));
        }
        let plain = fields.message == 0 && (fields.kind == kind::RECEIVED || fields.peer == 0);
        let bare = fields.flags == 0 && fields.ttl == 0;
        match fields.kind {
            _ if !plain => None,
            kind::SEND_GRAFT if bare => Some(Said::SendGraft(Id(rest.try_into().ok()?))),
            kind::DISPATCH_LAZY_PUSH if bare && rest.is_empty() => Some(Said::DispatchLazyPush),
            kind::EVICT_CACHE if bare && rest.is_empty() => Some(Said::EvictCache),
            kind::BROADCAST if fields.ttl == 0 => {
                Scope::read(&fields).map(|scope| Said::Broadcast(scope, rest.to_vec()))
            }
            kind::RECEIVED => {
                Scope::read(&fields).map(|scope| Said::Received(fields.peer, scope, rest.to_vec()))
            }
            _ => None,
        }
    }
}

impl Message {
    fn parts(&self, peer: Peer) -> (Record<()>, Vec<u8>) {
        let of = |message, flags, ttl| Record {
            message,
            flags,
            ttl,
            ..Record::<()>::of(kind::MESSAGE, peer)
        };
        match self {
            Message::Gossip(id, scope, body) => {
                let header = of(message::GOSSIP, scope.flags(), scope.round());
                (header, [&id.0[..], body].concat())
            }
            Message::Prune => (of(message::PRUNE, 0, 0), Vec::new()),
            Message::Graft(id, round) => {
                let tail = id.map_or(Vec::new(), |id| id.0.to_vec());
                (of(message::GRAFT, u8::from(id.is_some()), *round), tail)
            }
            Message::IHave(entries) => {
                let entry = |(id, round): &(Id, u16)| [&id.0[..], &round.to_le_bytes()].concat();
                (
                    of(message::IHAVE, 0, 0),
                    entries.iter().flat_map(entry).collect(),
                )
            }
        }
    }

    fn read(fields: &Record<()>, rest: &[u8]) -> Option<Self> {
        let bare = fields.flags == 0 && fields.ttl == 0;
        match fields.message {
            message::GOSSIP => {
                let (id, body) = rest.split_at_checked(ID)?;
                let id = Id(id.try_into().ok()?);
                Some(Message::Gossip(id, Scope::read(fields)?, body.to_vec()))
            }
            message::PRUNE if bare && rest.is_empty() => Some(Message::Prune),
            message::GRAFT => {
                let id = match (fields.flags, rest.is_empty()) {
                    (0, true) => None,
                    (1, false) => Some(Id(rest.try_into().ok()?)),
                    _ => return None,
                };
                Some(Message::Graft(id, fields.ttl))
            }
            message::IHAVE if bare && rest.len() % ENTRY == 0 => Some(Message::IHave(
                rest.chunks_exact(ENTRY).map(entry).collect(),
            )),
            _ => None,
        }
    }
}

fn entry(bytes: &[u8]) -> (Id, u16) {
    let id = Id(bytes[..ID].try_into().expect("32 bytes"));
    (id, u16::from_le_bytes([bytes[ID], bytes[ID + 1]]))
}
