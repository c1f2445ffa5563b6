//! 02, S-10, "No chatter, no lost clock": told from accepted events and their records alone.

use std::collections::{BTreeMap, BTreeSet};

use crate::{
    record::{cut, kind, message, number_of, peer_of, Peer},
    station::Answer,
};

/// The timers that are always under way once the first event was accepted.
const CLOCKS: [u8; 2] = [kind::DO_SHUFFLE, kind::DO_MAINTENANCE];

#[derive(Default)]
pub struct Chatter {
    /// Peers that were sent a Neighbor, and no reason for another stood since.
    told: BTreeSet<Peer>,
    /// The numbers of open requests: the last timer scheduled for each peer, until something closes it.
    open: BTreeMap<Peer, u64>,
    /// Accepted events of kinds 0 to 8.
    events: u64,
    scheduled: [u64; 2],
    expired: [u64; 2],
    /// Timers of requests and joins that were scheduled and have not expired since.
    waiting: BTreeSet<(u8, Peer, u64)>,
    chattered: bool,
    twice: bool,
}

impl Chatter {
    pub fn enter(&mut self, event: &[u8], answer: &Answer) {
        if answer.code != 0 {
            return;
        }
        self.event(event);
        let mut asked = BTreeSet::new();
        for record in cut(&answer.out) {
            let peer = peer_of(record);
            if (record[0], record[1]) == (kind::MESSAGE, message::NEIGHBOR) {
                self.twice |= !asked.insert(peer);
            }
            self.record(record);
        }
    }

    fn event(&mut self, event: &[u8]) {
        let (peer, number) = (peer_of(event), number_of(event));
        self.events += u64::from(event[0] <= kind::QUIT);
        for (clock, count) in CLOCKS.iter().zip(&mut self.expired) {
            *count += u64::from(event[0] == *clock);
        }
        match (event[0], event[1]) {
            (kind::MESSAGE, message::JOIN | message::NEIGHBOR | message::DISCONNECT)
            | (kind::PEER_DISCONNECTED, _) => self.close(peer),
            (kind::PENDING_NEIGHBOR_REQUEST, _) => {
                if self.open.get(&peer) == Some(&number) {
                    self.close(peer);
                }
            }
            (kind::QUIT, _) => {
                self.told.clear();
                self.open.clear();
            }
            _ => {}
        }
        self.waiting.remove(&(event[0], peer, number));
    }

    fn close(&mut self, peer: Peer) {
        self.told.remove(&peer);
        self.open.remove(&peer);
    }

    fn record(&mut self, record: &[u8]) {
        let (peer, number) = (peer_of(record), number_of(record));
        for (clock, count) in CLOCKS.iter().zip(&mut self.scheduled) {
            *count += u64::from(record[0] == *clock);
        }
        match (record[0], record[1]) {
            (kind::MESSAGE, message::NEIGHBOR) => self.chattered |= !self.told.insert(peer),
            (kind::MESSAGE, message::DISCONNECT) => _ = self.told.remove(&peer),
            (kind::PENDING_NEIGHBOR_REQUEST, _) => _ = self.open.insert(peer, number),
            _ => {}
        }
        if matches!(record[0], kind::PENDING_NEIGHBOR_REQUEST | kind::RETRY_JOIN) {
            self.waiting.insert((record[0], peer, number));
        }
    }

    /// The claims, with what the station has open: each its peer and number.
    pub fn claims(
        &self,
        requests: &[(Peer, u64)],
        joins: &[(Peer, u64)],
    ) -> [(&'static str, bool); 6] {
        let ahead =
            |clock: usize| self.events == 0 || self.scheduled[clock] == self.expired[clock] + 1;
        let waits = |kind: u8, held: &[(Peer, u64)]| {
            held.iter()
                .all(|&(peer, number)| self.waiting.contains(&(kind, peer, number)))
        };
        [
            ("a reason between two Neighbors", !self.chattered),
            ("one Neighbor to a peer in an event", !self.twice),
            ("one shuffle timer ahead", ahead(0)),
            ("one maintenance timer ahead", ahead(1)),
            (
                "each request has its timer",
                waits(kind::PENDING_NEIGHBOR_REQUEST, requests),
            ),
            ("each join has its timer", waits(kind::RETRY_JOIN, joins)),
        ]
    }
}
