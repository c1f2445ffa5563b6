//! The ledger of 01, "A station's whole history": fed with events and answers, and with no state.

use std::collections::BTreeSet;

use crate::{
    record::{cut, kind, message, peer_of, Peer},
    station::Answer,
};

#[derive(Default)]
pub struct Ledger {
    pub neighbors: BTreeSet<Peer>,
    pub messages: u64,
    pub allowance: u64,
}

impl Ledger {
    pub fn enter(&mut self, capacity: u32, event: &[u8], answer: &Answer) {
        if answer.code != 0 {
            return;
        }
        if event[0] == kind::QUIT {
            self.neighbors.clear();
        }
        self.allowance += u64::from(price(capacity, event));
        for record in cut(&answer.out) {
            let peer = peer_of(record);
            match record[0] {
                kind::MESSAGE => self.messages += 1,
                kind::NEIGHBOR_UP => _ = self.neighbors.insert(peer),
                kind::NEIGHBOR_DOWN => _ = self.neighbors.remove(&peer),
                _ => {}
            }
        }
    }
}

/// The number that demand 3 adds for an accepted event.
fn price(capacity: u32, event: &[u8]) -> u32 {
    match (event[0], event[1]) {
        (kind::MESSAGE, message::JOIN) => capacity + 2,
        (kind::MESSAGE, message::NEIGHBOR) => 3,
        (kind::DO_MAINTENANCE, _) => 9,
        (kind::QUIT | kind::UPDATE_PEER_DATA | kind::PIN, _) => 0,
        _ => 1,
    }
}
