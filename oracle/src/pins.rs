//! Pins (02, S-14): a side of our own, as the Rust has none. The state holds them; where there are some,
//! `free_random_slot_in_active_view` goes on here; an event of kind 13 never reaches the Rust's `handle`. A pin ends
//! as an event ends that took its peer out of the active view: no event takes a peer out and brings it back.

use super::*;

/// The peer of a record that the reader accepted, if it is a pin.
pub fn pinned(view: &View) -> Option<Peer> {
    let fields = view.fields();
    (fields.kind == kind::PIN).then_some(fields.peer)
}

impl<RG> State<Peer, RG> {
    /// Kind 13: 17 for a stranger, then 18 for one more than all neighbours but one.
    pub fn pin(&mut self, peer: Peer) {
        if !self.active_view.contains(&peer) {
            refusal::refuse(refusal::NOT_ACTIVE);
        }
        if !self.pins.contains(&peer) && self.pins.len() + 1 >= self.config.active_view_capacity {
            refusal::refuse(refusal::PINS);
        }
        self.pins.insert(peer);
    }
}

impl<PI: PeerIdentity, RG: Rng> State<PI, RG> {
    /// Demotes one of the neighbours without a pin: picked among them in set order, removed by the place in the whole
    /// view.
    pub(crate) fn free_unpinned_slot(&mut self, io: &mut impl IO<PI>) {
        let places = self.active_view.iter().enumerate();
        let free = places.filter(|(_, peer)| !self.pins.contains(*peer));
        if let Some((place, _)) = free.choose(&mut self.rng) {
            self.remove_active_by_index(place, RemovalReason::Random, io);
        }
    }
}
