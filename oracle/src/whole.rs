//! The Rust doing the whole job of a controller's call, to be measured beside it: reads the event,
//! checks the station rules, keeps a copy for a refusal, handles, writes and clears.

use rand::Draws;

use super::*;
use crate::{
    record::{Peer, MOST_DATA},
    station::RANGES,
};

/// 01's code 2: the state breaks a station rule.
pub const RULE: u8 = 2;

/// What a call hands back.
#[derive(Clone, Copy, Debug, PartialEq, Eq)]
pub struct Done {
    pub code: u8,
    pub drawn: usize,
}

/// What a caller keeps beside the state.
pub struct Book {
    /// The state before the call: a copy whose memory serves again.
    kept: State<Peer, Draws>,
    /// The messages sent, by byte 1.
    pub tally: [u64; 6],
}

impl Book {
    pub fn new(state: &State<Peer, Draws>) -> Self {
        Self {
            kept: state.clone(),
            tally: [0; 6],
        }
    }

    /// One event. Refused, the state is as it was and the output has zeroes alone.
    pub fn call(&mut self, state: &mut State<Peer, Draws>, event: &[u8], out: &mut [u8]) -> Done {
        match self.try_call(state, event, out) {
            Ok((written, drawn)) => {
                out[written..].fill(0);
                Done { code: 0, drawn }
            }
            Err(code) => {
                out.fill(0);
                Done { code, drawn: 0 }
            }
        }
    }

    fn try_call(
        &mut self,
        state: &mut State<Peer, Draws>,
        event: &[u8],
        out: &mut [u8],
    ) -> Result<(usize, usize), u8> {
        if !keeps_rules(state) {
            return Err(RULE);
        }
        let view = View::event(event)?;
        self.kept.clone_from(state);
        let mut output = Writer::new(out);
        let steps = || match pins::pinned(&view) {
            Some(peer) => state.pin(peer),
            None => state.handle(super::event(&view), &mut output),
        };
        if let Err(code) = refusal::first_refusal(steps) {
            std::mem::swap(state, &mut self.kept);
            return Err(code);
        }
        for (count, sent) in self.tally.iter_mut().zip(output.sent) {
            *count = count.saturating_add(sent);
        }
        Ok((output.written(), state.rng.place() - self.kept.rng.place()))
    }
}

/// The station rules of 01 that the types leave open. A set has no repeats, a map has no order and
/// no unused places, and peers and counters have their widths by type.
pub fn keeps_rules<RG>(state: &State<Peer, RG>) -> bool {
    settings_fit(&state.config) && views_fit(state) && lists_fit(state) && joins_fit(state)
        && pins_fit(state)
}

/// 02, S-14: pins are neighbours, fewer than the active capacity.
fn pins_fit<RG>(state: &State<Peer, RG>) -> bool {
    let pins = &state.pins;
    pins.len() < state.config.active_view_capacity
        && pins.iter().all(|peer| state.active_view.contains(peer))
}

fn settings_fit(config: &Config) -> bool {
    let settings = [
        config.active_view_capacity as u64,
        config.passive_view_capacity as u64,
        config.active_random_walk_length.into(),
        config.passive_random_walk_length.into(),
        config.shuffle_random_walk_length.into(),
        config.shuffle_active_view_count as u64,
        config.shuffle_passive_view_count as u64,
        config.shuffle_interval.as_millis(),
        config.neighbor_request_timeout.as_millis(),
    ];
    let fits =
        |(value, (least, most)): (u64, (u32, u32))| (least.into()..=most.into()).contains(&value);
    settings.into_iter().zip(RANGES).all(fits)
}

fn views_fit<RG>(state: &State<Peer, RG>) -> bool {
    let (active, passive) = (&state.active_view, &state.passive_view);
    active.len() <= state.config.active_view_capacity
        && passive.len() <= state.config.passive_view_capacity
        && !active.contains(&state.me)
        && !passive.contains(&state.me)
        && !active.iter().any(|peer| passive.contains(peer))
        && state
            .alive_disconnect_peers
            .iter()
            .all(|peer| passive.contains(peer))
}

fn lists_fit<RG>(state: &State<Peer, RG>) -> bool {
    let interval = state.next_shuffle_interval.as_millis();
    let own = state
        .me_data
        .as_ref()
        .map_or(0, |data| data.as_bytes().len());
    has_few::<MAX_BOOTSTRAP_PEERS>(&state.bootstrap_peers)
        && has_few::<MAX_RECENT_NEIGHBORS>(&state.recent_neighbors)
        && state.pending_neighbor_requests.len() <= MOST_REQUESTS
        && state.refused.len() <= MOST_REFUSED
        && state.peer_data.len() <= MOST_ENTRIES
        && state.peer_data.keys().all(|peer| may_be_held(state, peer))
        && !state.peer_data.contains_key(&state.me)
        && state
            .peer_data
            .values()
            .all(|data| data.as_bytes().len() <= MOST_DATA)
        && own <= MOST_DATA
        && !matches!(state.refill, RefillLimit::Requests(left) if left > MAX_REQUESTS_PER_REFILL)
        && (1..=state.config.shuffle_interval.as_millis()).contains(&interval)
}

/// 02, S-5: data is held of a peer in a view or with an open request.
fn may_be_held<RG>(state: &State<Peer, RG>, peer: &Peer) -> bool {
    state.active_view.contains(peer)
        || state.passive_view.contains(peer)
        || state.pending_neighbor_requests.contains_key(peer)
}

/// Whether a list has at most N peers, each once.
fn has_few<const N: usize>(peers: &VecDeque<Peer>) -> bool {
    let mut seen = [0; N];
    peers.len() <= N
        && peers.iter().enumerate().all(|(place, peer)| {
            seen[place] = *peer;
            !seen[..place].contains(peer)
        })
}

fn joins_fit<RG>(state: &State<Peer, RG>) -> bool {
    let join_fits = |(peer, number): (&Peer, &u64)| {
        *number < state.next_join
            && *peer != state.me
            && state.bootstrap_peers.contains(peer)
            && !state.active_view.contains(peer)
    };
    state.pending_joins.iter().all(join_fits)
        && state
            .pending_neighbor_requests
            .values()
            .all(|number| *number < state.next_neighbor_request)
}

fn enter(view: &mut IndexSet<Peer>, peers: impl IntoIterator<Item = Peer>) {
    for peer in peers {
        view.insert(peer);
    }
}

/// Changes that each break a station rule of a state with a neighbor, a passive peer and a pending
/// join, for a test of the check.
pub const BREAKS: [fn(&mut State<Peer, Draws>); 25] = [
    |state| state.config.active_view_capacity = 9,
    |state| state.config.passive_view_capacity = 0,
    |state| state.config.shuffle_passive_view_count = 24,
    |state| state.config.neighbor_request_timeout = Duration::from_millis(3_600_001),
    |state| enter(&mut state.active_view, 2000..2008),
    |state| enter(&mut state.passive_view, 2000..2032),
    |state| enter(&mut state.active_view, [state.me]),
    |state| enter(&mut state.passive_view, [state.me]),
    |state| enter(&mut state.passive_view, state.active_view.iter().copied()),
    |state| _ = state.alive_disconnect_peers.insert(2000),
    |state| state.bootstrap_peers.extend(2000..2008),
    |state| state.recent_neighbors.extend(2000..2008),
    |state| state.recent_neighbors.push_back(state.recent_neighbors[0]),
    |state| state.bootstrap_peers.clear(),
    |state| enter(&mut state.active_view, state.pending_joins.keys().copied()),
    |state| state.me = *state.pending_joins.keys().next().expect("a pending join"),
    |state| state.next_join = 0,
    |state| state.next_neighbor_request = 0,
    |state| _ = state.peer_data.insert(state.me, PeerData::new(&b""[..])),
    |state| _ = state.peer_data.insert(2000, PeerData::new(&b""[..])),
    |state| {
        let peer = *state.active_view.iter().next().expect("a neighbor");
        state.peer_data.insert(peer, PeerData::new(&[0; 17][..]));
    },
    |state| state.refill = RefillLimit::Requests(4),
    |state| state.next_shuffle_interval = Duration::from_millis(0),
    |state| _ = state.pins.insert(2000),
    |state| {
        state.pins.extend(state.active_view.iter().copied());
        state.config.active_view_capacity = state.pins.len();
    },
];
