//! Written histories of the broadcast half alone, each about one step, limit or time of S-7.

use super::record::{Id, Message, Said, Scope};
use crate::{
    generate::History,
    input::Input,
    limits::{BODY, LIST, PEERS},
    record::{kind, Peer, Record},
    station::DEFAULTS,
    text::Start,
};

/// The station itself.
pub const ME: Peer = 1;

/// A name, the room where it is not 8,192 bytes, and the events.
pub struct Case {
    pub name: &'static str,
    room: Option<usize>,
    events: fn() -> Vec<Vec<u8>>,
}

pub const CASES: &[Case] = &[
    case("order_to_grafted", order_to_grafted),
    case("first_smallest_round", first_smallest_round),
    case("asked_over_as_many_hops", asked_over_as_many_hops),
    case("asked_peer_first", asked_peer_first),
    case("asked_again", asked_again),
    case("broadcast_of_missing", broadcast_of_missing),
    case("faster_peer_kept", faster_peer_kept),
    case("late_over_more_hops", late_over_more_hops),
    case("late_after_asked", late_after_asked),
    case("late_from_lazy", late_from_lazy),
    case("late_after_lazy", late_after_lazy),
    case("first_again", first_again),
    case("neighbors_each_time", neighbors_each_time),
    case("last_round", last_round),
    case("long_body", long_body),
    case("ninth_peer", ninth_peer),
    case("received_full", received_full),
    case("announced_full", announced_full),
    case("timers_full", timers_full),
    case("queue_full", queue_full),
    case("grafted_full", grafted_full),
    case("renewed", renewed),
    case("largest_time", largest_time),
    tight("dispatch_without_room", 65, dispatch_without_room),
    tight("answer_without_room", 66, answer_without_room),
];

const fn case(name: &'static str, events: fn() -> Vec<Vec<u8>>) -> Case {
    Case {
        name,
        room: None,
        events,
    }
}

const fn tight(name: &'static str, room: usize, events: fn() -> Vec<Vec<u8>>) -> Case {
    Case {
        room: Some(room),
        ..case(name, events)
    }
}

pub fn named(name: &str) -> Option<&'static Case> {
    CASES.iter().find(|case| case.name == name)
}

impl Case {
    pub fn history(&self) -> History {
        let input = Input {
            me: ME,
            settings: DEFAULTS,
            events: (self.events)(),
            draws: Vec::new(),
        };
        let usual = Start::default();
        History {
            start: Start {
                room: self.room.unwrap_or(usual.room),
                ..usual
            },
            input: input.write(),
        }
    }
}

fn notice(kind: u8, peer: Peer) -> Vec<u8> {
    let record: Record = Record::of(kind, peer);
    record.write()
}

pub fn up(peer: Peer) -> Vec<u8> {
    notice(kind::NEIGHBOR_UP, peer)
}

pub fn down(peer: Peer) -> Vec<u8> {
    notice(kind::NEIGHBOR_DOWN, peer)
}

pub fn gossip(from: Peer, scope: Scope, body: &[u8]) -> Vec<u8> {
    Said::Message(from, Message::Gossip(Id::of(body), scope, body.to_vec())).event(0)
}

pub fn prune(from: Peer) -> Vec<u8> {
    Said::Message(from, Message::Prune).event(0)
}

pub fn ihave(from: Peer, entries: &[(Id, u16)]) -> Vec<u8> {
    Said::Message(from, Message::IHave(entries.to_vec())).event(0)
}

pub fn graft(from: Peer, id: Option<Id>) -> Vec<u8> {
    Said::Message(from, Message::Graft(id, 0)).event(0)
}

pub fn send_graft(id: Id) -> Vec<u8> {
    Said::SendGraft(id).event(0)
}

pub fn broadcast(now: u64, body: &[u8]) -> Vec<u8> {
    Said::Broadcast(Scope::Swarm(0), body.to_vec()).event(now)
}

pub fn evict(now: u64) -> Vec<u8> {
    Said::EvictCache.event(now)
}

/// So many bodies, each another.
fn bodies(count: usize) -> Vec<[u8; 1]> {
    (0..count).map(|place| [place as u8]).collect()
}

fn ids(count: usize) -> Vec<(Id, u16)> {
    let bodies = bodies(count);
    bodies.iter().map(|body| (Id::of(body), 1)).collect()
}

/// S-7's sentence on new orders is false of plumtree.rs as it is at the last of these.
fn order_to_grafted() -> Vec<Vec<u8>> {
    let id = Id::of(b"a");
    vec![
        up(2),
        ihave(2, &[(id, 0)]),
        send_graft(id),
        gossip(3, Scope::Swarm(0), b"a"),
    ]
}

/// Of two announcements with equal rounds the first is grafted.
fn first_smallest_round() -> Vec<Vec<u8>> {
    let announced = [(Id::of(b"a"), 1)];
    vec![
        up(2),
        up(3),
        up(4),
        prune(2),
        prune(3),
        ihave(2, &announced),
        ihave(3, &announced),
        gossip(4, Scope::Swarm(20), b"a"),
    ]
}

/// A grafted peer whose copy comes later over no more hops stays eager; its next copies and those of the first sender differ.
fn faster_peer_kept() -> Vec<Vec<u8>> {
    let id = Id::of(b"a");
    vec![
        up(2),
        up(3),
        ihave(2, &[(id, 1)]),
        send_graft(id),
        gossip(3, Scope::Swarm(2), b"a"),
        gossip(2, Scope::Swarm(2), b"a"),
        gossip(2, Scope::Swarm(2), b"a"),
        gossip(3, Scope::Swarm(2), b"a"),
        gossip(9, Scope::Swarm(2), b"a"),
    ]
}

/// Peer 2 announces a message over 10 hops and is asked; then 3 announces it over one, far fewer.
fn asked_then_announced() -> Vec<Vec<u8>> {
    let id = Id::of(b"a");
    vec![
        up(2),
        up(3),
        up(4),
        prune(3),
        ihave(2, &[(id, 10)]),
        send_graft(id),
        ihave(3, &[(id, 1)]),
    ]
}

/// The copy of one that was not asked comes over as many hops as the graft's will: the tree stays.
fn asked_over_as_many_hops() -> Vec<Vec<u8>> {
    let mut events = asked_then_announced();
    events.push(gossip(4, Scope::Swarm(10), b"a"));
    events
}

/// The copy of the peer that was asked comes first: the tree is optimized.
fn asked_peer_first() -> Vec<Vec<u8>> {
    let mut events = asked_then_announced();
    events.push(gossip(2, Scope::Swarm(10), b"a"));
    events
}

/// A peer that announces a message again after it was asked is asked again, and its least round is kept.
fn asked_again() -> Vec<Vec<u8>> {
    let id = Id::of(b"a");
    let rounds = [5, 3, 9].into_iter();
    let asked = rounds.flat_map(|round| [ihave(2, &[(id, round)]), send_graft(id)]);
    [up(2)].into_iter().chain(asked).collect()
}

/// A broadcast leaves the announcement of its own body, and its timer then asks for nothing.
fn broadcast_of_missing() -> Vec<Vec<u8>> {
    let id = Id::of(b"a");
    vec![
        up(2),
        ihave(2, &[(id, 1)]),
        broadcast(0, b"a"),
        send_graft(id),
        gossip(2, Scope::Swarm(1), b"a"),
    ]
}

/// Peer 2 is asked, the copy of 3 comes first over 2 hops; what stands between it and the copy of 2 over so many.
fn late(between: Vec<Vec<u8>>, round: u16) -> Vec<Vec<u8>> {
    let id = Id::of(b"a");
    let mut events = vec![
        up(2),
        up(3),
        ihave(2, &[(id, 1)]),
        send_graft(id),
        gossip(3, Scope::Swarm(2), b"a"),
    ];
    events.extend(between);
    events.push(gossip(2, Scope::Swarm(round), b"a"));
    events
}

fn late_over_more_hops() -> Vec<Vec<u8>> {
    late(Vec::new(), 3)
}

fn late_from_lazy() -> Vec<Vec<u8>> {
    late(vec![prune(2)], 2)
}

fn late_after_lazy() -> Vec<Vec<u8>> {
    late(vec![prune(3)], 2)
}

/// Both were asked: neither is kept for the other.
fn late_after_asked() -> Vec<Vec<u8>> {
    let id = Id::of(b"a");
    vec![
        up(2),
        up(3),
        ihave(2, &[(id, 1)]),
        ihave(3, &[(id, 1)]),
        send_graft(id),
        send_graft(id),
        gossip(3, Scope::Swarm(2), b"a"),
        gossip(2, Scope::Swarm(2), b"a"),
    ]
}

/// Times may fall: an id is forgotten while its graft is not, and the order comes anew.
fn first_again() -> Vec<Vec<u8>> {
    let id = Id::of(b"a");
    vec![
        up(2),
        up(3),
        ihave(2, &[(id, 1)]),
        Said::SendGraft(id).event(100_000),
        gossip(3, Scope::Swarm(2), b"a"),
        evict(95_000),
        gossip(2, Scope::Swarm(1), b"a"),
    ]
}

fn neighbors_each_time() -> Vec<Vec<u8>> {
    vec![
        up(2),
        gossip(2, Scope::Neighbors, b"a"),
        gossip(2, Scope::Neighbors, b"a"),
        gossip(2, Scope::Swarm(0), b"a"),
        gossip(2, Scope::Neighbors, b"a"),
    ]
}

fn last_round() -> Vec<Vec<u8>> {
    let last = Scope::Swarm(u16::MAX);
    vec![
        gossip(2, last, b"a"),
        gossip(2, Scope::Swarm(u16::MAX - 1), b"a"),
        gossip(2, last, b"a"),
    ]
}

fn long_body() -> Vec<Vec<u8>> {
    let (most, long) = ([7; BODY], [7; BODY + 1]);
    let mut short = gossip(2, Scope::Swarm(0), &long);
    short[2] = 2;
    vec![
        gossip(2, Scope::Swarm(0), &long),
        broadcast(0, &long),
        short,
        gossip(2, Scope::Swarm(0), &most),
        broadcast(0, &most),
    ]
}

fn ninth_peer() -> Vec<Vec<u8>> {
    let ninth = PEERS as Peer + 2;
    let mut events: Vec<_> = (2..ninth).map(up).collect();
    events.extend([up(ninth), prune(2), up(2), up(ninth), down(3), up(ninth)]);
    events
}

fn received_full() -> Vec<Vec<u8>> {
    let mut events: Vec<_> = bodies(LIST + 1)
        .iter()
        .map(|body| broadcast(0, body))
        .collect();
    events.extend([
        broadcast(0, &[0]),
        gossip(2, Scope::Swarm(0), &[LIST as u8]),
        evict(89_999),
        broadcast(0, &[LIST as u8]),
        evict(90_000),
        broadcast(0, &[LIST as u8]),
    ]);
    events
}

/// 64 announcements in all: another peer's of an id that is missing already is one more.
fn announced_full() -> Vec<Vec<u8>> {
    let ids = ids(LIST);
    vec![
        up(2),
        up(3),
        ihave(2, &ids),
        ihave(2, &ids),
        ihave(3, &ids[..1]),
    ]
}

/// Timers stay where announcers go; an id that has one needs no place.
fn timers_full() -> Vec<Vec<u8>> {
    let ids = ids(LIST + 1);
    vec![
        up(2),
        ihave(2, &ids[..LIST]),
        down(2),
        up(2),
        ihave(2, &ids[LIST..]),
        ihave(2, &ids[..1]),
    ]
}

/// One body again and again: each time an announcement for each of five lazy peers, by which the list is full in the fewest events.
fn queue_full() -> Vec<Vec<u8>> {
    const LAZY: usize = 5;
    let peers = 2..LAZY as Peer + 2;
    let mut events: Vec<_> = peers.clone().map(up).chain(peers.map(prune)).collect();
    events.extend((0..=LIST / LAZY).map(|_| broadcast(0, b"a")));
    events.extend([Said::DispatchLazyPush.event(0), broadcast(0, b"a")]);
    events
}

fn grafted_full() -> Vec<Vec<u8>> {
    let ids = ids(LIST + 1);
    let mut events = vec![up(2), ihave(2, &ids[..LIST])];
    events.extend(ids[..LIST].iter().map(|(id, _)| send_graft(*id)));
    events.extend([
        ihave(2, &ids[LIST..]),
        send_graft(ids[LIST].0),
        evict(30_000),
        send_graft(ids[LIST].0),
    ]);
    events
}

/// A body broadcast once more is kept from then on.
fn renewed() -> Vec<Vec<u8>> {
    vec![
        broadcast(0, b"a"),
        broadcast(50_000, b"a"),
        evict(79_999),
        evict(80_000),
        evict(139_999),
        evict(140_000),
    ]
}

/// What is put in at the largest time never expires, and nothing passes the top.
fn largest_time() -> Vec<Vec<u8>> {
    vec![
        broadcast(u64::MAX, b"a"),
        evict(u64::MAX),
        broadcast(u64::MAX - 90_000, b"b"),
        evict(u64::MAX - 1),
        evict(u64::MAX),
    ]
}

fn dispatch_without_room() -> Vec<Vec<u8>> {
    vec![
        up(2),
        prune(2),
        broadcast(0, b""),
        Said::DispatchLazyPush.event(0),
        graft(2, Some(Id::of(b""))),
    ]
}

fn answer_without_room() -> Vec<Vec<u8>> {
    vec![
        up(2),
        prune(2),
        broadcast(0, b"abc"),
        graft(2, Some(Id::of(b"abc"))),
        graft(2, None),
    ]
}
