//! The reader and the writer of kinds 32 to 37: every record comes back, and every wrong field is refused in its order.

use oracle::{
    gossip::record::{Id, Message, Said, Scope},
    limits::BODY,
    record::HEADER,
};

const ID: Id = Id([7; 32]);
const NOW: u64 = u64::MAX - 1;

fn said() -> Vec<Said> {
    let message = |message| Said::Message(1 << 40, message);
    vec![
        message(Message::Gossip(ID, Scope::Swarm(3), b"body".to_vec())),
        message(Message::Gossip(ID, Scope::Neighbors, Vec::new())),
        message(Message::Prune),
        message(Message::Graft(Some(ID), 9)),
        message(Message::Graft(None, u16::MAX)),
        message(Message::IHave(Vec::new())),
        message(Message::IHave(vec![(ID, 1), (Id([0; 32]), 2)])),
        Said::SendGraft(ID),
        Said::DispatchLazyPush,
        Said::EvictCache,
        Said::Broadcast(Scope::Swarm(0), vec![1; BODY]),
        Said::Broadcast(Scope::Neighbors, Vec::new()),
    ]
}

/// The record with one byte changed, its whole length told anew.
fn changed(said: &Said, place: usize, byte: u8) -> Vec<u8> {
    let mut bytes = said.event(NOW);
    bytes[place] = byte;
    bytes
}

/// A longer or shorter record that tells its length.
fn resized(said: &Said, length: usize) -> Vec<u8> {
    let mut bytes = said.event(NOW);
    bytes.resize(length, 0);
    bytes[22..24].copy_from_slice(&(length as u16).to_le_bytes());
    bytes
}

fn code(bytes: &[u8]) -> u8 {
    Said::read_event(bytes).err().unwrap_or_default()
}

#[test]
fn events_come_back_with_their_time() {
    for said in said() {
        assert_eq!(Said::read_event(&said.event(NOW)), Ok((NOW, said.clone())));
        assert_eq!(Said::read_event(&said.event(0)), Ok((0, said)));
    }
}

#[test]
fn a_gossip_as_bytes() {
    let said = Said::Message(2, Message::Gossip(ID, Scope::Swarm(259), vec![5, 6]));
    let mut expected = vec![32, 0, 0, 0, 2, 0, 0, 0, 0, 0, 0, 0];
    expected.extend([0; 8]);
    expected.extend([3, 1, 66, 0, 9, 0, 0, 0, 0, 0, 0, 0]);
    expected.extend([7; 32]);
    expected.extend([5, 6]);
    assert_eq!(said.event(9), expected);
}

/// 37 is an output alone.
#[test]
fn received_is_no_event() {
    let received = Said::Received(2, Scope::Swarm(1), b"a".to_vec());
    let bytes = received.event(0);
    assert_eq!(Said::read(&bytes), Some(received));
    assert_eq!(code(&bytes), 3);
}

/// Whatever the kind: byte 3 over 32 is 4, from 1 to 32 it is 3, a delay is 3, and so is a wrong length.
#[test]
fn fields_of_every_kind() {
    for said in said() {
        let bytes = said.event(NOW);
        assert_eq!(code(&bytes[..HEADER - 1]), 3);
        assert_eq!(code(&changed(&said, 3, 33)), 4);
        assert_eq!(code(&changed(&said, 3, 32)), 3);
        assert_eq!(code(&changed(&said, 2, 2)), 3);
        assert_eq!(code(&changed(&said, 12, 1)), 3);
        assert_eq!(code(&changed(&said, 19, 1)), 3);
        assert_eq!(code(&changed(&said, 22, bytes[22] + 1)), 3);
        assert_eq!(code(&changed(&said, 0, 38)), 3);
        assert_eq!(code(&changed(&said, 0, 13)), 3);
    }
}

#[test]
fn messages_have_their_own_fields() {
    let message = |message| Said::Message(2, message);
    let gossip = message(Message::Gossip(ID, Scope::Neighbors, Vec::new()));
    let graft = message(Message::Graft(Some(ID), 0));
    let ihave = message(Message::IHave(vec![(ID, 1)]));
    let prune = message(Message::Prune);
    // No message 4; a message to neighbours has no round; an id is whole.
    assert_eq!(code(&changed(&prune, 1, 4)), 3);
    assert_eq!(code(&changed(&gossip, 20, 1)), 3);
    assert_eq!(code(&resized(&gossip, HEADER + 31)), 3);
    assert_eq!(code(&changed(&graft, 2, 0)), 3);
    assert_eq!(code(&resized(&graft, HEADER)), 3);
    assert_eq!(code(&resized(&graft, HEADER + 33)), 3);
    for said in [&prune, &ihave] {
        assert_eq!(code(&changed(said, 2, 1)), 3);
        assert_eq!(code(&changed(said, 21, 1)), 3);
        assert_eq!(code(&resized(said, HEADER + 35)), 3);
    }
}

#[test]
fn timers_and_commands_name_no_peer() {
    let broadcast = Said::Broadcast(Scope::Swarm(0), vec![1; 4]);
    let timers = [
        Said::SendGraft(ID),
        Said::DispatchLazyPush,
        Said::EvictCache,
    ];
    for said in timers.iter().chain([&broadcast]) {
        assert_eq!(code(&changed(said, 1, 1)), 3);
        assert_eq!(code(&changed(said, 4, 1)), 3);
        assert_eq!(code(&changed(said, 11, 1)), 3);
        assert_eq!(code(&changed(said, 20, 1)), 3);
    }
    for said in &timers {
        assert_eq!(code(&changed(said, 2, 1)), 3);
        assert_eq!(code(&resized(said, HEADER + 1)), 3);
    }
}

/// A body over 256 bytes is read, and refused after every 3 and 4.
#[test]
fn long_bodies() {
    let gossip = Said::Message(2, Message::Gossip(ID, Scope::Swarm(0), vec![0; BODY + 1]));
    let broadcast = Said::Broadcast(Scope::Neighbors, vec![0; 60_000]);
    for said in [&gossip, &broadcast] {
        assert_eq!(code(&said.event(0)), 15);
        assert_eq!(code(&changed(said, 3, 33)), 4);
        assert_eq!(code(&changed(said, 12, 1)), 3);
    }
    assert_eq!(code(&changed(&gossip, 2, 2)), 3);
    assert_eq!(code(&changed(&broadcast, 20, 1)), 3);
}

/// The order of ids is that of numbers whose bytes stand lowest first.
#[test]
fn ids_rise_as_numbers() {
    let (mut low, mut high) = ([0; 32], [0; 32]);
    low[0] = 255;
    high[31] = 1;
    assert!(Id(low) < Id(high));
}
