//! The trace form of the broadcast half: the lines of the membership half, where it is there, and a line of its own.

use super::station::Station;
use crate::{
    input::Input,
    machine::Machine,
    plumtree::access::{Cached, Grafted, Parts},
    record::Peer,
    text::{answer_lines, hex, list, state_line, station_lines, Form, Start},
};

/// Everything that a run of `input` prints.
pub fn run(machine: Machine, input: &[u8], start: Start, form: Form) -> String {
    let Some(input) = Input::read(input) else {
        return "= 3 0\n".into();
    };
    let Some(mut station) = Station::new(machine, &input) else {
        return "= 1 0\n".into();
    };
    let mut text = String::new();
    for (index, event) in input.events.iter().enumerate() {
        let answer = station.handle(event, start.room);
        text += &match form {
            Form::Station => station_lines(index, &answer),
            Form::Trace => answer_lines(&answer) + &state_lines(&station),
        };
    }
    text
}

fn state_lines(station: &Station) -> String {
    let swarm = station
        .swarm()
        .map_or(String::new(), |parts| state_line(&parts));
    swarm + &gossip_line(&station.gossip())
}

/// The state of the broadcast half: ids in hex, times in ms, numbers in base ten.
pub fn gossip_line(parts: &Parts) -> String {
    let fields = [
        ("started", u8::from(parts.started).to_string()),
        ("dispatch", u8::from(parts.dispatch).to_string()),
        ("eager", list(&parts.eager)),
        ("lazy", list(&parts.lazy)),
        (
            "received",
            list(
                parts
                    .received
                    .iter()
                    .map(|(id, time)| format!("{id}:{time}")),
            ),
        ),
        ("cache", list(parts.cache.iter().map(cached))),
        (
            "announced",
            list(
                parts
                    .announced
                    .iter()
                    .map(|(id, peer, round)| format!("{id}:{peer}:{round}")),
            ),
        ),
        (
            "queued",
            list(
                parts
                    .queued
                    .iter()
                    .map(|(peer, id, round)| format!("{peer}:{id}:{round}")),
            ),
        ),
        ("timers", list(&parts.timers)),
        ("grafted", list(parts.grafted.iter().map(grafted))),
    ];
    let fields = fields.map(|(name, value)| format!(" {name}={value}"));
    format!("gossip{}\n", fields.concat())
}

fn cached(cached: &Cached) -> String {
    let Cached {
        id,
        time,
        round,
        body,
    } = cached;
    format!("{id}:{time}:{round}:{}", hex(body))
}

fn grafted(grafted: &Grafted) -> String {
    let Grafted {
        id,
        time,
        peers,
        first,
        kept,
    } = grafted;
    let asked = |(peer, round): &(Peer, u16)| format!("{peer}/{round}");
    let peers: Vec<_> = peers.iter().map(asked).collect();
    let first = first.as_ref().map_or("-".into(), asked);
    let kept = kept.map_or("-".into(), |peer| peer.to_string());
    format!("{id}:{time}:{}:{first}:{kept}", peers.join("+"))
}
