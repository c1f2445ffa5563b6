//! The oracle against another program that reads the run program's input and prints the trace form.

use std::{
    io::Write,
    ops::Range,
    process::{self, Command, Stdio},
};

use crate::{
    input::Input,
    machine::Machine,
    record, shrink,
    text::{self, Form, Start},
};

fn oracle(machine: Machine, input: &[u8]) -> String {
    machine.run(input, Start::default(), Form::Trace)
}

/// Without the lines of kind 12, where the oracle writes none.
fn comparable(text: String) -> String {
    if record::tells_evicted() {
        return text;
    }
    let evicted = text::hex(&[record::kind::EVICTED]);
    let kept = text.lines().filter(|line| !line.starts_with(&evicted));
    kept.map(|line| line.to_owned() + "\n").collect()
}

/// What the other program prints; a failure to run is part of its answer.
fn other(command: &[String], input: &[u8]) -> String {
    let child = Command::new(&command[0])
        .args(&command[1..])
        .stdin(Stdio::piped())
        .stdout(Stdio::piped())
        .spawn();
    let mut child = child.unwrap_or_else(|error| {
        eprintln!("{}: {error}", command[0]);
        process::exit(1)
    });
    let mut stdin = child.stdin.take().expect("a pipe");
    // A program may stop reading early; what it prints then tells.
    let _ = stdin.write_all(input);
    drop(stdin);
    let output = child.wait_with_output().expect("the program ends");
    let mut text = String::from_utf8_lossy(&output.stdout).into_owned();
    if !output.status.success() {
        text += &format!("{}\n", output.status);
    }
    comparable(text)
}

/// The first line that differs, of both texts.
fn first_difference(left: &str, right: &str) -> String {
    let (mut left, mut right) = (left.lines(), right.lines());
    for line in 1.. {
        let pair = (left.next(), right.next());
        if pair.0 != pair.1 || pair.0.is_none() {
            let show = |line: Option<&str>| line.unwrap_or("(end)").to_owned();
            return format!(
                "line {line}\noracle: {}\nother:  {}\n",
                show(pair.0),
                show(pair.1)
            );
        }
    }
    unreachable!("texts end")
}

/// The smallest history found that shows the difference, with both answers.
fn report(machine: Machine, name: &str, input: &[u8], command: &[String]) -> String {
    let differs = |bytes: &[u8]| oracle(machine, bytes) != other(command, bytes);
    let small = match Input::read(input) {
        Some(whole) => shrink::smallest(&whole, |less| differs(&less.write())).write(),
        None => input.to_vec(),
    };
    let (left, right) = (oracle(machine, &small), other(command, &small));
    format!(
        "history {name} differs; smallest input:\n{}\n{}\
         oracle prints:\n{left}other prints:\n{right}",
        text::hex(&small),
        first_difference(&left, &right)
    )
}

/// What is compared: so many histories of each mix from a seed on, or of one mix.
pub struct Compared<'a> {
    pub machine: Machine,
    pub seeds: Range<u64>,
    pub length: usize,
    pub only: Option<&'a str>,
    /// Whether lines of kind 12 are compared too (02, S-2).
    pub evicted: bool,
}

/// `Err` holds the first difference. Room and counters are not part of the input, so that histories that have their own are left out.
pub fn run(what: &Compared, command: &[String]) -> Result<String, String> {
    record::tell_evicted(what.evicted);
    let machine = what.machine;
    let (mut events, mut compared) = (0, 0);
    let mixes = machine.mixes();
    let chosen: Vec<_> = mixes
        .iter()
        .filter(|mix| what.only.is_none_or(|name| name == **mix))
        .collect();
    for seed in what.seeds.clone() {
        for mix in &chosen {
            let history = machine.history(mix, seed, what.length).expect("a mix");
            if history.start != Start::default() {
                continue;
            }
            let expected = oracle(machine, &history.input);
            if expected != other(command, &history.input) {
                let name = machine.name(mix, seed, what.length);
                return Err(report(machine, &name, &history.input, command));
            }
            events += expected
                .lines()
                .filter(|line| line.starts_with('='))
                .count();
            compared += 1;
        }
    }
    if compared == 0 {
        return Err("no history was compared: --histories is 0, or the mix does not fit the run program's input\n".into());
    }
    Ok(format!(
        "{compared} histories, {events} events, 0 differences\n"
    ))
}
