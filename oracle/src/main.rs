//! The oracle's program; README.md says what each mode does.

use std::{
    collections::HashMap,
    env,
    fmt::Display,
    fs,
    io::{self, Read, Write},
    ops::Range,
    process::ExitCode,
    str::FromStr,
};

use oracle::{
    check, compare, gossip, limits,
    machine::Machine,
    passing,
    stored::{self, Stored},
    stories, tallies,
    text::{Form, Start},
    timers, timing, words, SUBSTITUTIONS,
};

const USAGE: &str = "\
oracle station|trace [--machine NAME] [--room BYTES] [--counters REQUEST,JOIN,ALONE,SHORT] [--grafted skipped]   input on stdin
oracle generate [--machine NAME] [--seed N] [--histories N] [--events N] [--mix NAME]        stored form
oracle words [--machine NAME] [--seed N] [--histories N] [--events N] [--mix NAME]           states as words
oracle make                          names (MIX SEED EVENTS) on stdin, stored form
oracle replay FILE...                stored histories that do not hold now; - is stdin
oracle passing FILE...               how often picks and shuffles pass over draws, by their size
oracle check [--machine NAME] [--seed N] [--events N] [--length N] [--grafted skipped]
oracle time [--seed N] [--histories N] [--events N] [--rounds N]
oracle compare [--machine NAME] [--seed N] [--histories N] [--events N] [--mix NAME] [--evicted true] -- COMMAND
oracle timer-calls [--seed N] [--calls N]    calls of a timer queue, six 64-bit words each
oracle timers                        the Rust's answers to such calls on stdin
oracle stories [lengths]             where all histories of at most four of 02's sixteen events end
oracle tally-cases                   outputs with the codes of their events, as test_tally reads them
oracle tally-counts                  the messages sent up to each of them, as it must print them
oracle substitutions
A machine is hyparview, which is taken where none is named, pins (the same with pins among the events), plumtree or topic.
";

/// Why the program ends with status 1.
enum Failure {
    /// Its words are not understood, or what they name is not there: one line on standard error.
    Misuse(String),
    /// What it found: on standard output.
    Report(String),
}

type Answer = Result<String, Failure>;

fn misuse(text: impl Display) -> Failure {
    Failure::Misuse(format!("oracle: {text}\n"))
}

fn main() -> ExitCode {
    refusal::quiet_counters();
    let arguments: Vec<_> = env::args().skip(1).collect();
    let (text, failed) = match answer(&arguments) {
        Ok(text) => (text, false),
        Err(Failure::Report(text)) => (text, true),
        Err(Failure::Misuse(line)) => {
            eprint!("{line}");
            return ExitCode::FAILURE;
        }
    };
    io::stdout()
        .write_all(text.as_bytes())
        .expect("standard output is open");
    ExitCode::from(u8::from(failed))
}

fn answer(arguments: &[String]) -> Answer {
    let (mode, rest) = arguments
        .split_first()
        .ok_or_else(|| misuse("words are missing; --help tells the usage"))?;
    match mode.as_str() {
        "substitutions" => Ok(SUBSTITUTIONS.into()),
        "station" => run(rest, Form::Station),
        "trace" => run(rest, Form::Trace),
        "generate" => generate(rest, &HISTORIES, Stored::write),
        "words" => all_words(rest),
        "make" => make(),
        "replay" => stored::replay(&texts(mode, rest)?).map_err(Failure::Report),
        "passing" => passing::run(&texts(mode, rest)?).map_err(Failure::Report),
        "check" => checked(rest),
        "time" => {
            let options = Options::read(rest, &["seed", "histories", "events", "rounds"])?;
            let seeds = options.seeds(5)?;
            Ok(timing::run(
                seeds.start,
                seeds.end - seeds.start,
                options.count("events", 200)?,
                options.count("rounds", 20)?,
            ))
        }
        "timer-calls" => {
            let options = Options::read(rest, &["seed", "calls"])?;
            let calls = timers::generate(options.get("seed", 1)?, options.count("calls", 300_000)?);
            bytes(mode, &timers::to_bytes(&calls))
        }
        "timers" => {
            let calls = timers::from_bytes(&read_input());
            if calls.is_empty() {
                return Err(misuse("no call of a timer queue on standard input"));
            }
            Ok(timers::answers(&calls))
        }
        "stories" => all_stories(rest),
        "tally-cases" => bytes(mode, &tallies::to_bytes(&tallies::cases())),
        "tally-counts" => Ok(tallies::to_text(&tallies::cases())),
        "compare" => compare(rest),
        "-h" | "--help" => Ok(USAGE.into()),
        _ => Err(misuse(format!("no mode is {mode}; --help tells them"))),
    }
}

/// The options that stand as `--name value`.
struct Options(HashMap<String, String>);

impl Options {
    fn read(arguments: &[String], names: &[&str]) -> Result<Self, Failure> {
        let mut options = HashMap::new();
        for pair in arguments.chunks(2) {
            let name = pair[0].strip_prefix("--").unwrap_or_default();
            let ([_, value], true) = (pair, names.contains(&name)) else {
                let known = names.join(", --");
                return Err(misuse(format!(
                    "{}: options are --{known}, each with a value",
                    pair[0]
                )));
            };
            options.insert(name.to_owned(), value.clone());
        }
        Ok(Self(options))
    }

    fn get<T: FromStr>(&self, name: &str, usual: T) -> Result<T, Failure> {
        let Some(value) = self.0.get(name) else {
            return Ok(usual);
        };
        value
            .parse()
            .map_err(|_| misuse(format!("--{name} takes a whole number, not {value}")))
    }

    /// A number of things, at least one.
    fn count<T: FromStr + PartialEq + Default>(&self, name: &str, usual: T) -> Result<T, Failure> {
        let count = self.get(name, usual)?;
        if count == T::default() {
            return Err(misuse(format!("--{name} is 0: there is nothing to do")));
        }
        Ok(count)
    }

    /// The seeds from the one asked for on, as many as there are to be histories of each mix.
    fn seeds(&self, usual: u64) -> Result<Range<u64>, Failure> {
        let first: u64 = self.get("seed", 1)?;
        let end = first.checked_add(self.count("histories", usual)?);
        end.map(|end| first..end)
            .ok_or_else(|| misuse("--seed and --histories together are past 2^64"))
    }

    fn machine(&self) -> Result<Machine, Failure> {
        let Some(name) = self.0.get("machine") else {
            return Ok(Machine::default());
        };
        Machine::named(name)
            .ok_or_else(|| misuse("--machine takes hyparview, pins, plumtree or topic"))
    }

    /// Whether plumtree.rs runs as it is, and leaves out the peers grafted for an order.
    fn skips(&self) -> Result<bool, Failure> {
        match self.0.get("grafted").map(String::as_str) {
            None => Ok(false),
            Some("skipped") if !self.machine()?.is_membership() => Ok(true),
            Some(_) => Err(misuse(
                "--grafted takes skipped, for the machines plumtree and topic",
            )),
        }
    }

    /// The mix asked for; one that is none is an error, and not a run of no history.
    fn mix(&self) -> Result<Option<&str>, Failure> {
        let Some(name) = self.0.get("mix") else {
            return Ok(None);
        };
        let mixes = self.machine()?.mixes();
        if !mixes.contains(&name.as_str()) {
            return Err(misuse(format!(
                "no mix is {name}; there are {}",
                mixes.join(" ")
            )));
        }
        Ok(Some(name))
    }
}

fn read_input() -> Vec<u8> {
    let mut input = Vec::new();
    io::stdin()
        .read_to_end(&mut input)
        .expect("standard input is open");
    input
}

/// An answer that is no text.
fn bytes(mode: &str, bytes: &[u8]) -> Answer {
    io::stdout()
        .write_all(bytes)
        .map_err(|error| misuse(format!("{mode}: {error}")))?;
    Ok(String::new())
}

fn run(arguments: &[String], form: Form) -> Answer {
    let options = Options::read(arguments, &["machine", "room", "counters", "grafted"])?;
    let machine = options.machine()?;
    limits::skip_grafted(options.skips()?);
    let mut start = Start::default();
    start.room = options.get("room", start.room)?;
    if let Some(counters) = options.0.get("counters") {
        let four = "--counters takes four numbers, separated by commas";
        start.counters = Some(stored::read_counters(counters).ok_or_else(|| misuse(four))?);
    }
    if !machine.is_membership() && start.counters.is_some() {
        return Err(misuse("--counters are those of hyparview alone"));
    }
    Ok(machine.run(&read_input(), start, form))
}

/// Demand 3 on the membership half, or S-7's claims on the broadcast half, alone or joined.
fn checked(arguments: &[String]) -> Answer {
    let names = ["machine", "seed", "events", "length", "grafted"];
    let options = Options::read(arguments, &names)?;
    let (seed, events) = (options.get("seed", 1)?, options.count("events", 1_000_000)?);
    let length = options.count("length", 200)?;
    let skips = options.skips()?;
    let text = match options.machine()? {
        machine if machine.is_membership() => check::run(machine, seed, events, length),
        machine => gossip::check::run(machine, seed, events, length, skips),
    };
    if text.ends_with("\n0 claims fail\n") {
        Ok(text)
    } else {
        Err(Failure::Report(text))
    }
}

fn all_stories(arguments: &[String]) -> Answer {
    let lengths = stories::by_length().map_err(Failure::Report)?;
    match arguments {
        [] => Ok(stories::all(&lengths)),
        [mode] if mode == "lengths" => Ok(stories::in_turn(&lengths)),
        _ => Err(misuse("stories has one word at the most, lengths")),
    }
}

/// The words of a controller's state, which has the membership half alone.
fn all_words(arguments: &[String]) -> Answer {
    if !Options::read(arguments, &HISTORIES)?
        .machine()?
        .is_membership()
    {
        return Err(misuse("words are those of hyparview and pins alone"));
    }
    generate(arguments, &HISTORIES, |stored| {
        let told = words::run(&stored.input, stored.start);
        format!("history {}\n{told}", stored.name)
    })
}

/// The options of what makes histories.
const HISTORIES: [&str; 5] = ["machine", "seed", "histories", "events", "mix"];

/// The options of `compare`.
const COMPARED: [&str; 6] = ["machine", "seed", "histories", "events", "mix", "evicted"];

/// The histories that the options name, each written by `write`.
fn generate(arguments: &[String], names: &[&str], write: impl Fn(&Stored) -> String) -> Answer {
    let options = Options::read(arguments, names)?;
    let events: usize = options.get("events", 20)?;
    let (machine, only) = (options.machine()?, options.mix()?);
    let mut text = String::new();
    for seed in options.seeds(1)? {
        let mixes = machine.mixes().into_iter();
        for mix in mixes.filter(|mix| only.is_none_or(|name| name == *mix)) {
            text += &write(&made(&machine.name(mix, seed, events))?);
        }
    }
    Ok(text)
}

fn made(name: &str) -> Result<Stored, Failure> {
    Stored::generate(name).ok_or_else(|| misuse(format!("no history: {name}")))
}

fn make() -> Answer {
    let names = String::from_utf8_lossy(&read_input()).into_owned();
    names
        .lines()
        .filter(|line| !line.starts_with('#'))
        .map(|name| Ok(made(name)?.write()))
        .collect()
}

/// The texts of files of stored histories; - is standard input.
fn texts(mode: &str, files: &[String]) -> Result<Vec<String>, Failure> {
    if files.is_empty() {
        return Err(misuse(format!(
            "{mode}: no file of stored histories is named"
        )));
    }
    let text = |file: &String| match file.as_str() {
        "-" => Ok(String::from_utf8_lossy(&read_input()).into_owned()),
        _ => fs::read_to_string(file).map_err(|error| misuse(format!("{file}: {error}"))),
    };
    files.iter().map(text).collect()
}

fn compare(arguments: &[String]) -> Answer {
    let split = arguments.iter().position(|word| word == "--");
    let command = split.map_or(&[][..], |split| &arguments[split + 1..]);
    let (Some(split), false) = (split, command.is_empty()) else {
        return Err(misuse("compare: no command after --"));
    };
    let options = Options::read(&arguments[..split], &COMPARED)?;
    let what = compare::Compared {
        machine: options.machine()?,
        seeds: options.seeds(10)?,
        length: options.get("events", 200)?,
        only: options.mix()?,
        evicted: options.get("evicted", false)?,
    };
    compare::run(&what, command).map_err(Failure::Report)
}
