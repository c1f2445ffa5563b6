//! Copies the Rust from the papers into OUT_DIR, with the substitutions listed below.
//!
//! Fails when a substitution meets another number of lines than expected, and writes the list of
//! what was done into the program (`oracle substitutions`).

use std::{
    env, fs,
    path::{Path, PathBuf},
    process,
};

/// Names the folder that holds src/proto/hyparview.rs: the papers or a checkout of iroh-gossip.
const FOLDER_VARIABLE: &str = "IROH_GOSSIP_DIR";
/// The papers, seen from this crate's folder.
const DEFAULT_FOLDER: &str = "../../shared/docs/src";
/// A change of one line that a comparison must notice: file, fragment, replacement, place, lines.
const MUTANT_VARIABLE: &str = "ORACLE_MUTANT";

/// 02, S-5, at the end of `handle`: the data of a peer in neither view and without an open request goes.
const FORGET: &str = "self.peer_data.retain(|peer, _| self.active_view.contains(peer) \
    || self.passive_view.contains(peer) || self.pending_neighbor_requests.contains_key(peer));";

/// 02, S-14, at the end of `handle`: a pin ends with its peer's place in the active view.
const UNPIN: &str = "self.pins.retain(|peer| self.active_view.contains(peer));";

/// 02, S-14: the function that demotes a random neighbour, and what stands in front of its steps.
const FREE_SLOT: &str = "fn free_random_slot_in_active_view(&mut self, io: &mut impl IO<PI>) {";
const UNLESS_PINNED: &str = "if !self.pins.is_empty() { return self.free_unpinned_slot(io); }";

/// Changes `from` to `to` in the lines of `file` that hold it: `lines` of them, or only the
/// `place`th.
struct Substitution {
    file: String,
    from: String,
    to: String,
    place: Option<usize>,
    lines: usize,
}

/// The Rust's own check of its state runs under this feature of the crate.
const CHECKED: &str = "#[cfg(feature = \"invariants\")]";

/// A change of every line that holds `from`, so many of them.
fn all(file: &str, from: &str, to: &str, lines: usize) -> Substitution {
    Substitution {
        file: file.into(),
        from: from.into(),
        to: to.into(),
        place: None,
        lines,
    }
}

/// A change of the `place`th of the lines that hold `from`.
fn one(file: &str, from: &str, to: &str, place: usize, lines: usize) -> Substitution {
    Substitution {
        place: Some(place),
        ..all(file, from, to, lines)
    }
}

/// Nothing else of the Rust is changed. A mutant comes first, so that it counts the lines of the
/// Rust itself.
fn substitutions() -> Vec<Substitution> {
    let mutant = env::var(MUTANT_VARIABLE).map(|mutant| read_mutant(&mutant));
    let own = [membership(), pins(), broadcast(), joined()];
    let own = own.into_iter().flatten();
    mutant.into_iter().chain(own).collect()
}

/// The collections get limits (codes 6, 7, 8), `handle` gets 02's line (S-5), and an eviction is
/// told (S-2), which a run may leave out.
fn membership() -> Vec<Substitution> {
    let file = "hyparview.rs";
    vec![
        all(
            file,
            "use std::collections::{hash_map,",
            "use crate::collections::{hash_map,",
            1,
        ),
        all(
            file,
            "self.forget_peer(&evicted);",
            "self.forget_peer(&evicted); io.emit(Event::Evicted(evicted));",
            1,
        ),
        one(
            file,
            "#[cfg(test)]",
            &format!("{FORGET} {UNPIN} {CHECKED}"),
            2,
            3,
        ),
        one(file, "#[cfg(test)]", CHECKED, 2, 2),
    ]
}

/// 02, S-14: the state holds pins, and where there are some, whom to demote is picked by our side (src/pins.rs). While
/// nobody is pinned the steps are the Rust's.
fn pins() -> Vec<Substitution> {
    let file = "hyparview.rs";
    vec![
        all(
            file,
            "refill: RefillLimit,",
            "refill: RefillLimit, pins: std::collections::BTreeSet<PI>,",
            1,
        ),
        all(
            file,
            "refused: Default::default(),",
            "refused: Default::default(), pins: Default::default(),",
            1,
        ),
        all(file, FREE_SLOT, &format!("{FREE_SLOT} {UNLESS_PINNED}"), 1),
    ]
}

/// 02, S-7: the lists get limits (code 15), and an order goes to the peers grafted for it too,
/// unless a run asks for the file as it is.
fn broadcast() -> Vec<Substitution> {
    let file = "plumtree.rs";
    let changed = [
        all(
            file,
            "&sender, &grafted, io",
            "&sender, limits::skipped(&grafted), io",
            1,
        ),
        all(file, "#[cfg(test)]", CHECKED, 2),
    ];
    [imports(file), limits(file)]
        .into_iter()
        .flatten()
        .chain(changed)
        .collect()
}

/// The set and the caches of plumtree.rs that have limits.
fn imports(file: &str) -> Vec<Substitution> {
    vec![
        all(
            file,
            "HashMap, HashSet, VecDeque},",
            "HashMap, VecDeque},",
            1,
        ),
        all(
            file,
            "util::{idbytes_impls, TimeBoundCache},",
            "util::idbytes_impls,",
            1,
        ),
        all(
            file,
            "use bytes::Bytes;",
            "use bytes::Bytes; use crate::limits::{self, HashSet, TimeBoundCache};",
            1,
        ),
    ]
}

/// Announcements in all, and peers in both sets together, are counted where one is added.
fn limits(file: &str) -> Vec<Substitution> {
    let before = |from: &str, test: &str| all(file, from, &format!("{test} {from}"), 1);
    vec![
        before(
            "let announcers = self.missing_messages.entry(ihave.id)",
            "let announced = self.missing_messages.values().map(VecDeque::len).sum();",
        ),
        before(
            "announcers.push_back(",
            "limits::require(announced, limits::LIST);",
        ),
        before(
            "self.lazy_push_queue.entry(*peer).or_default().push(",
            "limits::require(self.lazy_push_queue.values().map(Vec::len).sum(), limits::LIST);",
        ),
        before(
            "self.eager_push_peers.insert(peer);",
            "limits::require_peer(&self.eager_push_peers, &self.lazy_push_peers, &peer);",
        ),
    ]
}

/// topic.rs names the event of an eviction (02, S-2).
fn joined() -> Vec<Substitution> {
    let file = "topic.rs";
    vec![
        all(
            file,
            "NeighborDown(PI),",
            "NeighborDown(PI), Evicted(PI),",
            1,
        ),
        one(file, "#[cfg(test)]", CHECKED, 3, 3),
        one(file, "#[cfg(test)]", CHECKED, 2, 2),
    ]
}

fn read_mutant(text: &str) -> Substitution {
    let parts: Vec<_> = text.split('\t').collect();
    let [file, from, to, place, lines] = parts[..] else {
        panic!("{MUTANT_VARIABLE}: five parts, separated by tabs")
    };
    Substitution {
        file: file.into(),
        from: from.into(),
        to: to.into(),
        place: Some(place.parse().expect("a place")),
        lines: lines.parse().expect("a number of lines"),
    }
}

fn substitute(text: &str, change: &Substitution) -> String {
    let met = text.lines().filter(|l| l.contains(&change.from)).count();
    assert_eq!(
        met, change.lines,
        "{}: lines with {:?}",
        change.file, change.from
    );
    let mut seen = 0;
    let lines = text.lines().map(|line| {
        let hit = line.contains(&change.from);
        seen += usize::from(hit);
        match change.place {
            Some(place) if place != seen => line.to_owned(),
            _ if hit => line.replacen(&change.from, &change.to, 1),
            _ => line.to_owned(),
        }
    });
    lines.map(|line| line + "\n").collect()
}

/// The first line of proto.rs that is taken: its two constants and `PeerInfo` stand from there on.
const TAKEN_FROM: &str = "pub const DEFAULT_MAX_MESSAGE_SIZE: usize";

/// The end of proto.rs.
fn end_of(proto: &str) -> String {
    let lines: Vec<_> = proto.lines().collect();
    let found: Vec<_> = (0..lines.len())
        .filter(|i| lines[*i].starts_with(TAKEN_FROM))
        .collect();
    assert_eq!(found.len(), 1, "proto.rs: lines with {TAKEN_FROM:?}");
    lines[found[0]..].join("\n") + "\n"
}

/// FNV-1a, to tell in a report which text was built.
fn fingerprint(text: &str) -> u64 {
    let step = |hash: u64, byte| (hash ^ u64::from(byte)).wrapping_mul(0x100_0000_01b3);
    text.bytes().fold(0xcbf2_9ce4_8422_2325, step)
}

struct Build {
    folder: PathBuf,
    out: PathBuf,
    report: String,
}

impl Build {
    fn say(&mut self, line: String) {
        self.report += &line;
        self.report += "\n";
    }

    fn read(&mut self, path: &str) -> String {
        let path = self.folder.join(path);
        println!("cargo:rerun-if-changed={}", path.display());
        let text = fs::read_to_string(&path).unwrap_or_else(|error| {
            eprintln!(
                "{}: {error}; {FOLDER_VARIABLE} must name a checkout of iroh-gossip",
                path.display()
            );
            process::exit(1)
        });
        let name = path.file_name().unwrap().to_string_lossy().into_owned();
        self.say(format!(
            "{name}: {} lines, fingerprint {:016x}",
            text.lines().count(),
            fingerprint(&text)
        ));
        text
    }

    fn copy(&mut self, name: &str, changes: &[Substitution], addition: &str) {
        let mut text = self.read(&format!("src/proto/{name}"));
        for change in changes.iter().filter(|change| change.file == name) {
            text = substitute(&text, change);
            self.say(format!(
                "{name}: {:?} -> {:?} in {} of {} line(s)",
                change.from,
                change.to,
                if change.place.is_some() {
                    1
                } else {
                    change.lines
                },
                change.lines
            ));
        }
        self.write(name, &(text + addition));
    }

    fn write(&self, name: &str, text: &str) {
        fs::write(self.out.join(name), text).expect("OUT_DIR is writable");
    }
}

fn main() {
    let here = PathBuf::from(env::var("CARGO_MANIFEST_DIR").unwrap());
    let folder = env::var(FOLDER_VARIABLE).map_or(here.join(DEFAULT_FOLDER), PathBuf::from);
    let out = PathBuf::from(env::var("OUT_DIR").unwrap());
    println!("cargo:rerun-if-env-changed={FOLDER_VARIABLE}");
    println!("cargo:rerun-if-env-changed={MUTANT_VARIABLE}");
    println!("cargo:rerun-if-changed=build.rs");
    let mut build = Build {
        folder,
        out,
        report: String::new(),
    };
    let changes = substitutions();
    build.copy("peer.rs", &changes, "");
    build.copy("topic.rs", &changes, "");
    for (name, own) in CHILDREN {
        build.copy(name, &changes, &child(&here, own));
        build.say(format!(
            "{name}: one line added at the end, the module {own}"
        ));
    }
    let proto = build.read("src/proto.rs");
    build.write("proto.rs", &(MODULES.to_owned() + &end_of(&proto)));
    build.say(format!("proto.rs: only from {TAKEN_FROM:?} to the end"));
    for line in build.report.lines() {
        println!("cargo:warning={line}");
    }
    build.write("substitutions.txt", &build.report);
}

/// The Rust's files, each with the module of ours that is put at its end.
const CHILDREN: [(&str, &str); 3] = [
    ("util.rs", "util_access.rs"),
    ("hyparview.rs", "access.rs"),
    ("plumtree.rs", "plumtree_access.rs"),
];

/// The modules of proto.rs that are built.
const MODULES: &str =
    "pub mod hyparview;\nmod peer;\npub mod plumtree;\npub mod topic;\npub mod util;\n";

/// A child module sees the private fields, which a comparison of whole states needs.
fn child(here: &Path, own: &str) -> String {
    let path = here.join("src").join(own);
    println!("cargo:rerun-if-changed={}", path.display());
    format!("\n#[path = {path:?}]\npub mod access;\n")
}
