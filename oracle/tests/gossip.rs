//! The broadcast half as S-7 has it: limits, times, the finding on new orders, and the claims.

use oracle::{
    gossip::{
        cases::{self, CASES},
        check, claims,
        record::{Id, Message, Said, Scope},
        station::Station,
        text::gossip_line,
    },
    input::Input,
    limits,
    machine::Machine,
    plumtree::access::Parts,
    record::{self, kind, message, Node, Record},
    rules::failing,
    station::{Answer, DEFAULTS, ROOM},
    stored::Stored,
};

fn case(name: &str) -> (Vec<Answer>, Station) {
    let history = cases::named(name).expect("a case").history();
    let input = Input::read(&history.input).expect("an input");
    let mut station = Station::new(Machine::Plumtree, &input).expect("settings in range");
    let events = input.events.iter();
    let answers = events.map(|event| station.handle(event, history.start.room));
    (answers.collect(), station)
}

/// The codes of the last events of a case; those before are accepted.
fn ends_with(name: &str, codes: &[u8]) {
    let (answers, _) = case(name);
    let (before, last) = answers.split_at(answers.len() - codes.len());
    assert!(before.iter().all(|answer| answer.code == 0), "{name}");
    let met: Vec<_> = last.iter().map(|answer| answer.code).collect();
    assert_eq!(met, codes, "{name}");
}

#[test]
fn limits_are_met_when_a_step_needs_a_place() {
    ends_with("ninth_peer", &[15, 0, 0, 15, 0, 0]);
    ends_with("received_full", &[15, 0, 15, 0, 15, 0, 0]);
    ends_with("announced_full", &[0, 15]);
    ends_with("timers_full", &[15, 0]);
    ends_with("queue_full", &[15, 0, 0]);
    ends_with("grafted_full", &[15, 0, 0]);
    ends_with("long_body", &[15, 15, 3, 0, 0]);
    ends_with("last_round", &[10, 0, 0]);
    ends_with("dispatch_without_room", &[9, 0]);
    ends_with("answer_without_room", &[9, 0]);
}

/// Refused, the announcement stays, and a later timer asks for it.
#[test]
fn a_full_list_of_grafts_leaves_the_announcement() {
    let (_, station) = case("grafted_full");
    assert_eq!(station.gossip().announced, []);
    assert_eq!(station.gossip().grafted.len(), 1);
}

fn sent(answer: &Answer) -> Vec<Said> {
    let records = record::cut(&answer.out).into_iter();
    records
        .map(|record| Said::read(record).expect("in form"))
        .collect()
}

/// The finding: plumtree.rs as it is does not send a new order to a peer that it grafted for it, eager though it was.
#[test]
fn the_order_sentence_is_false_of_the_file_as_it_is() {
    let order = Said::Message(
        2,
        Message::Gossip(Id::of(b"a"), Scope::Swarm(1), b"a".to_vec()),
    );
    let told = Said::Received(3, Scope::Swarm(0), b"a".to_vec());
    let last = |skips| {
        limits::skip_grafted(skips);
        let (answers, _) = case("order_to_grafted");
        limits::skip_grafted(false);
        sent(answers.last().expect("four events"))
    };
    assert_eq!(last(false), [order, Said::DispatchLazyPush, told.clone()]);
    assert_eq!(last(true), [Said::DispatchLazyPush, told]);
}

/// The check finds that counterexample by itself, and shrinks it to four events; nothing else fails.
#[test]
fn the_check_finds_it() {
    let text = check::run(Machine::Plumtree, 1, 4000, 60, true);
    let found = format!("{}; room", claims::ORDERS);
    assert!(text.contains(&found), "{text}");
    assert!(text.contains("smallest of 4 events"), "{text}");
    assert!(text.ends_with("\n1 claims fail\n"), "{text}");
}

#[test]
fn the_claims_hold_with_the_changed_line() {
    for machine in [Machine::Plumtree, Machine::Topic] {
        let text = check::run(machine, 1, 4000, 60, false);
        assert!(text.ends_with("\n0 claims fail\n"), "{text}");
    }
}

/// Of equal rounds the first announcer is grafted; the sender is pruned.
#[test]
fn the_first_smallest_round_is_grafted() {
    let (answers, _) = case("first_smallest_round");
    let sent = sent(answers.last().expect("events"));
    assert!(sent.contains(&Said::Message(2, Message::Graft(None, 1))));
    assert!(sent.contains(&Said::Message(4, Message::Prune)));
}

#[test]
fn a_faster_peer_is_kept() {
    let (answers, station) = case("faster_peer_kept");
    let after: Vec<_> = answers[5..].iter().map(sent).collect();
    let prune = |peer| vec![Said::Message(peer, Message::Prune)];
    assert_eq!(after, [prune(3), vec![], prune(3), prune(9)]);
    assert_eq!(station.gossip().grafted[0].kept, Some(2));
}

/// A message to neighbours is stored nowhere and delivered each time, until its body came as an order.
#[test]
fn messages_to_neighbors_are_delivered_each_time() {
    let (answers, _) = case("neighbors_each_time");
    let told = |answer: &Answer| {
        sent(answer)
            .iter()
            .any(|said| matches!(said, Said::Received(..)))
    };
    let told: Vec<_> = answers.iter().map(told).collect();
    assert_eq!(told, [false, true, true, true, false]);
}

/// Entries go at their time and not before; a renewed one counts from then; nothing passes the largest time.
#[test]
fn what_is_past_retention_goes() {
    let lengths = |name: &str| {
        let history = cases::named(name).expect("a case").history();
        let input = Input::read(&history.input).expect("an input");
        let mut station = Station::new(Machine::Plumtree, &input).expect("in range");
        let mut after = |event: &Vec<u8>| {
            station.handle(event, ROOM);
            let parts = station.gossip();
            (parts.cache.len(), parts.received.len())
        };
        input.events.iter().map(&mut after).collect::<Vec<_>>()
    };
    assert_eq!(
        lengths("renewed"),
        [(1, 1), (1, 1), (1, 1), (0, 1), (0, 1), (0, 0)]
    );
    assert_eq!(
        lengths("largest_time"),
        [(1, 1), (1, 1), (2, 2), (1, 2), (1, 1)]
    );
}

/// Joined: a Join makes a neighbour, which is an eager peer; Quit leaves none, and ids stay.
#[test]
fn notices_join_the_halves() {
    let input = Input {
        me: 1,
        settings: DEFAULTS,
        events: vec![
            Record::message(message::JOIN, 7, vec![Node::default()]).write(),
            cases::broadcast(5, b"a"),
            Record::<Vec<Node>>::of(kind::QUIT, 0).write(),
        ],
        draws: vec![0; 64],
    };
    let mut station = Station::new(Machine::Topic, &input).expect("settings in range");
    let eager: Vec<_> = input
        .events
        .iter()
        .map(|event| {
            assert_eq!(station.handle(event, ROOM).code, 0);
            station.gossip().eager
        })
        .collect();
    assert_eq!(eager, [vec![7], vec![7], vec![]]);
    assert_eq!(station.gossip().received, [(Id::of(b"a"), 5)]);
}

#[test]
fn the_state_line() {
    let (_, station) = case("order_to_grafted");
    let id = Id::of(b"a");
    let expected = format!(
        "gossip started=1 dispatch=1 eager=[2] lazy=[] received=[{id}:0] cache=[{id}:0:1:61] \
         announced=[] queued=[] timers=[] grafted=[{id}:0:2/0:3/0:-]\n"
    );
    assert_eq!(gossip_line(&station.gossip()), expected);
}

/// A change of a state, and the rule that it breaks.
type Damage = (fn(&mut Parts), &'static str);

const DAMAGES: [Damage; 10] = [
    (|parts| parts.lazy.push(2), "no peer both eager and lazy"),
    (
        |parts| parts.queued.push((9, Id([0; 32]), 0)),
        "queued announcements are for peers",
    ),
    (
        |parts| parts.unannounced = 1,
        "a missing message has an announcer",
    ),
    (|parts| parts.timers = vec![Id([0; 32]); 65], "64 entries"),
    (|parts| parts.lazy = (10..18).collect(), "eight peers"),
    (
        |parts| parts.cache[0].body = vec![0; 257],
        "bodies of 256 bytes",
    ),
    (
        |parts| parts.announced.push((Id([0; 32]), 9, 0)),
        "announcers are peers",
    ),
    (
        |parts| parts.grafted[0].peers.push((9, 0)),
        "grafted peers are peers",
    ),
    (
        |parts| parts.received[0].1 += 1,
        "cached ids are received, at one time",
    ),
    (
        |parts| {
            parts.queued.push((2, Id([0; 32]), 0));
            parts.dispatch = false;
        },
        "a queue only while its timer runs",
    ),
];

#[test]
fn each_damaged_state_breaks_its_rule() {
    let (_, station) = case("faster_peer_kept");
    let whole = station.gossip();
    assert_eq!(failing(&claims::rules(&whole)), [""; 0]);
    for (damage, rule) in DAMAGES {
        let mut parts = whole.clone();
        damage(&mut parts);
        assert!(failing(&claims::rules(&parts)).contains(&rule), "{rule}");
    }
}

/// Written histories are made from their names, with no seed and no length.
#[test]
fn cases_have_names() {
    for case in CASES {
        let stored = Stored::generate(&format!("plumtree:{} 0 0", case.name)).expect("a case");
        assert!(stored.holds(), "{}", case.name);
    }
    assert_eq!(Stored::generate("plumtree:renewed 1 0"), None);
    assert_eq!(Stored::generate("topic:renewed 0 0"), None);
    assert_eq!(Stored::generate("state:even 1 6"), None);
}
