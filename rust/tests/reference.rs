//! The states and calls in docs/REFERENCE.md: the library's states are the same, byte for byte, it judges
//! broken ones as they stand there, and answers the calls as it is told.

use std::collections::BTreeSet;

use cipangohu::calls::{self, Answer};
use cipangohu::{Hash, Party, HASH, MAX_MESSAGE_PACKET, MAX_OUTBOX, STATE};
use foreign::examples::{bytes, examples, number, reference, written_over, Example, Field};

/// Where the stage stands in a state.
const AT_STAGE: usize = 4;

/// The kinds of examples that are calls and answers.
const OF_CALLS: [&str; 4] = ["box", "state", "opening", "calls"];

/// The calls that stand there.
const CALLS: [&str; 15] = [
    "agree_bit",
    "agree_root",
    "faulty",
    "hash",
    "open",
    "open_by_sender",
    "own",
    "read_message",
    "rebuild_with_root",
    "result_length",
    "session",
    "shares",
    "stage",
    "take_relays",
    "take_shares",
];

fn of_kind(kind: &str) -> Vec<Example> {
    let mut found = examples(&reference()).expect("examples");
    found.retain(|example| example.kind == kind);
    assert!(!found.is_empty(), "no example of the kind {kind}");
    found
}

/// The sitting number of a call, 0 where none is told.
fn session(call: &Field) -> u32 {
    let number = call.number("sitting").unwrap_or(0);
    u32::try_from(number).expect("a sitting number")
}

fn opened(call: &Field) -> Party {
    let [n, t, own] = ["n", "t", "own"].map(|name| call.number(name).expect("a number"));
    let book = call.bytes("book").expect("a book");
    let opened = Party::open(session(call), n, t, own, &book);
    opened.expect("opened").0
}

/// Does a step of an example, all of which are accepted.
fn step(party: &mut Party, call: &Field) {
    let bytes = |name| call.bytes(name).expect("an argument in bytes");
    let out = &mut [0; MAX_OUTBOX];
    let accepted = match call.name.as_str() {
        "agree_root" => {
            let root: Hash = bytes("root").try_into().expect("a root");
            party.agree_root(&root).map(drop)
        }
        "agree_bit" => party
            .agree_bit(call.number("bit") == Some(1), out)
            .map(drop),
        "take_shares" => party.take_shares(&bytes("inbox"), out).map(drop),
        "take_relays" => party.take_relays(&bytes("inbox")).map(drop),
        other => panic!("{other}: no step"),
    };
    accepted.expect("accepted");
}

/// Every stage is met, and the states there have these bytes.
#[test]
fn states_have_the_bytes_that_are_told() {
    let mut stages = BTreeSet::new();
    for example in of_kind("state") {
        let (open, steps) = example.fields.split_first().expect("an opening");
        let mut party = opened(open);
        for field in steps {
            match field.name.as_str() {
                "state" => {
                    let told = written_over(&[0; STATE], &field.value).expect("a state");
                    assert_eq!(party.state()[..], told, "line {}", example.line);
                    stages.insert(told[AT_STAGE]);
                }
                "written over" => {
                    let bytes = written_over(party.state(), &field.value).expect("bytes to write");
                    party = Party::from_state(&bytes).expect("a state");
                }
                "root" | "bit" | "outbox" | "relay" | "result" => (),
                _ => step(&mut party, field),
            }
        }
    }
    assert!(stages.into_iter().eq(0..=5));
}

/// What step 2 says of states that were written over.
#[test]
fn broken_states_are_judged_as_it_is_told() {
    for example in of_kind("broken state") {
        let (open, changes) = example.fields.split_first().expect("an opening");
        let sound = *opened(open).state();
        for change in changes {
            let bytes = written_over(&sound, &change.name).expect("bytes to write");
            let step = |mut party: Party| party.agree_root(&Hash::default());
            let answer = match Party::from_state(&bytes).and_then(step) {
                Ok(_) => "taken".to_string(),
                Err(cause) => format!("cause {}", cause.number()),
            };
            let told = change.value.split(',').next();
            assert_eq!(told, Some(answer.as_str()), "{}", change.name);
        }
    }
}

/// What calls write.
#[derive(Default)]
struct Lent {
    state: Vec<u8>,
    root: Vec<u8>,
    out: Vec<u8>,
}

impl Lent {
    /// The buffers of an opening: for the state, for the root, and by a sender for the packet.
    fn for_opening(call: &Field) -> Lent {
        let told = call.argument("room").into_iter();
        let rooms = told.flat_map(|rooms| rooms.split(" and "));
        let mut rooms = rooms.map(|room| number(room).expect("a length"));
        let [state, root, out] =
            [STATE, HASH, MAX_MESSAGE_PACKET].map(|ample| vec![0; rooms.next().unwrap_or(ample)]);
        Lent { state, root, out }
    }
}

/// The library's answer to an opening.
fn opening(call: &Field, lent: &mut Lent) -> Answer {
    let number = |name| call.number(name).expect("a number");
    *lent = Lent::for_opening(call);
    let Lent { state, root, out } = lent;
    let (session, group) = (session(call), (number("n"), number("t"), number("own")));
    let bytes = call.bytes("book").or_else(|| call.bytes("packet"));
    let bytes = bytes.expect("a book or a packet");
    match call.name.as_str() {
        "open" => calls::open(session, group, &bytes, state, root),
        _ => calls::open_by_sender(session, group, number("sender"), &bytes, state, root, out),
    }
}

/// The library's answer to a call.
fn answer(call: &Field, lent: &mut Lent) -> Answer {
    let number = |name| call.number(name).expect("a number");
    let bytes = |name| call.bytes(name).expect("an argument in bytes");
    if call.name.starts_with("open") {
        return opening(call, lent);
    }
    lent.out = vec![0; call.number("room").unwrap_or(MAX_OUTBOX)];
    let Lent { state, out, .. } = lent;
    match call.name.as_str() {
        "agree_root" => calls::agree_root(state, &bytes("root")),
        "agree_bit" => calls::agree_bit(state, number("bit"), out),
        "take_shares" => calls::take_shares(state, &bytes("inbox"), out),
        "take_relays" => calls::take_relays(state, &bytes("inbox"), out),
        "result_length" => calls::result_length(state),
        "stage" => calls::stage(state),
        "own" => calls::own(state),
        "session" => calls::session(state),
        "faulty" => calls::faulty(state),
        "shares" => calls::shares((number("n"), number("t")), &bytes("book"), out),
        "rebuild_with_root" => {
            let group = (number("n"), number("t"));
            let (root, entries) = (bytes("root"), bytes("entries"));
            calls::rebuild_with_root(session(call), group, &root, &entries, out)
        }
        "read_message" => calls::read_message(&bytes("packet")),
        "hash" => calls::hash(&bytes("string"), out),
        other => panic!("{other}: no call"),
    }
}

/// Whether a line tells the result of step 5, by its value, with the boxes seen to cheat.
fn tells_result(told: &Field, value: u32, lent: &Lent) -> bool {
    let Lent { state, out, .. } = lent;
    let seen = told.argument("saw").into_iter();
    let seen = seen.flat_map(|boxes| boxes.split(" and "));
    let map: u32 = seen
        .map(|it| 1 << (number(it).expect("a number") - 1))
        .sum();
    if map != value >> 1 {
        return false;
    }
    if value & 1 == 0 {
        return told.value.split(',').next() == Some("nothing");
    }
    let length = calls::result_length(state).accepted().expect("a length");
    told.bytes("book").as_deref() == out.get(..length as usize)
}

/// Whether a line under a call tells this answer.
fn tells(told: &Field, answer: Answer, lent: &Lent) -> bool {
    let Lent { root, out, .. } = lent;
    let value = answer.value as usize;
    match (answer.cause, told.name.as_str()) {
        (0, "root") => bytes(&told.value).as_deref() == root.get(..HASH),
        (0, "outbox" | "relay" | "packet" | "out") => {
            bytes(&told.value).as_deref() == out.get(..value)
        }
        (0, "bit" | "value") => told.value == value.to_string(),
        (0, "result") => tells_result(told, answer.value, lent),
        (cause, "cause") => {
            let number = told.value.split(',').next();
            number == Some(&cause.to_string()) && told.number("needs").unwrap_or(0) == value
        }
        _ => false,
    }
}

/// Every call is met, and answered as the lines under it tell.
#[test]
fn calls_are_answered_as_it_is_told() {
    let mut met = BTreeSet::new();
    for example in OF_CALLS.iter().flat_map(|kind| of_kind(kind)) {
        let (mut lent, mut answered) = (Lent::default(), None);
        for field in &example.fields {
            match field.name.as_str() {
                "state" => (),
                "written over" => {
                    let state = written_over(&lent.state, &field.value);
                    lent.state = state.expect("bytes to write");
                }
                name if CALLS.contains(&name) => {
                    answered = Some(answer(field, &mut lent));
                    met.insert(field.name.clone());
                }
                _ => {
                    let answer = answered.expect("a call above");
                    let right = tells(field, answer, &lent);
                    assert!(right, "line {}: {field:?}: {answer:?}", example.line);
                }
            }
        }
    }
    assert!(met.iter().eq(CALLS.iter()));
}
