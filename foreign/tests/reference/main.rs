//! The examples of docs/REFERENCE.md, each run against the foreign implementation. What an example is
//! handed stands in it; all other lines of it are made anew and compared.

mod coding;
mod header;
mod packets;
mod plans;
mod sitting;

use std::collections::BTreeSet;

use foreign::examples::{examples, number, reference, spaceless, Example};
use foreign::sha256::hex;

/// How the examples of a kind are run: the lines that they should have.
type Run = fn(&Example) -> Told;

const KINDS: [(&str, Run); 16] = [
    ("field", coding::field),
    ("shares", coding::shares),
    ("rebuild", coding::rebuilt),
    ("tree", coding::tree),
    ("paths", coding::paths),
    ("check", coding::checked),
    ("packet", packets::packet),
    ("packets", packets::packets),
    ("book packets", packets::books),
    ("outbox", packets::outbox),
    ("opening", sitting::openings),
    ("box", sitting::sitting),
    ("state", sitting::sitting),
    ("broken state", sitting::broken),
    ("calls", coding::calls),
    ("plan", plans::plan),
];

/// The lines of an example as they should be, and the causes that were met.
#[derive(Default)]
pub struct Told {
    lines: Vec<(String, String)>,
    causes: BTreeSet<u32>,
}

impl Told {
    fn add(&mut self, name: impl ToString, value: impl ToString) {
        self.lines.push((name.to_string(), value.to_string()));
    }

    fn bytes(&mut self, name: impl ToString, value: &[u8]) {
        self.add(name, digits(value));
    }

    /// The number of a cause that was met.
    fn cause(&mut self, cause: u32) -> u32 {
        self.causes.insert(cause);
        cause
    }
}

/// Bytes as they stand in an example.
pub fn digits(bytes: &[u8]) -> String {
    match bytes {
        [] => "none".to_string(),
        _ => hex(bytes),
    }
}

/// A length as it stands in an example: those of a state and of a root, and the greatest of a book
/// and of its packet, by their names.
pub fn length(bytes: usize) -> String {
    let named = ["STATE", "ROOT", "MESSAGE", "MESSAGE_PACKET"]
        .into_iter()
        .find(|it| number(it) == Some(bytes));
    named.map_or(bytes.to_string(), str::to_string)
}

/// The sitting number of an example, which tells it first or is of sitting 0.
pub fn sitting(example: &Example, told: &mut Told) -> u32 {
    let number = example.sitting();
    if let Some(number) = number {
        told.add("sitting", number);
    }
    number.unwrap_or(0)
}

/// What differs between the lines of an example and those that it should have, if anything.
fn difference(example: &Example, told: &Told) -> Option<String> {
    let here = example
        .fields
        .iter()
        .map(|field| (&field.name, &field.value));
    let plain = |(name, value): (&String, &String)| format!("{name}: {}", spaceless(value));
    let here: Vec<String> = here.map(plain).collect();
    let made = told.lines.iter().map(|(name, value)| (name, value));
    let made: Vec<String> = made.map(plain).collect();
    (here != made).then(|| {
        let texts = [here.join("\n"), made.join("\n")];
        format!(
            "docs/REFERENCE.md, line {}, has\n{}\nand should have\n{}",
            example.line, texts[0], texts[1]
        )
    })
}

fn told(example: &Example) -> Told {
    let kind = KINDS.iter().find(|kind| kind.0 == example.kind);
    let (_, run) = kind.unwrap_or_else(|| panic!("line {}: a kind that is none", example.line));
    run(example)
}

/// What is wrong in the examples of a text.
fn wrong(text: &str) -> Vec<String> {
    let found = examples(text).expect("examples");
    let wrong = found.iter().filter_map(|it| difference(it, &told(it)));
    wrong.collect()
}

/// How many examples of each kind a text has.
fn counts(text: &str) -> Vec<(&'static str, usize)> {
    let found = examples(text).expect("examples");
    let of = |kind| found.iter().filter(|example| example.kind == kind).count();
    KINDS.iter().map(|&(kind, _)| (kind, of(kind))).collect()
}

#[test]
fn every_example_is_right() {
    let wrong = wrong(&reference());
    assert!(wrong.is_empty(), "{}", wrong.join("\n\n"));
}

#[test]
fn every_kind_has_an_example() {
    for (kind, count) in counts(&reference()) {
        assert!(count > 0, "no example of the kind {kind}");
    }
}

#[test]
fn every_cause_has_an_example() {
    let found = examples(&reference()).expect("examples");
    let met: BTreeSet<u32> = found.iter().flat_map(|it| told(it).causes).collect();
    assert!(met.into_iter().eq(1..=15));
}

/// Parts of the text, and wrong ones in their place: one for each kind and more.
const SPOILT: [(&str, &str); 65] = [
    ("product 57 83: c1", "product 57 83: c2"),
    ("share 3: c3 c4", "share 3: c3 c5"),
    ("share 3: c3 c4\n", ""),
    ("share 5: 5e 53", "share 5: 5e 53\nshare 6: 00 00"),
    ("00 02 c3 c4\nbook: 41 42", "00 02 c3 c4\nbook: 41 43"),
    ("cause: 11", "cause: 12"),
    ("cause: 9, needs 2", "cause: 9, needs 3"),
    ("cause: 15", "cause: 12"),
    ("hash 1-2: e8", "hash 1-2: e9"),
    ("path of share 3: hash 1-2", "path of share 3: hash 1"),
    ("path 7: 5-6, 1-4", "path 7: 1-4, 5-6"),
    ("passes: no", "passes: yes"),
    ("bytes: 38", "bytes: 39"),
    ("00 00: cause 10", "00 00: silence"),
    ("entry 3: 00 26 07", "entry 3: 00 26 08"),
    (
        "n 4, t 2, own 1, book 41\ncause: 2",
        "n 4, t 2, own 1, book 41\ncause: 1",
    ),
    ("relay: 07 02 00 02 82", "relay: 07 02 00 02 83"),
    ("result: book 41 42", "result: nothing"),
    ("result: nothing", "result: book 41 42"),
    (
        "inbox ff ff ff\nresult: book 41 42",
        "inbox ff ff ff\ncause: 8",
    ),
    (
        "room 1\ncause: 9, needs 2\ntake_relays",
        "room 1\nresult: book 41\ntake_relays",
    ),
    (
        "result: book 41\nstate: byte 0 04 01 00 01 05 00 01 00 00",
        "result: book 41\nstate: byte 0 04 01 00 01 05 00 01 00 02",
    ),
    ("written over: byte 7 00 02", "written over: byte 7 00 03"),
    (
        "state: byte 0 04 02 00 02 03",
        "state: byte 0 04 02 00 02 02",
    ),
    ("byte (MESSAGE + 49) 82", "byte (MESSAGE + 50) 82"),
    ("byte 4 06: cause 5", "byte 4 06: taken"),
    ("byte 5 (MESSAGE + 1)", "byte 5 (MESSAGE)"),
    ("byte 7 (SHARE + 1)", "byte 7 (SHARE)"),
    (
        "entries: (SHARE + 1) SHARE + 1",
        "entries: (SHARE) SHARE + 1",
    ),
    ("SHARE zeros: share 1", "SHARE zeros: cause 10"),
    ("SHARE + 1 zeros: cause 10", "SHARE + 1 zeros: share 1"),
    ("08 00 00: a book of 0 bytes", "08 00 00: silence"),
    ("08 00: cause 10", "08 00: silence"),
    ("41 42 00: cause 10", "41 42 00: a book of 2 bytes"),
    ("MESSAGE zeros: a book", "MESSAGE + 1 zeros: a book"),
    ("packet: 08 00 02 41 42\n", "packet: 08 00 02 41 43\n"),
    (
        "packet 08 00 02 41\nroot: c4",
        "packet 08 00 02 41 42\nroot: c4",
    ),
    (
        "sender 0, packet none\ncause: 3",
        "sender 0, packet none\ncause: 1",
    ),
    ("room STATE and ROOT and 4", "room STATE and ROOT and 5"),
    ("needs MESSAGE_PACKET", "needs MESSAGE"),
    ("value: 65536", "value: 0"),
    ("sender: 02", "sender: 03"),
    ("sent 506", "sent 496"),
    ("value: 5", "value: 4"),
    ("needs STATE", "needs ROOT"),
    ("STATE - 1 bytes: cause 5", "STATE - 1 bytes: taken"),
    ("STATE + 1 bytes: taken", "STATE + 1 bytes: cause 5"),
    ("out: ba78", "out: bb78"),
    ("sent 388", "sent 389"),
    ("prints: 1 =\n", "prints: 1 = \n"),
    ("00 00 00 00 07 01 41 40", "00 00 00 00 08 01 41 40"),
    ("sitting: 8\nn: 3", "sitting: 7\nn: 3"),
    (
        "sitting: 1\nn: 1\nnumber: 1\nshare: HASHED - 6",
        "sitting: 1\nn: 1\nnumber: 1\nshare: HASHED - 5",
    ),
    ("open: sitting 7, n 3", "open: sitting 8, n 3"),
    ("session: state\nvalue: 7", "session: state\nvalue: 0"),
    ("00 01 00 00 01 02 03 04", "00 01 00 00 04 03 02 01"),
    ("saw 2 and 3", "saw 2"),
    ("book 41 42, saw 3\n", "book 41 42\n"),
    ("nothing, saw 1 and 3", "nothing"),
    ("faulty: state\nvalue: 2", "faulty: state\nvalue: 6"),
    ("00 00 00 00 00 00 00 05\n", "00 00 00 00 00 00 00 04\n"),
    ("byte 16 05: taken", "byte 16 05: cause 5"),
    ("byte 16 02: cause 5", "byte 16 02: taken"),
    ("byte 13 80: cause 5", "byte 13 80: taken"),
    (
        "sender: 01\nsitting: 00 00 00 07",
        "sender: 01\nsitting: 00 00 00 00",
    ),
];

#[test]
fn a_wrong_byte_is_found() {
    let text = reference();
    for (right, spoilt) in SPOILT {
        assert!(text.contains(right), "{right}");
        assert!(
            !wrong(&text.replacen(right, spoilt, 1)).is_empty(),
            "{spoilt}"
        );
    }
}

#[test]
fn a_kind_without_example_is_found() {
    let text = reference();
    for (place, (kind, _)) in KINDS.iter().enumerate() {
        let other = text.replace(&format!("```example {kind}\n"), "```example other\n");
        assert_eq!(counts(&other)[place], (*kind, 0));
    }
}
