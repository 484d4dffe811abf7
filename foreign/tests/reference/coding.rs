//! Field, shares and tree.

use foreign::coder::{self, frame_of, share_length, shares_of, Answer};
use foreign::commitment::rebuild_with_root;
use foreign::examples::{bytes, Example};
use foreign::field::{inv, mul, pow};
use foreign::limits::{LONGEST_MESSAGE, LONGEST_OUTBOX, LONGEST_STRING, MOST_HASHES};
use foreign::message_packet::{self, Reading};
use foreign::sha256::{hash, Hash};
use foreign::tree::{judge, leaf_string, leaves, path_of, root_of};

use crate::{length, sitting, Told};

/// The one byte of two digits.
fn byte(digits: &str) -> u8 {
    let found = bytes(digits).expect("digits");
    let [byte] = found[..] else {
        panic!("{digits}: not one byte");
    };
    byte
}

pub fn field(example: &Example) -> Told {
    let mut told = Told::default();
    for field in &example.fields {
        let words: Vec<&str> = field.name.split(' ').collect();
        let value = match words[..] {
            ["sum", a, b] => byte(a) ^ byte(b),
            ["product", a, b] => mul(byte(a), byte(b)),
            ["power", a, k] => pow(byte(a), k.parse().expect("a number")),
            ["inverse", a] => inv(byte(a)),
            _ => panic!("line {}: {}", example.line, field.name),
        };
        told.bytes(&field.name, &[value]);
    }
    told
}

/// n, t and the book that an example is handed, which stand first in it.
fn handed(example: &Example, told: &mut Told) -> (usize, usize, Vec<u8>) {
    let (n, t) = (example.number("n"), example.number("t"));
    let book = example.bytes("book");
    told.add("n", n);
    told.add("t", t);
    told.bytes("book", &book);
    (n, t, book)
}

pub fn shares(example: &Example) -> Told {
    let mut told = Told::default();
    let (n, t, book) = handed(example, &mut told);
    let b = n - t;
    let s = share_length(b, book.len());
    let frame = frame_of(b, &book);
    told.add("b", b);
    told.add("s", s);
    told.bytes("frame", &frame);
    for (k, block) in frame.chunks(s).enumerate() {
        told.bytes(format!("block {k}"), block);
    }
    for (j, share) in (1..).zip(shares_of(n, b, &frame)) {
        told.bytes(format!("share {j}"), &share);
    }
    told
}

/// Rebuilding, with a root if the example has one. The buffer has all room, unless it says how much.
pub fn rebuilt(example: &Example) -> Told {
    let mut told = Told::default();
    let session = sitting(example, &mut told);
    let has = |name| example.fields.iter().any(|field| field.name == name);
    let (n, t) = (example.number("n"), example.number("t"));
    let entries = example.bytes("entries");
    let root = has("root").then(|| example.bytes("root"));
    let room = has("room").then(|| example.number("room"));
    told.add("n", n);
    told.add("t", t);
    if let Some(root) = &root {
        told.bytes("root", root);
    }
    told.add("entries", example.value("entries"));
    if let Some(room) = room {
        told.add("room", room);
    }
    let mut out = vec![0; room.unwrap_or(LONGEST_MESSAGE)];
    let answer = match root {
        Some(root) => rebuild_with_root(session, n, t, &root, &entries, &mut out),
        None => coder::rebuild(n, t, &entries, &mut out),
    };
    answered(answer, "book", &out, &mut told);
    told
}

/// What a call wrote, under this name, or why it was refused.
fn answered(answer: Answer, name: &str, out: &[u8], told: &mut Told) {
    match answer {
        Answer::Done(written) => told.bytes(name, &out[..written]),
        Answer::Short(needed) => {
            let cause = told.cause(9);
            told.add("cause", format!("{cause}, needs {}", length(needed)));
        }
        Answer::Refused(cause) => {
            let cause = told.cause(cause);
            told.add("cause", cause);
        }
    }
}

/// The hash of a string that is not too long.
fn hashed(string: &[u8], out: &mut [u8]) -> Answer {
    let hash = hash(string);
    match out.get_mut(..hash.len()) {
        _ if string.len() > LONGEST_STRING => Answer::Refused(4),
        None => Answer::Short(hash.len()),
        Some(start) => {
            start.copy_from_slice(&hash);
            Answer::Done(hash.len())
        }
    }
}

/// What reading a named sender's packet answers: 0 for silence, else 2¹⁶ and the book's length.
fn read_book(packet: &[u8], told: &mut Told) {
    match message_packet::read(packet) {
        Reading::Silence => told.add("value", 0),
        Reading::Message(book) => told.add("value", (1 << 16) + book.len()),
        Reading::Refused(cause) => {
            let cause = told.cause(cause);
            told.add("cause", cause);
        }
    }
}

/// Calls without a state, which have nothing to do with one another.
pub fn calls(example: &Example) -> Told {
    let mut told = Told::default();
    for call in &example.fields {
        let number = |name| call.number(name).expect("a number");
        let bytes = |name| call.bytes(name).expect("bytes");
        let mut out = vec![0; call.number("room").unwrap_or(LONGEST_OUTBOX)];
        let answer = match call.name.as_str() {
            "shares" => coder::encode(number("n"), number("t"), &bytes("book"), &mut out),
            "rebuild_with_root" => {
                let (root, entries) = (bytes("root"), bytes("entries"));
                let (session, n, t) = (call.sitting(), number("n"), number("t"));
                rebuild_with_root(session, n, t, &root, &entries, &mut out)
            }
            "hash" => hashed(&bytes("string"), &mut out),
            "read_message" => {
                told.add(&call.name, &call.value);
                read_book(&bytes("packet"), &mut told);
                continue;
            }
            "out" | "value" | "cause" => continue,
            other => panic!("line {}: {other}", example.line),
        };
        told.add(&call.name, &call.value);
        answered(answer, "out", &out, &mut told);
    }
    told
}

/// The name of the tree over leaves `from` to `to`.
fn over(from: usize, to: usize) -> String {
    match from == to {
        true => format!("{from}"),
        false => format!("{from}-{to}"),
    }
}

/// The trees that are joined on the way to the root, smaller ones first.
fn joined(from: usize, to: usize, found: &mut Vec<(usize, usize)>) {
    if from < to {
        let left = from + foreign::tree::split(to + 1 - from);
        joined(from, left - 1, found);
        joined(left, to, found);
        found.push((from, to));
    }
}

/// The leaves under each hash of a path.
fn named(leaves: &[Hash], path: &[Hash]) -> String {
    let n = leaves.len();
    let name = |hash: &Hash| {
        let mut ranges = (1..=n).flat_map(|from| (from..=n).map(move |to| (from, to)));
        let under = ranges.find(|&(from, to)| root_of(&leaves[from - 1..to]) == *hash);
        let (from, to) = under.expect("the hash of some leaves");
        over(from, to)
    };
    let names: Vec<String> = path.iter().map(name).collect();
    match names.is_empty() {
        true => "none".to_string(),
        false => names.join(", "),
    }
}

pub fn tree(example: &Example) -> Told {
    let mut told = Told::default();
    let session = sitting(example, &mut told);
    let (n, t, book) = handed(example, &mut told);
    let shares = shares_of(n, n - t, &frame_of(n - t, &book));
    for (j, share) in (1..).zip(&shares) {
        told.bytes(format!("leaf string {j}"), &leaf_string(session, j, share));
    }
    let leaves = leaves(session, &shares);
    for (j, leaf) in (1..).zip(&leaves) {
        told.bytes(format!("hash {j}"), leaf);
    }
    let mut nodes = Vec::new();
    joined(1, n, &mut nodes);
    for (from, to) in nodes {
        let hash = root_of(&leaves[from - 1..to]);
        told.bytes(format!("hash {}", over(from, to)), &hash);
    }
    told.bytes("root", &root_of(&leaves));
    for j in 1..=n {
        let path = named(&leaves, &path_of(&leaves, j));
        told.add(format!("path of share {j}"), format!("hash {path}"));
    }
    told
}

pub fn paths(example: &Example) -> Told {
    let mut told = Told::default();
    let n = example.number("n");
    told.add("n", n);
    let shares: Vec<Vec<u8>> = (0..n).map(|j| vec![j as u8]).collect();
    let leaves = leaves(0, &shares);
    for j in 1..=n {
        told.add(format!("path {j}"), named(&leaves, &path_of(&leaves, j)));
    }
    told
}

/// The path check, with the path's bytes.
pub fn checked(example: &Example) -> Told {
    let mut told = Told::default();
    let session = sitting(example, &mut told);
    let (n, j) = (example.number("n"), example.number("number"));
    let [share, path, root] = ["share", "path", "root"].map(|name| example.bytes(name));
    told.add("n", n);
    told.add("number", j);
    told.add("share", example.value("share"));
    told.bytes("path", &path);
    told.bytes("root", &root);
    let mut hashes = [[0; 32]; MOST_HASHES];
    for (hash, bytes) in hashes.iter_mut().zip(path.chunks(32)) {
        hash[..bytes.len()].copy_from_slice(bytes);
    }
    let whole = path.len() % 32 == 0;
    match judge(session, (n, j), &share, &hashes, path.len() / 32, &root) {
        Ok(passes) if passes && whole => told.add("passes", "yes"),
        Ok(_) => told.add("passes", "no"),
        Err(cause) => {
            let cause = told.cause(cause);
            told.add("cause", cause);
        }
    }
    told
}
