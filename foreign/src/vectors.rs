//! Test cases for the proved functions, with the answers of this reference, and the stream that
//! they are handed over in.
//!
//! The stream is a sequence of cases, read front to back; numbers are big-endian. A case is its
//! kind (1 byte) and two parts: what is handed in, and what must come of it. A part is its length
//! (4 bytes) and as many bytes. Byte 0 stands at the end, with nothing after it. The modules tell
//! what the parts of each kind are.

pub mod coder;
pub mod commitment;
pub mod message;
pub mod packet;
pub mod party;
pub mod plans;
pub mod tree;

use std::io::{Result, Write};

use crate::coder::Answer as Written;
use crate::limits::{MOST_FAULTS, MOST_PARTIES};

#[derive(Clone, Copy, Debug, PartialEq, Eq, PartialOrd, Ord)]
#[repr(u8)]
pub enum Kind {
    Products = 1,
    Inverses,
    Powers,
    Encode,
    Rebuild,
    RebuildWithRoot,
    Hashes,
    Trees,
    Checks,
    PathLengths,
    Reads,
    Judgements,
    Inboxes,
    Writes,
    MessageReads,
    MessageWrites,
    Openings,
    SenderOpenings,
    AgreedRoots,
    AgreedBits,
    FirstInboxes,
    SecondInboxes,
    NumbersChanged,
    StagesChanged,
    BytesChanged,
    Plans,
}

/// The value of each byte of a lent buffer before a call.
pub const UNTOUCHED: u8 = 0xA5;

/// The greatest n, with the greatest t.
const GREATEST: (usize, usize) = (MOST_PARTIES, MOST_FAULTS);

/// The greatest number that two bytes of a case hold.
const FAR: usize = u16::MAX as usize;

#[derive(Clone, PartialEq, Eq)]
pub struct Case {
    pub kind: Kind,
    pub given: Part,
    pub expected: Part,
}

/// Bytes being laid out one after the other.
#[derive(Clone, Debug, Default, PartialEq, Eq)]
pub struct Part(pub Vec<u8>);

impl Part {
    pub fn new() -> Part {
        Part::default()
    }

    pub fn bytes(mut self, bytes: &[u8]) -> Part {
        self.0.extend(bytes);
        self
    }

    pub fn one(self, value: usize) -> Part {
        self.number(value as u64, 1)
    }

    pub fn two(self, value: usize) -> Part {
        self.number(value as u64, 2)
    }

    pub fn four(self, value: usize) -> Part {
        self.number(value as u64, 4)
    }

    /// The number of a session, which the calls that hash leaves are told first.
    pub fn session(self, session: u32) -> Part {
        self.number(session.into(), 4)
    }

    pub fn eight(self, value: u64) -> Part {
        self.number(value, 8)
    }

    /// A number in `width` bytes; the bytes left out are zero.
    fn number(self, value: u64, width: usize) -> Part {
        let bytes = value.to_be_bytes();
        let (left_out, kept) = bytes.split_at(8 - width);
        assert!(left_out.iter().all(|&x| x == 0), "{value} in {width} bytes");
        self.bytes(kept)
    }

    pub fn answer(self, answer: Answer) -> Part {
        let (code, value) = match answer {
            Answer::Done(value) => (0, value),
            Answer::Nothing => (1, 0),
            Answer::Short(needed) => (2, needed),
            Answer::Refused(cause) => (3, cause as usize),
        };
        self.one(code).eight(value as u64)
    }
}

/// What a call answers: a code (1 byte) and a value (8).
#[derive(Clone, Copy, Debug, PartialEq, Eq, PartialOrd, Ord)]
pub enum Answer {
    /// 0, with the bytes written or another result.
    Done(usize),
    /// 1.
    Nothing,
    /// 2, with the length needed.
    Short(usize),
    /// 3, with the cause.
    Refused(u32),
}

/// What comes of a call that was lent a buffer: the answer, and the buffer, in which every byte past
/// those written is untouched.
fn lent(answer: Written, out: &[u8]) -> Part {
    let (told, written) = match answer {
        Written::Refused(cause) => (Answer::Refused(cause), 0),
        Written::Short(length) => (Answer::Short(length), 0),
        Written::Done(length) => (Answer::Done(length), length),
    };
    assert!(out[written..].iter().all(|&x| x == UNTOUCHED));
    Part::new().answer(told).bytes(out)
}

/// The whole stream's cases.
pub fn all() -> impl Iterator<Item = Case> {
    coder::cases()
        .into_iter()
        .chain(commitment::cases())
        .chain(tree::cases())
        .chain(packet::cases())
        .chain(message::cases())
        .chain(party::cases())
        .chain(plans::cases(None, 1))
}

/// The calls on a party, which need all that come before them.
const CALLS: std::ops::RangeInclusive<u8> = Kind::Openings as u8..=Kind::BytesChanged as u8;

/// The cases among which those of the kind with this number stand.
fn around(number: u8) -> Vec<Case> {
    match number {
        1..=5 => coder::cases(),
        6 => commitment::cases(),
        7..=10 => tree::cases(),
        11..=14 => packet::cases(),
        15..=16 => message::cases(),
        17..=25 => party::cases(),
        _ => plans::cases(Some(3), 1).collect(),
    }
}

/// A short stream's cases, of which the second of the kind with this number, or the only one, is
/// told a wrong outcome.
pub fn wrong(number: u8) -> Vec<Case> {
    spoilt(number, around(number))
}

/// Up to three of the cases with this number, one of them spoilt; calls on a party behind all that
/// come before them.
fn spoilt(number: u8, mut cases: Vec<Case>) -> Vec<Case> {
    let numbered = |case: &Case| case.kind as u8 == number;
    if !CALLS.contains(&number) {
        cases.retain(numbered);
    }
    let places = (0..cases.len()).filter(|&place| numbered(&cases[place]));
    let places: Vec<usize> = places.take(3).collect();
    cases.truncate(places.last().expect("a kind") + 1);
    let Part(expected) = &mut cases[places[places.len().min(2) - 1]].expected;
    match expected.last_mut() {
        Some(byte) => *byte ^= 1,
        None => expected.push(0),
    }
    cases
}

/// Writes a stream.
pub fn write(cases: impl IntoIterator<Item = Case>, out: &mut impl Write) -> Result<()> {
    for case in cases {
        out.write_all(&[case.kind as u8])?;
        for Part(bytes) in [&case.given, &case.expected] {
            out.write_all(&(bytes.len() as u32).to_be_bytes())?;
            out.write_all(bytes)?;
        }
    }
    out.write_all(&[0])
}

#[cfg(test)]
mod tests {
    use super::*;

    #[test]
    fn one_case_is_wrong() {
        let modules = [1..=5, 6..=6, 7..=10, 11..=14, 15..=16, 17..=25, 26..=26];
        for numbers in modules {
            let cases = around(*numbers.start());
            for number in numbers {
                let right = |case: &Case| cases.contains(case);
                let spoilt = spoilt(number, cases.clone());
                let wrong: Vec<&Case> = spoilt.iter().filter(|case| !right(case)).collect();
                assert_eq!(wrong.len(), 1);
                assert_eq!(wrong[0].kind as u8, number);
            }
        }
    }

    #[test]
    fn a_stream_is_its_cases_and_a_zero() {
        let case = Case {
            kind: Kind::Powers,
            given: Part::new().one(2).eight(3),
            expected: Part::new().one(8),
        };
        let mut stream = Vec::new();
        write([case], &mut stream).expect("a vector takes all");
        let given = [0, 0, 0, 9, 2, 0, 0, 0, 0, 0, 0, 0, 3];
        assert_eq!(stream, [&[3][..], &given, &[0, 0, 0, 1, 8], &[0]].concat());
    }
}
