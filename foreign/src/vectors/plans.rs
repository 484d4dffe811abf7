//! Rehearsals: the plan is handed in. What comes of it is the answer, with the length of the text
//! that is printed, and the digest of that text (32 bytes). The text may be longer than a string that
//! the product hashes, so that SHA-256 is taken of its first [`LONGEST_STRING`] bytes and of the
//! others, and then of these two digests.

use super::{Answer, Case, Kind, Part};
use crate::limits::LONGEST_STRING;
use crate::plans::{stored::chosen, Made};
use crate::rehearsal::rehearse;
use crate::sha256::{hash, Hash};

/// So many random plans from this number on; without a count, the stored plans.
pub fn cases(count: Option<u64>, first: u64) -> impl Iterator<Item = Case> {
    chosen(count, first).map(|made| case(&made, &rehearse(&made.bytes)))
}

/// A plan with its output.
pub fn case(made: &Made, output: &[u8]) -> Case {
    Case {
        kind: Kind::Plans,
        given: Part::new().bytes(&made.bytes),
        expected: Part::new()
            .answer(Answer::Done(output.len()))
            .bytes(&digest(output)),
    }
}

fn digest(text: &[u8]) -> Hash {
    let (first, second) = text.split_at(text.len().min(LONGEST_STRING));
    hash(&[hash(first), hash(second)].concat())
}
