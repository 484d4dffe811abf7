//! Calls on buffers between margins, compared with the foreign implementation and counted.

use std::collections::BTreeMap;

use crate::call::{answered, beside, Answer, Call, Lent};

/// A copy of lent bytes between two margins, which no call may touch.
struct Margins(Vec<u8>);

const MARGIN: [u8; 64] = [0xC3; 64];

impl Margins {
    fn around(bytes: &[u8]) -> Margins {
        Margins([&MARGIN, bytes, &MARGIN].concat())
    }

    fn within(&mut self) -> &mut [u8] {
        let end = self.0.len() - MARGIN.len();
        &mut self.0[MARGIN.len()..end]
    }

    /// The bytes, if the margins are as they were.
    fn checked(mut self) -> Vec<u8> {
        assert!(self.0.starts_with(&MARGIN) && self.0.ends_with(&MARGIN));
        self.within().to_vec()
    }
}

/// The library's answer, with its buffers checked for bytes written beside them.
fn library(call: &Call, lent: &mut Lent) -> Answer {
    let [mut state, mut root, mut out] =
        [&lent.state, &lent.root, &lent.out].map(|bytes| Margins::around(bytes));
    let answer = answered(call, state.within(), root.within(), out.within());
    [lent.state, lent.root, lent.out] = [state, root, out].map(Margins::checked);
    answer
}

/// How often each call had each cause, 0 for accepted.
#[derive(Default)]
pub struct Tally(BTreeMap<(&'static str, u32), usize>);

impl Tally {
    fn count(&mut self, call: &Call, answer: Answer) {
        *self.0.entry((call.name(), answer.cause)).or_default() += 1;
    }

    /// Prints the counts; the call must have had each of its causes, and no other.
    pub fn expect(&self, name: &str, causes: &[u32]) {
        let counts = self.0.iter().filter(|((call, _), _)| *call == name);
        let found: Vec<(u32, usize)> = counts.map(|((_, cause), times)| (*cause, *times)).collect();
        println!("{name}: (cause, times) {found:?}");
        let had: Vec<u32> = found.iter().map(|(cause, _)| *cause).collect();
        assert_eq!(had, causes, "{name}");
        assert!(found.iter().all(|(_, times)| *times >= 5), "{name}");
    }
}

/// Compares a call on buffers between margins, and counts it.
pub fn compare(call: &Call, lent: &mut Lent, tally: &mut Tally) -> Answer {
    let answer = beside(call, lent, library);
    tally.count(call, answer);
    answer
}
