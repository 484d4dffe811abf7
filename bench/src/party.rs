//! One party of either implementation, behind one trait, so that both play the same sessions.

use cipangohu::calls::{self, Answer};
use cipangohu::{Hash, HASH, STATE};
use foreign::party::{Given, State};

/// Each step changes the state that the caller keeps. The calls made here are lawful: a refusal ends
/// the program.
pub trait Party: Clone {
    fn open(session: u32, group: (usize, usize), own: usize, message: &[u8]) -> (Self, Hash);
    /// Party 1 is the sender; with the party comes the length of the packet that it wrote.
    fn open_by_sender(
        session: u32,
        group: (usize, usize),
        own: usize,
        bytes: &[u8],
        out: &mut [u8],
    ) -> (Self, usize);
    fn agree_root(&mut self, root: &Hash) -> bool;
    fn agree_bit(&mut self, bit: u8, out: &mut [u8]) -> usize;
    fn take_shares(&mut self, inbox: &[u8], out: &mut [u8]) -> usize;
    fn take_relays(&mut self, inbox: &[u8], out: &mut [u8]) -> Option<usize>;
}

/// The archive's functions on a state of bytes.
#[derive(Clone)]
pub struct Proved([u8; STATE]);

/// The foreign implementation on its struct. A step takes that by value, so it is copied once.
#[derive(Clone)]
pub struct Foreign(State);

const LAWFUL: &str = "the call is lawful";

/// The sender where there is one.
const SENDER: usize = 1;

impl Proved {
    pub fn state(&self) -> &[u8] {
        &self.0
    }
}

fn lawful(answer: Answer) -> usize {
    answer.accepted().expect(LAWFUL) as usize
}

impl Party for Proved {
    fn open(session: u32, (n, t): (usize, usize), own: usize, message: &[u8]) -> (Self, Hash) {
        let (mut party, group) = (Proved([0; STATE]), (n, t, own));
        let mut root = [0; HASH];
        let answer = calls::open(session, group, message, &mut party.0, &mut root);
        lawful(answer);
        (party, root)
    }

    fn open_by_sender(
        session: u32,
        (n, t): (usize, usize),
        own: usize,
        bytes: &[u8],
        out: &mut [u8],
    ) -> (Self, usize) {
        let (mut party, group) = (Proved([0; STATE]), (n, t, own));
        let mut root = [0; HASH];
        let state = &mut party.0;
        let answer = calls::open_by_sender(session, group, SENDER, bytes, state, &mut root, out);
        (party, lawful(answer))
    }

    fn agree_root(&mut self, root: &Hash) -> bool {
        lawful(calls::agree_root(&mut self.0, root)) == 1
    }

    fn agree_bit(&mut self, bit: u8, out: &mut [u8]) -> usize {
        lawful(calls::agree_bit(&mut self.0, bit.into(), out))
    }

    fn take_shares(&mut self, inbox: &[u8], out: &mut [u8]) -> usize {
        lawful(calls::take_shares(&mut self.0, inbox, out))
    }

    fn take_relays(&mut self, inbox: &[u8], out: &mut [u8]) -> Option<usize> {
        let settled = lawful(calls::take_relays(&mut self.0, inbox, out)) % 2 == 1;
        settled.then(|| lawful(calls::result_length(&self.0)))
    }
}

impl Foreign {
    fn step<T>(&mut self, step: impl FnOnce(State) -> Given<T>) -> T {
        let (next, answer) = step(self.0.clone());
        self.0 = next;
        answer.unwrap_or_else(|_| panic!("{LAWFUL}"))
    }
}

impl Party for Foreign {
    fn open(session: u32, (n, t): (usize, usize), own: usize, message: &[u8]) -> (Self, Hash) {
        let (state, root) = State::open(session, n as u64, t as u64, own as u64, message);
        (Foreign(state), root.expect(LAWFUL))
    }

    fn open_by_sender(
        session: u32,
        (n, t): (usize, usize),
        own: usize,
        bytes: &[u8],
        out: &mut [u8],
    ) -> (Self, usize) {
        let (group, sender) = ((n as u64, t as u64), SENDER as u64);
        let (state, begun) = State::open_by_sender(session, group, own as u64, sender, bytes, out);
        (Foreign(state), begun.expect(LAWFUL).written)
    }

    fn agree_root(&mut self, root: &Hash) -> bool {
        self.step(|state| state.agree_root(root))
    }

    fn agree_bit(&mut self, bit: u8, out: &mut [u8]) -> usize {
        self.step(|state| state.agree_bit(bit, out))
    }

    fn take_shares(&mut self, inbox: &[u8], out: &mut [u8]) -> usize {
        self.step(|state| state.take_shares(inbox, out))
    }

    fn take_relays(&mut self, inbox: &[u8], out: &mut [u8]) -> Option<usize> {
        self.step(|state| state.take_relays(inbox, out)).length
    }
}
