//! Calls on one party.
//!
//! The reader carries a party's state and an inbox from case to case, both zero at the start; a
//! call takes the state that the last one gave back, so that the calls from one opening to the
//! next are a list.
//!
//! - Openings: the session's number (4 bytes), n, t and own (8 each), the message. The verdict, and the
//!   root (32, zero if refused).
//! - Openings by a sender: the session's number (4), n, t, own and the sender's number (8 each), the
//!   length of the buffer lent (2), the sender's own message or the packet that came. The verdict, the
//!   root as before, and how many bytes were written, or are needed with cause 9 (8, zero with other
//!   causes).
//! - Agreed roots, step 2: the root. The verdict.
//! - Agreed bits, step 3: the bit (2), the length of the buffer lent (2). The verdict.
//! - First and second inboxes, steps 4 and 5: how many bytes of the inbox are handed in (2), the
//!   length of the buffer lent (2). The verdict; for step 5 also the map given with the result (4, zero
//!   where none is given).
//! - Numbers changed: where (1: 0 n, 1 t, 2 own, 3 len, 4 held, 5 the session's, 6 the map of the parties
//!   seen to cheat), the number (8; of the last two the low four bytes count). Nothing.
//! - Stages changed: which (1: 0 root, 1 bit, 2 first, 3 second, 4 ended with nothing, 5 with a
//!   message), that message's length (8). Nothing.
//! - Bytes changed: where (1: 0 message, 1 root, 2 share, 3 the inbox), from which offset (2), the
//!   bytes. Nothing.
//!
//! The verdict: the answer, and SHA-256 (32) of the state with SHA-256 of the out buffer behind it,
//! which is empty where none is lent. The state's bytes: the session's number (4), the map (4), n, t,
//! own (8 each), stage as above (9), len, held (8 each), root, message, share.
//!
//! Messages handed in have at most two bytes more than may be, inboxes and the buffer twice as many
//! as an outbox.

mod cheats;
mod senders;

use std::collections::BTreeMap;

use super::{Answer, Answer::*, Case, Kind, Part, GREATEST, UNTOUCHED};
use crate::coder::{frame_of, share_length, shares_of};
use crate::inbox::lay_out;
use crate::liars::Sharing;
use crate::limits::{INSIDE, LONGEST_MESSAGE, LONGEST_OUTBOX, LONGEST_SHARE, MOST_PARTIES};
use crate::packet;
use crate::party::{Given, Outcome, Rebuilt, Refusal, Stage, State};
use crate::random::Random;
use crate::sessions::{another, in_place, pairs};
use crate::sha256::{hash, Hash};
use crate::tree;

const LARGEST_INBOX: usize = 2 * LONGEST_OUTBOX;
const MOST_ROOM: usize = 2 * LONGEST_OUTBOX;

/// One more than the greatest n, the longest message and the longest share.
const ABOVE: u64 = MOST_PARTIES as u64 + 1;
const LONG: u64 = LONGEST_MESSAGE as u64 + 1;
const WIDE: u64 = LONGEST_SHARE as u64 + 1;

/// A step and what it is handed, but for the room.
#[derive(Clone)]
enum Call {
    Root(Vec<u8>),
    Bit(u8),
    Shares(Vec<u8>),
    Relays(Vec<u8>),
}

/// A number of the state.
#[derive(Clone, Copy)]
enum Number {
    N,
    T,
    Own,
    Len,
    Held,
    Session,
    Faulty,
}

/// Where bytes are put.
#[derive(Clone, Copy)]
enum Place {
    Message,
    Root,
    Share,
    Inbox,
}

/// Number of a stage, and the length of the message that it ended with.
fn stage_number(stage: Stage) -> (u8, u64) {
    match stage {
        Stage::Root => (0, 0),
        Stage::Bit => (1, 0),
        Stage::First => (2, 0),
        Stage::Second => (3, 0),
        Stage::Ended(Outcome::Nothing) => (4, 0),
        Stage::Ended(Outcome::Message(length)) => (5, length),
    }
}

/// The kind of the step that is in turn; at the end it is the one that reads the result again.
fn turn(stage: Stage) -> u8 {
    match stage {
        Stage::Root => 2,
        Stage::Bit => 3,
        Stage::First => 4,
        Stage::Second | Stage::Ended(_) => 5,
    }
}

fn digest(state: &State, out: &[u8]) -> Hash {
    let (stage, length) = stage_number(state.stage);
    let mut text = [state.session, state.faulty].map(u32::to_be_bytes).concat();
    text.extend([state.n, state.t, state.own].map(u64::to_be_bytes).concat());
    text.push(stage);
    text.extend(
        [length, state.len, state.held]
            .map(u64::to_be_bytes)
            .concat(),
    );
    text.extend(state.root);
    text.extend(state.message);
    text.extend(state.share);
    text.extend(hash(out));
    hash(&text)
}

/// What a step gave: the state and the answer.
fn told<T>(given: Given<T>, accepted: impl FnOnce(T) -> Answer) -> (State, Answer) {
    let (state, answer) = given;
    let answer = match answer {
        Ok(answer) => accepted(answer),
        Err(Refusal { cause: 9, needed }) => Short(needed),
        Err(Refusal { cause, .. }) => Refused(cause),
    };
    (state, answer)
}

/// The answer whatever its value.
fn valueless(answer: Answer) -> Answer {
    match answer {
        Done(_) => Done(0),
        Short(_) => Short(0),
        other => other,
    }
}

/// Puts a number of four bytes into its place, and gives the one that stood there.
fn replaced(place: &mut u32, value: u64) -> u64 {
    let value = value.try_into().expect("a number in four bytes");
    std::mem::replace(place, value).into()
}

/// How often the calls of each kind had each answer.
type Tally = BTreeMap<(Kind, Answer), usize>;

/// The cases so far, their calls counted, those on ended states by themselves as well, the source
/// of randomness, the place of the next session in their list, and what the reader carries.
struct File {
    out: Vec<Case>,
    answers: Tally,
    at_the_end: Tally,
    random: Random,
    sessions: usize,
    state: State,
    inbox: Vec<u8>,
    damages: usize,
}

/// The calls, written as cases.
impl File {
    fn new() -> File {
        File {
            out: Vec::new(),
            answers: Tally::new(),
            at_the_end: Tally::new(),
            random: Random::new(0x9A47),
            sessions: 0,
            state: State::blank(),
            inbox: vec![0; LARGEST_INBOX],
            damages: 0,
        }
    }

    /// A change, of which nothing comes.
    fn change(&mut self, kind: Kind, given: Part) {
        let expected = Part::new();
        self.out.push(Case {
            kind,
            given,
            expected,
        });
    }

    /// A call that gave the state that stands, with the buffer lent and what follows the verdict.
    fn called(&mut self, kind: Kind, given: Part, answer: Answer, out: &[u8], more: &[u8]) {
        *self.answers.entry((kind, valueless(answer))).or_default() += 1;
        let verdict = Part::new().answer(answer).bytes(&digest(&self.state, out));
        self.out.push(Case {
            kind,
            given,
            expected: verdict.bytes(more),
        });
    }

    fn open(&mut self, session: u32, n: u64, t: u64, own: u64, message: &[u8]) {
        let (state, answer) = State::open(session, n, t, own, message);
        let (answer, root) = match answer {
            Ok(root) => (Done(0), root),
            Err(refusal) => (Refused(refusal.cause), [0; 32]),
        };
        self.state = state;
        let numbers = Part::new().session(session).eight(n).eight(t).eight(own);
        let given = numbers.bytes(message);
        self.called(Kind::Openings, given, answer, &[], &root);
    }

    /// What the call would give, and what follows its verdict; the state stays.
    fn tried(&self, call: &Call, out: &mut [u8]) -> ((State, Answer), Vec<u8>) {
        let state = self.state.clone();
        let given = match call {
            Call::Root(root) => told(state.agree_root(root), |happy| Done(happy.into())),
            Call::Bit(bit) => told(state.agree_bit(*bit, out), Done),
            Call::Shares(inbox) => told(state.take_shares(inbox, out), Done),
            Call::Relays(inbox) => {
                let given = state.take_relays(inbox, out);
                let faulty = given.1.map_or(0, |ending| ending.faulty);
                let given = told(given, |ending| ending.length.map_or(Nothing, Done));
                return (given, faulty.to_be_bytes().to_vec());
            }
        };
        (given, Vec::new())
    }

    /// The bytes that the call would write.
    fn needed(&self, call: &Call) -> usize {
        let ((_, answer), _) = self.tried(call, &mut [UNTOUCHED; MOST_ROOM]);
        match (call, answer) {
            (Call::Root(_), _) => 0,
            (_, Done(length)) => length,
            _ => 0,
        }
    }

    /// The call with so much room; step 2 has no buffer.
    fn call(&mut self, call: &Call, room: usize) {
        let room = match call {
            Call::Root(_) => 0,
            _ => room,
        };
        let mut out = vec![UNTOUCHED; room];
        let ((state, answer), more) = self.tried(call, &mut out);
        let before = std::mem::replace(&mut self.state, state);
        if let Call::Shares(inbox) | Call::Relays(inbox) = call {
            self.put_inbox(inbox);
        }
        let (kind, given) = match call {
            Call::Root(root) => (Kind::AgreedRoots, Part::new().bytes(root)),
            Call::Bit(bit) => (Kind::AgreedBits, Part::new().two((*bit).into()).two(room)),
            Call::Shares(inbox) => (Kind::FirstInboxes, Part::new().two(inbox.len()).two(room)),
            Call::Relays(inbox) => (Kind::SecondInboxes, Part::new().two(inbox.len()).two(room)),
        };
        if let Stage::Ended(_) = before.stage {
            let count = self.at_the_end.entry((kind, valueless(answer)));
            *count.or_default() += 1;
        }
        self.called(kind, given, answer, &out, &more);
    }

    /// Has the reader's inbox start with these bytes; only what differs is written.
    fn put_inbox(&mut self, bytes: &[u8]) {
        let differs = |&place: &usize| self.inbox[place] != bytes[place];
        let first = (0..bytes.len()).find(differs);
        let last = (0..bytes.len()).rev().find(differs);
        if let (Some(first), Some(last)) = (first, last) {
            self.put(Place::Inbox, first, &bytes[first..=last]);
        }
    }

    fn put(&mut self, place: Place, at: usize, bytes: &[u8]) {
        let whole = match place {
            Place::Message => &mut self.state.message[..],
            Place::Root => &mut self.state.root[..],
            Place::Share => &mut self.state.share[..],
            Place::Inbox => &mut self.inbox[..],
        };
        whole[at..at + bytes.len()].copy_from_slice(bytes);
        let given = Part::new().one(place as usize).two(at).bytes(bytes);
        self.change(Kind::BytesChanged, given);
    }

    /// Sets a number of the state, and gives the one that stood there.
    fn set(&mut self, number: Number, value: u64) -> u64 {
        let given = Part::new().one(number as usize).eight(value);
        self.change(Kind::NumbersChanged, given);
        let place = match number {
            Number::N => &mut self.state.n,
            Number::T => &mut self.state.t,
            Number::Own => &mut self.state.own,
            Number::Len => &mut self.state.len,
            Number::Held => &mut self.state.held,
            Number::Session => return replaced(&mut self.state.session, value),
            Number::Faulty => return replaced(&mut self.state.faulty, value),
        };
        std::mem::replace(place, value)
    }

    fn set_stage(&mut self, stage: Stage) {
        let (number, length) = stage_number(stage);
        self.state.stage = stage;
        let given = Part::new().one(number.into()).eight(length);
        self.change(Kind::StagesChanged, given);
    }
}

/// Choices, and calls in several ways.
impl File {
    /// The next session's number; the first is 0.
    fn session(&mut self) -> u32 {
        self.sessions += 1;
        in_place(self.sessions - 1)
    }

    /// Yes once in so many times.
    fn once_in(&mut self, times: usize) -> bool {
        self.random.below(times) == 0
    }

    fn pick<T: Copy>(&mut self, choices: &[T]) -> T {
        choices[self.random.below(choices.len())]
    }

    /// The call with too little room, then with enough: just that or more.
    fn short_then_enough(&mut self, call: &Call) {
        let needed = self.needed(call);
        if needed > 0 {
            self.call(call, needed - 1);
            if self.once_in(3) {
                self.call(call, 0);
            }
        }
        let more = self.pick(&[0, 0, 1, 40]);
        self.call(call, needed + more);
    }

    /// A call of this kind whose argument is well made or, for causes 7 and 8, not.
    fn some_call(&mut self, kind: u8, well: bool) -> Call {
        let n = self.state.n.min(MOST_PARTIES as u64) as usize;
        let inbox = match well {
            true => vec![0; 2 * n],
            false => vec![0; 2 * n + 1],
        };
        match kind {
            2 if well => Call::Root(self.random.bytes(32)),
            2 => {
                let length = self.pick(&[0, 31, 33, 64]);
                Call::Root(self.random.bytes(length))
            }
            3 if well => Call::Bit(self.random.below(2) as u8),
            3 => Call::Bit(self.pick(&[2, 3, 255])),
            4 => Call::Shares(inbox),
            _ => Call::Relays(inbox),
        }
    }

    /// Each step that is not in turn, half of the time with a cause over 6 as well.
    fn out_of_turn(&mut self) {
        for kind in 2..=5 {
            if turn(self.state.stage) != kind {
                let well = self.once_in(2);
                let call = self.some_call(kind, well);
                let room = self.pick(&[0, 40]);
                self.call(&call, room);
            }
        }
    }

    /// Calls on a state that breaks a limit, which then gets its old number back.
    fn broken(&mut self) {
        let State { n, t, own, len, .. } = self.state;
        let high = self.pick(&[u64::MAX, 1 << 63, 1 << 32, 1 << 16]);
        let (number, values) = match self.random.below(6) {
            0 => (Number::N, [0, ABOVE, own - 1, 2 * t, high | n]),
            1 => (Number::T, [n.div_ceil(2), n, 1 << 63 | t, high, high | t]),
            2 => (Number::Own, [0, n + 1, ABOVE, 256 | own, high | own]),
            3 => (Number::Len, [LONG, LONG, LONG + 1, high, high | len]),
            4 => (Number::Faulty, cheats::unlawful(n, own)),
            _ => (Number::Held, [WIDE, WIDE, WIDE + 1, high, high | 1]),
        };
        let value = self.pick(&values);
        let old = self.set(number, value);
        self.two_calls();
        self.set(number, old);
    }

    /// The step in turn and another, each well made or not.
    fn two_calls(&mut self) {
        let any = self.random.below(4) as u8 + 2;
        for kind in [turn(self.state.stage), any] {
            let well = self.once_in(2);
            let call = self.some_call(kind, well);
            let room = self.pick(&[0, 40, 200]);
            self.call(&call, room);
        }
    }

    /// Calls on a state that ended with too long a message, which then gets its stage back.
    fn overlong(&mut self) {
        let old = self.state.stage;
        let length = self.pick(&[LONG, 1 << 16, 1 << 32, u64::MAX]);
        self.set_stage(Stage::Ended(Outcome::Message(length)));
        self.two_calls();
        self.set_stage(old);
    }

    /// Bytes that no stage has: past the lengths, and root, share or message where they are not
    /// held. The map becomes another lawful one, whether the stage has it or not.
    fn dirt(&mut self) {
        let ended = matches!(self.state.stage, Stage::Ended(_));
        let len = match ended {
            true => stage_number(self.state.stage).1,
            false => self.state.len,
        };
        let (len, held) = (len as usize, self.state.held as usize);
        let bytes = self.random.bytes(3);
        if len + 3 <= LONGEST_MESSAGE {
            let at = self.pick(&[len, LONGEST_MESSAGE - 3]);
            self.put(Place::Message, at, &bytes);
        }
        if held + 3 <= LONGEST_SHARE {
            let at = self.pick(&[held, LONGEST_SHARE - 3]);
            self.put(Place::Share, at, &bytes);
        }
        if ended || self.state.stage == Stage::Root {
            let at = self.random.below(30);
            self.put(Place::Root, at, &bytes);
        }
        if ended && self.once_in(2) {
            let length = self.pick(&[1, 5, LONGEST_MESSAGE as u64]);
            self.set(Number::Len, length);
        }
        let holds = matches!(self.state.stage, Stage::Second);
        if !holds && self.once_in(2) {
            let length = self.pick(&[1, 5, LONGEST_SHARE as u64]);
            self.set(Number::Held, length);
        }
        if self.once_in(2) {
            self.other_map();
        }
    }

    /// What may happen between two steps in turn.
    fn meanwhile(&mut self) {
        if self.once_in(2) {
            self.dirt();
        }
        self.out_of_turn();
        if self.once_in(2) {
            self.broken();
        }
        if self.once_in(6) {
            self.overlong();
        }
    }
}

/// Inboxes.
impl File {
    /// Bytes in place of the good packet with number j, in the next of many ways.
    fn damaged(&mut self, sharing: &Sharing, j: usize) -> Vec<u8> {
        let n = sharing.shares.len();
        let good = sharing.packet(j);
        let share = &sharing.shares[j - 1];
        let path = tree::path(sharing.session, &sharing.shares, j);
        let behind = 4 + share.len();
        let flip = |place: usize| {
            let mut bytes = good.clone();
            bytes[place] ^= 0x10;
            bytes
        };
        self.damages += 1;
        match self.damages % 17 {
            0 => sharing.packet(j % n + 1),
            1 => vec![0],
            2 => flip(0),
            3 => flip(4),
            4 => good[..good.len() - 1].to_vec(),
            5 => [&good[..], &[0]].concat(),
            6 if n > 1 => packet::write(j, share, &path[1..]),
            7 => packet::write(j, share, &[&path[..], &[[0; 32]]].concat()),
            8 => packet::write(j, &share[1..], &path),
            9 => packet::write(j, &[&share[..], &[0]].concat(), &path),
            10 if n > 1 => flip(behind),
            11 => {
                let other = j % n + 1;
                let theirs = tree::path(sharing.session, &sharing.shares, other);
                packet::write(other, share, &theirs)
            }
            12 => self.random.bytes(37),
            13 => packet::write(j, &sharing.shares[j % n], &path),
            14 => flip(3),
            15 => {
                let session = another(sharing.session, &mut self.random);
                sharing.in_session(session).packet(j)
            }
            _ => Vec::new(),
        }
    }

    /// An inbox for party `own` with the good packets of the senders in the map, and in place
    /// of the others silence or something damaged; sender j's good packet bears the number
    /// demanded of it.
    fn packets(
        &mut self,
        sharing: &Sharing,
        own: usize,
        map: u32,
        demanded: Demand,
    ) -> Vec<Vec<u8>> {
        let quiet = self.once_in(5);
        let mut packets = Vec::new();
        for j in 1..=sharing.shares.len() {
            let number = demanded(own, j);
            let good = map >> (j - 1) & 1 == 1;
            packets.push(if good {
                sharing.packet(number)
            } else if quiet || j == own || self.once_in(3) {
                Vec::new()
            } else {
                self.damaged(sharing, number)
            });
        }
        packets
    }

    /// These packets, badly laid out: they run short or leave bytes over.
    fn bad_inbox(&mut self, packets: &[Vec<u8>]) -> Vec<u8> {
        let good = lay_out(packets);
        match self.random.below(6) {
            0 => good[..good.len() - 1].to_vec(),
            1 => [&good[..], &[0]].concat(),
            2 => lay_out(&packets[..packets.len() - 1]),
            3 => [&good[..], &[0, 0]].concat(),
            4 => [&good[..1], &[good[1] ^ 1], &good[2..]].concat(),
            _ => Vec::new(),
        }
    }

    /// The call with badly laid out inboxes: cause 8, and cause 9 at once where there is one.
    fn badly(&mut self, packets: &[Vec<u8>], call: fn(Vec<u8>) -> Call) {
        let needed = self.needed(&call(lay_out(packets)));
        for _ in 0..2 {
            let bad = self.bad_inbox(packets);
            let room = self.pick(&[0, needed.saturating_sub(1), needed]);
            self.call(&call(bad), room);
        }
    }

    /// Step 5 on a party that has ended: it does with every inbox.
    fn again(&mut self, packets: &[Vec<u8>]) {
        let inbox = match self.once_in(3) {
            true => lay_out(packets),
            false => self.bad_inbox(packets),
        };
        self.short_then_enough(&Call::Relays(inbox));
    }
}

/// How the shares under the agreed root are made.
#[derive(Clone, Copy)]
enum Making {
    Honest,
    /// The frame's last byte is changed, which mostly is filling.
    Filled,
    /// The frame says a length over the greatest.
    LongLength,
    /// Each share has a byte more than the length gives.
    ExtraColumn,
    /// One share is longer than the others.
    Unequal,
    SpoiltFirst,
    SpoiltLast,
    /// Shares of the greatest length that a packet has room for.
    Longest,
    Noise,
}

impl File {
    /// Shares of n parties in the next session, b of which are to give a message of this length, if it
    /// is honest.
    fn sharing(&mut self, n: usize, b: usize, length: usize, making: Making) -> Sharing {
        let mut frame = frame_of(b, &self.random.bytes(length));
        match making {
            Making::Filled => *frame.last_mut().expect("a frame") ^= 0x40,
            Making::LongLength => {
                let s = share_length(b, LONGEST_MESSAGE + 1);
                frame = self.random.bytes(b * s);
                frame[..2].copy_from_slice(&(LONGEST_MESSAGE as u16 + 1).to_be_bytes());
                frame[LONGEST_MESSAGE + 3..].fill(0);
            }
            Making::ExtraColumn => frame.resize(frame.len() + b, 0),
            Making::Longest => frame = self.random.bytes(b * LONGEST_SHARE),
            Making::Noise => frame = self.random.bytes(frame.len()),
            _ => {}
        }
        let mut shares = shares_of(n, b, &frame);
        match making {
            Making::Unequal => shares[b / 2].push(0),
            Making::SpoiltFirst => shares[0][0] ^= 1,
            Making::SpoiltLast => shares[n - 1][0] ^= 1,
            _ => {}
        }
        Sharing::over(self.session(), shares)
    }

    /// A set of this many of the other parties, or of all there are.
    fn others(&mut self, n: usize, own: usize, count: usize) -> u32 {
        let chosen = self.random.choice(n - 1, count.min(n - 1));
        let low = chosen & ((1 << (own - 1)) - 1);
        low | (chosen ^ low) << 1
    }
}

/// What is done to the held share between steps 4 and 5; to hold one is to have the good one,
/// wherever it came from.
#[derive(Clone, Copy, PartialEq)]
enum Forging {
    Leave,
    Spoil,
    Lengthen,
    Shorten,
    Drop,
    Hold,
}

/// What a party is put through.
struct Plan {
    n: usize,
    t: usize,
    own: usize,
    message: Vec<u8>,
    agreed: Sharing,
    bit: u8,
    /// The senders with a good packet in the two inboxes; the own entry may be one of them.
    first: u32,
    second: u32,
    forging: Forging,
}

/// The number that party `own` demands of a sender's packet.
type Demand = fn(own: usize, sender: usize) -> usize;

fn bearing_own(own: usize, _: usize) -> usize {
    own
}

fn bearing_theirs(_: usize, sender: usize) -> usize {
    sender
}

/// One list: all steps in turn, with refused calls and changes of the state before each.
fn play(file: &mut File, plan: &Plan) {
    let [n, t, own] = [plan.n, plan.t, plan.own].map(|number| number as u64);
    file.open(plan.agreed.session, n, t, own, &plan.message);
    file.meanwhile();
    let wrong = file.some_call(2, false);
    file.call(&wrong, 0);
    file.call(&Call::Root(plan.agreed.root.to_vec()), 0);
    file.meanwhile();
    let needed = file.needed(&Call::Bit(plan.bit));
    let wrong = file.some_call(3, false);
    let room = file.pick(&[0, needed.saturating_sub(1), needed]);
    file.call(&wrong, room);
    file.short_then_enough(&Call::Bit(plan.bit));
    file.meanwhile();
    if plan.bit == 1 {
        let packets = file.packets(&plan.agreed, plan.own, plan.first, bearing_own);
        file.badly(&packets, Call::Shares);
        file.short_then_enough(&Call::Shares(lay_out(&packets)));
        file.meanwhile();
        forge(file, plan);
        let packets = file.packets(&plan.agreed, plan.own, plan.second, bearing_theirs);
        file.badly(&packets, Call::Relays);
        file.short_then_enough(&Call::Relays(lay_out(&packets)));
        file.meanwhile();
    }
    let packets = file.packets(&plan.agreed, plan.own, plan.first, bearing_theirs);
    file.again(&packets);
    file.out_of_turn();
}

/// Changes the held share; the state stays lawful.
fn forge(file: &mut File, plan: &Plan) {
    let held = file.state.held;
    match plan.forging {
        Forging::Leave => {}
        Forging::Spoil => {
            let byte = file.state.share[0] ^ 0x20;
            file.put(Place::Share, 0, &[byte]);
        }
        Forging::Lengthen => {
            file.set(Number::Held, (held + 1).min(LONGEST_SHARE as u64));
        }
        Forging::Shorten => {
            file.set(Number::Held, held.saturating_sub(1));
        }
        Forging::Drop => {
            file.set(Number::Held, 0);
        }
        Forging::Hold => {
            let share = &plan.agreed.shares[plan.own - 1];
            file.put(Place::Share, 0, share);
            file.set(Number::Held, share.len() as u64);
        }
    }
}

/// Agreed roots that differ from the own one in a single bit, each byte's turn: not happy.
fn near_roots(file: &mut File) {
    let session = file.session();
    file.open(session, 3, 1, 2, b"AB");
    let own = Sharing::of(session, 3, 1, b"AB").root;
    for place in 0..own.len() {
        let mut root = own;
        root[place] ^= 1 << file.random.below(8);
        file.call(&Call::Root(root.to_vec()), 0);
        file.call(&Call::Bit(1), 6);
        file.call(&Call::Shares(vec![0; 6]), 0);
        file.call(&Call::Relays(vec![0; 6]), 0);
        file.set_stage(Stage::Root);
        file.put(Place::Message, 0, b"AB");
        file.set(Number::Len, 2);
    }
}

/// The group and the number of the parties that read their results again.
const READER: (usize, usize, usize) = (3, 1, 2);

/// Takes a party to its end, a happy one where it is to end with a message.
fn end_with(file: &mut File, length: Option<usize>, bit: u8) {
    let (n, t, own) = READER;
    let message = file.random.bytes(length.unwrap_or(4));
    let session = file.session();
    file.open(session, n as u64, t as u64, own as u64, &message);
    let root = match length {
        Some(_) => Sharing::of(session, n, t, &message).root,
        None => [7; 32],
    };
    file.call(&Call::Root(root.to_vec()), 0);
    file.short_then_enough(&Call::Bit(bit));
    if bit == 1 {
        file.short_then_enough(&Call::Shares(vec![0; 2 * n]));
        file.short_then_enough(&Call::Relays(vec![0; 2 * n]));
    }
}

/// What may stand beside its result in an ended state, though no step gives it so.
#[derive(Clone, Copy)]
enum Stale {
    Clean,
    Root,
    Share,
    Len,
    /// Bytes past the result.
    Behind,
    /// A message and its root, as a happy party has them.
    Happy,
    /// Another message's root and the own share of it, from which a party rebuilds.
    Holding,
}

const STALE: [Stale; 7] = [
    Stale::Clean,
    Stale::Root,
    Stale::Share,
    Stale::Len,
    Stale::Behind,
    Stale::Happy,
    Stale::Holding,
];

/// Puts it into the state; the result stays.
fn soil(file: &mut File, stale: Stale, other: &Sharing) {
    let (n, t, own) = READER;
    let result = stage_number(file.state.stage).1 as usize;
    match stale {
        Stale::Clean => {}
        Stale::Root => file.put(Place::Root, 0, &[7; 32]),
        Stale::Share => {
            file.put(Place::Share, 0, b"stale");
            file.set(Number::Held, 5);
        }
        Stale::Len => {
            let length = file.pick(&[1, 9, LONGEST_MESSAGE as u64]);
            file.set(Number::Len, length);
        }
        Stale::Behind => {
            let bytes = vec![7; (LONGEST_MESSAGE - result).min(9)];
            file.put(Place::Message, result, &bytes);
            file.put(Place::Message, LONGEST_MESSAGE - bytes.len(), &bytes);
        }
        Stale::Happy => {
            let length = (result + 3).min(LONGEST_MESSAGE - 1);
            let session = file.state.session;
            let root = Sharing::of(session, n, t, &file.state.message[..length]).root;
            file.put(Place::Root, 0, &root);
            file.set(Number::Len, length as u64);
        }
        Stale::Holding => {
            let share = &other.shares[own - 1];
            file.put(Place::Root, 0, &other.root);
            file.put(Place::Share, 0, share);
            file.set(Number::Held, share.len() as u64);
        }
    }
}

/// How parties end: with nothing, on bit 0 or for want of shares, or with a message of this length.
const ENDS: [(Option<usize>, u8); 5] = [
    (None, 0),
    (None, 1),
    (Some(0), 1),
    (Some(1), 1),
    (Some(LONGEST_MESSAGE), 1),
];

/// Ended states of every kind, clean or not, with every kind of inbox and room.
fn ended(file: &mut File) {
    let (n, t, own) = READER;
    let other = file.sharing(n, n - t, 6, Making::Honest);
    let theirs: Vec<Vec<u8>> = (1..=n).map(|j| other.packet(j)).collect();
    let relays = lay_out(&theirs);
    let inboxes = [
        relays.clone(),
        vec![0; 2 * n],
        Vec::new(),
        relays[..relays.len() - 1].to_vec(),
        [&relays[..], &[0]].concat(),
        file.random.bytes(37),
    ];
    for (length, bit) in ENDS {
        end_with(file, length, bit);
        for (stale, inbox) in STALE
            .iter()
            .flat_map(|it| inboxes.iter().map(move |to| (it, to)))
        {
            soil(file, *stale, &other);
            file.short_then_enough(&Call::Relays(inbox.clone()));
        }
        soil(file, Stale::Holding, &other);
        let mine = lay_out(&vec![other.packet(own); n]);
        inboxes.iter().chain([&mine]).for_each(|it| over(file, it));
        inboxes.iter().for_each(|it| broken_end(file, it));
    }
}

/// The steps that are over, each with cause 6 and one above it at once.
fn over(file: &mut File, inbox: &[u8]) {
    for room in [0, 200] {
        file.call(&Call::Shares(inbox.to_vec()), room);
        file.call(&Call::Bit(1), room);
    }
    let wrong = [2, 3].map(|kind| file.some_call(kind, false));
    wrong.iter().for_each(|call| file.call(call, 0));
}

/// Step 5 on an ended state that breaks a limit, with this inbox and mostly too little room.
fn broken_end(file: &mut File, inbox: &[u8]) {
    let needed = stage_number(file.state.stage).1 as usize;
    for (number, value) in [
        (Number::N, 0),
        (Number::T, 2),
        (Number::Own, 4),
        (Number::Len, LONG),
        (Number::Held, WIDE),
        (Number::Faulty, 0b0010),
        (Number::Faulty, 0b1000),
        (Number::Faulty, 1 << 31),
    ] {
        let old = file.set(number, value);
        let room = file.pick(&[0, needed.saturating_sub(1), needed]);
        file.call(&Call::Relays(inbox.to_vec()), room);
        file.set(number, old);
    }
    file.overlong();
}

/// All n and t that are taken.
fn groups() -> impl Iterator<Item = (usize, usize)> {
    (1..=MOST_PARTIES).flat_map(|n| (0..n.div_ceil(2)).map(move |t| (n, t)))
}

/// A message's length: mostly short, now and then any or one at an edge, or one that just fills the
/// frame.
fn some_length(file: &mut File, b: usize) -> usize {
    let filled = (b * (1 + file.random.below(4))).saturating_sub(2);
    let short = file.random.below(40);
    let any = file.random.below(LONGEST_MESSAGE);
    let inside = file.pick(&INSIDE);
    let long = file.pick(&[any, inside, LONGEST_MESSAGE, LONGEST_MESSAGE]);
    file.pick(&[0, 1, short, short, filled, filled, filled + 1, long])
}

/// A happy party in each group; the inboxes tell it nothing.
fn happy(file: &mut File) {
    for (place, (n, t)) in groups().enumerate() {
        let length = some_length(file, n - t);
        let message = file.random.bytes(length);
        let agreed = Sharing::of(file.session(), n, t, &message);
        let own = 1 + file.random.below(n);
        let few = file.random.below(3);
        let plan = Plan {
            n,
            t,
            own,
            message,
            agreed,
            bit: u8::from(place % 8 != 5),
            first: file.others(n, own, few),
            second: file.others(n, own, few),
            forging: file.pick(&[Forging::Leave, Forging::Hold, Forging::Lengthen]),
        };
        play(file, &plan);
    }
}

/// As many relays as there are others.
const ALL: isize = MOST_PARTIES as isize;

/// How many others send an unhappy party its share, and how many relay theirs, beyond what is
/// just enough with the own share.
const SENDERS: [(usize, isize); 8] = [
    (1, 0),
    (0, 0),
    (2, 1),
    (0, 1),
    (1, -1),
    (1, ALL),
    (0, ALL),
    (3, 0),
];

/// Two unhappy parties in each group, under the roots of other messages.
fn unhappy(file: &mut File) {
    for (place, (n, t)) in groups().chain(groups()).enumerate() {
        let (senders, relays) = SENDERS[(place + n) % SENDERS.len()];
        let length = some_length(file, n - t);
        let agreed = file.sharing(n, n - t, length, Making::Honest);
        unhappy_under(file, (n, t), agreed, senders, relays, Forging::Leave);
    }
}

/// An unhappy party under this root. Its own entry sometimes holds a good packet.
fn unhappy_under(
    file: &mut File,
    (n, t): (usize, usize),
    agreed: Sharing,
    senders: usize,
    relays: isize,
    forging: Forging,
) {
    let own = 1 + file.random.below(n);
    let relays = (n - t - 1).saturating_add_signed(relays);
    let mut maps = [senders, relays].map(|count| file.others(n, own, count));
    for map in &mut maps {
        if file.once_in(2) {
            *map |= 1 << (own - 1);
        }
    }
    let length = file.random.below(20);
    let plan = Plan {
        n,
        t,
        own,
        message: file.random.bytes(length),
        agreed,
        bit: u8::from(!file.once_in(16)),
        first: maps[0],
        second: maps[1],
        forging,
    };
    play(file, &plan);
}

/// Agreed roots whose shares give no message, or only some of them do.
fn no_message(file: &mut File) {
    let makings = [
        Making::Filled,
        Making::LongLength,
        Making::ExtraColumn,
        Making::Unequal,
        Making::SpoiltFirst,
        Making::SpoiltLast,
        Making::Noise,
    ];
    for (n, t) in [(2, 0), (3, 1), (4, 1), (7, 3), (MOST_PARTIES, 5)] {
        for making in makings {
            let length = file.random.below(30);
            let agreed = file.sharing(n, n - t, length, making);
            let relays = file.pick(&[0, 1, ALL]);
            unhappy_under(file, (n, t), agreed, 1, relays, Forging::Leave);
        }
    }
    for (n, t) in [(2, 0), (3, 1)] {
        let agreed = file.sharing(n, n - t, 0, Making::Longest);
        unhappy_under(file, (n, t), agreed, 1, ALL, Forging::Leave);
    }
}

/// Takes an unhappy party up to step 5, with as many senders and, beyond what is just enough with
/// their shares, so many more relays. Gives its second inbox.
fn before_relays(
    file: &mut File,
    (n, t): (usize, usize),
    agreed: &Sharing,
    senders: usize,
    more: usize,
) -> Vec<u8> {
    let own = 1 + file.random.below(n);
    file.open(agreed.session, n as u64, t as u64, own as u64, b"no");
    file.call(&Call::Root(agreed.root.to_vec()), 0);
    file.short_then_enough(&Call::Bit(1));
    let map = file.others(n, own, senders);
    let first = file.packets(agreed, own, map, bearing_own);
    file.short_then_enough(&Call::Shares(lay_out(&first)));
    let enough = n - t - usize::from(senders > 0);
    let map = file.others(n, own, enough + more);
    let second = file.packets(agreed, own, map, bearing_theirs);
    lay_out(&second)
}

/// Agreed roots over shares that no message has, though any b of them give one: what is rebuilt has
/// another root. The party ends with nothing, also where the message would have no room.
fn other_root(file: &mut File) {
    for (place, (n, t)) in groups().filter(|it| it.1 > 0).enumerate() {
        for round in 0..4 {
            let session = file.session();
            let agreed = Sharing::no_codeword(session, n, t, &mut file.random);
            let (senders, more) = [(1, 0), (0, 0), (2, 1), (1, n)][(place + round) % 4];
            let inbox = before_relays(file, (n, t), &agreed, senders, more);
            let Some(Rebuilt::OtherRoot(message)) = file.state.rebuilt(&inbox) else {
                panic!("no message with another root");
            };
            let length = message.len();
            let room = [0, length - 1, length, length + 9][round];
            file.call(&Call::Relays(inbox), room);
            assert_eq!(file.state.stage, Stage::Ended(Outcome::Nothing));
            file.short_then_enough(&Call::Relays(Vec::new()));
        }
    }
}

/// A party whose agreed root is changed before step 5 by a bit, in each byte: the share that it holds
/// still counts, and is enough with n 1 alone, where what it gives has another root.
fn changed_root(file: &mut File) {
    for place in 0..32 {
        let agreed = Sharing::of(file.session(), 1, 0, b"AB");
        file.open(agreed.session, 1, 0, 1, b"no");
        file.call(&Call::Root(agreed.root.to_vec()), 0);
        file.call(&Call::Bit(1), 2);
        file.call(&Call::Shares(vec![0, 0]), 0);
        file.put(Place::Share, 0, &agreed.shares[0]);
        file.set(Number::Held, agreed.shares[0].len() as u64);
        let byte = agreed.root[place] ^ 1 << file.random.below(8);
        file.put(Place::Root, place, &[byte]);
        let room = file.pick(&[0, 1, 2]);
        file.call(&Call::Relays(vec![0, 0]), room);
        assert_eq!(file.state.stage, Stage::Ended(Outcome::Nothing));
    }
}

/// A party alone whose session is changed before step 5: the share that it holds gives the message,
/// which has the agreed root in the former session alone.
fn changed_session(file: &mut File) {
    for (session, other) in pairs() {
        let agreed = Sharing::of(session, 1, 0, b"AB");
        file.open(session, 1, 0, 1, b"no");
        file.call(&Call::Root(agreed.root.to_vec()), 0);
        file.call(&Call::Bit(1), 2);
        file.call(&Call::Shares(vec![0, 0]), 0);
        file.put(Place::Share, 0, &agreed.shares[0]);
        file.set(Number::Held, agreed.shares[0].len() as u64);
        file.set(Number::Session, other.into());
        file.short_then_enough(&Call::Relays(vec![0, 0]));
        let outcome = match other == session {
            true => Outcome::Message(2),
            false => Outcome::Nothing,
        };
        assert_eq!(file.state.stage, Stage::Ended(outcome));
    }
}

/// Parties that get every packet, all of them made in another session: under a root of their own
/// session, and under that of the packets, where not even who has the message is happy.
fn other_session(file: &mut File) {
    let groups = [(2, 0), (3, 1), (5, 2), (9, 4), GREATEST];
    for (n, t) in groups.into_iter().flat_map(|group| [group; 4]) {
        let session = file.session();
        let own = Sharing::of(session, n, t, b"AB");
        let theirs = own.in_session(another(session, &mut file.random));
        for (message, root) in [(&b"no"[..], own.root), (b"AB", theirs.root)] {
            let number = 1 + file.random.below(n);
            file.open(session, n as u64, t as u64, number as u64, message);
            file.call(&Call::Root(root.to_vec()), 0);
            file.short_then_enough(&Call::Bit(1));
            let first = lay_out(&vec![theirs.packet(number); n]);
            file.short_then_enough(&Call::Shares(first));
            assert_eq!(file.state.held, 0);
            let second: Vec<Vec<u8>> = (1..=n).map(|j| theirs.packet(j)).collect();
            file.short_then_enough(&Call::Relays(lay_out(&second)));
            assert_eq!(file.state.stage, Stage::Ended(Outcome::Nothing));
        }
    }
}

/// Packets that are good, but bear another number than is demanded: those that senders are to
/// relay in the first inbox, and one another's in the second. None of them counts.
fn swapped(file: &mut File) {
    for (n, t) in [(2, 0), (3, 1), (4, 0), (5, 2), (9, 4), GREATEST] {
        let agreed = file.sharing(n, n - t, 5, Making::Honest);
        let own = 1 + file.random.below(n);
        file.open(agreed.session, n as u64, t as u64, own as u64, b"other");
        file.call(&Call::Root(agreed.root.to_vec()), 0);
        file.short_then_enough(&Call::Bit(1));
        let theirs: Vec<Vec<u8>> = (1..=n).map(|j| agreed.packet(j)).collect();
        file.short_then_enough(&Call::Shares(lay_out(&theirs)));
        if file.once_in(2) {
            let share = &agreed.shares[own - 1];
            file.put(Place::Share, 0, share);
            file.set(Number::Held, share.len() as u64);
        }
        let next: Vec<Vec<u8>> = (1..=n).map(|j| agreed.packet(j % n + 1)).collect();
        file.short_then_enough(&Call::Relays(lay_out(&next)));
    }
}

/// Unhappy states whose held share was changed; the rebuilding decides.
fn forged(file: &mut File) {
    let forgings = [
        Forging::Spoil,
        Forging::Lengthen,
        Forging::Shorten,
        Forging::Drop,
        Forging::Hold,
    ];
    for (n, t) in [(1, 0), (2, 0), (3, 1), (5, 2), (8, 3), GREATEST] {
        for forging in forgings {
            let agreed = file.sharing(n, n - t, 9, Making::Honest);
            let senders = usize::from(forging != Forging::Hold);
            let relays = file.pick(&[0, 0, ALL]);
            unhappy_under(file, (n, t), agreed, senders, relays, forging);
        }
    }
}

/// A party alone that was given a stage, a root and a share: the share is the frame itself. The root
/// is that over the share, or another.
fn alone(file: &mut File) {
    let over = (LONG as u16).to_be_bytes();
    let longest = frame_of(1, &file.random.bytes(LONGEST_MESSAGE));
    for share in [
        &[0, 2, 0x41, 0x42][..],
        &[0, 0],
        &[0],
        &[0, 1, 7, 0],
        &over,
        &[],
        &longest,
    ] {
        let Sharing { session, root, .. } = Sharing::over(file.session(), vec![share.to_vec()]);
        let mut near = root;
        near[31] ^= 1;
        for root in [root, near] {
            file.open(session, 1, 0, 1, b"no");
            file.put(Place::Root, 0, &root);
            file.put(Place::Share, 0, share);
            file.set(Number::Held, share.len() as u64);
            file.set_stage(Stage::Second);
            file.short_then_enough(&Call::Relays(vec![0, 3, 7, 1, 0]));
            file.out_of_turn();
        }
    }
}

/// Openings refused for each cause alone and with the next ones; every state that they give
/// is called.
fn openings(file: &mut File) {
    let long = file.random.bytes(LONGEST_MESSAGE + 2);
    let (longest, over) = (&long[..LONGEST_MESSAGE], &long[..LONGEST_MESSAGE + 1]);
    let huge = [1 << 63, u64::MAX, (1 << 32) + 3, 1 << 16];
    let (most, half) = (GREATEST.0 as u64, GREATEST.1 as u64);
    for n in [0, ABOVE, ABOVE + 1, 256].into_iter().chain(huge) {
        for (t, own) in [(0, 1), (n, 1), (n / 2, n.wrapping_add(1)), (0, 0)] {
            opened(file, n, t, own, b"ab");
        }
    }
    for (n, t) in [
        (1, 1),
        (2, 1),
        (3, 2),
        (most - 1, half + 1),
        (most, half + 1),
        (most, most),
        (4, 1 << 63),
    ] {
        for (own, message) in [(1, &b"ab"[..]), (0, b""), (n + 1, &long)] {
            opened(file, n, t, own, message);
        }
    }
    for t in huge {
        opened(file, 3, t, 1, b"ab");
        opened(file, 3, t, 4, b"ab");
        opened(file, 3, 1, t, b"ab");
    }
    for (n, t) in [(1, 0), (3, 1), (most, half)] {
        for own in [0, n + 1, ABOVE, 256 + n] {
            opened(file, n, t, own, b"ab");
        }
        opened(file, n, t, n + 1, over);
        opened(file, n, t, n, over);
        opened(file, n, t, n, &long);
        opened(file, n, t, n, longest);
        for length in INSIDE.into_iter().chain([LONGEST_MESSAGE - 1]) {
            opened(file, n, t, n, &long[..length]);
        }
    }
    opened(file, ABOVE, ABOVE / 2, 1, over);
    opened(file, 0, 0, 0, over);
}

/// An opening and two calls on what it gave.
fn opened(file: &mut File, n: u64, t: u64, own: u64, message: &[u8]) {
    let session = file.session();
    file.open(session, n, t, own, message);
    file.two_calls();
}

/// Lengths in a state at their limits, which are taken at every stage, and a byte over them, which
/// are not.
fn lengths(file: &mut File) {
    let longest = LONGEST_MESSAGE as u64;
    let wide = LONGEST_SHARE as u64;
    let inside = INSIDE.map(|length| length as u64);
    let ends = [Outcome::Nothing, Outcome::Message(longest)].map(Stage::Ended);
    let stages = [Stage::Root, Stage::Bit, Stage::First, Stage::Second];
    for stage in stages.into_iter().chain(ends) {
        for (number, values) in [
            (Number::Len, [inside[1], longest, LONG]),
            (Number::Held, [inside[1] + 2, wide, WIDE]),
        ] {
            for value in values {
                let session = file.session();
                file.open(session, 3, 1, 2, b"AB");
                file.put(Place::Root, 0, &[7; 32]);
                file.set_stage(stage);
                file.set(number, value);
                let kind = turn(stage);
                let call = file.some_call(kind, true);
                file.short_then_enough(&call);
            }
        }
    }
    for length in [inside[1], longest, LONG] {
        let session = file.session();
        file.open(session, 3, 1, 2, b"AB");
        file.set_stage(Stage::Ended(Outcome::Message(length)));
        file.short_then_enough(&Call::Relays(Vec::new()));
    }
}

/// How many lists of calls in no order, so that the calls of steps are at least so many.
const LISTS: usize = 375;
const LEAST_CALLS: usize = 20_000;

/// Lists of calls and changes in no order.
fn wander(file: &mut File) {
    for _ in 0..LISTS {
        let group = file.random.below(groups().count());
        let (n, t) = groups().nth(group).expect("so many groups");
        let length = file.random.below(12);
        let message = file.random.bytes(length);
        let own = 1 + file.random.below(n);
        let sharing = match file.once_in(2) {
            true => Sharing::of(file.session(), n, t, &message),
            false => file.sharing(n, n - t, 7, Making::Honest),
        };
        file.open(sharing.session, n as u64, t as u64, own as u64, &message);
        let count = file.random.below(n + 1);
        let map = file.random.choice(n, count);
        let first = lay_out(&file.packets(&sharing, own, map, bearing_own));
        let second = lay_out(&file.packets(&sharing, own, map, bearing_theirs));
        for _ in 0..24 {
            wander_once(file, &sharing, &first, &second);
        }
    }
}

fn wander_once(file: &mut File, sharing: &Sharing, first: &[u8], second: &[u8]) {
    let call = match file.random.below(4) {
        0 => Call::Root(sharing.root.to_vec()),
        1 => Call::Bit(u8::from(!file.once_in(6))),
        2 => Call::Shares(first.to_vec()),
        _ => Call::Relays(second.to_vec()),
    };
    match file.random.below(16) {
        0 => {
            let stages = [Stage::Root, Stage::Bit, Stage::First, Stage::Second];
            let ends = [
                Outcome::Nothing,
                Outcome::Message(0),
                Outcome::Message(LONGEST_MESSAGE as u64),
            ];
            let stage = match file.once_in(4) {
                true => Stage::Ended(file.pick(&ends)),
                false => file.pick(&stages),
            };
            file.set_stage(stage);
        }
        1 => {
            let len = file.random.below(14) as u64;
            file.set(Number::Len, len);
        }
        2 => file.dirt(),
        3 => file.broken(),
        4 => file.put(Place::Root, 0, &sharing.root),
        5 => {
            let other = another(sharing.session, &mut file.random);
            let session = file.pick(&[sharing.session, sharing.session, other]);
            file.set(Number::Session, session.into());
        }
        _ => file.short_then_enough(&call),
    }
}

/// The worked cases: two of three parties, whose third is silent, and a party alone.
fn worked(file: &mut File) {
    for (session, own, message) in [(0, 1, b"A"), (0, 2, b"B"), (7, 1, b"A"), (7, 2, b"B")] {
        let lowest = Sharing::of(session, 3, 1, b"A");
        file.open(session, 3, 1, own, message);
        file.call(&Call::Root(lowest.root.to_vec()), 0);
        file.short_then_enough(&Call::Bit(1));
        let first = [lowest.packet(own as usize), Vec::new(), Vec::new()];
        file.short_then_enough(&Call::Shares(lay_out(&first)));
        let second = [lowest.packet(1), lowest.packet(2), Vec::new()];
        file.short_then_enough(&Call::Relays(lay_out(&second)));
        file.short_then_enough(&Call::Relays(Vec::new()));
    }
    for message in [&b"AB"[..], b"", &[9; LONGEST_MESSAGE]] {
        file.open(0, 1, 0, 1, message);
        let root = Sharing::of(0, 1, 0, message).root;
        file.call(&Call::Root(root.to_vec()), 0);
        file.short_then_enough(&Call::Bit(1));
        file.short_then_enough(&Call::Shares(vec![0, 0]));
        file.short_then_enough(&Call::Relays(vec![0, 0]));
        file.out_of_turn();
        file.short_then_enough(&Call::Relays(Vec::new()));
    }
}

/// The answers that the calls of each kind are to have had, each several times.
const WANTED: [(Kind, &[Answer]); 6] = [
    (
        Kind::Openings,
        &[Done(0), Refused(1), Refused(2), Refused(3), Refused(4)],
    ),
    (
        Kind::SenderOpenings,
        &[
            Done(0),
            Refused(1),
            Refused(2),
            Refused(3),
            Refused(4),
            Short(0),
        ],
    ),
    (
        Kind::AgreedRoots,
        &[Done(0), Refused(5), Refused(6), Refused(7)],
    ),
    (
        Kind::AgreedBits,
        &[Done(0), Refused(5), Refused(6), Refused(7), Short(0)],
    ),
    (
        Kind::FirstInboxes,
        &[Done(0), Refused(5), Refused(6), Refused(8), Short(0)],
    ),
    (
        Kind::SecondInboxes,
        &[
            Done(0),
            Nothing,
            Refused(5),
            Refused(6),
            Refused(8),
            Short(0),
        ],
    ),
];

/// The same of the calls on ended states, which have no others.
const WANTED_AT_THE_END: [(Kind, &[Answer]); 4] = [
    (Kind::AgreedRoots, &[Refused(5), Refused(6)]),
    (Kind::AgreedBits, &[Refused(5), Refused(6)]),
    (Kind::FirstInboxes, &[Refused(5), Refused(6)]),
    (
        Kind::SecondInboxes,
        &[Done(0), Nothing, Short(0), Refused(5)],
    ),
];

pub fn cases() -> Vec<Case> {
    let mut file = File::new();
    worked(&mut file);
    openings(&mut file);
    lengths(&mut file);
    senders::openings(&mut file);
    alone(&mut file);
    near_roots(&mut file);
    happy(&mut file);
    unhappy(&mut file);
    no_message(&mut file);
    other_root(&mut file);
    changed_root(&mut file);
    changed_session(&mut file);
    other_session(&mut file);
    swapped(&mut file);
    forged(&mut file);
    cheats::lies(&mut file);
    cheats::maps(&mut file);
    ended(&mut file);
    wander(&mut file);
    file.well_mixed();
    file.out
}

impl File {
    /// Stops the run unless there are calls enough of each kind and answer.
    fn well_mixed(&self) {
        let opening = |kind: &Kind| [Kind::Openings, Kind::SenderOpenings].contains(kind);
        let steps = self.answers.iter().filter(|((kind, _), _)| !opening(kind));
        let calls: usize = steps.map(|(_, times)| times).sum();
        assert!(calls >= LEAST_CALLS, "{calls} calls");
        enough(&self.answers, &WANTED);
        enough(&self.at_the_end, &WANTED_AT_THE_END);
        let met = self.at_the_end.keys();
        let wanted = WANTED_AT_THE_END.iter();
        let wanted = wanted.flat_map(|(kind, answers)| answers.iter().map(move |it| (*kind, *it)));
        assert!(met.copied().eq(wanted), "{:?}", self.at_the_end);
    }
}

/// Stops the run unless each of these answers was had several times.
fn enough(tally: &Tally, wanted: &[(Kind, &[Answer])]) {
    for &(kind, answers) in wanted {
        for &answer in answers {
            let times = tally.get(&(kind, answer)).copied();
            assert!(times >= Some(5), "{kind:?}, {answer:?}: {times:?}");
        }
    }
}
