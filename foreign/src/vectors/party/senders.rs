//! Openings by a sender. Every state that they give is called.

use super::{groups, told, File, ABOVE, UNTOUCHED};
use crate::inbox::lay_out;
use crate::liars::senders::{Offer, SenderLie};
use crate::liars::Sharing;
use crate::limits::{INSIDE, LONGEST_MESSAGE, LONGEST_MESSAGE_PACKET};
use crate::message_packet;
use crate::party::State;
use crate::vectors::{Answer, Kind, Part, FAR, GREATEST};

/// The numbers that an opening by a sender is called with.
#[derive(Clone, Copy)]
struct Seats {
    n: u64,
    t: u64,
    own: u64,
    sender: u64,
}

fn seats(n: u64, t: u64, own: u64, sender: u64) -> Seats {
    Seats { n, t, own, sender }
}

impl File {
    /// The opening in the next session with so much room, and two calls on what it gave; the answer.
    fn open_by_sender(&mut self, seats: Seats, bytes: &[u8], room: usize) -> Answer {
        let Seats { n, t, own, sender } = seats;
        let session = self.session();
        let mut out = vec![UNTOUCHED; room];
        let given = State::open_by_sender(session, (n, t), own, sender, bytes, &mut out);
        let root = given.1.as_ref().map_or([0; 32], |begun| begun.root);
        let (state, answer) = told(given, |begun| Answer::Done(begun.written));
        let value = match answer {
            Answer::Done(length) | Answer::Short(length) => length as u64,
            _ => 0,
        };
        self.state = state;
        let numbers = Part::new().session(session).eight(n).eight(t).eight(own);
        let given = numbers.eight(sender).two(room).bytes(bytes);
        let more = [&root[..], &value.to_be_bytes()].concat();
        self.called(Kind::SenderOpenings, given, answer, &out, &more);
        self.two_calls();
        answer
    }

    /// An opening whose answer is known beforehand.
    fn begins(&mut self, seats: Seats, bytes: &[u8], room: usize, answer: Answer) {
        let found = self.open_by_sender(seats, bytes, room);
        let Seats { n, t, own, sender } = seats;
        assert_eq!(found, answer, "n {n}, t {t}, own {own}, sender {sender}");
    }
}

/// Refused for this cause, whatever the room.
fn refused(file: &mut File, seats: Seats, bytes: &[u8], cause: u32) {
    for room in [0, LONGEST_MESSAGE_PACKET] {
        file.begins(seats, bytes, room, Answer::Refused(cause));
    }
}

/// All of them, the first in session 0.
pub(super) fn openings(file: &mut File) {
    file.sessions = 0;
    sent(file);
    came(file);
    lied(file);
    groups_refused(file);
    numbers_refused(file);
    too_long(file);
    alone(file);
}

/// A sender in each group, with too little room and with enough.
fn sent(file: &mut File) {
    let edges = [0, 1, 2, LONGEST_MESSAGE - 1, LONGEST_MESSAGE];
    let lengths: Vec<usize> = edges.into_iter().chain(INSIDE).chain([11, 30]).collect();
    for (place, (n, t)) in groups().filter(|it| it.0 > 1).enumerate() {
        let own = 1 + file.random.below(n) as u64;
        let seats = seats(n as u64, t as u64, own, own);
        let message = file.random.bytes(lengths[place % lengths.len()]);
        let needed = 3 + message.len();
        for room in [0, 2, needed - 1] {
            file.begins(seats, &message, room, Answer::Short(needed));
        }
        for more in [0, 1, 40] {
            file.begins(seats, &message, needed + more, Answer::Done(needed));
        }
    }
}

/// Another party in each group, with the packet of a message, and with any room.
fn came(file: &mut File) {
    for (n, t) in groups().filter(|it| it.0 > 1) {
        let length = super::some_length(file, n - t);
        let packet = message_packet::write(&file.random.bytes(length));
        let own = 1 + file.random.below(n) as u64;
        let sender = own % n as u64 + 1;
        for room in [0, 40] {
            let seats = seats(n as u64, t as u64, own, sender);
            file.begins(seats, &packet, room, Answer::Done(0));
        }
    }
}

/// Whatever a bad sender may send: the opening is not refused. To the sender itself the same bytes are
/// its message.
fn lied(file: &mut File) {
    for (n, t) in [(2, 0), (3, 1), GREATEST] {
        let [one, other] = [5, 9].map(|length| file.random.bytes(length));
        let shares = Sharing::of(0, n, t, &one);
        let offer = Offer { one, other, shares };
        for lie in SenderLie::SMALL.into_iter().chain(SenderLie::LARGE) {
            let told = offer.told(lie, 1, &mut file.random).unwrap_or_default();
            let [other, own] = [n as u64, 1].map(|sender| seats(n as u64, t as u64, 1, sender));
            file.begins(other, &told, 20, Answer::Done(0));
            let needed = 3 + told.len();
            let answer = match told.len() > LONGEST_MESSAGE {
                true => Answer::Refused(4),
                false => Answer::Done(needed),
            };
            file.begins(own, &told, needed, answer);
        }
    }
    let noise = file.random.bytes(FAR + 20);
    file.begins(seats(3, 1, 2, 1), &noise, 0, Answer::Done(0));
}

/// Causes 1 and 2 alone and with all that follow, of a sender and of another party.
fn groups_refused(file: &mut File) {
    let long = file.random.bytes(LONGEST_MESSAGE + 1);
    let (most, half) = (GREATEST.0 as u64, GREATEST.1 as u64);
    for n in [0, ABOVE, ABOVE + 1, 256, 1 << 16, (1 << 32) + 3, u64::MAX] {
        for (t, own, sender) in [(0, 1, 1), (0, 1, 2), (n, 1, 1), (0, 0, 0), (0, 1, 0)] {
            refused(file, seats(n, t, own, sender), b"ab", 1);
        }
        refused(file, seats(n, n, n.wrapping_add(1), 0), &long, 1);
        refused(file, seats(n, 0, 1, 1), &long, 1);
    }
    for (n, t) in [
        (1, 1),
        (2, 1),
        (3, 2),
        (most, half + 1),
        (3, 1 << 63),
        (3, u64::MAX),
    ] {
        for (own, sender) in [(1, 1), (1, n), (0, 1), (1, 0), (n + 1, n + 1)] {
            refused(file, seats(n, t, own, sender), b"ab", 2);
        }
        refused(file, seats(n, t, 1, 1), &long, 2);
        refused(file, seats(n, t, n + 1, n + 1), &long, 2);
    }
}

/// Cause 3 of the own number, of the sender's and of both, alone and with those that follow.
fn numbers_refused(file: &mut File) {
    let long = file.random.bytes(LONGEST_MESSAGE + 1);
    for (n, t) in [(1, 0), (3, 1), (GREATEST.0 as u64, GREATEST.1 as u64)] {
        for number in [0, n + 1, n + 2, ABOVE, 256 + n, (1 << 32) + n, u64::MAX] {
            for (own, sender) in [(number, n), (n, number), (number, number)] {
                refused(file, seats(n, t, own, sender), b"ab", 3);
            }
            file.begins(seats(n, t, number, number), &long, 0, Answer::Refused(3));
            file.begins(seats(n, t, n, number), &long, 0, Answer::Refused(3));
        }
    }
}

/// Cause 4 is of the sender's own message alone, and comes before cause 9.
fn too_long(file: &mut File) {
    for (n, t) in [
        (1, 0),
        (2, 0),
        (3, 1),
        (GREATEST.0 as u64, GREATEST.1 as u64),
    ] {
        for length in [LONGEST_MESSAGE + 1, LONGEST_MESSAGE + 2] {
            let long = vec![7; length];
            refused(file, seats(n, t, n, n), &long, 4);
            if n > 1 {
                file.begins(seats(n, t, n, 1), &long, 0, Answer::Done(0));
                let packet = message_packet::write(&long);
                file.begins(seats(n, t, n, 1), &packet, 0, Answer::Done(0));
            }
        }
    }
    refused(file, seats(3, 1, 2, 2), &vec![7; FAR + 6], 4);
}

/// A sender alone writes no packet, and needs no room.
fn alone(file: &mut File) {
    let packet = [&[8][..], &lay_out(&[b"AB"])].concat();
    for message in [&b""[..], b"AB", &packet, &[9; LONGEST_MESSAGE]] {
        for room in [0, 4, 40] {
            file.begins(seats(1, 0, 1, 1), message, room, Answer::Done(0));
        }
    }
}
