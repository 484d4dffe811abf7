//! Packets with a whole message.
//!
//! - Message reads: the bytes. The answer: nothing for silence, done with the message's length.
//! - Message writes: the length of the buffer lent (2), the message. The answer, and the buffer, in
//!   which what is not written over is untouched.
//!
//! Buffers have at most [`MOST_ROOM`] bytes.

use super::{lent, Answer, Case, Kind, Part, FAR, UNTOUCHED};
use crate::coder::Answer as Written;
use crate::liars::Sharing;
use crate::limits::{INSIDE, LONGEST_MESSAGE, LONGEST_MESSAGE_PACKET, LONGEST_SHARE, MOST_PARTIES};
use crate::message_packet::{read, write, write_into, Reading, HEADER, MAP};
use crate::random::Random;

const SILENCE: Answer = Answer::Nothing;
const UNREADABLE: Answer = Answer::Refused(10);
const MOST_ROOM: usize = LONGEST_MESSAGE_PACKET + 100;

/// Lengths of messages, at the edges of what a byte and a packet hold.
const LENGTHS: [usize; 11] = [
    0,
    1,
    2,
    7,
    8,
    255,
    256,
    257,
    512,
    LONGEST_MESSAGE - 1,
    LONGEST_MESSAGE,
];

/// The cases so far, and the source of randomness.
struct File {
    out: Vec<Case>,
    random: Random,
}

impl File {
    /// Reads the bytes and writes that as a case; the answer is known beforehand.
    fn read(&mut self, bytes: &[u8], answer: Answer) {
        let found = match read(bytes) {
            Reading::Refused(cause) => Answer::Refused(cause),
            Reading::Silence => SILENCE,
            Reading::Message(message) => Answer::Done(message.len()),
        };
        assert_eq!(found, answer, "{bytes:?}");
        self.out.push(Case {
            kind: Kind::MessageReads,
            given: Part::new().bytes(bytes),
            expected: Part::new().answer(answer),
        });
    }

    /// Writes a packet, and that as a case; the answer is known beforehand.
    fn write(&mut self, message: &[u8], room: usize, answer: Written) {
        assert!(room <= MOST_ROOM);
        let mut out = vec![UNTOUCHED; room];
        let found = match write_into(message, &mut out) {
            Ok(length) => Written::Done(length),
            Err((9, needed)) => Written::Short(needed),
            Err((cause, _)) => Written::Refused(cause),
        };
        assert_eq!(found, answer, "{} bytes", message.len());
        self.out.push(Case {
            kind: Kind::MessageWrites,
            given: Part::new().two(room).bytes(message),
            expected: lent(answer, &out),
        });
    }

    /// A packet of a random message.
    fn packet(&mut self, length: usize) -> Vec<u8> {
        write(&self.random.bytes(length))
    }
}

/// Packets of messages of every kind of length, with a byte more and a byte less, and without their
/// first byte.
fn good_packets(file: &mut File) {
    for length in LENGTHS.into_iter().chain(INSIDE) {
        let packet = file.packet(length);
        file.read(&packet, Answer::Done(length));
        file.read(&packet[..packet.len() - 1], UNREADABLE);
        for more in [0, MAP, 255] {
            file.read(&[&packet[..], &[more]].concat(), UNREADABLE);
        }
        file.read(&packet[1..], UNREADABLE);
    }
}

/// Packets cut off at every byte, and each bit turned: a message stays readable, its map and its
/// length do not.
fn cuts_and_flips(file: &mut File) {
    file.read(b"", SILENCE);
    for length in [0, 1, 2, 9] {
        let packet = file.packet(length);
        for cut in 1..packet.len() {
            file.read(&packet[..cut], UNREADABLE);
        }
        for place in 0..8 * packet.len() {
            let mut bytes = packet.clone();
            bytes[place / 8] ^= 1 << (place % 8);
            let answer = match place / 8 {
                0..HEADER => UNREADABLE,
                _ => Answer::Done(length),
            };
            file.read(&bytes, answer);
        }
    }
}

/// Every map alone, and in front of what follows a good one; map 0 is silence when alone only.
fn maps(file: &mut File) {
    for length in [0, 1, 5] {
        let packet = file.packet(length);
        for map in 0..=255 {
            let answer = match map {
                MAP => Answer::Done(length),
                _ => UNREADABLE,
            };
            file.read(&[&[map], &packet[1..]].concat(), answer);
        }
        file.read(&[&[0], &packet[..]].concat(), UNREADABLE);
    }
    for map in 0..=255 {
        file.read(&[map], if map == 0 { SILENCE } else { UNREADABLE });
    }
    for next in [0, 1, MAP, 255] {
        file.read(&[0, next], UNREADABLE);
    }
}

/// Stated lengths that are not the message's, or that no message may have; some lead back to the
/// packet's end if a sum wraps at two to the 16.
fn stated_lengths(file: &mut File) {
    let over = LONGEST_MESSAGE as u16 + 1;
    for length in [0, 1, 2, 4, 260] {
        let packet = file.packet(length);
        let (right, swapped) = (length as u16, (length as u16).swap_bytes());
        let near = [0, 1, 2, 3, right + 1, right + 3, right + 256, swapped];
        let far = [over - 1, over, 1 << 15, (1 << 15) + right, 0xFFFC, 0xFFFD];
        for stated in near.into_iter().chain(far).chain([0xFFFE, 0xFFFF]) {
            if stated != right {
                let mut bytes = packet.clone();
                bytes[1..HEADER].copy_from_slice(&stated.to_be_bytes());
                file.read(&bytes, UNREADABLE);
            }
        }
    }
    for length in [LONGEST_MESSAGE + 1, LONGEST_SHARE, 1 << 12, FAR] {
        file.read(&write(&vec![7; length]), UNREADABLE);
    }
    for length in [0, 2, LONGEST_MESSAGE] {
        let packet = file.packet(length);
        file.read(&[&packet[..], &vec![0; FAR + 1]].concat(), UNREADABLE);
    }
}

/// Packets of shares, also under this packet's map, and noise behind it.
fn other_packets(file: &mut File) {
    for n in 1..=MOST_PARTIES {
        let message = file.random.bytes(n);
        let mut packet = Sharing::of(0, n, (n - 1) / 2, &message).packet(n);
        file.read(&packet, UNREADABLE);
        packet[0] = MAP;
        file.read(&packet, UNREADABLE);
    }
    for length in 1..200 {
        let mut bytes = file.random.bytes(length + HEADER);
        bytes[0] = MAP;
        let stated = usize::from(u16::from_be_bytes([bytes[1], bytes[2]]));
        if stated != length {
            file.read(&bytes, UNREADABLE);
        }
    }
}

/// Every kind of length in buffers that are short, exact and longer; and messages that are too long,
/// in buffers that are too short at once or not. The longest have short lengths if these wrap at two
/// to the 16.
fn written(file: &mut File) {
    for length in LENGTHS.into_iter().chain(INSIDE) {
        let message = file.random.bytes(length);
        let needed = HEADER + length;
        for room in [0, HEADER - 1, needed - 1] {
            file.write(&message, room, Written::Short(needed));
        }
        for more in [0, 1, 100] {
            file.write(&message, needed + more, Written::Done(needed));
        }
    }
    for length in [LONGEST_MESSAGE + 1, LONGEST_SHARE] {
        for room in [0, 8, LONGEST_MESSAGE_PACKET, MOST_ROOM] {
            file.write(&vec![7; length], room, Written::Refused(4));
        }
    }
    for length in [FAR + 1, FAR + 6] {
        file.write(&vec![7; length], 8, Written::Refused(4));
    }
}

pub fn cases() -> Vec<Case> {
    let mut file = File {
        out: Vec::new(),
        random: Random::new(8),
    };
    good_packets(&mut file);
    cuts_and_flips(&mut file);
    maps(&mut file);
    stated_lengths(&mut file);
    other_packets(&mut file);
    written(&mut file);
    file.out
}
