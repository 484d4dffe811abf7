//! What a bad sender may hand to a party where a good one would hand the packet of its message.

use super::{flip, map_zero_more, Sharing};
use crate::limits::{LONGEST_MESSAGE, LONGEST_MESSAGE_PACKET};
use crate::message_packet::{write, HEADER, MAP};
use crate::random::Random;

/// One way to hand something out, right or wrong.
#[derive(Clone, Copy, Debug, PartialEq, Eq, PartialOrd, Ord)]
pub enum SenderLie {
    /// The packet of the first message, as a good sender would hand it to everybody.
    Honest,
    /// That of the second.
    OtherMessage,
    /// The receiver is not named in the plan.
    Unnamed,
    /// The receiver is named, with length 0.
    Empty,
    /// Map 0 alone.
    MapZero,
    /// Map 0 and bytes behind it.
    MapZeroMore,
    Noise,
    /// No more than a part of what stands before the message.
    Cut,
    ByteOver,
    ByteMissing,
    /// A length that the bytes behind it do not have.
    LengthField,
    /// A map in which not just a message's bit stands.
    FieldMap,
    /// A share of the first message, as it is sent in the exchanges.
    Share,
    /// A message longer than may be, in a packet that is right otherwise.
    LongMessage,
    /// More bytes than any packet of a message has.
    Huge,
}

impl SenderLie {
    /// Those that do not make a plan long.
    pub const SMALL: [SenderLie; 13] = [
        SenderLie::Honest,
        SenderLie::OtherMessage,
        SenderLie::Unnamed,
        SenderLie::Empty,
        SenderLie::MapZero,
        SenderLie::MapZeroMore,
        SenderLie::Noise,
        SenderLie::Cut,
        SenderLie::ByteOver,
        SenderLie::ByteMissing,
        SenderLie::LengthField,
        SenderLie::FieldMap,
        SenderLie::Share,
    ];

    /// The others.
    pub const LARGE: [SenderLie; 2] = [SenderLie::LongMessage, SenderLie::Huge];
}

/// What a bad sender hands out: two messages, and the shares of the first.
pub struct Offer {
    pub one: Vec<u8>,
    pub other: Vec<u8>,
    pub shares: Sharing,
}

impl Offer {
    /// What the lie hands to the receiver; none if that one is not named at all.
    pub fn told(&self, lie: SenderLie, receiver: usize, random: &mut Random) -> Option<Vec<u8>> {
        let good = write(&self.one);
        Some(match lie {
            SenderLie::Unnamed => return None,
            SenderLie::Empty => Vec::new(),
            SenderLie::Honest => good,
            SenderLie::OtherMessage => write(&self.other),
            SenderLie::MapZero => vec![0],
            SenderLie::MapZeroMore => map_zero_more(&good, random),
            SenderLie::Noise => noise(1 + random.below(90), random),
            SenderLie::Share => self.shares.packet(receiver),
            SenderLie::LongMessage => long(&self.one, random),
            SenderLie::Huge => huge(&good, random),
            SenderLie::Cut
            | SenderLie::ByteOver
            | SenderLie::ByteMissing
            | SenderLie::LengthField
            | SenderLie::FieldMap => bent(lie, good, random),
        })
    }
}

/// A good packet with a few bytes changed, or not all there.
fn bent(lie: SenderLie, mut packet: Vec<u8>, random: &mut Random) -> Vec<u8> {
    match lie {
        SenderLie::Cut => packet.truncate(1 + random.below(HEADER - 1)),
        SenderLie::ByteOver => packet.push(random.pick(&[0, 1, 8, 255])),
        SenderLie::ByteMissing => {
            packet.pop();
        }
        SenderLie::LengthField => {
            let length = u16::from_be_bytes([packet[1], packet[2]]);
            let over = LONGEST_MESSAGE as u16 + 1;
            let others = [0, 1, length + 1, length + 256, over, u16::MAX];
            let others = others.into_iter().chain(length.checked_sub(1));
            let others: Vec<u16> = others.filter(|other| *other != length).collect();
            packet[1..HEADER].copy_from_slice(&random.pick(&others).to_be_bytes());
        }
        _ => packet[0] = random.pick(&[0, 1, 4, 7, 9, 12, 15, 16, 24, 40, 72, 136, 255]),
    }
    packet
}

/// Random bytes, some of which start as a packet of a message does; none is one.
fn noise(length: usize, random: &mut Random) -> Vec<u8> {
    let mut bytes = random.bytes(length);
    bytes[0] = random.pick(&[MAP, bytes[0] | 1]);
    if let [MAP, high, ..] = &mut bytes[..] {
        *high |= 0x80;
    }
    bytes
}

/// The packet of a message that goes on behind the longest.
fn long(message: &[u8], random: &mut Random) -> Vec<u8> {
    let any = random.below(LONGEST_MESSAGE);
    let more = random.pick(&[1, 1, 2, 256, any + 1]);
    let mut message = message.to_vec();
    message.resize(LONGEST_MESSAGE + more, 0x42);
    write(&message)
}

/// More bytes than any packet of a message has, from nowhere or behind a good packet.
fn huge(good: &[u8], random: &mut Random) -> Vec<u8> {
    let length = LONGEST_MESSAGE_PACKET + 1 + random.below(LONGEST_MESSAGE);
    let mut bytes = match random.below(3) {
        0 => noise(length, random),
        1 => [good, &vec![0; length]].concat(),
        _ => write(&vec![0x42; length - HEADER]),
    };
    if random.once_in(4) {
        flip(&mut bytes[HEADER..], random);
    }
    bytes
}

#[cfg(test)]
mod tests {
    use super::*;
    use crate::liars::LONGEST_LIE;
    use crate::limits::MOST_PARTIES;
    use crate::message_packet::{read, Reading};

    fn offer(n: usize, lengths: [usize; 2], random: &mut Random) -> Offer {
        let [one, other] = lengths.map(|length| random.bytes(length));
        let shares = Sharing::of(0, n, (n - 1) / 2, &one);
        Offer { one, other, shares }
    }

    /// A message is read of the two honest packets alone, and three ways are silence.
    #[test]
    fn only_honest_packets_are_read() {
        let mut random = Random::new(3);
        let lengths = [0, 1, 2, 40, LONGEST_MESSAGE - 1, LONGEST_MESSAGE];
        for n in 1..=MOST_PARTIES {
            for length in lengths {
                let offer = offer(n, [length, 5], &mut random);
                for lie in SenderLie::SMALL.into_iter().chain(SenderLie::LARGE) {
                    let packet = offer.told(lie, n, &mut random).unwrap_or_default();
                    let expected = match lie {
                        SenderLie::Honest => Reading::Message(offer.one.clone()),
                        SenderLie::OtherMessage => Reading::Message(offer.other.clone()),
                        SenderLie::Unnamed | SenderLie::Empty | SenderLie::MapZero => {
                            Reading::Silence
                        }
                        _ => Reading::Refused(10),
                    };
                    assert_eq!(read(&packet), expected, "{lie:?}, {length} bytes");
                    assert!(packet.len() <= LONGEST_LIE);
                    if SenderLie::LARGE.contains(&lie) {
                        assert!(packet.len() > LONGEST_MESSAGE_PACKET);
                    }
                }
            }
        }
    }
}
