//! What a bad party may send where a good one would send a packet: the packet itself,
//! something close to it, or something else altogether.

pub mod senders;

use crate::coder::{frame_of, shares_of};
use crate::limits::{LONGEST_PACKET, LONGEST_SHARE, MOST_PARTIES};
use crate::message_packet;
use crate::packet::write;
use crate::random::Random;
use crate::sessions;
use crate::sha256::Hash;
use crate::tree;

/// One way to send, right or wrong. The demanded number is the receiver's in the first
/// exchange and the sender's in the second.
#[derive(Clone, Copy, Debug, PartialEq, Eq, PartialOrd, Ord)]
pub enum Lie {
    /// The very packet that a good party would send.
    Honest,
    /// The receiver is not named in the plan.
    Unnamed,
    /// The receiver is named, with length 0.
    Empty,
    /// Map 0 alone.
    MapZero,
    /// Map 0 and bytes behind it.
    MapZeroMore,
    Noise,
    /// The demanded number's packet of another message.
    OtherMessage,
    /// The whole packet of another number: a packet for somebody else, or his relay again.
    Replay,
    /// As Replay, with the number of the one of sender and receiver that is not demanded.
    Crossed,
    /// The right share and path under another number.
    Renumbered,
    /// Number and path as they should be, with another number's share.
    OthersShare,
    ShareBit,
    ShareShorter,
    ShareLonger,
    PathBit,
    PathReversed,
    /// The right share with the path of the same number in another message's tree.
    OthersPath,
    PathShort,
    PathLong,
    ByteOver,
    ByteMissing,
    /// A share length that the bytes behind it do not have.
    LengthField,
    /// A map in which not just the three bits stand.
    FieldMap,
    /// A number that is not a party's.
    NumberOutside,
    /// A packet of a whole message, which only a sender's exchange has; the message is the share.
    WholeMessage,
    /// The demanded number's packet of the same message as another session has it.
    OtherSession,
    /// More bytes than any packet has.
    Huge,
}

impl Lie {
    /// Every lie but the huge one, which would make most plans long.
    pub const SMALL: [Lie; 26] = [
        Lie::Honest,
        Lie::Unnamed,
        Lie::Empty,
        Lie::MapZero,
        Lie::MapZeroMore,
        Lie::Noise,
        Lie::OtherMessage,
        Lie::Replay,
        Lie::Crossed,
        Lie::Renumbered,
        Lie::OthersShare,
        Lie::ShareBit,
        Lie::ShareShorter,
        Lie::ShareLonger,
        Lie::PathBit,
        Lie::PathReversed,
        Lie::OthersPath,
        Lie::PathShort,
        Lie::PathLong,
        Lie::ByteOver,
        Lie::ByteMissing,
        Lie::LengthField,
        Lie::FieldMap,
        Lie::NumberOutside,
        Lie::WholeMessage,
        Lie::OtherSession,
    ];
}

/// No lie has more bytes: a huge one may stand behind a good packet.
pub const LONGEST_LIE: usize = 3 * LONGEST_PACKET;

/// The shares of a message, of any frame or of none, and the root over them in a session.
pub struct Sharing {
    pub session: u32,
    pub shares: Vec<Vec<u8>>,
    pub root: Hash,
}

impl Sharing {
    pub fn of(session: u32, n: usize, t: usize, message: &[u8]) -> Sharing {
        Sharing::of_frame(session, n, t, &frame_of(n - t, message))
    }

    pub fn of_frame(session: u32, n: usize, t: usize, frame: &[u8]) -> Sharing {
        Sharing::over(session, shares_of(n, n - t, frame))
    }

    pub fn over(session: u32, shares: Vec<Vec<u8>>) -> Sharing {
        let root = tree::root(session, &shares);
        Sharing {
            session,
            shares,
            root,
        }
    }

    /// Shares that no message has, though any b of them give one: of a message's shares one to t
    /// have their last byte changed, where the frame holds neither its length nor filling. t is
    /// over 0.
    pub fn no_codeword(session: u32, n: usize, t: usize, random: &mut Random) -> Sharing {
        let s = 3 + random.below(4);
        let mut shares = Sharing::of(session, n, t, &random.bytes((n - t) * s - 2)).shares;
        let count = 1 + random.below(t);
        let changed = random.choice(n, count);
        for place in (0..n).filter(|place| changed >> place & 1 == 1) {
            shares[place][s - 1] ^= 1 + random.below(255) as u8;
        }
        Sharing::over(session, shares)
    }

    /// The same shares in another session.
    pub fn in_session(&self, session: u32) -> Sharing {
        Sharing::over(session, self.shares.clone())
    }

    fn share(&self, j: usize) -> &[u8] {
        &self.shares[j - 1]
    }

    fn path(&self, j: usize) -> Vec<Hash> {
        tree::path(self.session, &self.shares, j)
    }

    pub fn packet(&self, j: usize) -> Vec<u8> {
        write(j, self.share(j), &self.path(j))
    }
}

/// Who sends to whom, and the number that the receiver demands.
#[derive(Clone, Copy)]
pub struct Way {
    pub sender: usize,
    pub receiver: usize,
    pub demanded: usize,
}

impl Way {
    /// From sender to receiver in exchange 0, the first, or 1, the second.
    pub fn new(exchange: usize, sender: usize, receiver: usize) -> Way {
        Way {
            sender,
            receiver,
            demanded: [receiver, sender][exchange],
        }
    }
}

/// The shares that the session is about, and those of another message. There are at least
/// two parties, or nobody would send.
pub struct Scene {
    pub agreed: Sharing,
    pub other: Sharing,
}

impl Scene {
    fn n(&self) -> usize {
        self.agreed.shares.len()
    }

    /// A party number other than j.
    fn another(&self, j: usize, random: &mut Random) -> usize {
        let step = 1 + random.below(self.n() - 1);
        (j - 1 + step) % self.n() + 1
    }

    /// What the lie puts on the way; none if the receiver is not named at all.
    pub fn told(&self, lie: Lie, way: Way, random: &mut Random) -> Option<Vec<u8>> {
        let (agreed, j) = (&self.agreed, way.demanded);
        Some(match lie {
            Lie::Unnamed => return None,
            Lie::Empty => Vec::new(),
            Lie::MapZero => vec![0],
            Lie::MapZeroMore => map_zero_more(&agreed.packet(j), random),
            Lie::Noise => noise(1 + random.below(90), random),
            Lie::Huge => huge(&agreed.packet(j), random),
            Lie::Honest => agreed.packet(j),
            Lie::OtherMessage => self.other.packet(j),
            Lie::WholeMessage => message_packet::write(agreed.share(j)),
            Lie::OtherSession => {
                let session = sessions::another(agreed.session, random);
                agreed.in_session(session).packet(j)
            }
            Lie::Replay => agreed.packet(self.another(j, random)),
            Lie::Crossed => agreed.packet(way.sender + way.receiver - j),
            Lie::Renumbered | Lie::OthersShare | Lie::OthersPath => self.mixed(lie, j, random),
            Lie::ShareBit | Lie::ShareShorter | Lie::ShareLonger => write(
                j,
                &bent_share(lie, agreed.share(j), random),
                &agreed.path(j),
            ),
            Lie::PathBit | Lie::PathReversed | Lie::PathShort | Lie::PathLong => {
                write(j, agreed.share(j), &bent_path(lie, agreed.path(j), random))
            }
            Lie::ByteOver
            | Lie::ByteMissing
            | Lie::LengthField
            | Lie::FieldMap
            | Lie::NumberOutside => self.bent(lie, agreed.packet(j), random),
        })
    }

    /// A packet whose parts belong to two numbers or two messages.
    fn mixed(&self, lie: Lie, j: usize, random: &mut Random) -> Vec<u8> {
        let agreed = &self.agreed;
        let other = self.another(j, random);
        match lie {
            Lie::Renumbered => write(other, agreed.share(j), &agreed.path(j)),
            Lie::OthersShare => write(j, agreed.share(other), &agreed.path(j)),
            _ => write(j, agreed.share(j), &self.other.path(j)),
        }
    }

    /// A good packet with a few bytes changed.
    fn bent(&self, lie: Lie, mut packet: Vec<u8>, random: &mut Random) -> Vec<u8> {
        match lie {
            Lie::ByteOver => packet.push(random.pick(&[0, 1, 7, 255])),
            Lie::ByteMissing => {
                packet.pop();
            }
            Lie::LengthField => {
                let length = u16::from_be_bytes([packet[2], packet[3]]);
                let over = LONGEST_SHARE as u16 + 1;
                let lengths = [0, length - 1, length + 1, length + 32, over, u16::MAX];
                packet[2..4].copy_from_slice(&random.pick(&lengths).to_be_bytes());
            }
            Lie::FieldMap => packet[0] = random.pick(&[0, 1, 3, 5, 6, 8, 15, 135, 255]),
            _ => packet[1] = random.pick(&[0, self.n() as u8 + 1, MOST_PARTIES as u8 + 1, 255]),
        }
        packet
    }
}

/// A map 0 is silence only if nothing stands behind it.
fn map_zero_more(good: &[u8], random: &mut Random) -> Vec<u8> {
    match random.below(3) {
        0 => vec![0, 0],
        1 => [&[0], good].concat(),
        _ => [&[0], &good[1..]].concat(),
    }
}

/// Random bytes, some of which start as a packet does.
fn noise(length: usize, random: &mut Random) -> Vec<u8> {
    let mut bytes = random.bytes(length);
    if random.once_in(2) {
        bytes[0] = 7;
    }
    bytes
}

/// More bytes than any packet has, from nowhere or behind a good packet.
fn huge(good: &[u8], random: &mut Random) -> Vec<u8> {
    let length = LONGEST_PACKET + 1 + random.below(LONGEST_PACKET);
    match random.below(3) {
        0 => noise(length, random),
        1 => [good, &vec![0; length]].concat(),
        _ => [&[7, good[1], 0xFF, 0xFF], &random.bytes(length)[..]].concat(),
    }
}

fn bent_share(lie: Lie, good: &[u8], random: &mut Random) -> Vec<u8> {
    let mut share = good.to_vec();
    match lie {
        Lie::ShareShorter => {
            share.pop();
        }
        Lie::ShareLonger => share.push(0),
        _ => flip(&mut share, random),
    }
    share
}

fn bent_path(lie: Lie, mut path: Vec<Hash>, random: &mut Random) -> Vec<Hash> {
    match lie {
        Lie::PathShort => {
            path.remove(random.below(path.len()));
        }
        Lie::PathLong => path.push([0; 32]),
        // A path of one hash is its own reverse, so that a bit is turned there.
        Lie::PathReversed if path.len() > 1 => path.reverse(),
        _ => {
            let place = random.below(path.len());
            flip(&mut path[place], random);
        }
    }
    path
}

/// Turns one bit of some bytes.
pub fn flip(bytes: &mut [u8], random: &mut Random) {
    let place = random.below(bytes.len());
    bytes[place] ^= 1 << random.below(8);
}

#[cfg(test)]
mod tests {
    use super::*;
    use crate::coder::find_message;
    use crate::commitment;
    use crate::inbox::lay_out;
    use crate::packet::{classify, Standing};

    /// Whether what came this way is taken as a valid share.
    fn taken(scene: &Scene, way: Way, packet: &[u8]) -> bool {
        let Sharing { session, root, .. } = scene.agreed;
        let standing = classify(session, scene.n(), way.demanded, root, packet);
        matches!(standing, Ok(Standing::Valid(_)))
    }

    #[test]
    fn only_the_honest_packet_is_taken() {
        let mut random = Random::new(1);
        for n in 2..=MOST_PARTIES {
            let (session, t) = (sessions::EDGES[n % 5], (n - 1) / 2);
            let agreed = Sharing::of(session, n, t, &random.bytes(3 * n));
            let other = Sharing::of(session, n, t, &random.bytes(3 * n));
            let scene = Scene { agreed, other };
            for lie in Lie::SMALL.into_iter().chain([Lie::Huge]) {
                for (sender, receiver) in [(1, 2), (2, 1), (n, 1), (1, n)] {
                    for exchange in [0, 1] {
                        let way = Way::new(exchange, sender, receiver);
                        let packet = scene.told(lie, way, &mut random).unwrap_or_default();
                        assert_eq!(
                            taken(&scene, way, &packet),
                            lie == Lie::Honest,
                            "{lie:?}, n {n}"
                        );
                        assert!(packet.len() <= LONGEST_LIE);
                        assert_eq!(packet.len() > LONGEST_PACKET, lie == Lie::Huge);
                    }
                }
            }
        }
    }

    #[test]
    fn any_b_shares_of_no_codeword_give_a_message_with_another_root() {
        let mut random = Random::new(2);
        for (n, t) in [(3, 1), (4, 1), (5, 2), (7, 3), (9, 4), (12, 1)] {
            let sharing = Sharing::no_codeword(0, n, t, &mut random);
            for map in (0..1u32 << n).filter(|map| map.count_ones() as usize == n - t) {
                let kept = (0..n).map(|place| match map >> place & 1 {
                    1 => &sharing.shares[place][..],
                    _ => &[],
                });
                let message = find_message(n, t, &lay_out(&kept.collect::<Vec<_>>()));
                let message = message.expect("a message");
                assert_ne!(commitment::root(0, n, t, &message), sharing.root);
            }
        }
    }
}
