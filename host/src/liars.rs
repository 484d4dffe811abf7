//! What lying parties do, by name. A liar knows the whole sitting, and may see what good parties
//! send before it speaks itself.

use std::io::{self, Read};
use std::net::Shutdown;
use std::str::FromStr;
use std::time::Instant;

use cipangohu::{hash, lay_out, Cause, Hash, Party, HASH};
use cipangohu::{MAX_MESSAGE, MAX_MESSAGE_PACKET, MAX_OUTBOX, MAX_PACKET, MAX_SHARE};

use crate::agreement::Agreement;
use crate::clock::Clock;
use crate::links::{connect, packets_in, Links, PATIENCE};
use crate::options::{Options, USAGE};
use crate::roster::Roster;
use crate::wire::{self, Hello, AGREEMENTS, EXCHANGES, FIRST, SECOND, SENDERS};

#[derive(Clone, Copy, Debug, PartialEq, Eq)]
pub enum Lie {
    /// Never speaks to anybody.
    Silent,
    /// Random values and random bytes.
    Noise,
    /// Its good share to some, with a bit turned to others. As the sender two messages so, and to
    /// others nothing.
    Split,
    /// Insists on another message, whatever was agreed.
    OtherMessage,
    /// Plays another session: the same message under another number.
    OtherSession,
    /// Shares, and as the sender a message, that are a byte longer than any may be.
    TooLong,
    /// Sends on, as its own, what it heard from somebody else in the same exchange.
    Replay,
    /// Speaks first, and silence, under every other number.
    Forge,
}

const NAMES: [(&str, Lie); 8] = [
    ("silent", Lie::Silent),
    ("noise", Lie::Noise),
    ("split", Lie::Split),
    ("other-book", Lie::OtherMessage),
    ("other-sitting", Lie::OtherSession),
    ("too-long", Lie::TooLong),
    ("replay", Lie::Replay),
    ("forge", Lie::Forge),
];

impl Lie {
    pub fn name(self) -> &'static str {
        NAMES
            .iter()
            .find(|(_, lie)| *lie == self)
            .map_or("", |(name, _)| name)
    }
}

impl FromStr for Lie {
    type Err = String;

    fn from_str(text: &str) -> Result<Lie, String> {
        let named = NAMES.iter().find(|(name, _)| *name == text);
        named
            .map(|(_, lie)| *lie)
            .ok_or(format!("{text} is no lie\n{USAGE}"))
    }
}

/// What a good party would send for a message whose root was agreed, and before that as the sender.
struct Honest {
    root: Hash,
    whole: Vec<u8>,
    packets: Vec<Vec<u8>>,
    relay: Vec<u8>,
}

impl Honest {
    fn of(
        session: u32,
        parties: usize,
        faults: usize,
        own: usize,
        message: &[u8],
    ) -> Result<Honest, Cause> {
        let mut whole = vec![0; MAX_MESSAGE_PACKET];
        let opened = Party::open_as_sender(session, parties, faults, own, message, &mut whole)?;
        let (mut party, root, length) = opened;
        whole.truncate(length);
        party.agree_root(&root)?;
        let mut out = vec![0; MAX_OUTBOX];
        let length = party.agree_bit(true, &mut out)?;
        let packets = packets_in(&out[..length]);
        let length = party.take_shares(&lay_out(&vec![[]; parties]), &mut out)?;
        out.truncate(length);
        Ok(Honest {
            root,
            whole,
            packets,
            relay: out,
        })
    }

    /// Its packet in this exchange for the receiver at a place from 0.
    fn packet(&self, exchange: usize, place: usize) -> &[u8] {
        match exchange {
            SENDERS => &self.whole,
            FIRST => self.packets.get(place).map_or(&[], |packet| packet),
            _ => &self.relay,
        }
    }
}

/// A liar at work.
pub struct Liar {
    lie: Lie,
    own: usize,
    seed: u64,
    honest: Honest,
}

impl Liar {
    pub fn new(lie: Lie, own: usize, options: &Options) -> Result<Liar, Cause> {
        let message = options.message_of(own);
        let other = hash(message)?;
        let message = match lie {
            Lie::OtherMessage => &other[..],
            _ => message,
        };
        let session = match lie {
            Lie::OtherSession => options.other_session(),
            _ => options.session,
        };
        let honest = Honest::of(session, options.parties, options.faults, own, message)?;
        Ok(Liar {
            lie,
            own,
            seed: options.seed,
            honest,
        })
    }

    /// What it does before the sitting begins. A forger says silence in every exchange under every
    /// other number, with tokens that are guesses.
    pub fn prepare(&self, roster: &Roster) {
        if self.lie != Lie::Forge {
            return;
        }
        let others = || {
            (1..)
                .zip(&roster.peers)
                .filter(|(number, _)| *number != self.own)
        };
        for (receiver, peer) in others() {
            for (sender, _) in others().filter(|(sender, _)| *sender != receiver) {
                say_nothing(peer.port, sender).ok();
            }
        }
    }

    /// Takes part in both agreements and all exchanges, in a sender's also where it is not the sender.
    /// What fails for a liar is nobody's loss.
    pub fn run(&self, options: &Options, links: &mut Links, agreement: &mut Agreement) {
        if options.sender.is_some() {
            let clock = Clock::start(options.limit);
            self.speak(SENDERS, clock.middle_of(1), links);
        }
        for (round, value) in self.values().iter().enumerate() {
            agreement.agree(round, value).ok();
        }
        let clock = Clock::start(options.limit);
        for exchange in [FIRST, SECOND] {
            self.speak(exchange, clock.middle_of(exchange), links);
        }
    }

    /// Sends its packets of an exchange. Who sends on what others said listens until then.
    fn speak(&self, exchange: usize, until: Instant, links: &mut Links) {
        let heard = match self.lie {
            Lie::Replay => links.collect(exchange, until),
            _ => Vec::new(),
        };
        for place in 0..links.streams.len() {
            if let Some(packet) = self.packet(exchange, place, &heard) {
                links.send_to(place, exchange, &packet);
            }
        }
    }

    /// What it puts into the two agreements.
    fn values(&self) -> [Vec<u8>; AGREEMENTS] {
        match self.lie {
            Lie::Noise => [self.random(0, 0).to_vec(), vec![self.random(1, 0)[0] % 2]],
            _ => [self.honest.root.to_vec(), vec![1]],
        }
    }

    /// What it sends to the receiver at a place from 0; none where it lets the receiver wait.
    fn packet(&self, exchange: usize, place: usize, heard: &[Vec<u8>]) -> Option<Vec<u8>> {
        let honest = self.honest.packet(exchange, place);
        let chance = self.random(exchange, place + 1);
        Some(match self.lie {
            Lie::Silent | Lie::Forge => Vec::new(),
            Lie::Noise => noise(exchange, &chance),
            Lie::Split if exchange == SENDERS && chance[1].is_multiple_of(3) => return None,
            Lie::Split if chance[0].is_multiple_of(2) => turned(exchange, honest),
            Lie::Split | Lie::OtherMessage | Lie::OtherSession => honest.to_vec(),
            Lie::TooLong => too_long(exchange, place + 1, self.own),
            Lie::Replay => heard
                .iter()
                .rev()
                .find(|packet| !packet.is_empty())
                .cloned()
                .unwrap_or_default(),
        })
    }

    /// 32 bytes that depend on the seed, the liar, the exchange and one number more.
    fn random(&self, exchange: usize, number: usize) -> Hash {
        let words = [self.seed, self.own as u64, exchange as u64, number as u64];
        hash(&words.map(u64::to_be_bytes).concat()).unwrap_or_default()
    }
}

/// Says silence in every exchange under a sender's number. Whoever listens hangs up after the last
/// frame, or at once if the token is wrong; so with the answer all of it has been heard.
fn say_nothing(port: u16, sender: usize) -> io::Result<()> {
    let token = [0; 16];
    let mut stream = connect(port, &Hello { sender, token })?;
    (0..EXCHANGES).try_for_each(|exchange| wire::write_frame(&mut stream, exchange, &[]))?;
    stream.shutdown(Shutdown::Write)?;
    stream.set_read_timeout(Some(PATIENCE))?;
    stream.read(&mut [0]).map(drop)
}

/// The map that a packet of an exchange has, and where its share or its message begins.
fn form(exchange: usize) -> (u8, usize) {
    match exchange {
        SENDERS => (8, 3),
        _ => (7, 4),
    }
}

/// Fewer bytes than two of the longest packets, every other time starting as a packet does.
fn noise(exchange: usize, chance: &Hash) -> Vec<u8> {
    let length = usize::from(u16::from_be_bytes([chance[0], chance[3]])) % (2 * MAX_PACKET);
    let mut bytes = chance.repeat(1 + length / HASH);
    bytes[0] = if chance[1].is_multiple_of(2) {
        form(exchange).0
    } else {
        chance[2]
    };
    bytes.truncate(length);
    bytes
}

/// A packet with a bit of its share or its message turned.
fn turned(exchange: usize, packet: &[u8]) -> Vec<u8> {
    let mut packet = packet.to_vec();
    if let Some(byte) = packet.get_mut(form(exchange).1) {
        *byte ^= 1;
    }
    packet
}

/// A packet with a share or a message that is a byte too long. A share has the number that is due,
/// the receiver's or the own one.
fn too_long(exchange: usize, receiver: usize, own: usize) -> Vec<u8> {
    let (mut packet, longest) = match exchange {
        SENDERS => (vec![8], MAX_MESSAGE),
        FIRST => (vec![7, receiver as u8], MAX_SHARE),
        _ => (vec![7, own as u8], MAX_SHARE),
    };
    let length = longest + 1;
    packet.extend((length as u16).to_be_bytes());
    packet.resize(packet.len() + length, 7);
    packet
}

#[cfg(test)]
mod tests {
    use super::*;
    use std::collections::BTreeSet;

    use cipangohu::{check_path, read_message, read_packet};

    fn liar(lie: Lie, seed: u64) -> Liar {
        let line = format!("--sitting 7 --parties 5 --faults 2 --book 4142 --seed {seed}");
        let words: Vec<String> = line.split(' ').map(String::from).collect();
        Liar::new(lie, 5, &Options::parse(&words).unwrap()).unwrap()
    }

    /// What it sends where it sends something.
    fn said(liar: &Liar, exchange: usize, place: usize, heard: &[Vec<u8>]) -> Vec<u8> {
        let packet = liar.packet(exchange, place, heard);
        packet.expect("a packet")
    }

    #[test]
    fn names_are_read_back() {
        for (name, lie) in NAMES {
            assert_eq!((name.parse(), lie.name()), (Ok(lie), name));
        }
        assert!("".parse::<Lie>().is_err());
    }

    #[test]
    fn a_splitter_is_honest_to_some() {
        let honest = Honest::of(7, 5, 2, 5, b"AB").unwrap();
        let mut good = 0;
        for seed in 0..10 {
            let liar = liar(Lie::Split, seed);
            for (exchange, place) in [(FIRST, 0), (FIRST, 3), (SECOND, 0), (SECOND, 1)] {
                let packet = said(&liar, exchange, place, &[]);
                let right = honest.packet(exchange, place);
                assert!(packet == right || packet == turned(exchange, right));
                good += usize::from(packet == right);
            }
        }
        assert!((10..=30).contains(&good));
    }

    #[test]
    fn a_splitting_sender_has_two_messages_or_none() {
        let packet = |seed| liar(Lie::Split, seed).packet(SENDERS, 1, &[]);
        let packets: BTreeSet<Option<Vec<u8>>> = (0..20).map(packet).collect();
        let [one, other] = [b'A', b'A' ^ 1].map(|first| Some(vec![8, 0, 2, first, b'B']));
        assert!(packets.iter().eq(&[None, other, one]));
    }

    #[test]
    fn the_others_say_what_they_are_named_for() {
        let honest = Honest::of(7, 5, 2, 5, b"AB").unwrap();
        let other = liar(Lie::OtherMessage, 0);
        assert_ne!(other.values()[0], honest.root);
        assert_ne!(said(&other, FIRST, 0, &[]), honest.packets[0]);
        assert_ne!(said(&other, SENDERS, 0, &[]), honest.whole);
        let heard = [vec![], vec![8], vec![9], vec![]];
        assert_eq!(said(&liar(Lie::Replay, 0), FIRST, 0, &heard), [9]);
        assert_eq!(said(&liar(Lie::Silent, 0), SECOND, 0, &heard), []);
        for (exchange, map) in [(SENDERS, 8), (FIRST, 7)] {
            let noises: Vec<Vec<u8>> = (0..50)
                .map(|seed| said(&liar(Lie::Noise, seed), exchange, 0, &[]))
                .collect();
            assert!(noises.iter().any(|noise| noise.first() == Some(&map)));
            assert!(noises.iter().any(|noise| noise.len() > MAX_PACKET));
            assert!(noises.iter().all(|noise| noise.len() < 2 * MAX_PACKET));
        }
    }

    /// The same shares and the same whole message, but its paths lead to another root.
    #[test]
    fn packets_of_another_session() {
        let honest = Honest::of(7, 5, 2, 5, b"AB").unwrap();
        let other = liar(Lie::OtherSession, 0);
        assert_eq!(said(&other, SENDERS, 0, &[]), honest.whole);
        for exchange in [FIRST, SECOND] {
            let packet = said(&other, exchange, 0, &[]);
            let read = read_packet(5, &packet).unwrap().expect("a share");
            let right = read_packet(5, honest.packet(exchange, 0)).unwrap();
            assert_eq!(right.map(|it| it.share), Some(read.share));
            let passes = check_path(7, 5, read.number, read.share, read.path, &honest.root);
            assert_eq!(passes, Ok(false));
        }
    }

    /// They would be read if they were a byte shorter, but for the path of a share.
    #[test]
    fn too_long_by_a_byte() {
        let liar = liar(Lie::TooLong, 0);
        let long = said(&liar, SENDERS, 0, &[]);
        assert_eq!(long.len(), MAX_MESSAGE_PACKET + 1);
        assert_eq!(read_message(&long), Err(Cause::Packet));
        let [high, low] = (MAX_MESSAGE as u16).to_be_bytes();
        let longest = [&[8, high, low], &long[4..]].concat();
        assert_eq!(read_message(&longest), Ok(Some(&long[4..])));
        let share = said(&liar, FIRST, 2, &[]);
        assert_eq!(
            (share[..2].to_vec(), share.len()),
            (vec![7, 3], 5 + MAX_SHARE)
        );
        let relay = said(&liar, SECOND, 2, &[]);
        assert_eq!(relay[..2], [7, 5]);
    }
}
