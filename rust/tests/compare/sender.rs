//! Openings by a named sender, as the sender and from its packet, and such packets read.

use cipangohu::{
    calls, read_message, Cause, Party, HASH, MAX_ENTRY, MAX_MESSAGE, MAX_MESSAGE_PACKET,
    MAX_PARTIES, STATE,
};
use foreign::liars::{flip, Sharing};
use foreign::message_packet::{self, Reading};
use foreign::random::Random;
use foreign::sessions;

use crate::call::{Call, Lent};
use crate::made::{dirt, group, message, odd_group, put, room, ODD};
use crate::tally::{compare, Tally};
use crate::{stateless, times};

/// What comes from a sender: its packet, mostly; or one that was changed, cut or lengthened, has
/// another map or length or too long a message; a share's; silence; noise.
fn came(random: &mut Random) -> Vec<u8> {
    let message = message(random);
    let mut packet = message_packet::write(&message);
    match random.below(16) {
        0 => packet.clear(),
        1 => packet = vec![0],
        2 => flip(&mut packet, random),
        3 => packet.truncate(random.below(packet.len())),
        4 => packet.push(0),
        5 => packet[0] = random.pick(&[0, 7, 9, 15, 16, 24, 255]),
        6 => put(
            &mut packet,
            1,
            &(random.below(1 << 16) as u16).to_be_bytes(),
        ),
        7 => {
            let over = 1 + random.below(3);
            packet = message_packet::write(&random.bytes(MAX_MESSAGE + over));
        }
        8 => packet = Sharing::of(0, 3, 1, &message).packet(1),
        9 => {
            let length = random.pick(&[3, 40, MAX_MESSAGE_PACKET, MAX_ENTRY + 3]);
            packet = random.bytes(length);
        }
        _ => {}
    }
    packet
}

/// The message of a sender, now and then too long.
fn own_message(random: &mut Random) -> Vec<u8> {
    let mut message = message(random);
    if random.once_in(8) {
        message.resize(MAX_MESSAGE + 1 + random.below(3), 7);
    }
    message
}

/// n, t, the own number and the sender's, mostly lawful and often the same.
fn numbers(random: &mut Random) -> ((usize, usize, usize), usize) {
    let (n, t) = match random.once_in(6) {
        true => odd_group(random),
        false => group(random),
    };
    let number = |random: &mut Random| match random.once_in(12) {
        true => random.pick(&ODD),
        false => 1 + random.below(n.clamp(1, MAX_PARTIES)),
    };
    let own = number(random);
    let sender = match random.once_in(2) {
        true => own,
        false => number(random),
    };
    ((n, t, own), sender)
}

/// Every answer and byte is the foreign one's, and an accepted opening wrote the state and the root
/// of the ordinary one.
#[test]
fn openings_by_a_sender() {
    let (mut random, mut tally) = (Random::new(14), Tally::default());
    let (mut sent, mut received) = (0, 0);
    for _ in 0..times(8_000) {
        let (session, (group, sender)) = (sessions::some(&mut random), numbers(&mut random));
        let bytes = match group.2 == sender {
            true => own_message(&mut random),
            false => came(&mut random),
        };
        let [state, root, out] = [STATE, HASH, 3 + bytes.len()]
            .map(|needed| room(needed, &mut random))
            .map(|length| dirt(length, &mut random));
        let mut lent = Lent { state, root, out };
        let call = Call::OpenBySender(session, group, sender, bytes.clone());
        let answer = compare(&call, &mut lent, &mut tally);
        if answer.cause != 0 {
            continue;
        }
        let message = match message_packet::read(&bytes) {
            _ if group.2 == sender => bytes,
            Reading::Message(message) => message,
            _ => Vec::new(),
        };
        let (mut state, mut root) = ([0; STATE], [0; HASH]);
        let ordinary = calls::open(session, group, &message, &mut state, &mut root);
        assert_eq!(ordinary.cause, 0);
        assert!(lent.state[..STATE] == state && lent.root[..HASH] == root);
        sent += usize::from(answer.value > 0);
        received += usize::from(!message.is_empty() && group.2 != sender);
    }
    println!("by a sender: {sent} wrote a packet, {received} read a message");
    assert!(sent >= 100 && received >= 100);
    tally.expect("open_by_sender", &[0, 1, 2, 3, 4, 9]);
}

#[test]
fn packets_of_a_sender() {
    let (mut random, mut tally) = (Random::new(15), Tally::default());
    for _ in 0..times(4_000) {
        let packet = came(&mut random);
        let expected = match message_packet::read(&packet) {
            Reading::Refused(_) => Err(Cause::Packet),
            Reading::Silence => Ok(None),
            Reading::Message(message) => Ok(Some(message)),
        };
        assert_eq!(
            read_message(&packet).map(|it| it.map(<[u8]>::to_vec)),
            expected
        );
        stateless(&Call::ReadMessage(packet), &mut random, &mut tally);
    }
    tally.expect("read_message", &[0, 10]);
}

/// What a safe opening gives: the party and its root, or a cause.
type Opened = Result<(Party, [u8; HASH]), Cause>;

/// The opening from a packet is the ordinary one with what is read in it.
fn receives(session: u32, (n, t, own): (usize, usize, usize), sender: usize, packet: &[u8]) {
    let read = read_message(packet).ok().flatten().unwrap_or_default();
    let ordinary: Opened = Party::open(session, n, t, own, read);
    let lawful = sender != own && (1..=n).contains(&sender);
    let expected = ordinary.and_then(|opened| lawful.then_some(opened).ok_or(Cause::Number));
    let opened = Party::open_from_sender(session, n, t, own, sender, packet);
    assert_eq!(opened, expected);
}

/// A sender's packet opens every other party with its message.
fn sends(session: u32, (n, t, own): (usize, usize, usize), message: &[u8]) -> Result<usize, Cause> {
    let mut out = [0; MAX_MESSAGE_PACKET];
    let opened = Party::open_as_sender(session, n, t, own, message, &mut out);
    let ordinary: Opened = Party::open(session, n, t, own, message);
    let length = opened.as_ref().map_or(0, |it| it.2);
    assert_eq!(opened.map(|(party, root, _)| (party, root)), ordinary);
    let (_, root) = ordinary?;
    assert_eq!(length, if n > 1 { 3 + message.len() } else { 0 });
    if let Some(short) = length.checked_sub(1) {
        let refused = Party::open_as_sender(session, n, t, own, message, &mut out[..short]);
        assert_eq!(refused.err(), Some(Cause::Room { needed: length }));
    }
    for other in (1..=n).filter(|other| *other != own) {
        let (party, heard) = Party::open_from_sender(session, n, t, other, own, &out[..length])?;
        assert_eq!((party.session(), heard), (session, root));
    }
    Ok(length)
}

#[test]
fn safe_openings_by_a_sender() {
    let (mut random, mut lawful) = (Random::new(16), 0);
    for _ in 0..times(1_500) {
        let (session, (group, sender)) = (sessions::some(&mut random), numbers(&mut random));
        receives(session, group, sender, &came(&mut random));
        lawful += usize::from(sends(session, group, &own_message(&mut random)).is_ok());
    }
    println!("by a sender: {lawful} senders");
    assert!(lawful >= 100);
}
