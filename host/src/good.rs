//! A good party's run: the five steps, with the host's part between them.

use std::io::{self, ErrorKind};
use std::thread;

use cipangohu::{lay_out, read_message, Cause, Hash, Party, Stage};
use cipangohu::{MAX_MESSAGE_PACKET, MAX_OUTBOX, MAX_PACKET};

use crate::agreement::Agreement;
use crate::clock::Clock;
use crate::links::{packets_in, Links};
use crate::options::{Duty, Options};
use crate::wire::{FIRST, SECOND, SENDERS};

/// A party that has ended, and how many bytes of packets it sent.
pub struct Report {
    pub party: Party,
    pub sent: usize,
    pub unread: Option<Unread>,
}

/// A sender of which a party read no message, so that it opened with the empty one, and whether bytes
/// came all the same.
pub struct Unread {
    pub sender: usize,
    pub came: bool,
}

/// Why a party did not get to its end.
pub enum Failure {
    Refused(Cause),
    Link(io::Error),
}

impl From<Cause> for Failure {
    fn from(cause: Cause) -> Failure {
        Failure::Refused(cause)
    }
}

impl From<io::Error> for Failure {
    fn from(error: io::Error) -> Failure {
        Failure::Link(error)
    }
}

/// A party that has opened, its root, and what it sent before as the sender.
struct Opened {
    party: Party,
    root: Hash,
    sent: usize,
    unread: Option<Unread>,
}

/// The agreement's value is neither a root nor a bit.
fn no_value() -> io::Error {
    io::Error::new(ErrorKind::InvalidData, "the agreement's value has no form")
}

fn root_of(value: &[u8]) -> io::Result<Hash> {
    value.try_into().map_err(|_| no_value())
}

fn bit_of(value: &[u8]) -> io::Result<bool> {
    match value {
        [bit @ (0 | 1)] => Ok(*bit == 1),
        _ => Err(no_value()),
    }
}

/// Sends too late where the clock is broken so.
fn delay(options: &Options, own: usize, exchange: usize) {
    if options.is_late(own, exchange) {
        thread::sleep(options.limit * 3);
    }
}

/// Step 1: with the own message, or by the sender that the party is told.
fn open(options: &Options, links: &mut Links) -> Result<Opened, Failure> {
    let own = links.own;
    match options.sender_told_to(own) {
        Some(sender) if sender == own => send(options, links),
        Some(sender) => receive(options, links, sender),
        None => {
            let (party, root) = open_alone(options, own)?;
            Ok(Opened {
                party,
                root,
                sent: 0,
                unread: None,
            })
        }
    }
}

/// Step 1 with the own message.
fn open_alone(options: &Options, own: usize) -> Result<(Party, Hash), Cause> {
    let (session, message) = (options.session_told_to(own), options.message_of(own));
    Party::open(session, options.parties, options.faults, own, message)
}

/// Step 1 of the sender, which gives its message to all others.
fn send(options: &Options, links: &mut Links) -> Result<Opened, Failure> {
    let (n, t, own) = (options.parties, options.faults, links.own);
    let (session, message) = (options.session_told_to(own), options.message_of(own));
    let mut packet = vec![0; MAX_MESSAGE_PACKET];
    let opened = Party::open_as_sender(session, n, t, own, message, &mut packet)?;
    let (party, root, length) = opened;
    packet.truncate(length);
    delay(options, own, SENDERS);
    links.send(SENDERS, &vec![packet; n]);
    Ok(Opened {
        party,
        root,
        sent: length * (n - 1),
        unread: None,
    })
}

/// Step 1 of any other party, which waits for the sender's packet and no longer than the limit. What
/// did not come in time, or cannot be read, opens it with the empty message.
fn receive(options: &Options, links: &Links, sender: usize) -> Result<Opened, Failure> {
    let (n, t, own) = (options.parties, options.faults, links.own);
    let clock = Clock::start(options.limit);
    let packet = links.hear(SENDERS, sender, clock.end_of(1));
    let unread = match read_message(&packet) {
        Ok(Some(_)) => None,
        read => Some(Unread {
            sender,
            came: read.is_err(),
        }),
    };
    let session = options.session_told_to(own);
    let (party, root) = Party::open_from_sender(session, n, t, own, sender, &packet)?;
    Ok(Opened {
        party,
        root,
        sent: 0,
        unread,
    })
}

/// Steps 2 and 3: the packets by receiver, and the clock that the agreed bit has started.
fn agree(
    options: &Options,
    party: &mut Party,
    root: &Hash,
    agreement: &mut Agreement,
) -> Result<(Vec<Vec<u8>>, Clock), Failure> {
    let root = root_of(&agreement.agree(0, root)?)?;
    let happy = party.agree_root(&root)?;
    let bit = bit_of(&agreement.agree(1, &[happy.into()])?)?;
    let clock = Clock::start(options.limit);
    let mut out = vec![0; MAX_OUTBOX];
    let length = party.agree_bit(bit, &mut out)?;
    Ok((packets_in(&out[..length]), clock))
}

/// All five steps.
pub fn run(
    options: &Options,
    links: &mut Links,
    agreement: &mut Agreement,
) -> Result<Report, Failure> {
    let own = links.own;
    let Opened {
        mut party,
        root,
        mut sent,
        unread,
    } = open(options, links)?;
    let (packets, clock) = agree(options, &mut party, &root, agreement)?;
    if party.stage() != Stage::EndedWithNothing {
        delay(options, own, FIRST);
        links.send(FIRST, &packets);
        let first = lay_out(&links.collect(FIRST, clock.end_of(FIRST)));

        if options.breaks(Duty::State) && options.good().next_back() == Some(own) {
            party = meddled(options, own)?;
        }
        let mut relay = vec![0; MAX_PACKET];
        let length = party.take_shares(&first, &mut relay)?;
        relay.truncate(length);
        links.send(SECOND, &vec![relay; options.parties]);
        let second = lay_out(&links.collect(SECOND, clock.end_of(SECOND)));

        sent += packets.iter().map(Vec::len).sum::<usize>() + length * (options.parties - 1);
        party.take_relays(&second)?;
    }
    Ok(Report {
        party,
        sent,
        unread,
    })
}

/// What somebody who should not puts in the place of a party's state: that of one whose own root
/// was agreed on. The party now takes itself for happy.
fn meddled(options: &Options, own: usize) -> Result<Party, Cause> {
    let (mut party, root) = open_alone(options, own)?;
    party.agree_root(&root)?;
    party.agree_bit(true, &mut [0; MAX_OUTBOX])?;
    Party::from_state(party.state())
}
