//! The foreign implementation behind the calls of the library: answers, and states as bytes.

use cipangohu::{HASH, LAYOUT, MAX_MESSAGE, STATE};
use foreign::coder::{self, encode, rebuild};
use foreign::commitment::rebuild_with_root;
use foreign::limits::{LONGEST_STRING, MOST_HASHES};
use foreign::packet::{self, Reading};
use foreign::party::{Begun, Ending, Given, Outcome, Stage, State};
use foreign::{message_packet, sha256, tree};

use crate::call::{Answer, Call, Lent};

/// Where things stand in a state: behind the version of the layout n, t and the own number, the
/// stage, the lengths of the message and of the share, the session number, the map of those seen to
/// cheat, the root, the message and the share.
pub const AT_GROUP: usize = 1;
pub const AT_STAGE: usize = 4;
pub const AT_LENGTH: usize = 5;
pub const AT_HELD: usize = 7;
pub const AT_SESSION: usize = 9;
pub const AT_FAULTY: usize = AT_SESSION + 4;
pub const AT_ROOT: usize = AT_FAULTY + 4;
pub const AT_MESSAGE: usize = AT_ROOT + HASH;
pub const AT_SHARE: usize = AT_MESSAGE + MAX_MESSAGE;

fn accepted(value: usize) -> Answer {
    let value = u32::try_from(value).expect("a value of 32 bits");
    Answer { value, cause: 0 }
}

/// With cause 9 comes the length needed, with any other 0.
fn refused(cause: u32, needed: usize) -> Answer {
    let value = u32::try_from(needed).expect("a value of 32 bits");
    Answer { value, cause }
}

pub fn answer(call: &Call, lent: &mut Lent) -> Answer {
    let Lent { state, root, out } = lent;
    match call {
        Call::Open(session, group, message) => open(*session, *group, message, state, root),
        Call::OpenBySender(session, group, sender, bytes) => {
            open_by_sender(*session, *group, *sender, bytes, lent)
        }
        Call::AgreeRoot(root) => step(state, |s| s.agree_root(root), usize::from),
        Call::AgreeBit(bit) => {
            // A number that is no byte is no bit either.
            let bit = u8::try_from(*bit).unwrap_or(u8::MAX);
            step(state, |s| s.agree_bit(bit, out), |length| length)
        }
        Call::TakeShares(inbox) => step(state, |s| s.take_shares(inbox, out), |length| length),
        Call::TakeRelays(inbox) => step(state, |s| s.take_relays(inbox, out), ending),
        Call::ResultLength => told(state, |s| match s.stage {
            Stage::Ended(Outcome::Message(length)) => accepted(length as usize),
            _ => refused(6, 0),
        }),
        Call::Stage => told(state, |s| accepted(stage_number(s.stage).into())),
        Call::Own => told(state, |s| accepted(s.own as usize)),
        Call::Session => told(state, |s| accepted(s.session as usize)),
        Call::Faulty => told(state, |s| accepted(s.faulty as usize)),
        Call::ReadPacket(n, packet) => read(*n, packet),
        Call::ReadMessage(packet) => read_message(packet),
        Call::CheckPath(session, place, share, path, root) => {
            check(*session, *place, share, path, root)
        }
        Call::Shares((n, t), message) => coded(encode(*n, *t, message, out)),
        Call::Rebuild((n, t), entries) => coded(rebuild(*n, *t, entries, out)),
        Call::RebuildWithRoot(session, (n, t), root, entries) => {
            coded(rebuild_with_root(*session, *n, *t, root, entries, out))
        }
        Call::Hash(message) => hash(message, out),
    }
}

/// The value of step 5: bit 0 tells whether there is a message, bit p whether party p was seen to
/// cheat.
fn ending(Ending { length, faulty }: Ending) -> usize {
    2 * faulty as usize + usize::from(length.is_some())
}

/// The number at two bytes.
fn number(bytes: &[u8]) -> u64 {
    u64::from(bytes[0]) * 256 + u64::from(bytes[1])
}

/// The state in the bytes; none if they are too few, or the version or the stage is none.
pub fn decoded(bytes: &[u8]) -> Option<State> {
    let bytes = bytes.get(..STATE).filter(|bytes| bytes[0] == LAYOUT)?;
    let length = number(&bytes[AT_LENGTH..]);
    let (stage, len) = match bytes[AT_STAGE] {
        0 => (Stage::Root, length),
        1 => (Stage::Bit, length),
        2 => (Stage::First, length),
        3 => (Stage::Second, length),
        4 => (Stage::Ended(Outcome::Nothing), length),
        5 => (Stage::Ended(Outcome::Message(length)), 0),
        _ => return None,
    };
    let four = |at: usize| bytes[at..at + 4].try_into().expect("four bytes");
    Some(State {
        session: u32::from_be_bytes(four(AT_SESSION)),
        n: bytes[AT_GROUP].into(),
        t: bytes[AT_GROUP + 1].into(),
        own: bytes[AT_GROUP + 2].into(),
        stage,
        len,
        held: number(&bytes[AT_HELD..]),
        root: bytes[AT_ROOT..AT_MESSAGE].try_into().expect("a root"),
        message: bytes[AT_MESSAGE..AT_SHARE].try_into().expect("a message"),
        share: bytes[AT_SHARE..].try_into().expect("a share"),
        faulty: u32::from_be_bytes(four(AT_FAULTY)),
    })
}

fn stage_number(stage: Stage) -> u8 {
    match stage {
        Stage::Root => 0,
        Stage::Bit => 1,
        Stage::First => 2,
        Stage::Second => 3,
        Stage::Ended(Outcome::Nothing) => 4,
        Stage::Ended(Outcome::Message(_)) => 5,
    }
}

/// The bytes of a state within its limits.
pub fn encoded(state: &State) -> Vec<u8> {
    let length = match state.stage {
        Stage::Ended(Outcome::Nothing) => 0,
        Stage::Ended(Outcome::Message(length)) => length,
        _ => state.len,
    };
    let byte = |number: u64| u8::try_from(number).expect("a byte");
    let two = |number: u64| u16::try_from(number).expect("two bytes").to_be_bytes();
    let mut bytes = vec![LAYOUT, byte(state.n), byte(state.t), byte(state.own)];
    bytes.push(stage_number(state.stage));
    bytes.extend(two(length));
    bytes.extend(two(state.held));
    bytes.extend(state.session.to_be_bytes());
    bytes.extend(state.faulty.to_be_bytes());
    bytes.extend(state.root);
    bytes.extend(state.message);
    bytes.extend(state.share);
    bytes
}

/// The cause 9 of an opening's buffers for the state and the root, if one is too short.
fn short(state: &[u8], root: &[u8]) -> Option<Answer> {
    if state.len() < STATE {
        return Some(refused(9, STATE));
    }
    (root.len() < HASH).then(|| refused(9, HASH))
}

fn open(
    session: u32,
    (n, t, own): (usize, usize, usize),
    message: &[u8],
    state: &mut [u8],
    out: &mut [u8],
) -> Answer {
    let (opened, root) = State::open(session, n as u64, t as u64, own as u64, message);
    let root = match root {
        Ok(root) => root,
        Err(refusal) => return refused(refusal.cause, 0),
    };
    if let Some(short) = short(state, out) {
        return short;
    }
    state[..STATE].copy_from_slice(&encoded(&opened));
    out[..HASH].copy_from_slice(&root);
    accepted(HASH)
}

/// Causes 1 to 4, then those of the two buffers, then that of the packet's.
fn open_by_sender(
    session: u32,
    (n, t, own): (usize, usize, usize),
    sender: usize,
    bytes: &[u8],
    lent: &mut Lent,
) -> Answer {
    let Lent { state, root, out } = lent;
    let group = (n as u64, t as u64);
    let mut packet = out.clone();
    let (opened, begun) = State::open_by_sender(
        session,
        group,
        own as u64,
        sender as u64,
        bytes,
        &mut packet,
    );
    let lowest = begun.err().filter(|refusal| refusal.cause < 9);
    if let Some(refusal) = lowest {
        return refused(refusal.cause, 0);
    }
    if let Some(short) = short(state, root) {
        return short;
    }
    let Begun {
        root: hash,
        written,
    } = match begun {
        Ok(begun) => begun,
        Err(refusal) => return refused(refusal.cause, refusal.needed),
    };
    state[..STATE].copy_from_slice(&encoded(&opened));
    root[..HASH].copy_from_slice(&hash);
    *out = packet;
    accepted(written)
}

/// What is asked of a state, if the bytes are one.
fn told(state: &[u8], ask: impl FnOnce(State) -> Answer) -> Answer {
    match decoded(state).filter(State::is_lawful) {
        Some(state) => ask(state),
        None => refused(5, 0),
    }
}

fn step<T>(
    state: &mut [u8],
    call: impl FnOnce(State) -> Given<T>,
    value: impl FnOnce(T) -> usize,
) -> Answer {
    let Some(before) = decoded(state) else {
        return refused(5, 0);
    };
    let (after, answer) = call(before);
    match answer {
        Ok(given) => {
            state[..STATE].copy_from_slice(&encoded(&after));
            accepted(value(given))
        }
        Err(refusal) => refused(refusal.cause, refusal.needed),
    }
}

fn read(n: usize, packet: &[u8]) -> Answer {
    match packet::read(n, packet) {
        Reading::Refused(cause) => refused(cause, 0),
        Reading::Silence => accepted(0),
        Reading::Share {
            number,
            share,
            path,
        } => accepted((path.len() << 24) + (number << 16) + share.len()),
    }
}

/// A message has its length beside 2¹⁶, so that an empty one is not silence.
fn read_message(packet: &[u8]) -> Answer {
    match message_packet::read(packet) {
        message_packet::Reading::Refused(cause) => refused(cause, 0),
        message_packet::Reading::Silence => accepted(0),
        message_packet::Reading::Message(message) => accepted((1 << 16) + message.len()),
    }
}

/// A path that is not whole hashes, or more than any path has, has no right length.
fn check(session: u32, place: (usize, usize), share: &[u8], path: &[u8], root: &[u8]) -> Answer {
    let mut hashes = [[0; HASH]; MOST_HASHES];
    let whole = path.len().is_multiple_of(HASH) && path.len() <= HASH * MOST_HASHES;
    let count = if whole {
        path.len() / HASH
    } else {
        MOST_HASHES + 1
    };
    for (hash, bytes) in hashes.iter_mut().zip(path.chunks_exact(HASH)) {
        hash.copy_from_slice(bytes);
    }
    match tree::judge(session, place, share, &hashes, count, root) {
        Ok(yes) => accepted(yes.into()),
        Err(cause) => refused(cause, 0),
    }
}

fn coded(answer: coder::Answer) -> Answer {
    match answer {
        coder::Answer::Refused(cause) => refused(cause, 0),
        coder::Answer::Short(needed) => refused(9, needed),
        coder::Answer::Done(length) => accepted(length),
    }
}

fn hash(message: &[u8], out: &mut [u8]) -> Answer {
    if message.len() > LONGEST_STRING {
        return refused(4, 0);
    }
    if out.len() < HASH {
        return refused(9, HASH);
    }
    out[..HASH].copy_from_slice(&sha256::hash(message));
    accepted(HASH)
}
