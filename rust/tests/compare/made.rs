//! Random arguments: groups, messages, inboxes with good and bad packets, states with bytes
//! changed.

use cipangohu::{lay_out, LAYOUT, MAX_MESSAGE, MAX_PARTIES, MAX_SHARE, STATE};
use foreign::liars::{Lie, Scene, Sharing, Way};
use foreign::limits::INSIDE;
use foreign::random::Random;
use foreign::sessions;

use crate::reference::{
    AT_FAULTY, AT_GROUP, AT_HELD, AT_LENGTH, AT_ROOT, AT_SESSION, AT_SHARE, AT_STAGE,
};

/// A number that no group has.
pub const ODD: [usize; 8] = [
    0,
    MAX_PARTIES + 1,
    MAX_PARTIES + 2,
    255,
    256,
    1 << 32,
    1 << 63,
    usize::MAX,
];

/// n and t that keep to the limits.
pub fn group(random: &mut Random) -> (usize, usize) {
    let n = 1 + random.below(MAX_PARTIES);
    (n, random.below(n.div_ceil(2)))
}

/// n and t that break a limit, mostly.
pub fn odd_group(random: &mut Random) -> (usize, usize) {
    let (n, t) = group(random);
    match random.below(3) {
        0 => (random.pick(&ODD), t),
        1 => (n, n.div_ceil(2) + random.below(3)),
        _ => (n, random.pick(&ODD)),
    }
}

/// A message; mostly a short one, else of any length or of one at an edge.
pub fn message(random: &mut Random) -> Vec<u8> {
    let length = match random.below(16) {
        0 | 1 => 0,
        2 | 3 => random.below(MAX_MESSAGE + 1),
        4 => MAX_MESSAGE - random.below(3),
        5 => random.pick(&INSIDE),
        _ => random.below(24),
    };
    random.bytes(length)
}

/// Shares under one root of a session: of a message; such as no message has, though some of them give one; or of a
/// frame that holds none, which may give shares as long as a packet may have.
fn sharing(session: u32, n: usize, t: usize, random: &mut Random) -> Sharing {
    match random.below(6) {
        0 => {}
        1 if t > 0 => return Sharing::no_codeword(session, n, t, random),
        _ => return Sharing::of(session, n, t, &message(random)),
    }
    let size = match random.below(8) {
        0 => 1 + random.below(MAX_SHARE),
        1 => MAX_SHARE,
        _ => 1 + random.below(4),
    };
    Sharing::of_frame(session, n, t, &random.bytes((n - t) * size))
}

/// What the packets of a list of calls are about; the agreed root is now and then of another session.
pub struct Play {
    pub session: u32,
    pub group: (usize, usize, usize),
    pub message: Vec<u8>,
    pub scene: Scene,
}

impl Play {
    pub fn new(random: &mut Random) -> Play {
        let (session, (n, t)) = (sessions::some(random), group(random));
        let message = message(random);
        let agreed = match random.below(12) {
            0..4 => Sharing::of(session, n, t, &message),
            4 => Sharing::of(sessions::another(session, random), n, t, &message),
            _ => sharing(session, n, t, random),
        };
        let other = sharing(session, n, t, random);
        Play {
            session,
            group: (n, t, 1 + random.below(n)),
            message,
            scene: Scene { agreed, other },
        }
    }

    /// What one sender puts into the inbox of exchange 0 or 1. A party alone hears noise.
    fn packet(&self, exchange: usize, sender: usize, honest: bool, random: &mut Random) -> Vec<u8> {
        let (n, _, own) = self.group;
        let lie = match honest {
            true => Lie::Honest,
            false => random.pick(&Lie::SMALL),
        };
        if n == 1 {
            let length = random.below(9);
            return random.bytes(length);
        }
        let told = self
            .scene
            .told(lie, Way::new(exchange, sender, own), random);
        told.unwrap_or_default()
    }

    /// An inbox, now and then with its layout damaged.
    pub fn inbox(&self, exchange: usize, random: &mut Random) -> Vec<u8> {
        let honest = random.below(5);
        let packets: Vec<Vec<u8>> = (1..=self.group.0)
            .map(|sender| {
                let honest = random.below(4) < honest;
                self.packet(exchange, sender, honest, random)
            })
            .collect();
        let mut bytes = lay_out(&packets);
        if random.once_in(8) {
            let length = random.below(bytes.len() + 2);
            bytes.resize(length, 0);
        }
        bytes
    }

    /// What may be handed in as an inbox where none is looked at: one, none, one that is cut or has
    /// bytes over, noise.
    pub fn any_inbox(&self, exchange: usize, random: &mut Random) -> Vec<u8> {
        let mut bytes = self.inbox(exchange, random);
        match random.below(5) {
            0 => bytes.clear(),
            1 => bytes.truncate(random.below(bytes.len() + 1)),
            2 => bytes.extend([0; 3]),
            3 => bytes = random.bytes(40),
            _ => {}
        }
        bytes
    }
}

/// Bytes for a buffer of this length, none of them a zero that nobody would miss.
pub fn dirt(length: usize, random: &mut Random) -> Vec<u8> {
    let mut bytes = random.bytes(length);
    bytes.iter_mut().for_each(|byte| *byte |= 1);
    bytes
}

/// A length for a buffer that needs `needed` bytes: exact, short or long.
pub fn room(needed: usize, random: &mut Random) -> usize {
    match random.below(6) {
        0 => needed.saturating_sub(1),
        1 => random.below(needed + 1),
        2 => needed + 1,
        3 => needed + random.below(70),
        _ => needed,
    }
}

/// Changes a state in one way that its holder should not.
pub fn spoil(state: &mut Vec<u8>, play: &Play, random: &mut Random) {
    match random.below(16) {
        0 => {
            let length = STATE - 1 - random.below(STATE);
            state.truncate(length);
        }
        1 => {
            let more = 1 + random.below(64);
            state.extend(random.bytes(more));
        }
        2 => *state = dirt(state.len(), random),
        _ if state.len() < STATE => state.resize(STATE, 0),
        3 => state[AT_GROUP + random.below(3)] = random.pick(&[0, 1, 2, 3, MOST, MOST + 1, 255]),
        4 | 5 => {
            state[AT_STAGE] = random.pick(&[0, 1, 2, 3, 2, 3, 4, 5, 6, 255]);
            if random.once_in(3) {
                other_length(state, MESSAGE_LENGTH, random);
            }
        }
        6 => other_length(state, MESSAGE_LENGTH, random),
        7 => other_length(state, SHARE_LENGTH, random),
        8 => put(state, AT_ROOT, &play.scene.agreed.root),
        9 => hold(state, play),
        10 => past_lengths(state, random),
        11 => state[0] = random.pick(&[0, LAYOUT - 1, LAYOUT, LAYOUT + 1, 255]),
        12 => put(state, AT_SESSION, &sessions::some(random).to_be_bytes()),
        13 | 14 => {
            let group = [state[AT_GROUP], state[AT_GROUP + 2]].map(usize::from);
            put(state, AT_FAULTY, &map(group, random).to_be_bytes());
        }
        _ => {
            let place = random.below(state.len());
            state[place] ^= 1 << random.below(8);
        }
    }
}

/// All others of a party of n, as a map; whatever the numbers are, it is one.
pub fn others([n, own]: [usize; 2]) -> u32 {
    let in_map = |party: &usize| *party != own;
    (1..=n.min(32)).filter(in_map).map(bit).sum()
}

/// What a party counts in a map.
pub fn bit(party: usize) -> u32 {
    1 << (party - 1)
}

/// A map of parties: some others of a party of n, mostly; or beside them the own one, the next above
/// n, or any bit; or any number.
pub fn map(group: [usize; 2], random: &mut Random) -> u32 {
    let any = random.word() as u32;
    let some = others(group) & any;
    let [n, own] = group;
    match random.below(8) {
        0 => some | bit(own.clamp(1, 32)),
        1 => some | bit((n + 1).min(32)),
        2 => some | bit(1 + random.below(32)),
        3 => any,
        4 => others(group),
        _ => some,
    }
}

pub fn put(state: &mut [u8], at: usize, bytes: &[u8]) {
    state[at..at + bytes.len()].copy_from_slice(bytes);
}

const MOST: u8 = MAX_PARTIES as u8;

/// Where a length stands in a state, and its limit.
const MESSAGE_LENGTH: (usize, u16) = (AT_LENGTH, MAX_MESSAGE as u16);
const SHARE_LENGTH: (usize, u16) = (AT_HELD, MAX_SHARE as u16);

fn other_length(state: &mut [u8], (at, limit): (usize, u16), random: &mut Random) {
    let lengths = [0, 1, 2, 24, limit - 1, limit, limit + 1, u16::MAX];
    put(state, at, &random.pick(&lengths).to_be_bytes());
}

/// Puts the share that the party should have been sent into its state.
pub fn hold(state: &mut [u8], play: &Play) {
    let share = &play.scene.agreed.shares[play.group.2 - 1];
    put(state, AT_HELD, &(share.len() as u16).to_be_bytes());
    put(state, AT_SHARE, share);
}

/// Dirt where a state given back has zeros.
fn past_lengths(state: &mut [u8], random: &mut Random) {
    for end in [AT_SHARE, STATE] {
        let length = 1 + random.below(200);
        put(state, end - length, &dirt(length, random));
    }
}
