//! A whole session of good parties, and its moments: the states and inboxes from which single steps
//! are measured.

use cipangohu::{entries, lay_out, Hash, MAX_MESSAGE, MAX_OUTBOX, MAX_PACKET, MAX_PARTIES};
use foreign::limits::INSIDE;
use foreign::random::Random;

use crate::party::Party;

/// Who sits together: all n are good, and the last `unhappy` of them hold another message than the
/// first, whose root is agreed on. So is bit 1.
#[derive(Clone, Copy)]
pub struct Setting {
    pub session: u32,
    pub n: usize,
    pub t: usize,
    pub length: usize,
    pub unhappy: usize,
}

/// The greatest session, of which all but the last party are happy; its number is 0.
pub const GREATEST: Setting = Setting {
    session: 0,
    n: MAX_PARTIES,
    t: most_faults(MAX_PARTIES),
    length: MAX_MESSAGE,
    unhappy: 1,
};

/// A length well inside the range, beside which the greatest is measured.
pub const SHORTER: usize = INSIDE[0];

/// The greatest fault limit among n parties.
pub const fn most_faults(n: usize) -> usize {
    n.div_ceil(2) - 1
}

impl Setting {
    /// The message of a party, its length as set. One of no bytes has no other of its length; there
    /// the unhappy hold one byte.
    pub fn message(&self, own: usize) -> Vec<u8> {
        let other = own > self.n - self.unhappy;
        let length = if other {
            self.length.max(1)
        } else {
            self.length
        };
        Random::new(1 + u64::from(other)).bytes(length)
    }
}

/// The states before each step and at the end, the agreed root, and what every party receives.
pub struct Moments<P> {
    pub root: Hash,
    pub opened: Vec<P>,
    pub voted: Vec<P>,
    pub sent: Vec<P>,
    pub relayed: Vec<P>,
    pub ended: Vec<P>,
    pub first: Vec<Vec<u8>>,
    pub second: Vec<u8>,
}

/// What a session came to: the results, and the bytes that its parties sent.
#[derive(Debug, PartialEq, Eq)]
pub struct Played {
    pub results: Vec<Option<Vec<u8>>>,
    pub sent: usize,
}

fn open_all<P: Party>(setting: Setting, messages: &[Vec<u8>]) -> (Vec<P>, Hash) {
    let (session, group) = (setting.session, (setting.n, setting.t));
    let open = |(own, message): (usize, &Vec<u8>)| P::open(session, group, own, message);
    let opened = (1..).zip(messages).map(open);
    let (parties, roots): (Vec<P>, Vec<Hash>) = opened.unzip();
    (parties, roots[0])
}

/// The outboxes of step 3.
fn send_all<P: Party>(parties: &mut [P]) -> Vec<Vec<u8>> {
    let mut out = [0; MAX_OUTBOX];
    let mut outbox = |party: &mut P| {
        let length = party.agree_bit(1, &mut out);
        out[..length].to_vec()
    };
    parties.iter_mut().map(&mut outbox).collect()
}

/// Each party's first inbox: what every outbox has for it.
fn deliver(outboxes: &[Vec<u8>]) -> Vec<Vec<u8>> {
    let sent = outboxes
        .iter()
        .map(|outbox| entries(outbox).expect("an outbox").collect());
    let sent: Vec<Vec<&[u8]>> = sent.collect();
    let inbox = |place| {
        lay_out(
            &sent
                .iter()
                .map(|packets| packets[place])
                .collect::<Vec<_>>(),
        )
    };
    (0..outboxes.len()).map(inbox).collect()
}

/// The relays of step 4.
fn relay_all<P: Party>(parties: &mut [P], inboxes: &[Vec<u8>]) -> Vec<Vec<u8>> {
    let mut out = [0; MAX_PACKET];
    let mut relay = |(party, inbox): (&mut P, &Vec<u8>)| {
        let length = party.take_shares(inbox, &mut out);
        out[..length].to_vec()
    };
    parties.iter_mut().zip(inboxes).map(&mut relay).collect()
}

/// The results of step 5. All get one inbox, since a party's own entry does not count.
fn settle_all<P: Party>(parties: &mut [P], inbox: &[u8]) -> Vec<Option<Vec<u8>>> {
    let mut out = [0; MAX_MESSAGE];
    let mut settle = |party: &mut P| {
        let length = party.take_relays(inbox, &mut out);
        length.map(|length| out[..length].to_vec())
    };
    parties.iter_mut().map(&mut settle).collect()
}

/// Plays a session of parties that hold these messages.
pub fn play<P: Party>(setting: Setting, messages: &[Vec<u8>]) -> Played {
    let (mut parties, root) = open_all::<P>(setting, messages);
    for party in &mut parties {
        party.agree_root(&root);
    }
    let outboxes = send_all(&mut parties);
    let relays = relay_all(&mut parties, &deliver(&outboxes));
    // An outbox has a two-byte length for each party beside its packets; a relay goes to all others.
    let packets: usize = outboxes
        .iter()
        .map(|outbox| outbox.len() - 2 * setting.n)
        .sum();
    let relayed: usize = relays
        .iter()
        .map(|relay| (setting.n - 1) * relay.len())
        .sum();
    Played {
        results: settle_all(&mut parties, &lay_out(&relays)),
        sent: packets + relayed,
    }
}

/// Plays a session and keeps its moments.
pub fn moments<P: Party>(setting: Setting) -> Moments<P> {
    let messages: Vec<_> = (1..=setting.n).map(|own| setting.message(own)).collect();
    let (opened, root) = open_all::<P>(setting, &messages);
    let mut voted = opened.clone();
    for party in &mut voted {
        party.agree_root(&root);
    }
    let mut sent = voted.clone();
    let first = deliver(&send_all(&mut sent));
    let mut relayed = sent.clone();
    let second = lay_out(&relay_all(&mut relayed, &first));
    let mut ended = relayed.clone();
    settle_all(&mut ended, &second);
    Moments {
        root,
        opened,
        voted,
        sent,
        relayed,
        ended,
        first,
        second,
    }
}
