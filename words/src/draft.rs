//! A plan as words give it, before it is laid out; lawful or not.

use std::collections::BTreeMap;

use foreign::inbox::lay_out;
use foreign::plans::map_of;
use foreign::rehearsal::{Round, BIT_GIVEN, ROOT_GIVEN, SENDER_GIVEN, SESSION_GIVEN};
use foreign::sha256::Hash;

use crate::books::{Books, Hints};

/// Packets by sender and receiver.
pub type Packets = BTreeMap<(usize, usize), Vec<u8>>;

pub struct Draft {
    pub books: Books,
    /// Options besides those that root, bit, sender and sitting bring.
    pub options: u8,
    pub root: Option<Hash>,
    pub bit: Option<u8>,
    pub sender: Option<usize>,
    /// The sitting number as it is written; 0 written out is not absence.
    pub session: Option<u32>,
    /// The good parties, with the message of each whose message the plan lists.
    pub good: BTreeMap<usize, Option<Vec<u8>>>,
    /// What bad parties send, round by round.
    exchanges: [Packets; 3],
    /// Bytes behind the plan, and how many are then left out at its end.
    pub behind: Vec<u8>,
    pub cut: usize,
}

impl Draft {
    pub fn new(n: usize, t: usize) -> Draft {
        Draft {
            books: Books::new(0, n, t),
            options: 0,
            root: None,
            bit: None,
            sender: None,
            session: None,
            good: BTreeMap::new(),
            exchanges: Default::default(),
            behind: Vec::new(),
            cut: 0,
        }
    }

    pub fn is_good(&self, party: usize) -> bool {
        self.good.contains_key(&party)
    }

    /// Whether the plan lists the party's message if it is good: where there is a sender, only that
    /// of the sender, which is one of the n parties.
    pub fn has_listed(&self, party: usize) -> bool {
        let only = |sender| sender == party && party <= self.books.n;
        self.sender.is_none_or(only)
    }

    /// The sender, if it is not good; one that is none of the n parties is not.
    pub fn bad_sender(&self) -> Option<usize> {
        let bad = |sender: &usize| !self.is_good(*sender) || *sender > self.books.n;
        self.sender.filter(bad)
    }

    /// The packets of a round.
    pub fn packets(&mut self, round: Round) -> &mut Packets {
        &mut self.exchanges[round as usize]
    }

    /// The books that have names of their own, and the sittings that are spoken of.
    pub fn hints(&self) -> Hints {
        let known = self.books.known.iter();
        let named = known.filter(|it| !it.name.starts_with("box "));
        Hints {
            books: named
                .map(|it| (it.name.clone(), it.message.clone()))
                .collect(),
            sittings: self.books.sittings.clone(),
        }
    }

    /// The plan's bytes.
    pub fn bytes(&self) -> Vec<u8> {
        let mut bytes = self.uncut();
        bytes.truncate(bytes.len().saturating_sub(self.cut));
        bytes
    }

    /// The plan's bytes before any are left out.
    pub fn uncut(&self) -> Vec<u8> {
        let root = self.root.map_or(0, |_| ROOT_GIVEN);
        let bit = self.bit.map_or(0, |_| BIT_GIVEN);
        let sender = self.sender.map_or(0, |_| SENDER_GIVEN);
        let session = self.session.map_or(0, |_| SESSION_GIVEN);
        let options = self.options | root | bit | sender | session;
        let mut bytes = vec![self.books.n as u8, self.books.t as u8, options];
        bytes.extend(self.root.iter().flatten());
        bytes.extend(self.bit);
        bytes.extend(self.sender.map(|it| it as u8));
        bytes.extend(self.session.map(u32::to_be_bytes).iter().flatten());
        bytes.extend(map_of(self.good.keys()));
        bytes.extend(lay_out(&self.good.values().flatten().collect::<Vec<_>>()));
        let [before, exchanges @ ..] = &self.exchanges;
        bytes.extend(
            self.bad_sender()
                .into_iter()
                .flat_map(|it| block(before, it)),
        );
        for packets in exchanges {
            for sender in (1..=self.books.n).filter(|party| !self.is_good(*party)) {
                bytes.extend(block(packets, sender));
            }
        }
        bytes.extend(&self.behind);
        bytes
    }
}

/// What one bad party sends in one exchange.
fn block(packets: &Packets, sender: usize) -> Vec<u8> {
    let own = packets.range((sender, 0)..(sender + 1, 0));
    let (receivers, packets): (Vec<usize>, Vec<&Vec<u8>>) =
        own.map(|(way, packet)| (way.1, packet)).unzip();
    [&map_of(&receivers)[..], &lay_out(&packets)].concat()
}
