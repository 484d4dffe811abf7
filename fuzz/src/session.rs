//! A session as the fuzzer plays it: the states of four parties and what the library wrote for them,
//! from which later calls are made. Each turn is one call, or a change that a host should not make.

use std::mem::take;

use cipangohu::{entries, lay_out, HASH, LAYOUT, MAX_HASHED, MAX_MESSAGE, MAX_PARTIES, STATE};
use foreign::liars::Sharing;

use crate::call::{Answer, Call, Lent};
use crate::input::Input;
use crate::lend::checked;
use crate::reference::{
    AT_FAULTY, AT_GROUP, AT_HELD, AT_LENGTH, AT_ROOT, AT_SESSION, AT_SHARE, AT_STAGE,
};

const PARTIES: usize = 4;

/// Turns of one input, so that none takes long.
const TURNS: usize = 48;

/// A little less than the longest string that is hashed.
const LONG: usize = MAX_HASHED - 7;

/// Numbers at the edges of what a state may hold.
const EDGES: [u8; 8] = [0, 1, 2, (MOST - 1) / 2, MOST / 2, MOST, MOST + 1, 255];

const MOST: u8 = MAX_PARTIES as u8;

#[derive(Clone, Default)]
struct Party {
    state: Vec<u8>,
    root: Vec<u8>,
    /// The packet that bears each number, if one was written.
    packets: [Vec<u8>; MAX_PARTIES + 1],
    /// The packet with its whole message, if it wrote one as the sender.
    whole: Vec<u8>,
}

struct Session<'a> {
    input: Input<'a>,
    session: u32,
    group: (usize, usize),
    message: Vec<u8>,
    parties: [Party; PARTIES],
    /// Shares as the library wrote them last.
    shares: Vec<Vec<u8>>,
}

/// Plays the list of calls that the bytes say.
pub fn play(bytes: &[u8]) {
    let mut input = Input::new(bytes);
    let number = input.session(0);
    let n = 1 + input.below(MAX_PARTIES);
    let mut session = Session {
        session: number,
        group: (n, input.below(n.div_ceil(2))),
        message: input.bytes(),
        input,
        parties: Default::default(),
        shares: Vec::new(),
    };
    for _ in 0..TURNS {
        if session.input.is_empty() {
            break;
        }
        session.turn();
    }
}

/// Bytes for a buffer, none of them a zero that nobody would miss.
fn dirt(length: usize) -> Vec<u8> {
    (0..length).map(|place| (37 * place) as u8 | 1).collect()
}

/// The share and the path in a packet, wherever it ends.
fn parts(packet: &[u8]) -> (Vec<u8>, Vec<u8>) {
    let (head, rest) = packet.split_at(packet.len().min(4));
    let length = head
        .get(2..4)
        .map_or(0, |two| usize::from(two[0]) * 256 + usize::from(two[1]));
    let (share, path) = rest.split_at(rest.len().min(length));
    (share.to_vec(), path.to_vec())
}

/// Writes bytes over others at an offset, if they reach so far.
fn put(bytes: &mut [u8], at: usize, new: &[u8]) {
    if let Some(old) = bytes.get_mut(at..at + new.len()) {
        old.copy_from_slice(new);
    }
}

impl Session<'_> {
    /// The numbers of the turns are those of fuzz/seeds.
    fn turn(&mut self) {
        let (kind, party) = (self.input.below(17), self.input.below(PARTIES));
        match kind {
            0 => self.open(party),
            1 => self.agree_root(party),
            2 => self.agree_bit(party),
            3 => self.take_shares(party),
            4 => self.take_relays(party),
            5 => self.read_packet(),
            6 => self.check_path(),
            7 => self.make_shares(),
            8 => self.rebuild(),
            9 => self.hash(),
            10 => self.spoil(party),
            11 => self.parties[party] = self.parties[self.input.below(PARTIES)].clone(),
            12 => self.forge(party),
            13 => self.ask(party),
            14 => self.rebuild_with_root(),
            15 => self.open_by_sender(party),
            _ => self.read_message(),
        }
    }

    /// Makes a call on a party's state and, where it lacks room, again with as much as the input
    /// says. Gives as many bytes of the buffer as its value says, which most calls have written.
    fn made(&mut self, party: usize, call: &Call) -> Option<Vec<u8>> {
        let state = take(&mut self.parties[party].state);
        let out = dirt(self.input.room(0));
        let mut lent = Lent {
            state,
            out,
            ..Lent::default()
        };
        let mut answer = checked(call, &mut lent);
        if let Answer { value, cause: 9 } = answer {
            lent.out = dirt(self.input.room(value as usize));
            answer = checked(call, &mut lent);
        }
        self.parties[party].state = lent.state;
        lent.out.truncate(answer.accepted().ok()? as usize);
        Some(lent.out)
    }

    fn message(&mut self) -> Vec<u8> {
        match self.input.below(6) {
            0 => self.message.clone(),
            1 => self.input.bytes(),
            2 => dirt(self.input.wide(MAX_MESSAGE + 6)),
            3 => vec![self.input.byte(); MAX_MESSAGE - 2 + self.input.below(5)],
            4 => Vec::new(),
            _ => {
                let mut message = self.message.clone();
                self.input.bend(&mut message);
                message
            }
        }
    }

    /// The root of a party, now and then changed.
    fn root(&mut self) -> Vec<u8> {
        let choice = self.input.byte();
        let mut root = self.parties[usize::from(choice) % PARTIES].root.clone();
        if choice >= 128 {
            self.input.bend(&mut root);
        }
        root
    }

    /// The packet with a number that a party wrote, or else the next party that wrote one.
    fn written(&self, party: usize, number: usize) -> Vec<u8> {
        let parties = (party..party + PARTIES).map(|place| &self.parties[place % PARTIES]);
        let mut packets = parties.filter_map(|party| party.packets.get(number));
        let found = packets.find(|packet| !packet.is_empty());
        found.cloned().unwrap_or_default()
    }

    /// What a good or a bad party puts where this number is demanded.
    fn packet(&mut self, number: usize) -> Vec<u8> {
        let choice = self.input.byte();
        let party = usize::from(choice / 8) % PARTIES;
        match choice % 8 {
            0 | 1 => self.written(party, number),
            2 => Vec::new(),
            3 => self.input.bytes(),
            4 => {
                let other = self.input.below(MAX_PARTIES + 1);
                self.written(party, other)
            }
            5 => match self.input.below(2) {
                0 => vec![0],
                _ => self.parties[party].whole.clone(),
            },
            6 => {
                let share = self.input.bytes();
                [&[7, number as u8, 0, self.input.byte()], &share[..]].concat()
            }
            _ => {
                let mut packet = self.written(party, number);
                self.input.bend(&mut packet);
                packet
            }
        }
    }

    /// The inbox of exchange 0 or 1: as good parties fill it, entry by entry as the input says, that
    /// with its layout changed, or any bytes.
    fn inbox(&mut self, party: usize, exchange: usize) -> Vec<u8> {
        let state = &self.parties[party].state;
        let at = |place| state.get(place).map_or(0, |&byte: &u8| usize::from(byte));
        let (n, own) = (at(AT_GROUP).min(MAX_PARTIES + 1), at(AT_GROUP + 2));
        let way = self.input.below(4);
        let number = |sender| [own, sender][exchange];
        let packets: Vec<Vec<u8>> = match way {
            0 => (1..=n)
                .map(|sender| self.written(0, number(sender)))
                .collect(),
            3 => return self.input.bytes(),
            _ => (1..=n).map(|sender| self.packet(number(sender))).collect(),
        };
        let mut inbox = lay_out(&packets);
        if way == 2 {
            self.input.bend(&mut inbox);
        }
        inbox
    }

    /// The number of this session, or another.
    fn session(&mut self) -> u32 {
        self.input.session(self.session)
    }

    fn open(&mut self, party: usize) {
        let session = self.session();
        let n = self.input.number(self.group.0);
        let t = self.input.number(self.group.1);
        let own = self.input.number(party + 1);
        let call = Call::Open(session, (n, t, own), self.message());
        self.opened(party, &call, Vec::new());
    }

    /// Makes an opening and keeps what it wrote for the party. Gives the buffer for a packet, and the
    /// value, where it was accepted.
    fn opened(&mut self, party: usize, call: &Call, out: Vec<u8>) -> Option<(Vec<u8>, usize)> {
        let mut lent = Lent {
            state: dirt(self.input.room(STATE)),
            root: dirt(self.input.room(HASH)),
            out,
        };
        let value = checked(call, &mut lent).accepted();
        let party = &mut self.parties[party];
        party.state = lent.state;
        let value = value.ok()? as usize;
        party.root = lent.root[..HASH].to_vec();
        Some((lent.out, value))
    }

    /// As the sender, or from what comes of the sender.
    fn open_by_sender(&mut self, party: usize) {
        let session = self.session();
        let n = self.input.number(self.group.0);
        let t = self.input.number(self.group.1);
        let own = self.input.number(party + 1);
        let sender = self.input.number(1);
        let bytes = match own == sender {
            true => self.message(),
            false => self.whole(),
        };
        let out = dirt(self.input.room(3 + bytes.len()));
        let call = Call::OpenBySender(session, (n, t, own), sender, bytes);
        if let Some((out, length @ 1..)) = self.opened(party, &call, out) {
            self.parties[party].whole = out[..length].to_vec();
        }
    }

    /// What a party wrote as the sender, now and then changed; or what is no such packet.
    fn whole(&mut self) -> Vec<u8> {
        let choice = self.input.byte();
        let party = usize::from(choice / 8) % PARTIES;
        let mut packet = self.parties[party].whole.clone();
        match choice % 8 {
            0..=2 => {}
            3 => self.input.bend(&mut packet),
            4 => packet = self.input.bytes(),
            5 => packet = self.packet(1),
            6 => packet = vec![0],
            _ => {
                let message = self.message();
                let [high, low] = (message.len() as u16).to_be_bytes();
                packet = [&[8, high, low], &message[..]].concat();
            }
        }
        packet
    }

    fn agree_root(&mut self, party: usize) {
        let root = self.root();
        self.made(party, &Call::AgreeRoot(root));
    }

    fn agree_bit(&mut self, party: usize) {
        let bit = self.input.bit();
        let outbox = self.made(party, &Call::AgreeBit(bit)).unwrap_or_default();
        let packets = entries(&outbox).expect("an outbox of entries");
        for (number, packet) in (1..).zip(packets) {
            self.keep(party, number, packet);
        }
    }

    fn keep(&mut self, party: usize, number: usize, packet: &[u8]) {
        if !packet.is_empty() {
            self.parties[party].packets[number] = packet.to_vec();
        }
    }

    fn take_shares(&mut self, party: usize) {
        let call = Call::TakeShares(self.inbox(party, 0));
        let relay = self.made(party, &call).unwrap_or_default();
        let number = relay.get(1).map_or(0, |&number| usize::from(number));
        self.keep(party, number, &relay);
    }

    fn take_relays(&mut self, party: usize) {
        let call = Call::TakeRelays(self.inbox(party, 1));
        self.made(party, &call);
    }

    /// Asks all that a state tells.
    fn ask(&mut self, party: usize) {
        for call in [
            Call::ResultLength,
            Call::Stage,
            Call::Own,
            Call::Session,
            Call::Faulty,
        ] {
            self.made(party, &call);
        }
    }

    fn read_packet(&mut self) {
        let n = self.input.number(self.group.0);
        let number = self.input.number(1);
        let call = Call::ReadPacket(n, self.packet(number));
        self.made(0, &call);
    }

    fn read_message(&mut self) {
        let call = Call::ReadMessage(self.whole());
        self.made(0, &call);
    }

    fn check_path(&mut self) {
        let session = self.session();
        let n = self.input.number(self.group.0);
        let number = self.input.number(1);
        let (mut share, mut path) = parts(&self.packet(number));
        match self.input.below(6) {
            0 | 1 => {}
            2 => self.input.bend(&mut share),
            3 => self.input.bend(&mut path),
            4 => share.resize(LONG + self.input.below(16), 3),
            _ => share.resize(self.input.wide(LONG), 3),
        }
        let call = Call::CheckPath(session, (n, number), share, path, self.root());
        self.made(0, &call);
    }

    fn make_shares(&mut self) {
        let n = self.input.number(self.group.0);
        let t = self.input.number(self.group.1);
        let call = Call::Shares((n, t), self.message());
        if let Some(bytes) = self.made(0, &call) {
            self.shares = bytes.chunks(bytes.len() / n).map(<[u8]>::to_vec).collect();
        }
    }

    /// The shares as entries, some missing or changed.
    fn entries(&mut self) -> Vec<u8> {
        let mut shares = self.shares.clone();
        for share in &mut shares {
            match self.input.below(8) {
                1 => share.clear(),
                2 => self.input.bend(share),
                3 => *share = self.input.bytes(),
                _ => {}
            }
        }
        let mut entries = lay_out(&shares);
        if self.input.byte() > 191 {
            self.input.bend(&mut entries);
        }
        entries
    }

    fn rebuild(&mut self) {
        let n = self.input.number(self.group.0);
        let t = self.input.number(self.group.1);
        let call = Call::Rebuild((n, t), self.entries());
        self.made(0, &call);
    }

    fn rebuild_with_root(&mut self) {
        let session = self.session();
        let n = self.input.number(self.group.0);
        let t = self.input.number(self.group.1);
        let entries = self.entries();
        let call = Call::RebuildWithRoot(session, (n, t), self.root(), entries);
        self.made(0, &call);
    }

    fn hash(&mut self) {
        let message = match self.input.below(16) {
            14 => dirt(self.input.wide(LONG)),
            15 => dirt(LONG + self.input.below(16)),
            _ => self.message(),
        };
        self.made(0, &Call::Hash(message));
    }

    /// Changes a party's state as no host should: bytes anywhere, the stage, a number, a length near
    /// its limit, its own length, the root, the share held, the layout's version, the session number, the
    /// map of those seen to cheat, or all of it.
    fn spoil(&mut self, party: usize) {
        let mut state = take(&mut self.parties[party].state);
        match self.input.below(11) {
            0 => self.input.bend(&mut state),
            1 => put(&mut state, AT_STAGE, &[self.input.byte() % 8]),
            2 => {
                let place = AT_GROUP + self.input.below(3);
                put(&mut state, place, &[EDGES[self.input.below(EDGES.len())]]);
            }
            3 => {
                let place = [AT_LENGTH, AT_HELD][self.input.below(2)];
                let length = (MAX_MESSAGE + self.input.below(5)) as u16;
                put(&mut state, place, &length.to_be_bytes());
            }
            4 => state.resize(STATE, 0),
            5 => put(&mut state, AT_ROOT, &self.root()),
            6 => {
                let number = self.input.number(party + 1);
                let (share, _) = parts(&self.packet(number));
                put(&mut state, AT_HELD, &(share.len() as u16).to_be_bytes());
                put(&mut state, AT_SHARE, &share);
            }
            7 => put(&mut state, 0, &[LAYOUT.wrapping_add(self.input.byte())]),
            8 => put(&mut state, AT_SESSION, &self.session().to_be_bytes()),
            9 => put(&mut state, AT_FAULTY, &self.input.map().to_be_bytes()),
            _ => state = dirt(self.input.room(STATE)),
        }
        self.parties[party].state = state;
    }

    /// Gives a party the root and the packets of a frame that need not hold a message, as bad
    /// parties may make them, or of shares among which one was changed.
    fn forge(&mut self, party: usize) {
        let (session, (n, t)) = (self.session(), self.group);
        let mut frame = self.input.bytes();
        let blocks = frame.len().div_ceil(n - t).max(1);
        frame.resize(blocks * (n - t), 0);
        let mut sharing = Sharing::of_frame(session, n, t, &frame);
        let choice = self.input.byte();
        if choice >= 128 {
            let share = &mut sharing.shares[usize::from(choice) % n];
            self.input.bend(share);
            sharing = Sharing::over(session, sharing.shares);
        }
        self.parties[party].root = sharing.root.to_vec();
        (1..=n).for_each(|number| self.keep(party, number, &sharing.packet(number)));
    }
}
