//! One party: its state, its opening, with a message of its own or by a sender, and steps 2 to 5. A
//! step takes the state apart into lawful values, works on those, and builds the next state anew.

#[cfg(test)]
mod cheats;

use std::collections::BTreeSet;

use crate::coder::{find_message, frame_of, shares_of};
use crate::commitment;
use crate::inbox::{entries, lay_out};
use crate::limits::{LONGEST_MESSAGE, LONGEST_SHARE, MOST_PARTIES};
use crate::message_packet;
use crate::packet::{self, classify, Standing};
use crate::sha256::Hash;
use crate::tree;

/// How a party ended: with nothing, or with a message of this length.
#[derive(Clone, Copy, Debug, PartialEq, Eq)]
pub enum Outcome {
    Nothing,
    Message(u64),
}

/// What a party waits for.
#[derive(Clone, Copy, Debug, PartialEq, Eq)]
pub enum Stage {
    Root,
    Bit,
    First,
    Second,
    Ended(Outcome),
}

/// What the shares that an unhappy party gathered for step 5 give.
#[derive(Clone, Debug, PartialEq, Eq)]
pub enum Rebuilt {
    /// A message with the agreed root, with which the party ends.
    Message(Vec<u8>),
    /// A message with another root; the party ends with nothing.
    OtherRoot(Vec<u8>),
    /// No message, by cause 11 or 12.
    Refused(u32),
}

/// The state that a caller keeps between the steps; anything at all may stand in it.
#[derive(Clone, Debug, PartialEq, Eq)]
pub struct State {
    /// The session's number; any is lawful.
    pub session: u32,
    pub n: u64,
    pub t: u64,
    pub own: u64,
    pub stage: Stage,
    pub message: [u8; LONGEST_MESSAGE],
    pub len: u64,
    pub root: Hash,
    pub share: [u8; LONGEST_SHARE],
    pub held: u64,
    /// The map of the parties seen to cheat: party p has value two to the p - 1.
    pub faulty: u32,
}

/// Why a call was turned away: the cause and, for cause 9, the length needed.
#[derive(Clone, Copy, Debug, PartialEq, Eq)]
pub struct Refusal {
    pub cause: u32,
    pub needed: usize,
}

/// What an opening by a sender answers: the root that goes to the agreement, and how many bytes were
/// written for the other parties.
#[derive(Clone, Copy, Debug, PartialEq, Eq)]
pub struct Begun {
    pub root: Hash,
    pub written: usize,
}

/// What step 5 answers: the length of the message, or none for nothing, and the map of the parties
/// seen to cheat.
#[derive(Clone, Copy, Debug, PartialEq, Eq)]
pub struct Ending {
    pub length: Option<usize>,
    pub faulty: u32,
}

/// What a step gives back: the next state, and its answer or a refusal.
pub type Given<T> = (State, Result<T, Refusal>);

impl From<u32> for Refusal {
    fn from(cause: u32) -> Self {
        Refusal { cause, needed: 0 }
    }
}

/// The values of a state that breaks no limit; what lies past a length is left out.
struct Party {
    session: u32,
    n: usize,
    t: usize,
    own: usize,
    message: Vec<u8>,
    root: Hash,
    held: Vec<u8>,
    cheats: BTreeSet<usize>,
}

/// The three numbers in range, or the lowest of causes 1 to 3.
fn group(n: u64, t: u64, own: u64) -> Result<(usize, usize, usize), u32> {
    if !(1..=MOST_PARTIES as u64).contains(&n) {
        return Err(1);
    }
    if t.checked_mul(2).is_none_or(|doubled| doubled >= n) {
        return Err(2);
    }
    if !(1..=n).contains(&own) {
        return Err(3);
    }
    Ok((n as usize, t as usize, own as usize))
}

/// The first `length` bytes, if there are as many.
fn first(bytes: &[u8], length: u64) -> Option<&[u8]> {
    bytes.get(..usize::try_from(length).ok()?)
}

/// The parties in a map, if each is another one than `own` and up to n.
fn others_in(map: u32, n: usize, own: usize) -> Option<BTreeSet<usize>> {
    let in_map = |party: &usize| map >> (party - 1) & 1 == 1;
    let parties: BTreeSet<usize> = (1..=u32::BITS as usize).filter(in_map).collect();
    let lawful = parties.iter().all(|&party| party <= n && party != own);
    lawful.then_some(parties)
}

/// The map of these parties.
fn map_of(parties: &BTreeSet<usize>) -> u32 {
    parties.iter().map(|party| 1 << (party - 1)).sum()
}

/// The senders whose packets are faulty.
fn cheats(standings: &[Standing]) -> impl Iterator<Item = usize> + '_ {
    let numbered = (1..).zip(standings);
    numbered.filter_map(|(sender, it)| (*it == Standing::Faulty).then_some(sender))
}

/// The lowest sender whose packet is valid, and its share.
fn lowest(standings: &[Standing]) -> Option<(usize, &[u8])> {
    let mut numbered = (1..).zip(standings);
    numbered.find_map(|(sender, it)| match it {
        Standing::Valid(share) => Some((sender, &share[..])),
        _ => None,
    })
}

/// The bytes with zeros behind them.
fn padded<const N: usize>(bytes: &[u8]) -> [u8; N] {
    let mut whole = [0; N];
    whole[..bytes.len()].copy_from_slice(bytes);
    whole
}

/// Copies the bytes to the start of the buffer and counts them, or gives cause 9.
fn place(bytes: &[u8], out: &mut [u8]) -> Result<usize, Refusal> {
    let needed = bytes.len();
    let start = out.get_mut(..needed).ok_or(Refusal { cause: 9, needed })?;
    start.copy_from_slice(bytes);
    Ok(needed)
}

impl State {
    /// The state that a refused opening gives.
    pub fn blank() -> State {
        State {
            session: 0,
            n: 0,
            t: 0,
            own: 0,
            stage: Stage::Root,
            message: [0; LONGEST_MESSAGE],
            len: 0,
            root: [0; 32],
            share: [0; LONGEST_SHARE],
            held: 0,
            faulty: 0,
        }
    }

    /// Step 1; the answer is the root that goes to the agreement.
    pub fn open(session: u32, n: u64, t: u64, own: u64, message: &[u8]) -> Given<Hash> {
        let opened = group(n, t, own).and_then(|(n, t, own)| {
            let fits = message.len() <= LONGEST_MESSAGE;
            let message = fits.then(|| message.to_vec()).ok_or(4u32)?;
            Ok(Party {
                session,
                n,
                t,
                own,
                message,
                root: [0; 32],
                held: Vec::new(),
                cheats: BTreeSet::new(),
            })
        });
        match opened {
            Ok(party) => (party.awaiting(Stage::Root), Ok(party.own_root())),
            Err(cause) => (State::blank(), Err(cause.into())),
        }
    }

    /// Step 1 where one party alone, the sender, has a message. It is handed that, and writes the
    /// packet which goes to all others. Each of these is handed the packet that came, and opens with
    /// the empty message where it reads none.
    pub fn open_by_sender(
        session: u32,
        (n, t): (u64, u64),
        own: u64,
        sender: u64,
        bytes: &[u8],
        out: &mut [u8],
    ) -> Given<Begun> {
        let message = match (own == sender, message_packet::read(bytes)) {
            (true, _) => bytes.to_vec(),
            (false, message_packet::Reading::Message(message)) => message,
            (false, _) => Vec::new(),
        };
        let numbers = group(n, t, own).and_then(|_| group(n, t, sender));
        let (state, opened) = State::open(session, n, t, own, &message);
        let begun = numbers.map_err(Refusal::from).and_then(|_| {
            let root = opened?;
            let packet = match own == sender && n > 1 {
                true => message_packet::write(&message),
                false => Vec::new(),
            };
            let written = place(&packet, out)?;
            Ok(Begun { root, written })
        });
        match begun {
            Ok(_) => (state, begun),
            Err(_) => (State::blank(), begun),
        }
    }

    /// Step 2; the answer is whether the party is happy.
    pub fn agree_root(self, root: &[u8]) -> Given<bool> {
        self.step(Stage::Root, |mut party| {
            party.root = root.try_into().map_err(|_| 7u32)?;
            Ok((party.awaiting(Stage::Bit), party.happy()))
        })
    }

    /// Step 3; the answer is the length of the outbox.
    pub fn agree_bit(self, bit: u8, out: &mut [u8]) -> Given<usize> {
        self.step(Stage::Bit, |party| {
            let sends = match bit {
                0 => false,
                1 => party.happy(),
                _ => return Err(7.into()),
            };
            let packets: Vec<Vec<u8>> = (1..=party.n)
                .map(|j| match sends && j != party.own {
                    true => party.packet(j),
                    false => Vec::new(),
                })
                .collect();
            let written = place(&lay_out(&packets), out)?;
            let next = match bit {
                0 => party.ended(None),
                _ => party.awaiting(Stage::First),
            };
            Ok((next, written))
        })
    }

    /// Step 4; the answer is the length of the relay, 0 if there is none. The map starts anew.
    pub fn take_shares(self, inbox: &[u8], out: &mut [u8]) -> Given<usize> {
        self.step(Stage::First, |mut party| {
            let senders = entries(party.n, inbox)?;
            let standings = party.judged_first(&senders);
            party.cheats = cheats(&standings).collect();
            party.held = Vec::new();
            let relay = if party.n == 1 {
                Vec::new()
            } else if party.happy() {
                party.packet(party.own)
            } else if let Some((sender, share)) = lowest(&standings) {
                party.held = share.to_vec();
                senders[sender - 1].to_vec()
            } else {
                Vec::new()
            };
            let written = place(&relay, out)?;
            Ok((party.awaiting(Stage::Second), written))
        })
    }

    /// Step 5; who cheated in either inbox is in the map. A party that has ended gives its result
    /// and its map again, whatever the inbox.
    pub fn take_relays(self, inbox: &[u8], out: &mut [u8]) -> Given<Ending> {
        if let Stage::Ended(outcome) = self.stage {
            return self.read_again(outcome, out);
        }
        self.step(Stage::Second, |mut party| {
            let standings = party.judged_second(&entries(party.n, inbox)?);
            party.cheats.extend(cheats(&standings));
            let found = if party.happy() {
                Some(party.message.clone())
            } else if let Rebuilt::Message(message) = party.rebuilt(standings) {
                Some(message)
            } else {
                None
            };
            party.end(found, out)
        })
    }

    /// The result in the stage and the message's room, and the map; nothing else of the state is kept.
    fn read_again(self, outcome: Outcome, out: &mut [u8]) -> Given<Ending> {
        let room = self.message;
        self.step(Stage::Ended(outcome), |party| {
            let stored = match outcome {
                Outcome::Nothing => None,
                Outcome::Message(length) => Some(room[..length as usize].to_vec()),
            };
            party.end(stored, out)
        })
    }

    /// The sender whose share step 4 takes from this inbox; none for a happy party.
    pub fn source(&self, inbox: &[u8]) -> Option<usize> {
        let (party, senders) = self.unhappy(inbox)?;
        Some(lowest(&party.judged_first(&senders))?.0)
    }

    /// The shares that step 5 rebuilds from with this inbox, by number, no bytes standing for a
    /// missing one; none for a happy party.
    pub fn gathered(&self, inbox: &[u8]) -> Option<Vec<Vec<u8>>> {
        let (party, senders) = self.unhappy(inbox)?;
        Some(party.gathered(party.judged_second(&senders)))
    }

    /// What step 5 rebuilds from them; none for a happy party, which codes nothing again.
    pub fn rebuilt(&self, inbox: &[u8]) -> Option<Rebuilt> {
        let (party, senders) = self.unhappy(inbox)?;
        Some(party.rebuilt(party.judged_second(&senders)))
    }

    /// The values of a lawful, unhappy state, with the packets in its inbox.
    fn unhappy<'a>(&self, inbox: &'a [u8]) -> Option<(Party, Vec<&'a [u8]>)> {
        let party = self.lawful().filter(|party| !party.happy())?;
        let senders = entries(party.n, inbox).ok()?;
        Some((party, senders))
    }

    /// Judges the state and the turn, then does the step; a refused one keeps the state.
    fn step<T>(
        self,
        turn: Stage,
        work: impl FnOnce(Party) -> Result<(State, T), Refusal>,
    ) -> Given<T> {
        let lawful = self.lawful().ok_or(Refusal::from(5));
        let in_turn = lawful.and_then(|party| match self.stage == turn {
            true => Ok(party),
            false => Err(Refusal::from(6)),
        });
        match in_turn.and_then(work) {
            Ok((next, answer)) => (next, Ok(answer)),
            Err(refusal) => (self, Err(refusal)),
        }
    }

    /// Whether the state breaks no limit.
    pub fn is_lawful(&self) -> bool {
        self.lawful().is_some()
    }

    /// The state's values, if none breaks a limit; lengths and the map are judged at every stage.
    fn lawful(&self) -> Option<Party> {
        let (n, t, own) = group(self.n, self.t, self.own).ok()?;
        if let Stage::Ended(Outcome::Message(length)) = self.stage {
            first(&self.message, length)?;
        }
        Some(Party {
            session: self.session,
            n,
            t,
            own,
            message: first(&self.message, self.len)?.to_vec(),
            root: self.root,
            held: first(&self.share, self.held)?.to_vec(),
            cheats: others_in(self.faulty, n, own)?,
        })
    }
}

impl Party {
    fn shares(&self) -> Vec<Vec<u8>> {
        let b = self.n - self.t;
        shares_of(self.n, b, &frame_of(b, &self.message))
    }

    fn own_root(&self) -> Hash {
        self.root_of(&self.message)
    }

    /// The root of a message in this party's session.
    fn root_of(&self, message: &[u8]) -> Hash {
        commitment::root(self.session, self.n, self.t, message)
    }

    fn happy(&self) -> bool {
        self.root == self.own_root()
    }

    /// Share j of the party's own message, with its path.
    fn packet(&self, j: usize) -> Vec<u8> {
        let shares = self.shares();
        packet::write(j, &shares[j - 1], &tree::path(self.session, &shares, j))
    }

    /// What the packets of a first inbox are worth: of every sender this party's own number is
    /// demanded.
    fn judged_first(&self, senders: &[&[u8]]) -> Vec<Standing> {
        self.judged(senders, |_| self.own)
    }

    /// What the packets of a second inbox are worth: of every sender its own number is demanded.
    fn judged_second(&self, senders: &[&[u8]]) -> Vec<Standing> {
        self.judged(senders, |sender| sender)
    }

    /// The party's own entry counts as silence.
    fn judged(&self, senders: &[&[u8]], demanded: impl Fn(usize) -> usize) -> Vec<Standing> {
        let judge = |(sender, packet): (usize, &&[u8])| {
            if sender == self.own {
                return Standing::Silent;
            }
            let j = demanded(sender);
            classify(self.session, self.n, j, self.root, packet).expect("numbers in range")
        };
        (1..).zip(senders).map(judge).collect()
    }

    /// The valid relays and the party's own relayed share.
    fn gathered(&self, relays: Vec<Standing>) -> Vec<Vec<u8>> {
        let share = |it| match it {
            Standing::Valid(share) => share,
            _ => Vec::new(),
        };
        let mut shares: Vec<Vec<u8>> = relays.into_iter().map(share).collect();
        shares[self.own - 1] = self.held.clone();
        shares
    }

    /// The message in what was gathered, held to the agreed root.
    fn rebuilt(&self, relays: Vec<Standing>) -> Rebuilt {
        let entries = lay_out(&self.gathered(relays));
        match find_message(self.n, self.t, &entries) {
            Ok(message) if self.root_of(&message) == self.root => Rebuilt::Message(message),
            Ok(message) => Rebuilt::OtherRoot(message),
            Err(cause @ (11 | 12)) => Rebuilt::Refused(cause),
            Err(other) => panic!("a lawful rebuild has cause {other}"),
        }
    }

    /// The state at a stage before the end. Root, share and map are zero where they are not had.
    fn awaiting(&self, stage: Stage) -> State {
        State {
            session: self.session,
            n: self.n as u64,
            t: self.t as u64,
            own: self.own as u64,
            stage,
            message: padded(&self.message),
            len: self.message.len() as u64,
            root: match stage {
                Stage::Root => [0; 32],
                _ => self.root,
            },
            share: match stage {
                Stage::Second => padded(&self.held),
                _ => [0; LONGEST_SHARE],
            },
            held: match stage {
                Stage::Second => self.held.len() as u64,
                _ => 0,
            },
            faulty: match stage {
                Stage::Second => map_of(&self.cheats),
                _ => 0,
            },
        }
    }

    /// Writes the message, if there is one, and ends with it or with nothing.
    fn end(&self, found: Option<Vec<u8>>, out: &mut [u8]) -> Result<(State, Ending), Refusal> {
        let length = match &found {
            Some(message) => Some(place(message, out)?),
            None => None,
        };
        let state = State {
            faulty: map_of(&self.cheats),
            ..self.ended(found)
        };
        let faulty = state.faulty;
        Ok((state, Ending { length, faulty }))
    }

    /// The state at the end, with nothing or with the message found, and the empty map.
    fn ended(&self, found: Option<Vec<u8>>) -> State {
        let outcome = match &found {
            Some(message) => Outcome::Message(message.len() as u64),
            None => Outcome::Nothing,
        };
        State {
            session: self.session,
            n: self.n as u64,
            t: self.t as u64,
            own: self.own as u64,
            stage: Stage::Ended(outcome),
            message: padded(&found.unwrap_or_default()),
            ..State::blank()
        }
    }
}

#[cfg(test)]
mod tests {
    use super::*;
    use crate::liars::Sharing;
    use crate::limits::{LONGEST_OUTBOX, MOST_FAULTS};
    use crate::random::Random;
    use crate::sessions::EDGES;
    use std::collections::BTreeSet;

    pub(super) const LENT: u8 = 0xA5;

    pub(super) fn cause<T: std::fmt::Debug>(given: Given<T>) -> u32 {
        given.1.expect_err("a refusal").cause
    }

    pub(super) fn short<T: std::fmt::Debug>(given: Given<T>) -> (u32, usize) {
        let Refusal { cause, needed } = given.1.expect_err("a refusal");
        (cause, needed)
    }

    /// An accepted step's state and what it wrote.
    pub(super) fn wrote(given: impl FnOnce(&mut [u8]) -> Given<usize>) -> (State, Vec<u8>) {
        let mut out = vec![LENT; LONGEST_OUTBOX];
        let (state, answer) = given(&mut out);
        let length = answer.expect("accepted");
        assert!(out[length..].iter().all(|&x| x == LENT));
        out.truncate(length);
        (state, out)
    }

    fn ending(length: Option<usize>, faulty: u32) -> Ending {
        Ending { length, faulty }
    }

    /// The states of the good parties before the first inbox, and the packets that each sends.
    /// The agreements settle on the first party's root and bit.
    fn after_agreement(n: u64, t: u64, messages: &[&[u8]]) -> Vec<(State, Vec<Vec<u8>>)> {
        let root = State::open(0, n, t, 1, messages[0]).1.expect("opened");
        let mut agreed = Vec::new();
        for (own, message) in (1..).zip(messages) {
            let (state, bit) = State::open(0, n, t, own, message).0.agree_root(&root);
            assert_eq!(bit, Ok(*message == messages[0]));
            let (state, outbox) = wrote(|out| state.agree_bit(1, out));
            let packets = entries(n as usize, &outbox).expect("an outbox");
            agreed.push((state, packets.into_iter().map(<[u8]>::to_vec).collect()));
        }
        agreed
    }

    /// The result that the second inbox gives, which the state holds as well, and gives again.
    fn result(state: State, inbox: &[u8]) -> Option<Vec<u8>> {
        let (mut out, mut again) = (vec![LENT; LONGEST_MESSAGE], vec![LENT; LONGEST_MESSAGE]);
        let (state, answer) = state.take_relays(inbox, &mut out);
        let second = state.clone().take_relays(&[], &mut again);
        assert_eq!((second, &again), ((state.clone(), answer), &out));
        let Ending { length, faulty } = answer.expect("accepted");
        assert_eq!(state.faulty, faulty);
        let found = length.map(|length| &out[..length]);
        let held = match state.stage {
            Stage::Ended(Outcome::Message(length)) => first(&state.message, length),
            Stage::Ended(Outcome::Nothing) => None,
            other => panic!("at the end {other:?}"),
        };
        assert_eq!(held, found);
        found.map(<[u8]>::to_vec)
    }

    /// The results of good parties 1, 2 and so on under n and t, and the bytes they send; the
    /// others are silent.
    fn session(n: u64, t: u64, messages: &[&[u8]]) -> (Vec<Option<Vec<u8>>>, usize) {
        let agreed = after_agreement(n, t, messages);
        let others = n as usize - 1;
        let sent: Vec<Vec<Vec<u8>>> = agreed.iter().map(|(_, sent)| sent.clone()).collect();
        let mut bytes: usize = sent.iter().flatten().map(Vec::len).sum();
        let (mut states, mut relays) = (Vec::new(), Vec::new());
        for (place, (state, _)) in agreed.into_iter().enumerate() {
            let mut inbox: Vec<Vec<u8>> = sent.iter().map(|to| to[place].clone()).collect();
            inbox.resize(n as usize, Vec::new());
            let (state, relay) = wrote(|out| state.take_shares(&lay_out(&inbox), out));
            bytes += others * relay.len();
            states.push(state);
            relays.push(relay);
        }
        relays.resize(n as usize, Vec::new());
        let inbox = lay_out(&relays);
        let results = states.into_iter().map(|state| result(state, &inbox));
        (results.collect(), bytes)
    }

    #[test]
    fn worked_sessions() {
        let both = vec![Some(b"AB".to_vec()); 2];
        assert_eq!(session(3, 1, &[b"AB", b"AB"]), (both, 496));
        let both = vec![Some(b"A".to_vec()); 2];
        assert_eq!(session(3, 1, &[b"A", b"B"]), (both, 388));
        assert_eq!(session(1, 0, &[b"AB"]), (vec![Some(b"AB".to_vec())], 0));
        assert_eq!(session(1, 0, &[b""]), (vec![Some(Vec::new())], 0));
    }

    /// The number goes from the opening through every step, and takes part in no other answer.
    #[test]
    fn a_session_is_kept_to_the_end() {
        for session in EDGES {
            let (state, root) = State::open(session, 3, 1, 2, b"AB");
            assert_eq!(root, Ok(Sharing::of(session, 3, 1, b"AB").root));
            let (state, happy) = state.agree_root(&root.unwrap());
            assert_eq!((state.session, happy), (session, Ok(true)));
            let (state, outbox) = wrote(|out| state.agree_bit(1, out));
            let packets = entries(3, &outbox).expect("an outbox");
            assert_eq!(packets[2], Sharing::of(session, 3, 1, b"AB").packet(3));
            let (state, _) = wrote(|out| state.take_shares(&[0; 6], out));
            assert_eq!(state.session, session);
            let (state, _) = state.take_relays(&[0; 6], &mut [0; 2]);
            assert_eq!(state.session, session);
            let (state, again) = state.take_relays(&[], &mut [0; 2]);
            assert_eq!((state.session, again), (session, Ok(ending(Some(2), 0))));
        }
        let refused = State::open(7, 3, 1, 4, b"AB");
        assert_eq!((refused.0, refused.1.is_ok()), (State::blank(), false));
    }

    /// Shares, relays and the root of what is rebuilt are all held to the party's own session.
    #[test]
    fn packets_of_another_session_do_not_count() {
        let (agreed, other) = (Sharing::of(7, 3, 1, b"A"), Sharing::of(8, 3, 1, b"A"));
        for (session, from, taken) in [(7, &agreed, true), (7, &other, false), (8, &agreed, false)]
        {
            let (state, _) = State::open(session, 3, 1, 2, b"no");
            let state = state.agree_root(&agreed.root).0;
            let (state, _) = wrote(|out| state.agree_bit(1, out));
            let inbox = lay_out(&[from.packet(2), Vec::new(), Vec::new()]);
            let (state, relay) = wrote(|out| state.take_shares(&inbox, out));
            assert_eq!(relay.is_empty(), !taken);
            let inbox = lay_out(&[from.packet(1), Vec::new(), from.packet(3)]);
            let found = taken.then(|| b"A".to_vec());
            assert_eq!(result(state, &inbox), found);
        }
    }

    #[test]
    fn bit_zero_ends_with_nothing() {
        for (own, message) in [(1, b"A"), (2, b"B")] {
            let (_, root) = State::open(0, 3, 1, 1, b"A");
            let (state, _) = State::open(0, 3, 1, own, message);
            let (state, bit) = state.agree_root(&root.unwrap());
            assert_eq!(bit, Ok(own == 1));
            let (state, out) = wrote(|out| state.agree_bit(0, out));
            assert_eq!(out, [0; 6]);
            let nothing = State {
                n: 3,
                t: 1,
                own,
                stage: Stage::Ended(Outcome::Nothing),
                ..State::blank()
            };
            assert_eq!(state, nothing);
            let given = state.take_relays(&[], &mut []);
            assert_eq!(given, (nothing, Ok(ending(None, 0))));
        }
    }

    #[test]
    fn an_opening_is_refused_by_its_lowest_cause() {
        let long = vec![7; LONGEST_MESSAGE + 1];
        let (most, half) = (MOST_PARTIES as u64, MOST_FAULTS as u64);
        assert!(State::open(0, most, half, most, &long[1..]).1.is_ok());
        for (n, t, own, want) in [
            (0, 0, 0, 1),
            (most + 1, half + 2, most + 2, 1),
            (u64::MAX, 0, 1, 1),
            (most, half + 1, most + 1, 2),
            (1, 1 << 63, 0, 2),
            (most, half, most + 1, 3),
            (most, half, 0, 3),
            (most, half, most, 4),
        ] {
            let given = State::open(0, n, t, own, &long);
            assert_eq!(given.0, State::blank());
            assert_eq!(cause(given), want, "n {n}, t {t}, own {own}");
        }
    }

    /// What the ordinary opening with this message gives, and so many bytes written.
    fn like_the_ordinary(
        (n, t): (u64, u64),
        own: u64,
        message: &[u8],
        written: usize,
    ) -> Given<Begun> {
        let (state, root) = State::open(0, n, t, own, message);
        (state, root.map(|root| Begun { root, written }))
    }

    #[test]
    fn a_sender_opens_with_its_message_and_the_others_with_its_packet() {
        let group = (3, 1);
        for message in [&b""[..], b"A", b"AB", &[7; LONGEST_MESSAGE]] {
            let packet = [&[8][..], &lay_out(&[message])].concat();
            let mut out = vec![LENT; packet.len() + 2];
            let given = State::open_by_sender(0, group, 2, 2, message, &mut out);
            assert_eq!(given, like_the_ordinary(group, 2, message, packet.len()));
            assert_eq!(out, [&packet[..], &[LENT; 2]].concat());
            for own in [1, 3] {
                let given = State::open_by_sender(0, group, own, 2, &packet, &mut []);
                assert_eq!(given, like_the_ordinary(group, own, message, 0));
            }
        }
        let mut out = [LENT; 9];
        let alone = State::open_by_sender(0, (1, 0), 1, 1, b"AB", &mut out);
        assert_eq!(alone, like_the_ordinary((1, 0), 1, b"AB", 0));
        let alone = State::open_by_sender(0, (1, 0), 1, 1, b"AB", &mut []);
        assert_eq!(alone, like_the_ordinary((1, 0), 1, b"AB", 0));
        assert_eq!(out, [LENT; 9]);
    }

    #[test]
    fn what_is_not_read_is_the_empty_message() {
        let long = [&[8][..], &lay_out(&[[7; LONGEST_MESSAGE + 1]])].concat();
        let share = Sharing::of(0, 3, 1, b"AB").packet(2);
        let came: [&[u8]; 10] = [
            &[],
            &[0],
            &[0, 0],
            &[8],
            &[8, 0, 0],
            &[8, 0, 2, 65],
            &[8, 0, 1, 65, 66],
            &[255; 70_000],
            &long,
            &share,
        ];
        for bytes in came {
            let mut out = [LENT; 5];
            let given = State::open_by_sender(0, (3, 1), 2, 1, bytes, &mut out);
            assert_eq!(given, like_the_ordinary((3, 1), 2, b"", 0));
            assert_eq!(out, [LENT; 5]);
        }
    }

    #[test]
    fn an_opening_by_a_sender_is_refused_by_its_lowest_cause() {
        let long = vec![7; LONGEST_MESSAGE + 1];
        let (most, half) = (MOST_PARTIES as u64, MOST_FAULTS as u64);
        let mut out = [LENT; 4];
        for (n, t, own, sender, want) in [
            (0, 0, 0, 0, (1, 0)),
            (most + 1, half + 2, most + 2, most + 2, (1, 0)),
            (u64::MAX, 0, 1, 1, (1, 0)),
            (most, half + 1, most + 1, 0, (2, 0)),
            (1, 1 << 63, 0, 0, (2, 0)),
            (most, half, most + 1, most + 1, (3, 0)),
            (most, half, most + 1, 1, (3, 0)),
            (most, half, 0, 0, (3, 0)),
            (most, half, 1, most + 1, (3, 0)),
            (most, half, 1, 0, (3, 0)),
            (most, half, 1, u64::MAX, (3, 0)),
            (most, half, most, most, (4, 0)),
            (1, 0, 1, 1, (4, 0)),
        ] {
            let given = State::open_by_sender(0, (n, t), own, sender, &long, &mut out);
            assert_eq!(given.0, State::blank());
            assert_eq!(
                short(given),
                want,
                "n {n}, t {t}, own {own}, sender {sender}"
            );
        }
        for (bytes, needed) in [(&b"AB"[..], 5), (&long[1..], 3 + LONGEST_MESSAGE)] {
            let given = State::open_by_sender(0, (2, 0), 2, 2, bytes, &mut out);
            assert_eq!(given.0, State::blank());
            assert_eq!(short(given), (9, needed));
        }
        assert_eq!(out, [LENT; 4]);
    }

    #[test]
    fn a_refused_step_keeps_the_state_and_the_buffer() {
        let (fresh, root) = State::open(0, 2, 0, 1, b"A");
        let root = root.unwrap();
        assert_eq!(cause(fresh.clone().agree_root(&root[1..])), 7);
        assert_eq!(cause(fresh.clone().agree_bit(9, &mut [])), 6);
        let mut state = fresh.agree_root(&root).0;
        state.message[1] = 9;
        state.share[5] = 9;
        let mut out = vec![LENT; 39];
        for (bit, want) in [(2, (7, 0)), (1, (9, 4 + 38))] {
            let given = state.clone().agree_bit(bit, &mut out);
            assert_eq!(given.0, state);
            assert_eq!(short(given), want);
        }
        assert_eq!(short(state.clone().agree_bit(0, &mut out[..3])), (9, 4));
        assert_eq!(out, vec![LENT; 39]);
        for change in [
            |s: &mut State| s.n = MOST_PARTIES as u64 + 1,
            |s: &mut State| s.t = u64::MAX,
            |s: &mut State| s.own = 3,
            |s: &mut State| s.len = LONGEST_MESSAGE as u64 + 1,
            |s: &mut State| s.held = LONGEST_SHARE as u64 + 1,
            |s: &mut State| s.faulty = 1,
            |s: &mut State| s.faulty = 4,
            |s: &mut State| s.stage = Stage::Ended(Outcome::Message(LONGEST_MESSAGE as u64 + 1)),
        ] {
            let mut broken = state.clone();
            change(&mut broken);
            let given = broken.clone().take_relays(&[], &mut out);
            assert_eq!(given.0, broken);
            assert_eq!(cause(given), 5);
        }
    }

    /// A state that ended with this result, as it is given back, and with all that no ended state
    /// has.
    fn ended(result: Option<&[u8]>) -> [State; 2] {
        let bytes = result.unwrap_or_default();
        let clean = State {
            n: 3,
            t: 1,
            own: 2,
            stage: Stage::Ended(match result {
                Some(message) => Outcome::Message(message.len() as u64),
                None => Outcome::Nothing,
            }),
            message: padded(bytes),
            faulty: 5,
            ..State::blank()
        };
        let mut dirty = State {
            len: 2,
            root: [9; 32],
            share: [9; LONGEST_SHARE],
            held: 5,
            ..clean.clone()
        };
        dirty.message[bytes.len()..].fill(9);
        [clean, dirty]
    }

    /// None, laid out well, cut, with a byte too much, and noise.
    const INBOXES: [&[u8]; 5] = [&[], &[0; 6], &[0; 5], &[0; 7], &[0xFF; 40]];

    #[test]
    fn a_result_is_read_again_whatever_the_inbox() {
        for result in [
            None,
            Some(&b""[..]),
            Some(b"A"),
            Some(&[7; LONGEST_MESSAGE]),
        ] {
            let [clean, dirty] = ended(result);
            let bytes = result.unwrap_or_default();
            let accepted = (clean.clone(), Ok(ending(result.map(<[u8]>::len), 5)));
            for inbox in INBOXES {
                for (state, more) in [(&clean, 0), (&dirty, 0), (&dirty, 9)] {
                    let mut out = vec![LENT; bytes.len() + more];
                    assert_eq!(state.clone().take_relays(inbox, &mut out), accepted);
                    assert_eq!(out, [bytes, &vec![LENT; more]].concat());
                }
                for room in [0, bytes.len().saturating_sub(1)] {
                    let mut out = vec![LENT; room];
                    let given = dirty.clone().take_relays(inbox, &mut out);
                    if bytes.is_empty() {
                        assert_eq!(given, accepted);
                    } else {
                        assert_eq!(given.0, dirty);
                        assert_eq!(short(given), (9, bytes.len()));
                    }
                    assert_eq!(out, vec![LENT; room]);
                }
            }
        }
    }

    /// Cause 5 comes before all others, cause 6 of the steps that are over before 7, 8 and 9.
    #[test]
    fn an_ended_party_refuses_by_its_lowest_cause() {
        let states = [None, Some(&b"AB"[..])].map(ended).concat();
        for state in &states {
            for root in [&[][..], &[0; 32]] {
                assert_eq!(cause(state.clone().agree_root(root)), 6);
            }
            for inbox in INBOXES {
                for room in [0, 80] {
                    let mut out = vec![LENT; room];
                    assert_eq!(cause(state.clone().agree_bit(2, &mut out)), 6);
                    assert_eq!(cause(state.clone().agree_bit(1, &mut out)), 6);
                    assert_eq!(cause(state.clone().take_shares(inbox, &mut out)), 6);
                    let mut broken = state.clone();
                    broken.held = LONGEST_SHARE as u64 + 1;
                    let given = broken.clone().take_relays(inbox, &mut out);
                    assert_eq!(given.0, broken);
                    assert_eq!(cause(given), 5);
                    assert_eq!(out, vec![LENT; room]);
                }
            }
        }
    }

    /// A sender's share is taken only from another party, the lowest valid one; what the
    /// own entry holds never counts.
    #[test]
    fn the_lowest_valid_sender_is_taken() {
        let (sender, root) = State::open(0, 3, 1, 1, b"AB");
        let sender = sender.agree_root(&root.unwrap()).0;
        let (_, outbox) = wrote(|out| sender.agree_bit(1, out));
        let packet = entries(3, &outbox).unwrap()[1].to_vec();
        let unhappy = || {
            let state = State::open(0, 3, 1, 2, b"no")
                .0
                .agree_root(&root.unwrap())
                .0;
            wrote(|out| state.agree_bit(1, out)).0
        };
        let none: &[u8] = &[];
        for (inbox, taken) in [
            ([&packet, none, none], true),
            ([none, &packet, none], false),
            ([none, none, &packet], true),
            ([&[7], none, &packet], true),
            ([&packet[1..], none, &packet[..5]], false),
        ] {
            let (state, relay) = wrote(|out| unhappy().take_shares(&lay_out(&inbox), out));
            assert_eq!(relay, if taken { &packet[..] } else { none });
            assert_eq!(state.held, if taken { 2 } else { 0 });
            assert_eq!(state.share[..2], if taken { [0x82, 0x86] } else { [0, 0] });
        }
    }

    /// An unhappy party before step 5, which the next one has sent its share.
    fn unhappy((n, t): (usize, usize), own: usize, agreed: &Sharing) -> State {
        let (state, _) = State::open(0, n as u64, t as u64, own as u64, b"no");
        let (state, bit) = state.agree_root(&agreed.root);
        assert_eq!(bit, Ok(false));
        let (state, _) = wrote(|out| state.agree_bit(1, out));
        let mut inbox = vec![Vec::new(); n];
        inbox[own % n] = agreed.packet(own);
        wrote(|out| state.take_shares(&lay_out(&inbox), out)).0
    }

    /// Every such party with every inbox that has just enough relays.
    fn before_step_5((n, t): (usize, usize), agreed: &Sharing) -> Vec<(State, Vec<u8>)> {
        let mut found = Vec::new();
        for own in 1..=n {
            let others = (0..1u32 << n).filter(|map| map >> (own - 1) & 1 == 0);
            for map in others.filter(|map| map.count_ones() as usize == n - t - 1) {
                let packets = (1..=n).map(|j| match map >> (j - 1) & 1 {
                    1 => agreed.packet(j),
                    _ => Vec::new(),
                });
                let inbox = lay_out(&packets.collect::<Vec<_>>());
                found.push((unhappy((n, t), own, agreed), inbox));
            }
        }
        found
    }

    #[test]
    fn a_message_is_rebuilt_under_its_root() {
        for group in [(2, 0), (3, 1), (5, 2), (6, 2)] {
            let agreed = Sharing::of(0, group.0, group.1, b"message");
            for (state, inbox) in before_step_5(group, &agreed) {
                let message = Rebuilt::Message(b"message".to_vec());
                assert_eq!(state.rebuilt(&inbox), Some(message));
                let short_of_room = state.clone().take_relays(&inbox, &mut [LENT; 6]);
                assert_eq!(short(short_of_room), (9, 7));
                assert_eq!(result(state, &inbox), Some(b"message".to_vec()));
            }
        }
    }

    /// The shares under the agreed root are no message's, so that from each b of them another one is
    /// rebuilt: parties who took these would not end alike. They end with nothing, with any room.
    #[test]
    fn a_message_with_another_root_is_not_taken() {
        let mut random = Random::new(5);
        for group in [(3, 1), (4, 1), (5, 2), (6, 2)] {
            let agreed = Sharing::no_codeword(0, group.0, group.1, &mut random);
            let mut messages = BTreeSet::new();
            for (state, inbox) in before_step_5(group, &agreed) {
                let Some(Rebuilt::OtherRoot(message)) = state.rebuilt(&inbox) else {
                    panic!("no message with another root");
                };
                for room in [0, message.len() - 1, message.len()] {
                    let mut out = vec![LENT; room];
                    let (ended, answer) = state.clone().take_relays(&inbox, &mut out);
                    assert_eq!(answer, Ok(ending(None, 0)));
                    assert_eq!(ended.stage, Stage::Ended(Outcome::Nothing));
                    assert_eq!(out, vec![LENT; room]);
                }
                assert_eq!(result(state, &inbox), None);
                messages.insert(message);
            }
            assert!(messages.len() > 1);
        }
    }

    /// Fewer relays than are needed, and shares of no frame.
    #[test]
    fn what_gives_no_message_is_told() {
        let agreed = Sharing::of_frame(0, 5, 2, &[0; 9]);
        for (state, inbox) in before_step_5((5, 2), &agreed) {
            assert_eq!(state.rebuilt(&inbox), Some(Rebuilt::Refused(12)));
            assert_eq!(state.rebuilt(&[0; 10]), Some(Rebuilt::Refused(11)));
            assert_eq!(result(state, &inbox), None);
        }
        let (state, root) = State::open(0, 3, 1, 1, b"A");
        let happy = state.agree_root(&root.unwrap()).0;
        assert_eq!(happy.rebuilt(&[0; 6]), None);
    }
}
