//! The rehearsal: plays the good parties of a session against a plan of what the bad ones
//! send, and tells how each good party ended and how many bytes they sent. A plan is read
//! to its end, then judged, then played by the steps of party.rs; it can also be played whatever
//! is judged of it. What was seen on the way is kept for whoever explains a session.
//!
//! In a plan with a sender that party alone has a message, which it gives to all others before they
//! open.

#[cfg(test)]
mod cheats;
#[cfg(test)]
mod senders;
#[cfg(test)]
mod sessions;

use std::collections::BTreeMap;

use crate::inbox::{entries, lay_out};
use crate::limits::{LONGEST_MESSAGE, LONGEST_MESSAGE_PACKET, LONGEST_OUTBOX, LONGEST_PLAN};
use crate::limits::{MOST_NAMED, MOST_PARTIES};
use crate::party::{Given, Outcome, Rebuilt, Stage, State};
use crate::sha256::{hex, Hash};

/// The option that a root is given, the option that a bit is, the one that a sender is named, and the
/// one that the session's number is given.
pub const ROOT_GIVEN: u8 = 1;
pub const BIT_GIVEN: u8 = 2;
pub const SENDER_GIVEN: u8 = 4;
pub const SESSION_GIVEN: u8 = 8;

const OPTIONS: u8 = ROOT_GIVEN | BIT_GIVEN | SENDER_GIVEN | SESSION_GIVEN;

/// What one party sends in one exchange: for each receiver a packet, or none where nothing is sent.
pub type Row = Vec<Option<Vec<u8>>>;

/// What is sent in one exchange: for each sender a row.
pub type Exchange = Vec<Row>;

/// A plan that is well laid out, with the good parties' numbers upward, and by number the messages
/// that are listed: of all good parties, or where there is a sender its own, if it is good.
pub struct Plan {
    pub n: usize,
    pub t: usize,
    pub root: Option<Hash>,
    pub bit: Option<u8>,
    pub sender: Option<Sender>,
    /// The session's number as it is written; a plan without one is of session 0.
    pub session: Option<u32>,
    pub good: Vec<usize>,
    pub messages: BTreeMap<usize, Vec<u8>>,
    pub first: Exchange,
    pub second: Exchange,
}

/// The party that alone has a message, by the number that the plan gives, which may be none of the n
/// parties', and what it sends before the others open.
pub struct Sender {
    pub number: usize,
    pub row: Row,
}

impl Plan {
    /// The number of the session that it tells.
    pub fn session_number(&self) -> u32 {
        self.session.unwrap_or(0)
    }
}

/// An exchange: that of the sender, and the two of every session.
#[derive(Clone, Copy, Debug, PartialEq, Eq)]
pub enum Round {
    Sender,
    First,
    Second,
}

/// Why a plan is refused.
#[derive(Clone, Copy, Debug, PartialEq, Eq)]
pub enum Fault {
    Parties,
    Limit,
    TooLong,
    Layout(Misfit),
    /// The sender's number, which no party has.
    NoSender(usize),
    /// The party whose message is too long.
    LongMessage(usize),
    TooManyBad,
    BitAbove,
    RootAgainst,
    BitAgainst,
}

impl Fault {
    pub fn cause(self) -> u32 {
        match self {
            Fault::Parties => 1,
            Fault::Limit => 2,
            Fault::NoSender(_) => 3,
            Fault::LongMessage(_) => 4,
            Fault::TooLong | Fault::Layout(_) => 13,
            Fault::TooManyBad | Fault::BitAbove | Fault::RootAgainst | Fault::BitAgainst => 14,
        }
    }
}

/// Where a plan is badly laid out: where the field begins that cannot stand there, what it is
/// part of, and how many bytes it lacks; 0 if they are there, but are not lawful.
#[derive(Clone, Copy, Debug, PartialEq, Eq)]
pub struct Misfit {
    pub offset: usize,
    pub part: Part,
    pub missing: usize,
}

/// A part of a plan.
#[derive(Clone, Copy, Debug, PartialEq, Eq)]
pub enum Part {
    Head,
    Options,
    Root,
    Bit,
    Sender,
    Session,
    Good,
    Message(usize),
    Receivers {
        round: Round,
        sender: usize,
    },
    Packet {
        round: Round,
        sender: usize,
        receiver: usize,
    },
    End,
}

/// A session played to its end, with what was seen on the way. The lists have one entry for
/// each good party, upward.
pub struct Session {
    /// The plan, its exchanges completed with what the good parties sent.
    pub plan: Plan,
    /// The messages that the parties opened with.
    pub messages: Vec<Vec<u8>>,
    pub roots: Vec<Hash>,
    pub root: Hash,
    pub bits: Vec<u8>,
    pub bit: u8,
    /// None on bit 0.
    pub takings: Option<Takings>,
    pub results: Vec<Option<Vec<u8>>>,
}

/// What the good parties took from the exchanges.
pub struct Takings {
    /// The sender whose share an unhappy party took, if one passed.
    pub sources: Vec<Option<usize>>,
    /// The shares an unhappy party rebuilt from, by number, with no bytes for missing ones.
    pub gathered: Vec<Option<Vec<Vec<u8>>>>,
    /// What these gave.
    pub rebuilt: Vec<Option<Rebuilt>>,
    /// The maps of the parties seen to cheat: in the first inbox, and in all, as it is given with the
    /// result.
    pub faulty_first: Vec<u32>,
    pub faulty: Vec<u32>,
}

/// What the rehearsal prints for a plan.
pub fn rehearse(plan: &[u8]) -> Vec<u8> {
    match play(plan) {
        Ok(session) => session.report(),
        Err(fault) => format!("refused {}\n", fault.cause()),
    }
    .into_bytes()
}

/// The session that the plan tells, or why it is refused: the first cause in the order of
/// `formed`, `supposed` and `ruled`. Nothing is sent where the rule is broken.
pub fn play(plan: &[u8]) -> Result<Session, Fault> {
    let plan = formed(plan)?;
    supposed(&plan)?;
    let (states, session) = agreed(plan).expect("a good party, as fewer than n are bad");
    ruled(&session)?;
    Ok(ended(states, session).expect("steps in turn, well called"))
}

/// The session of a plan whose form is fine, also where more than t parties are bad, or root or
/// bit are against the rule; none without a good party, or where a step is refused.
pub fn play_regardless(plan: &[u8]) -> Option<Session> {
    let (states, session) = agreed(formed(plan).ok()?)?;
    ended(states, session)
}

impl Session {
    /// The lines that the rehearsal prints.
    pub fn report(&self) -> String {
        let mut text = String::new();
        for (number, result) in self.plan.good.iter().zip(&self.results) {
            text += &match result {
                None => format!("{number} -\n"),
                Some(message) if message.is_empty() => format!("{number} =\n"),
                Some(message) => format!("{number} = {}\n", hex(message)),
            };
        }
        let sent: usize = self.bytes_sent().iter().sum();
        text + &format!("sent {sent}\n")
    }

    /// The packets' bytes in the rows of the good parties, exchange by exchange: the sender's, the
    /// first and the second.
    pub fn bytes_sent(&self) -> [usize; 3] {
        let bytes = |row: &Row| row.iter().flatten().map(Vec::len).sum::<usize>();
        let [first, second] = [&self.plan.first, &self.plan.second].map(|exchange| {
            let rows = self.plan.good.iter().map(|own| &exchange[own - 1]);
            rows.map(bytes).sum()
        });
        let sender = self.plan.sender.as_ref();
        let good = sender.filter(|it| self.plan.good.contains(&it.number));
        [good.map_or(0, |it| bytes(&it.row)), first, second]
    }
}

/// The plan, or the first cause in the order 13 for under two bytes, 1, 2, 13, 3, 4.
fn formed(bytes: &[u8]) -> Result<Plan, Fault> {
    let &[n, t, ..] = bytes else {
        return read(bytes).map_err(Fault::Layout);
    };
    let (n, t) = (usize::from(n), usize::from(t));
    if !(1..=MOST_PARTIES).contains(&n) {
        return Err(Fault::Parties);
    }
    if 2 * t >= n {
        return Err(Fault::Limit);
    }
    if bytes.len() > LONGEST_PLAN {
        return Err(Fault::TooLong);
    }
    let plan = read(bytes).map_err(Fault::Layout)?;
    let mut sender = plan.sender.iter().map(|sender| sender.number);
    if let Some(number) = sender.find(|number| !(1..=n).contains(number)) {
        return Err(Fault::NoSender(number));
    }
    let mut messages = plan.messages.iter();
    if let Some((&party, _)) = messages.find(|it| it.1.len() > LONGEST_MESSAGE) {
        return Err(Fault::LongMessage(party));
    }
    Ok(plan)
}

/// Cause 14 as far as the plan alone tells.
fn supposed(plan: &Plan) -> Result<(), Fault> {
    if plan.n - plan.good.len() > plan.t {
        return Err(Fault::TooManyBad);
    }
    if plan.bit.is_some_and(|bit| bit > 1) {
        return Err(Fault::BitAbove);
    }
    Ok(())
}

/// Cause 14 by the rule of the short agreement, of the root and then of the bit.
fn ruled(session: &Session) -> Result<(), Fault> {
    if against(&session.root, &session.roots) {
        return Err(Fault::RootAgainst);
    }
    if against(&session.bit, &session.bits) {
        return Err(Fault::BitAgainst);
    }
    Ok(())
}

/// Whether all put in the same, and the agreement gave another.
fn against<T: PartialEq>(value: &T, put_in: &[T]) -> bool {
    put_in.windows(2).all(|pair| pair[0] == pair[1]) && !put_in.contains(value)
}

/// The plan whose bytes these are, whatever n and t, or where it is badly laid out.
pub fn read(bytes: &[u8]) -> Result<Plan, Misfit> {
    let mut rest = Rest {
        bytes,
        whole: bytes.len(),
        seen: Misfit {
            offset: 0,
            part: Part::Head,
            missing: 0,
        },
    };
    rest.plan().ok_or(rest.seen)
}

/// The bytes that are not read yet, and what was read last; reading gives none where they run
/// short.
struct Rest<'a> {
    bytes: &'a [u8],
    whole: usize,
    seen: Misfit,
}

impl<'a> Rest<'a> {
    fn plan(&mut self) -> Option<Plan> {
        let (n, t) = (self.one()?.into(), self.one()?.into());
        let options = self.part(Part::Options).one()?;
        if options & !OPTIONS != 0 {
            return None;
        }
        let root = self.optional(options & ROOT_GIVEN, Part::Root, Self::root)?;
        let bit = self.optional(options & BIT_GIVEN, Part::Bit, Self::one)?;
        let sender = self.optional(options & SENDER_GIVEN, Part::Sender, Self::one)?;
        let session = self.optional(options & SESSION_GIVEN, Part::Session, Self::four)?;
        let good = self.part(Part::Good).parties()?;
        if good.iter().any(|&party| party > n) {
            return None;
        }
        let sender = sender.map(usize::from);
        let messages = self.messages(&good, sender)?;
        let sender = match sender {
            Some(number) => Some(self.sender(number, n, &good)?),
            None => None,
        };
        let first = self.exchange(Round::First, n, &good)?;
        let second = self.exchange(Round::Second, n, &good)?;
        self.part(Part::End).take(0)?;
        self.bytes.is_empty().then_some(Plan {
            n,
            t,
            root,
            bit,
            sender,
            session,
            good,
            messages,
            first,
            second,
        })
    }

    /// What is read from here on is part of this.
    fn part(&mut self, part: Part) -> &mut Self {
        self.seen.part = part;
        self
    }

    fn take(&mut self, length: usize) -> Option<&'a [u8]> {
        self.seen.offset = self.whole - self.bytes.len();
        self.seen.missing = length.saturating_sub(self.bytes.len());
        let (taken, behind) = self.bytes.split_at_checked(length)?;
        self.bytes = behind;
        Some(taken)
    }

    /// The field of an option, if that is given.
    fn optional<T>(
        &mut self,
        given: u8,
        part: Part,
        field: fn(&mut Self) -> Option<T>,
    ) -> Option<Option<T>> {
        match given {
            0 => Some(None),
            _ => Some(Some(field(self.part(part))?)),
        }
    }

    fn one(&mut self) -> Option<u8> {
        Some(self.take(1)?[0])
    }

    fn two(&mut self) -> Option<u16> {
        let bytes = self.take(2)?;
        Some(u16::from_be_bytes([bytes[0], bytes[1]]))
    }

    fn four(&mut self) -> Option<u32> {
        Some(u32::from_be_bytes(self.take(4)?.try_into().ok()?))
    }

    fn root(&mut self) -> Option<Hash> {
        self.take(32)?.try_into().ok()
    }

    /// A length in two bytes, and as many bytes.
    fn counted(&mut self) -> Option<Vec<u8>> {
        let length = self.two()?;
        Some(self.take(length.into())?.to_vec())
    }

    /// The numbers in a map, upward.
    fn parties(&mut self) -> Option<Vec<usize>> {
        let map = self.two()?;
        let named = (1..=MOST_NAMED).filter(|party| map >> (party - 1) & 1 == 1);
        Some(named.collect())
    }

    /// The messages of the good parties, or that of a good sender alone.
    fn messages(
        &mut self,
        good: &[usize],
        sender: Option<usize>,
    ) -> Option<BTreeMap<usize, Vec<u8>>> {
        let listed = |party: &usize| sender.is_none_or(|number| number == *party);
        let parties = good.iter().copied().filter(listed);
        parties
            .map(|party| Some((party, self.part(Part::Message(party)).counted()?)))
            .collect()
    }

    /// The sender with the packets that it sends if it is bad; those of a good one the plan does not
    /// tell. A number that no party has counts as bad.
    fn sender(&mut self, number: usize, n: usize, good: &[usize]) -> Option<Sender> {
        let row = match good.contains(&number) {
            true => vec![None; n],
            false => self.block((Round::Sender, number), n, good)?,
        };
        Some(Sender { number, row })
    }

    /// What the bad parties send in one exchange; the rows of the good ones stay empty.
    fn exchange(&mut self, round: Round, n: usize, good: &[usize]) -> Option<Exchange> {
        let row = |sender| match good.contains(&sender) {
            true => Some(vec![None; n]),
            false => self.block((round, sender), n, good),
        };
        (1..=n).map(row).collect()
    }

    /// What one bad party sends in one exchange. Only good parties are receivers.
    fn block(&mut self, (round, sender): (Round, usize), n: usize, good: &[usize]) -> Option<Row> {
        let receivers = self.part(Part::Receivers { round, sender }).parties()?;
        if receivers.iter().any(|receiver| !good.contains(receiver)) {
            return None;
        }
        let mut row = vec![None; n];
        for receiver in receivers {
            let part = Part::Packet {
                round,
                sender,
                receiver,
            };
            row[receiver - 1] = Some(self.part(part).counted()?);
        }
        Some(row)
    }
}

/// Steps 1 and 2: the good parties with the session as far as both short agreements, each of
/// which gives the plan's value, or else the lowest party's.
fn agreed(mut plan: Plan) -> Option<(Vec<State>, Session)> {
    let (states, roots) = opened(&mut plan)?;
    let messages = states.iter().map(message).collect();
    let root = plan.root.unwrap_or(*roots.first()?);
    let (states, happy) = each(states, |state| state.agree_root(&root))?;
    let bits: Vec<u8> = happy.into_iter().map(u8::from).collect();
    let bit = plan.bit.unwrap_or(*bits.first()?);
    let session = Session {
        plan,
        messages,
        roots,
        root,
        bits,
        bit,
        takings: None,
        results: Vec::new(),
    };
    Some((states, session))
}

/// Step 1 of each good party: with its message, or by the sender, of which a good one hands its packet
/// to all others first.
fn opened(plan: &mut Plan) -> Option<(Vec<State>, Vec<Hash>)> {
    let (session, n, t) = (plan.session_number(), plan.n as u64, plan.t as u64);
    let Some(sender) = &mut plan.sender else {
        let books = plan.messages.iter().collect();
        return each(books, |(&own, message)| {
            State::open(session, n, t, own as u64, message)
        });
    };
    let number = sender.number;
    let open = |own: usize, bytes: &[u8], out: &mut [u8]| {
        State::open_by_sender(session, (n, t), own as u64, number as u64, bytes, out)
    };
    let own_message = plan.messages.get(&number).map(Vec::as_slice);
    if let Some(message) = own_message {
        let mut out = [0; LONGEST_MESSAGE_PACKET];
        let begun = open(number, message, &mut out).1.ok()?;
        sender.row = to_all_others(plan.n, number, &out[..begun.written]);
    }
    let came = |own: usize| sender.row[own - 1].as_deref().unwrap_or_default();
    each(plan.good.clone(), |own| {
        let bytes = own_message.filter(|_| own == number).unwrap_or(came(own));
        let (state, begun) = open(own, bytes, &mut [0; LONGEST_MESSAGE_PACKET]);
        (state, begun.map(|it| it.root))
    })
}

/// The message of a state that was opened.
fn message(state: &State) -> Vec<u8> {
    state.message[..state.len as usize].to_vec()
}

/// Step 3 and, on bit 1, steps 4 and 5: the session to its end.
fn ended(states: Vec<State>, mut session: Session) -> Option<Session> {
    let (bit, plan) = (session.bit, &mut session.plan);
    let (mut states, outboxes) = each(states, |state| written(|out| state.agree_bit(bit, out)))?;
    for (own, outbox) in plan.good.iter().zip(&outboxes) {
        let packets = entries(plan.n, outbox).expect("an outbox is laid out like an inbox");
        plan.first[own - 1] = packets.into_iter().map(sent).collect();
    }
    if bit == 1 {
        let (ended, takings) = exchanged(states, plan)?;
        (states, session.takings) = (ended, Some(takings));
    }
    session.results = states.iter().map(result).collect();
    Some(session)
}

/// Steps 4 and 5: takes the first inboxes, puts the relays into the second exchange, and
/// takes the second inboxes.
fn exchanged(states: Vec<State>, plan: &mut Plan) -> Option<(Vec<State>, Takings)> {
    let places = with_inboxes(states, &plan.good, &plan.first);
    let sources = places.iter().map(|(state, inbox)| state.source(inbox));
    let sources = sources.collect();
    let (states, relays) = each(places, |(state, inbox)| {
        written(|out| state.take_shares(&inbox, out))
    })?;
    for (&own, relay) in plan.good.iter().zip(relays) {
        plan.second[own - 1] = to_all_others(plan.n, own, &relay);
    }
    let faulty_first = states.iter().map(|state| state.faulty).collect();
    let places = with_inboxes(states, &plan.good, &plan.second);
    let gathered = places.iter().map(|(state, inbox)| state.gathered(inbox));
    let gathered = gathered.collect();
    let rebuilt = places.iter().map(|(state, inbox)| state.rebuilt(inbox));
    let rebuilt = rebuilt.collect();
    let (states, endings) = each(places, |(state, inbox)| {
        state.take_relays(&inbox, &mut [0; LONGEST_MESSAGE])
    })?;
    let takings = Takings {
        sources,
        gathered,
        rebuilt,
        faulty_first,
        faulty: endings.iter().map(|ending| ending.faulty).collect(),
    };
    Some((states, takings))
}

/// Does one step of each party; none if one is refused.
fn each<S, T>(parties: Vec<S>, step: impl Fn(S) -> Given<T>) -> Option<(Vec<State>, Vec<T>)> {
    let given = parties.into_iter().map(step);
    given
        .map(|(state, answer)| Some((state, answer.ok()?)))
        .collect()
}

/// The step with what it wrote as its answer; no step writes more than an outbox.
fn written(step: impl FnOnce(&mut [u8]) -> Given<usize>) -> Given<Vec<u8>> {
    let mut out = vec![0; LONGEST_OUTBOX];
    let (state, answer) = step(&mut out);
    (state, answer.map(|length| out[..length].to_vec()))
}

/// Each party with what it gets, sender by sender; the own row has no bytes for itself.
fn with_inboxes(states: Vec<State>, good: &[usize], exchange: &Exchange) -> Vec<(State, Vec<u8>)> {
    let inbox = |own: &usize| {
        let packets = exchange.iter().map(|row| row[own - 1].as_deref());
        lay_out(&packets.map(Option::unwrap_or_default).collect::<Vec<_>>())
    };
    states.into_iter().zip(good.iter().map(inbox)).collect()
}

/// What a good party wrote for another; no bytes are no packet.
fn sent(packet: &[u8]) -> Option<Vec<u8>> {
    (!packet.is_empty()).then(|| packet.to_vec())
}

/// The row of a party that writes one packet for all others, a relay or a sender's.
fn to_all_others(n: usize, own: usize, packet: &[u8]) -> Row {
    let packet = |receiver| match receiver == own {
        true => None,
        false => sent(packet),
    };
    (1..=n).map(packet).collect()
}

/// What an ended state holds.
fn result(state: &State) -> Option<Vec<u8>> {
    match state.stage {
        Stage::Ended(Outcome::Nothing) => None,
        Stage::Ended(Outcome::Message(length)) => Some(state.message[..length as usize].to_vec()),
        other => panic!("at the end {other:?}"),
    }
}

#[cfg(test)]
mod tests {
    use super::*;
    use crate::liars::Sharing;
    use crate::limits::{INSIDE, MOST_FAULTS};
    use crate::plans;

    const MOST: u8 = MOST_PARTIES as u8;

    /// No packet from one bad party, in either exchange.
    pub(super) const SILENT: &[u8] = &[0, 0, 0, 0];

    pub(super) fn printed(plan: &[u8]) -> String {
        String::from_utf8(rehearse(plan)).expect("a text")
    }

    /// The cause that the plan is refused for, 0 if it is not.
    pub(super) fn cause(plan: &[u8]) -> u32 {
        let text = printed(plan);
        let number = text.strip_prefix("refused ");
        number.map_or(0, |it| it.trim_end().parse().expect("a cause"))
    }

    /// A plan: n, t and options in `head`, the good map, the messages, what the bad ones send.
    pub(super) fn plan(head: &[u8], good: u16, messages: &[&[u8]], behind: &[u8]) -> Vec<u8> {
        let messages = lay_out(messages);
        [head, &good.to_be_bytes(), &messages, behind].concat()
    }

    /// Parties 1 and 2 of three are good and have these messages; party 3 is bad and silent.
    fn of_three(options: &[u8], messages: [&[u8]; 2]) -> Vec<u8> {
        plan(&[&[3, 1], options].concat(), 3, &messages, SILENT)
    }

    fn root_of(own: u64, message: &[u8]) -> Hash {
        State::open(0, 3, 1, own, message).1.expect("opened")
    }

    #[test]
    fn worked_plans() {
        let worked: [(&[u8], &[u8]); 5] = [
            (
                include_bytes!("../../plans/worked-1.plan"),
                include_bytes!("../../plans/worked-1.out"),
            ),
            (
                include_bytes!("../../plans/worked-2.plan"),
                include_bytes!("../../plans/worked-2.out"),
            ),
            (
                include_bytes!("../../plans/worked-3.plan"),
                include_bytes!("../../plans/worked-3.out"),
            ),
            (
                include_bytes!("../../plans/alone.plan"),
                include_bytes!("../../plans/alone.out"),
            ),
            (
                include_bytes!("../../plans/longest.plan"),
                include_bytes!("../../plans/longest.out"),
            ),
        ];
        for (plan, output) in worked {
            assert_eq!(rehearse(plan), output);
        }
        let hex_plan = [
            3, 1, 0, 0, 3, 0, 2, 0x41, 0x42, 0, 2, 0x41, 0x42, 0, 0, 0, 0,
        ];
        assert_eq!(printed(&hex_plan), "1 = 4142\n2 = 4142\nsent 496\n");
        let two = of_three(&[0], [b"A", b"B"]);
        assert_eq!(printed(&two), "1 = 41\n2 = 41\nsent 388\n");
        let zero = of_three(&[2, 0], [b"A", b"B"]);
        assert_eq!(printed(&zero), "1 -\n2 -\nsent 0\n");
    }

    #[test]
    fn one_party() {
        let alone =
            |options: &[u8], message| plan(&[&[1, 0], options].concat(), 1, &[message], &[]);
        assert_eq!(printed(&alone(&[0], b"AB")), "1 = 4142\nsent 0\n");
        assert_eq!(printed(&alone(&[0], b"")), "1 =\nsent 0\n");
        assert_eq!(printed(&alone(&[2, 1], &[0x0F])), "1 = 0f\nsent 0\n");
        assert_eq!(cause(&alone(&[2, 0], b"AB")), 14);
    }

    #[test]
    fn given_root_and_bit() {
        let (a, b) = (root_of(1, b"A"), root_of(2, b"B"));
        let given = |root: Hash, bit: &[u8], messages| {
            let option = 1 + 2 * bit.len() as u8;
            printed(&of_three(&[&[option], &root[..], bit].concat(), messages))
        };
        let unequal: [&[u8]; 2] = [b"A", b"B"];
        let equal: [&[u8]; 2] = [b"A", b"A"];
        let nothing = "1 -\n2 -\nsent 0\n";
        assert_eq!(given(a, &[], unequal), "1 = 41\n2 = 41\nsent 388\n");
        // The lowest party is unhappy with the other's root, so that its bit is 0.
        assert_eq!(given(b, &[], unequal), nothing);
        assert_eq!(given(b, &[1], unequal), "1 = 42\n2 = 42\nsent 388\n");
        assert_eq!(given(b, &[0], unequal), nothing);
        assert_eq!(given([9; 32], &[], unequal), nothing);
        assert_eq!(given([9; 32], &[0], unequal), nothing);
        assert_eq!(given([9; 32], &[1], unequal), "refused 14\n");
        assert_eq!(given(a, &[1], equal), "1 = 41\n2 = 41\nsent 496\n");
        assert_eq!(given(a, &[0], equal), "refused 14\n");
        assert_eq!(given(b, &[], equal), "refused 14\n");
        assert_eq!(given(b, &[0], equal), "refused 14\n");
        assert_eq!(given(a, &[2], unequal), "refused 14\n");
    }

    /// Party 1 is bad; the others are not of one mind.
    #[test]
    fn lies_change_nothing() {
        let noise = [&[0, 6, 0, 3, 7, 2, 9][..], &[0, 1, 0]].concat();
        let quiet = plan(&[3, 1, 0], 6, &[b"A", b"B"], SILENT);
        let noisy = plan(&[3, 1, 0], 6, &[b"A", b"B"], &[&noise[..], &noise].concat());
        let unread = plan(
            &[3, 1, 2, 0],
            6,
            &[b"A", b"B"],
            &[&noise[..], &noise].concat(),
        );
        let output = printed(&quiet);
        assert!(output.starts_with("2 = 41\n3 = 41\nsent "));
        assert_eq!(printed(&noisy), output);
        assert_eq!(printed(&unread), "2 -\n3 -\nsent 0\n");
    }

    #[test]
    fn under_two_bytes() {
        assert_eq!(cause(&[]), 13);
        for n in [0, 1, 3, MOST, MOST + 1, 255] {
            assert_eq!(cause(&[n]), 13);
        }
    }

    /// Plans with causes 1 and 2, whatever follows.
    #[test]
    fn parties_before_all_else() {
        let long = vec![0; LONGEST_MESSAGE + 1];
        let behind: [Vec<u8>; 8] = [
            vec![],
            vec![4],
            vec![16],
            vec![4, 0, 0, 0],
            vec![0; LONGEST_PLAN - 2],
            vec![0; LONGEST_PLAN - 1],
            plan(&[0], 3, &[&long, b"A"], SILENT),
            plan(&[2, 2], 1, &[b"A"], &[SILENT, SILENT].concat()),
        ];
        for behind in behind {
            let under = |n: u8, t: u8| cause(&[&[n, t], &behind[..]].concat());
            for (n, t) in [(0, 0), (MOST + 1, 0), (MOST + 1, 255), (255, 1), (128, 128)] {
                assert_eq!(under(n, t), 1);
            }
            let half = MOST_FAULTS as u8 + 1;
            for (n, t) in [(1, 1), (2, 1), (3, 2), (MOST, half), (MOST, 128), (3, 255)] {
                assert_eq!(under(n, t), 2);
            }
        }
    }

    #[test]
    fn bad_layout() {
        let sound = of_three(&[0], [b"AB", b"AB"]);
        assert_eq!(cause(&sound), 0);
        for length in 2..sound.len() {
            assert_eq!(cause(&sound[..length]), 13, "{length} bytes");
        }
        for more in [&[0][..], &[1], &[0, 0], SILENT] {
            assert_eq!(cause(&[&sound, more].concat()), 13);
        }
        for option in 4..8 {
            assert_eq!(cause(&of_three(&[1 << option], [b"AB", b"AB"])), 13);
        }
        for beyond in 3..MOST_NAMED {
            let more: &[&[u8]] = &[b"AB", b"AB", b""];
            assert_eq!(cause(&plan(&[3, 1, 0], 3 | 1 << beyond, more, SILENT)), 13);
            let as_many = &more[..2];
            assert_eq!(
                cause(&plan(&[3, 1, 0], 3 | 1 << beyond, as_many, SILENT)),
                13
            );
        }
    }

    /// Parties 1 and 2 of five are bad; a receiver is good, or the plan is badly laid out.
    #[test]
    fn receivers_are_good() {
        for bit in [0, 1] {
            for place in 0..4 {
                for receiver in 0..MOST_NAMED {
                    let mut blocks = [(); 4].map(|()| vec![0, 0]);
                    blocks[place] = (1u16 << receiver).to_be_bytes().to_vec();
                    let map_alone = blocks.concat();
                    blocks[place].extend([0, 1, 9]);
                    let with_packet = blocks.concat();
                    let messages: [&[u8]; 3] = [b"A", b"B", b"A"];
                    let cause =
                        |blocks: &[u8]| cause(&plan(&[5, 2, 2, bit], 0x1C, &messages, blocks));
                    let good = (2..5).contains(&receiver);
                    assert_eq!(cause(&with_packet), if good { 0 } else { 13 });
                    assert_eq!(cause(&map_alone), 13);
                }
            }
        }
    }

    #[test]
    fn longest_plans() {
        let of_length = |length: usize, options: &[u8], message: &[u8]| {
            let rest = of_three(options, [message, b"A"]).len() + 2;
            let packet = vec![7; length - rest];
            let block = [&[0, 1], &lay_out(&[packet])[..], &[0, 0]].concat();
            let head = [&[3, 1], options].concat();
            let plan = plan(&head, 3, &[message, b"A"], &block);
            assert_eq!(plan.len(), length);
            cause(&plan)
        };
        let long = vec![0; LONGEST_MESSAGE + 1];
        assert_eq!(of_length(LONGEST_PLAN, &[0], b"B"), 0);
        assert_eq!(of_length(LONGEST_PLAN, &[0], &long), 4);
        assert_eq!(of_length(LONGEST_PLAN, &[2, 2], b"B"), 14);
        assert_eq!(of_length(LONGEST_PLAN + 1, &[0], b"B"), 13);
        assert_eq!(of_length(LONGEST_PLAN + 1, &[0], &long), 13);
        assert_eq!(of_length(LONGEST_PLAN + 1, &[2, 2], b"B"), 13);
        assert_eq!(of_length(LONGEST_PLAN + 5_000, &[0], b"B"), 13);
    }

    #[test]
    fn long_messages() {
        let longest = vec![7; LONGEST_MESSAGE];
        let long = vec![7; LONGEST_MESSAGE + 1];
        let longer = vec![7; LONGEST_PLAN / 3];
        assert_eq!(cause(&of_three(&[0], [b"A", &longest])), 0);
        for length in INSIDE {
            assert_eq!(cause(&of_three(&[0], [b"A", &longest[..length]])), 0);
        }
        for long in [&long, &longer] {
            let refused = of_three(&[0], [b"A", long]);
            assert_eq!(cause(&refused), 4);
            // The layout is read to its end before the length is judged.
            assert_eq!(cause(&refused[..refused.len() - 1]), 13);
            assert_eq!(cause(&[&refused[..], &[0]].concat()), 13);
            assert_eq!(cause(&of_three(&[16], [b"A", long])), 13);
            assert_eq!(
                cause(&plan(&[3, 1, 0], 3, &[b"A", long], &[0, 4, 0, 0])),
                13
            );
            // And it is judged before cause 14.
            assert_eq!(cause(&of_three(&[2, 2], [b"A", long])), 4);
            assert_eq!(cause(&of_three(&[2, 0], [long, long])), 4);
            let root = [&[1], &[9; 32][..]].concat();
            assert_eq!(cause(&of_three(&root, [long, long])), 4);
            let silent = [SILENT, SILENT].concat();
            assert_eq!(cause(&plan(&[3, 1, 0], 1, &[long], &silent)), 4);
        }
        // A length that the plan does not have.
        let lengths = [3, 1, 0, 0, 3, 0xFF, 0xFF, 0x41, 0, 1, 0x42, 0, 0, 0, 0];
        assert_eq!(cause(&lengths), 13);
    }

    #[test]
    fn too_many_bad_parties() {
        let silent = [SILENT, SILENT].concat();
        assert_eq!(cause(&plan(&[3, 1, 0], 1, &[b"A"], &silent)), 14);
        assert_eq!(cause(&plan(&[3, 0, 0], 3, &[b"A", b"A"], SILENT)), 14);
        assert_eq!(cause(&plan(&[3, 1, 0], 1, &[b"A"], &silent[1..])), 13);
        assert_eq!(cause(&plan(&[3, 1, 0], 1, &[b"A"], SILENT)), 13);
    }

    #[test]
    fn no_good_party() {
        for n in 1..=MOST {
            let t = (n - 1) / 2;
            let silent = SILENT.repeat(n.into());
            assert_eq!(cause(&plan(&[n, t, 0], 0, &[], &silent)), 14);
            assert_eq!(cause(&plan(&[n, t, 2, 1], 0, &[], &silent)), 14);
            assert_eq!(cause(&plan(&[n, t, 0], 0, &[], &silent[1..])), 13);
            assert_eq!(cause(&[n, t, 0, 0, 0]), 13);
        }
    }

    #[test]
    fn bad_layout_before_cause_14() {
        let refused = of_three(&[2, 2], [b"A", b"B"]);
        assert_eq!(cause(&refused), 14);
        assert_eq!(cause(&[&refused[..], &[0]].concat()), 13);
        assert_eq!(cause(&refused[..refused.len() - 1]), 13);
        assert_eq!(cause(&of_three(&[18, 2], [b"A", b"B"])), 13);
    }

    /// Party 1 lies to party 3 and is honest to party 4; both are unhappy.
    #[test]
    fn what_was_taken_is_kept() {
        let packet = |number| Sharing::of(0, 5, 2, b"A").packet(number);
        let first = [&[0, 12][..], &lay_out(&[packet(2), packet(4)])].concat();
        let books: [&[u8]; 4] = [b"A", b"B", b"C", b"A"];
        let bytes = plan(&[5, 2, 0], 0x1E, &books, &[&first[..], &[0, 0]].concat());
        let session = play(&bytes).expect("a sound plan");
        assert_eq!((session.bits, session.bit), (vec![1, 0, 0, 1], 1));
        let takings = session.takings.expect("bit 1");
        assert_eq!(takings.sources, [None, Some(2), Some(1), None]);
        let gathered = takings.gathered[1].as_ref().expect("unhappy");
        let present = gathered.iter().map(|share| !share.is_empty());
        assert!(present.eq([false, true, true, true, true]));
        let message = Some(Rebuilt::Message(b"A".to_vec()));
        assert_eq!(takings.rebuilt, [None, message.clone(), message, None]);
        assert_eq!(takings.gathered[0], None);
    }

    /// Parties that are taken through their steps whatever is judged do what judged ones do.
    #[test]
    fn lawful_plans_are_played_alike() {
        let mut lawful = 0;
        for bytes in (1..=2_000).step_by(4).map(|k| plans::plan(k).bytes) {
            let Ok(expected) = play(&bytes) else {
                continue;
            };
            lawful += 1;
            let found = play_regardless(&bytes).expect("lawful steps");
            assert_eq!(found.report(), expected.report());
            assert_eq!((found.root, found.bit), (expected.root, expected.bit));
            assert_eq!((found.roots, found.bits), (expected.roots, expected.bits));
            assert_eq!(found.messages, expected.messages);
            let row = |sender: Option<Sender>| sender.map(|it| it.row);
            assert_eq!(row(found.plan.sender), row(expected.plan.sender));
            assert_eq!(found.plan.first, expected.plan.first);
            assert_eq!(found.plan.second, expected.plan.second);
            let seen =
                |takings: Option<Takings>| takings.map(|it| (it.sources, it.gathered, it.rebuilt));
            assert_eq!(seen(found.takings), seen(expected.takings));
        }
        assert!(lawful > 200, "{lawful}");
    }

    /// The fault, and what is printed of the plan all the same.
    pub(super) fn regardless(plan: &[u8]) -> (Option<Fault>, Option<String>) {
        let session = play_regardless(plan);
        (play(plan).err(), session.map(|it| it.report()))
    }

    #[test]
    fn what_is_supposed_is_left_out() {
        let other = [&[1][..], &[9; 32]].concat();
        let other_with_bit = [&[3][..], &[9; 32], &[1]].concat();
        let silent = [SILENT, SILENT].concat();
        let equal: [&[u8]; 2] = [b"A", b"A"];
        let nothing = "1 -\n2 -\nsent 0\n";
        let expected = |fault, text: &str| (Some(fault), Some(text.to_string()));
        let found = regardless(&plan(&[3, 1, 0], 1, &[b"A"], &silent));
        assert_eq!(found, expected(Fault::TooManyBad, "1 = 41\nsent 248\n"));
        let found = regardless(&of_three(&other, equal));
        assert_eq!(found, expected(Fault::RootAgainst, nothing));
        let found = regardless(&of_three(&other_with_bit, equal));
        assert_eq!(found, expected(Fault::RootAgainst, nothing));
        let found = regardless(&of_three(&other_with_bit, [b"A", b"B"]));
        assert_eq!(found, expected(Fault::BitAgainst, nothing));
        let found = regardless(&of_three(&[2, 0], equal));
        assert_eq!(found, expected(Fault::BitAgainst, nothing));
    }

    /// Without a good party, with a bit that step 3 refuses, or in a bad form.
    #[test]
    fn what_is_not_played_at_all() {
        let silent = SILENT.repeat(3);
        let none = |fault| (Some(fault), None);
        let found = regardless(&plan(&[3, 1, 0], 0, &[], &silent));
        assert_eq!(found, none(Fault::TooManyBad));
        let found = regardless(&plan(&[3, 1, 2, 2], 1, &[b"A"], &silent[4..]));
        assert_eq!(found, none(Fault::TooManyBad));
        let found = regardless(&of_three(&[2, 2], [b"A", b"B"]));
        assert_eq!(found, none(Fault::BitAbove));
        let long = vec![7; LONGEST_MESSAGE + 1];
        let found = regardless(&of_three(&[0], [b"A", &long]));
        assert_eq!(found, none(Fault::LongMessage(2)));
        let sound = of_three(&[0], [b"A", b"A"]);
        for length in 0..sound.len() {
            assert!(play_regardless(&sound[..length]).is_none());
        }
        for (n, t) in [(0, 0), (MOST + 1, 0), (3, 2), (255, 255)] {
            let found = play_regardless(&[&[n, t], &sound[2..]].concat());
            assert!(found.is_none(), "{n} {t}");
        }
    }

    #[test]
    fn a_misfit_tells_its_offset() {
        let sound = of_three(&[2, 1], [b"AB", b"AB"]);
        let misfit = |bytes: &[u8]| read(bytes).err().map(|it| (it.offset, it.part, it.missing));
        let receivers = |round| Part::Receivers { round, sender: 3 };
        assert_eq!(misfit(&sound), None);
        assert_eq!(misfit(&sound[..1]), Some((1, Part::Head, 1)));
        assert_eq!(misfit(&sound[..3]), Some((3, Part::Bit, 1)));
        assert_eq!(misfit(&sound[..5]), Some((4, Part::Good, 1)));
        assert_eq!(misfit(&sound[..9]), Some((8, Part::Message(1), 1)));
        assert_eq!(
            misfit(&sound[..17]),
            Some((16, receivers(Round::Second), 1))
        );
        let more = [&sound[..], &[0]].concat();
        assert_eq!(misfit(&more), Some((18, Part::End, 0)));
        let mut changed = sound.clone();
        changed[15] = 4;
        assert_eq!(misfit(&changed), Some((14, receivers(Round::First), 0)));
        changed[2] = 16;
        assert_eq!(misfit(&changed), Some((2, Part::Options, 0)));
    }
}
