//! One party: its state, its opening and the four steps that follow.

use core::fmt;

use crate::calls;
use crate::cause::Cause;
use crate::limits::{AT_MESSAGE, HASH, MAX_MESSAGE, STATE};
use crate::parties::Parties;
use crate::Hash;

/// How a party ended. Nothing is no message, not even an empty one.
#[derive(Clone, Copy, Debug, PartialEq, Eq)]
pub enum Outcome<'a> {
    /// The parties settled on no message.
    Nothing,
    /// The message that they settled on.
    Message(&'a [u8]),
}

/// What step 5 gives: how a party ended, and whom it saw cheat.
#[derive(Clone, Copy, Debug, PartialEq, Eq)]
pub struct Ending<'a> {
    /// The message, or nothing.
    pub outcome: Outcome<'a>,
    /// The parties that it saw cheat; [`Party::faulty`] tells what that means.
    pub faulty: Parties,
}

/// What a party waits for, or how it ended.
#[derive(Clone, Copy, Debug, PartialEq, Eq, Hash)]
#[non_exhaustive]
pub enum Stage {
    /// It waits for the agreed root: [`Party::agree_root`] is due.
    AwaitsRoot,
    /// It waits for the agreed bit: [`Party::agree_bit`] is due.
    AwaitsBit,
    /// It waits for the first inbox: [`Party::take_shares`] is due.
    AwaitsShares,
    /// It waits for the second inbox: [`Party::take_relays`] is due.
    AwaitsRelays,
    /// It ended with nothing, which [`Party::take_relays`] gives again.
    EndedWithNothing,
    /// It ended with a message, which [`Party::take_relays`] gives again.
    EndedWithMessage,
}

/// The stages, by their numbers in a state.
const STAGES: [Stage; 6] = [
    Stage::AwaitsRoot,
    Stage::AwaitsBit,
    Stage::AwaitsShares,
    Stage::AwaitsRelays,
    Stage::EndedWithNothing,
    Stage::EndedWithMessage,
];

/// What the bytes of a state say of its party.
#[derive(Clone, Copy, Debug, PartialEq, Eq)]
struct Told {
    session: u32,
    own: usize,
    stage: Stage,
    faulty: Parties,
}

impl Told {
    /// [`Cause::State`] if the bytes are no state.
    fn of(state: &[u8]) -> Result<Told, Cause> {
        let stage = calls::stage(state).accepted()? as usize;
        Ok(Told {
            session: calls::session(state).accepted()?,
            own: calls::own(state).accepted()? as usize,
            stage: *STAGES.get(stage).ok_or(Cause::State)?,
            faulty: Parties::of(calls::faulty(state).accepted()?),
        })
    }
}

/// A party, by its state. It cannot be cloned: a step done twice from one state would send two
/// different things. Of one that has ended, which sends nothing more, a reader may take a copy by
/// [`Party::state`] and [`Party::from_state`].
#[derive(PartialEq, Eq)]
pub struct Party {
    state: [u8; STATE],
    told: Told,
}

impl fmt::Debug for Party {
    /// Numbers, stage and map: the state has too many bytes to read.
    fn fmt(&self, f: &mut fmt::Formatter) -> fmt::Result {
        let Told {
            session,
            own,
            stage,
            faulty,
        } = &self.told;
        let mut shown = f.debug_struct("Party");
        shown.field("session", session).field("own", own);
        shown.field("stage", stage).field("faulty", faulty);
        shown.finish_non_exhaustive()
    }
}

impl Party {
    /// Step 1: party `own` of n, of which t may be bad, opens with a message, in the session of this
    /// number. With it comes the root that goes to the short agreement; the state does not give it again,
    /// nor n and t. Causes: [`Cause::Parties`], [`Cause::Faults`], [`Cause::Number`], [`Cause::Length`].
    pub fn open(
        session: u32,
        n: usize,
        t: usize,
        own: usize,
        message: &[u8],
    ) -> Result<(Party, Hash), Cause> {
        let (mut state, mut root) = ([0; STATE], [0; HASH]);
        calls::open(session, (n, t, own), message, &mut state, &mut root).accepted()?;
        Ok((Party::from_state(&state)?, root))
    }

    /// Step 1 of a named sender, which alone has the message: party `own` opens as by [`Party::open`],
    /// and writes the packet that goes to every other party, alike to all. With party and root comes the
    /// packet's length, 0 with n 1. Room for any is [`MAX_MESSAGE_PACKET`](crate::MAX_MESSAGE_PACKET).
    /// Causes: [`Cause::Parties`], [`Cause::Faults`], [`Cause::Number`], [`Cause::Length`],
    /// [`Cause::Room`].
    ///
    /// ```
    /// use cipangohu::{Cause, Party, MAX_MESSAGE_PACKET};
    ///
    /// # fn main() -> Result<(), Cause> {
    /// // In session 7 party 2 of 3 has the message.
    /// let mut out = [0; MAX_MESSAGE_PACKET];
    /// let (_, root, length) = Party::open_as_sender(7, 3, 1, 2, b"AB", &mut out)?;
    /// let packet = &out[..length];
    /// // Party 1 gets the packet, party 3 only its first two bytes, and so it opens with the empty message.
    /// let (_, first) = Party::open_from_sender(7, 3, 1, 1, 2, packet)?;
    /// let (_, third) = Party::open_from_sender(7, 3, 1, 3, 2, &packet[..2])?;
    /// assert_eq!(first, root);
    /// assert_eq!(third, Party::open(7, 3, 1, 3, b"")?.1);
    /// # Ok(())
    /// # }
    /// ```
    pub fn open_as_sender(
        session: u32,
        n: usize,
        t: usize,
        own: usize,
        message: &[u8],
        out: &mut [u8],
    ) -> Result<(Party, Hash, usize), Cause> {
        Party::open_by_sender(session, (n, t, own), own, message, out)
    }

    /// Step 1 of any other party, which is handed the packet that came from the sender, as it came, or no
    /// bytes if none did. It opens with the message in the packet; with the empty one where there is
    /// none, be it silence or bytes that cannot be read, which [`read_message`](crate::read_message)
    /// tells. Causes: [`Cause::Parties`], [`Cause::Faults`], and [`Cause::Number`], also where the
    /// sender is the party itself.
    pub fn open_from_sender(
        session: u32,
        n: usize,
        t: usize,
        own: usize,
        sender: usize,
        packet: &[u8],
    ) -> Result<(Party, Hash), Cause> {
        // The library would take the sender's own bytes for its message. 0 is no party's number.
        let sender = if sender == own { 0 } else { sender };
        let opened = Party::open_by_sender(session, (n, t, own), sender, packet, &mut []);
        opened.map(|(party, root, _)| (party, root))
    }

    fn open_by_sender(
        session: u32,
        group: (usize, usize, usize),
        sender: usize,
        bytes: &[u8],
        out: &mut [u8],
    ) -> Result<(Party, Hash, usize), Cause> {
        let (mut state, mut root) = ([0; STATE], [0; HASH]);
        let answer =
            calls::open_by_sender(session, group, sender, bytes, &mut state, &mut root, out);
        let length = answer.accepted()? as usize;
        Ok((Party::from_state(&state)?, root, length))
    }

    /// A party whose state was saved; of more bytes the first [`STATE`] count. Bytes that were damaged
    /// are mostly not noticed. Cause: [`Cause::State`], also for a layout of another version than
    /// [`LAYOUT`](crate::LAYOUT).
    ///
    /// ```
    /// use cipangohu::{Cause, Party};
    ///
    /// # fn main() -> Result<(), Cause> {
    /// let (party, _) = Party::open(7, 3, 1, 2, b"AB")?;
    /// let saved = party.state().to_vec();
    /// assert_eq!(Party::from_state(&saved)?, party);
    /// assert_eq!(Party::from_state(&saved[1..]), Err(Cause::State));
    /// # Ok(())
    /// # }
    /// ```
    pub fn from_state(state: &[u8]) -> Result<Party, Cause> {
        Ok(Party {
            told: Told::of(state)?,
            state: *state.first_chunk().ok_or(Cause::State)?,
        })
    }

    /// The state, to be saved.
    pub fn state(&self) -> &[u8; STATE] {
        &self.state
    }

    /// The number of the session that the party was opened in.
    pub fn session(&self) -> u32 {
        self.told.session
    }

    /// The party's number, from 1.
    pub fn own(&self) -> usize {
        self.told.own
    }

    /// What the party waits for, or how it ended.
    pub fn stage(&self) -> Stage {
        self.told.stage
    }

    /// The parties that it has seen cheat: those others from whom an inbox brought a packet that is
    /// not silence and cannot be read, bears a number that it should not, or fails the check. They are
    /// none before [`Party::take_shares`], and [`Party::take_relays`] adds to them.
    ///
    /// Where all good parties have one n, one agreed root and one session number, and what they send
    /// one another arrives as it was sent, no good party is ever among a good one's, however many are
    /// bad. Who is not among them may be bad all the same: silence is no cheating, and a bad party may
    /// lie to one and not to another.
    ///
    /// ```
    /// use cipangohu::{lay_out_in, Ending, Outcome, Party, MAX_OUTBOX};
    ///
    /// # fn main() -> Result<(), cipangohu::Cause> {
    /// let (mut party, root) = Party::open(7, 3, 1, 2, b"AB")?;
    /// party.agree_root(&root)?;
    /// let mut out = [0; MAX_OUTBOX];
    /// party.agree_bit(true, &mut out)?;
    /// // Party 1 sends nothing, and party 3 what is no packet.
    /// let mut inbox = [0; 15];
    /// lay_out_in(&[&b""[..], b"", b"no packet"], &mut inbox)?;
    /// party.take_shares(&inbox, &mut out)?;
    /// assert!(party.faulty().contains(3));
    /// // Then both are silent.
    /// let Ending { outcome, faulty } = party.take_relays(&[0; 6])?;
    /// assert_eq!(outcome, Outcome::Message(b"AB"));
    /// assert!(faulty.iter().eq([3]));
    /// # Ok(())
    /// # }
    /// ```
    pub fn faulty(&self) -> Parties {
        self.told.faulty
    }

    /// How the party ended, if it has.
    pub fn result(&self) -> Option<Outcome<'_>> {
        match self.told.stage {
            Stage::EndedWithNothing => Some(Outcome::Nothing),
            Stage::EndedWithMessage => {
                let length = calls::result_length(&self.state).accepted().ok()? as usize;
                let message = self.state.get(AT_MESSAGE..)?.get(..length)?;
                Some(Outcome::Message(message))
            }
            _ => None,
        }
    }

    /// Step 2: takes the agreed root. The answer, whether the party is happy, goes to the second
    /// agreement. Cause: [`Cause::Step`].
    pub fn agree_root(&mut self, root: &Hash) -> Result<bool, Cause> {
        let answer = calls::agree_root(&mut self.state, root);
        Ok(self.stepped(answer)? == 1)
    }

    /// Step 3: takes the agreed bit and writes the outbox; the answer is its length. It always has n
    /// entries, all of them empty on `false` or if the party is not happy. Room for any is
    /// [`MAX_OUTBOX`](crate::MAX_OUTBOX). On `false` the party has ended with nothing. Causes:
    /// [`Cause::Step`], [`Cause::Room`].
    pub fn agree_bit(&mut self, bit: bool, out: &mut [u8]) -> Result<usize, Cause> {
        let answer = calls::agree_bit(&mut self.state, bit.into(), out);
        Ok(self.stepped(answer)? as usize)
    }

    /// Step 4: takes the first inbox and writes the relay for all others; the answer is its length, 0
    /// if there is none. Room for any is [`MAX_PACKET`](crate::MAX_PACKET). From now on
    /// [`Party::faulty`] tells who was seen to cheat. Causes: [`Cause::Step`], [`Cause::Entries`],
    /// [`Cause::Room`].
    pub fn take_shares(&mut self, inbox: &[u8], out: &mut [u8]) -> Result<usize, Cause> {
        let answer = calls::take_shares(&mut self.state, inbox, out);
        Ok(self.stepped(answer)? as usize)
    }

    /// Step 5: takes the second inbox; the answer is the result, and with it the parties seen to cheat,
    /// which [`Party::result`] and [`Party::faulty`] give from then on. A happy party ends with its own
    /// message. Another one rebuilds a message from the shares that were relayed, codes it again, and
    /// ends with it only if its root is the agreed one; else with nothing.
    ///
    /// A party that has ended, at this step or on the bit `false`, gives the same to every further
    /// reader and does not look at the inbox. Readers hand in none: a party that has not ended yet
    /// refuses that, and would take entries for its second inbox. Causes: [`Cause::Step`],
    /// [`Cause::Entries`], and none once the party has ended.
    ///
    /// ```
    /// use cipangohu::{Cause, Outcome, Party};
    ///
    /// # fn main() -> Result<(), Cause> {
    /// let (mut party, root) = Party::open(7, 1, 0, 1, b"AB")?;
    /// party.agree_root(&root)?;
    /// party.agree_bit(true, &mut [0; 2])?;
    /// party.take_shares(&[0; 2], &mut [])?;
    /// assert_eq!(party.take_relays(&[]), Err(Cause::Entries));
    /// assert_eq!(party.take_relays(&[0; 2])?.outcome, Outcome::Message(b"AB"));
    /// assert_eq!(party.take_relays(&[])?.outcome, Outcome::Message(b"AB"));
    /// assert_eq!(party.take_shares(&[0; 2], &mut []), Err(Cause::Step));
    /// # Ok(())
    /// # }
    /// ```
    pub fn take_relays(&mut self, inbox: &[u8]) -> Result<Ending<'_>, Cause> {
        let answer = calls::take_relays(&mut self.state, inbox, &mut [0; MAX_MESSAGE]);
        // The lowest bit of the value is whether there is a message; above it lies the map.
        let faulty = Parties::of(self.stepped(answer)? >> 1);
        let outcome = self.result().ok_or(Cause::State)?;
        Ok(Ending { outcome, faulty })
    }

    /// The value of a step that was accepted, after which the state tells anew where it is.
    fn stepped(&mut self, answer: calls::Answer) -> Result<u32, Cause> {
        let value = answer.accepted()?;
        self.told = Told::of(&self.state)?;
        Ok(value)
    }
}
