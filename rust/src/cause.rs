//! Why a call was turned away.

use core::error::Error;
use core::fmt;

/// Why a call was turned away. It then changed nothing.
///
/// ```
/// use cipangohu::{Cause, Party};
///
/// let refused = Party::open(7, 4, 2, 1, b"AB").unwrap_err();
/// assert_eq!((refused, refused.number()), (Cause::Faults, 2));
/// assert_eq!(
///     refused.to_string(),
///     "cause 2: the fault limit is half of the parties or more"
/// );
/// ```
#[derive(Clone, Copy, Debug, PartialEq, Eq, Hash)]
#[non_exhaustive]
pub enum Cause {
    /// Cause 1: n is not 1 to [`MAX_PARTIES`](crate::MAX_PARTIES).
    Parties,
    /// Cause 2: 2·t is n or more.
    Faults,
    /// Cause 3: a number that is not 1 to n.
    Number,
    /// Cause 4: too long a message, string or share.
    Length,
    /// Cause 5: bytes that are no state, or one of another layout.
    State,
    /// Cause 6: not the step that is due, which at the end is step 5 alone, or no result to tell of.
    Step,
    /// Cause 7: a root that is not [`HASH`](crate::HASH) bytes, or a bit that is not 0 or 1. The
    /// types here leave no room for it.
    RootOrBit,
    /// Cause 8: entries that run short or leave bytes over.
    Entries,
    /// Cause 9: a lent buffer too short for what is written.
    Room {
        /// The length that the buffer needs.
        needed: usize,
    },
    /// Cause 10: a packet that is neither silence nor readable.
    Packet,
    /// Cause 11: fewer than n − t shares.
    FewShares,
    /// Cause 12: shares of no message.
    NoMessage,
    /// Cause 15: a rebuilt message whose root is not the one given.
    OtherRoot,
    /// A number that this crate does not know.
    Unknown(u32),
}

impl Cause {
    /// The cause of a number; `value` is what the call answered with it.
    pub(crate) fn of(number: u32, value: usize) -> Cause {
        match number {
            1 => Cause::Parties,
            2 => Cause::Faults,
            3 => Cause::Number,
            4 => Cause::Length,
            5 => Cause::State,
            6 => Cause::Step,
            7 => Cause::RootOrBit,
            8 => Cause::Entries,
            9 => Cause::Room { needed: value },
            10 => Cause::Packet,
            11 => Cause::FewShares,
            12 => Cause::NoMessage,
            15 => Cause::OtherRoot,
            unknown => Cause::Unknown(unknown),
        }
    }

    /// The number that C and all documents give the cause.
    pub fn number(self) -> u32 {
        match self {
            Cause::Parties => 1,
            Cause::Faults => 2,
            Cause::Number => 3,
            Cause::Length => 4,
            Cause::State => 5,
            Cause::Step => 6,
            Cause::RootOrBit => 7,
            Cause::Entries => 8,
            Cause::Room { .. } => 9,
            Cause::Packet => 10,
            Cause::FewShares => 11,
            Cause::NoMessage => 12,
            Cause::OtherRoot => 15,
            Cause::Unknown(number) => number,
        }
    }

    /// The words of the header for C.
    fn text(self) -> &'static str {
        match self {
            Cause::Parties => "the number of parties is out of range",
            Cause::Faults => "the fault limit is half of the parties or more",
            Cause::Number => "the number is no party's",
            Cause::Length => "the message, string, share or entries are too long",
            Cause::State => "the bytes are no state",
            Cause::Step => "the call does not fit the party's stage",
            Cause::RootOrBit => "the root has not the length of a hash, or the bit is not 0 or 1",
            Cause::Entries => "the entries run short or leave bytes over",
            Cause::Room { .. } => "the buffer is too short",
            Cause::Packet => "the packet is neither silence nor readable",
            Cause::FewShares => "too few shares are present",
            Cause::NoMessage => "the shares are of no message",
            Cause::OtherRoot => "the rebuilt message has another root",
            Cause::Unknown(_) => "an unknown cause",
        }
    }
}

impl fmt::Display for Cause {
    fn fmt(&self, f: &mut fmt::Formatter) -> fmt::Result {
        write!(f, "cause {}: {}", self.number(), self.text())?;
        match self {
            Cause::Room { needed } => write!(f, " and needs {needed} bytes"),
            _ => Ok(()),
        }
    }
}

impl Error for Cause {}
