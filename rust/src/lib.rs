//! One party of a session for programs in Rust: the proved functions of `libcipangohu.a` behind safe
//! types. A party is one box of a sitting, and a message is a test book; documents for people say
//! box and book.
//!
//! A session has a number, the sitting number in documents for people, and all good parties open
//! with the same one. A message has another root in a session of another number, and packets of the
//! one fail the check in the other.
//!
//! A party keeps a map of the parties that it saw cheat, boxes seen to cheat in documents for people,
//! and gives it with its result.
//!
//! A call is accepted, or turned away with a [`Cause`] and nothing changed; none panics. What the
//! host owes is told in docs/HOSTING.md. The crate needs no standard library; what needs an
//! allocator, `lay_out`, `shares`, `rebuild` and `rebuild_with_root`, stands behind the feature
//! `alloc`, which is on unless it is switched off.
//!
//! ```
//! use cipangohu::{lay_out_in, Outcome, Party, Stage, MAX_OUTBOX};
//!
//! # fn main() -> Result<(), cipangohu::Cause> {
//! // A party alone: the agreements give back what it puts in, and nobody sends it anything.
//! let (mut party, root) = Party::open(7, 1, 0, 1, b"AB")?;
//! let happy = party.agree_root(&root)?;
//! let mut out = [0; MAX_OUTBOX];
//! party.agree_bit(happy, &mut out)?;
//! let mut inbox = [0; 2];
//! lay_out_in(&[b""], &mut inbox)?;
//! party.take_shares(&inbox, &mut out)?;
//! assert_eq!(party.stage(), Stage::AwaitsRelays);
//! let ending = party.take_relays(&inbox)?;
//! assert_eq!(ending.outcome, Outcome::Message(b"AB"));
//! assert!(ending.faulty.is_empty());
//! assert_eq!(party.result(), Some(Outcome::Message(b"AB")));
//! // Whoever does the step again gets the same, and needs no inbox.
//! assert_eq!(party.take_relays(&[])?.outcome, Outcome::Message(b"AB"));
//! # Ok(())
//! # }
//! ```

#![no_std]
#![deny(missing_docs)]

#[cfg(feature = "alloc")]
extern crate alloc;

mod cause;
#[cfg(feature = "alloc")]
mod code;
mod entries;
mod limits;
mod packet;
mod parties;
mod party;

// The one module that speaks to the archive. Measurements, the fuzzer and the tests need its calls,
// on bytes and buffers of their own; hosts have the types below.
#[allow(unsafe_code)]
#[doc(hidden)]
pub mod calls;

pub use cause::Cause;
#[cfg(feature = "alloc")]
pub use code::{rebuild, rebuild_with_root, shares};
#[cfg(feature = "alloc")]
pub use entries::lay_out;
pub use entries::{entries, lay_out_in, Entries};
pub use limits::{
    HASH, LAYOUT, MAX_ENTRY, MAX_HASHED, MAX_INBOX, MAX_MESSAGE, MAX_MESSAGE_PACKET, MAX_OUTBOX,
    MAX_PACKET, MAX_PARTIES, MAX_PATH, MAX_SHARE, MAX_SHARES, STATE,
};
pub use packet::{check_path, read_message, read_packet, Packet};
pub use parties::Parties;
pub use party::{Ending, Outcome, Party, Stage};

/// A SHA-256 hash.
pub type Hash = [u8; HASH];

/// SHA-256 of at most [`MAX_HASHED`] bytes. Cause: [`Cause::Length`].
pub fn hash(message: &[u8]) -> Result<Hash, Cause> {
    let mut digest = [0; HASH];
    calls::hash(message, &mut digest).accepted()?;
    Ok(digest)
}

/// The version of the archive: major, minor and patch.
pub fn version() -> (u8, u8, u8) {
    let [_, major, minor, patch] = calls::version().to_be_bytes();
    (major, minor, patch)
}
