//! The greatest numbers, each once, and what follows from them. All other code here and in `words`
//! cites these; `tests/limits.rs` holds them to those of the proved crate `limits`.

use crate::message_packet;
use crate::packet::HEADER;
use crate::sha256::Hash;

/// The greatest number of parties.
pub const MOST_PARTIES: usize = 16;

/// The greatest length of a message.
pub const LONGEST_MESSAGE: usize = 3_072;

/// The greatest number of hashes in an audit path.
pub const MOST_HASHES: usize = 4;

/// The greatest length of a string that the product hashes; the hash of this reference itself has
/// no such limit.
pub const LONGEST_STRING: usize = 65_535;

/// The greatest length of a plan.
pub const LONGEST_PLAN: usize = 60_000;

/// The greatest length of an entry, be it a packet, a share or a plan's message: two bytes tell it.
pub const LONGEST_ENTRY: usize = u16::MAX as usize;

/// How many parties a plan's map of two bytes has room for, whatever n is.
pub const MOST_NAMED: usize = u16::BITS as usize;

/// The greatest fault limit, which is under half of the parties.
pub const MOST_FAULTS: usize = (MOST_PARTIES - 1) / 2;

/// The greatest length of a share: that of one party alone, whose share is the whole frame.
pub const LONGEST_SHARE: usize = LONGEST_MESSAGE + 2;

/// The greatest length of a packet.
pub const LONGEST_PACKET: usize = HEADER + LONGEST_SHARE + MOST_HASHES * size_of::<Hash>();

/// The greatest length of a packet with a whole message.
pub const LONGEST_MESSAGE_PACKET: usize = message_packet::HEADER + LONGEST_MESSAGE;

/// Room for all shares of a message, which are fewer than 2·b and have together less than twice the
/// bytes of the longest frame with its zeros.
pub const LONGEST_SHARES: usize = 2 * (LONGEST_SHARE + MOST_PARTIES);

/// Room for any outbox: all shares of a message, and beside each its entry's length and the rest of
/// its packet.
pub const LONGEST_OUTBOX: usize =
    LONGEST_SHARES + MOST_PARTIES * (2 + HEADER + MOST_HASHES * size_of::<Hash>());

/// Lengths of messages on both sides of a power of two well inside the range, where a program with a
/// smaller limit would stop.
pub const INSIDE: [usize; 2] = [1 << 10, (1 << 10) + 1];
