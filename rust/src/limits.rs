//! The greatest numbers, each once, and what follows from them. A test of the crate `foreign` holds
//! them to those of the proved crate `limits`, and to the header's.

/// The greatest number of parties.
pub const MAX_PARTIES: usize = 16;

/// The greatest length of a message.
pub const MAX_MESSAGE: usize = 3_072;

/// The greatest number of hashes in a path.
pub const MAX_PATH: usize = 4;

/// The greatest length of a string that is hashed.
pub const MAX_HASHED: usize = 65_535;

/// The greatest length of an entry, which two bytes tell.
pub const MAX_ENTRY: usize = u16::MAX as usize;

/// The bytes of a SHA-256 hash, and so of a root.
pub const HASH: usize = 32;

/// The greatest length of a share: that of one party alone, whose share is the whole frame.
pub const MAX_SHARE: usize = MAX_MESSAGE + 2;

/// The longest packet with a share: map, number and share length, the share, the longest path.
pub const MAX_PACKET: usize = 4 + MAX_SHARE + MAX_PATH * HASH;

/// The longest packet of a named sender: map and message length, the message.
pub const MAX_MESSAGE_PACKET: usize = 3 + MAX_MESSAGE;

/// Room for all shares of a message: n is less than 2·(n − t), so that they have less than twice
/// the bytes of the longest frame with its zeros.
pub const MAX_SHARES: usize = 2 * (MAX_SHARE + MAX_PARTIES);

/// Room for any outbox: all shares of a message, and beside each its entry's two-byte length, map,
/// number, share length and path.
pub const MAX_OUTBOX: usize = MAX_SHARES + MAX_PARTIES * (6 + MAX_PATH * HASH);

/// Room for any inbox: for each party an entry's two-byte length and the longest entry.
pub const MAX_INBOX: usize = MAX_PARTIES * (2 + MAX_ENTRY);

/// The version of a state's layout, its first byte.
pub const LAYOUT: u8 = 4;

/// Where the message stands in a state, the result of a party that ended with one: behind the
/// version, the numbers and the lengths, the session number, the map of parties seen to cheat, and
/// the root.
pub(crate) const AT_MESSAGE: usize = 17 + HASH;

/// The bytes of a party's state, with room for a message and a share.
pub const STATE: usize = AT_MESSAGE + MAX_MESSAGE + MAX_SHARE;
