//! The packets that parties send one another: what stands in one, be it a share or a named sender's
//! whole message, and whether a path leads to a root.

use crate::calls;
use crate::cause::Cause;
use crate::Hash;

/// A share with its number, and its path from the leaf upward.
#[derive(Clone, Copy, Debug, PartialEq, Eq)]
pub struct Packet<'a> {
    /// The party whose share it is, from 1.
    pub number: usize,
    /// The share.
    pub share: &'a [u8],
    /// The hashes of the path, [`HASH`](crate::HASH) bytes each.
    pub path: &'a [u8],
}

/// What a packet among n parties holds, or nothing where it is silence, which is no byte or one zero
/// byte. Causes: [`Cause::Parties`], [`Cause::Packet`].
///
/// ```
/// use cipangohu::{check_path, entries, read_packet, Party, MAX_OUTBOX};
///
/// # fn main() -> Result<(), cipangohu::Cause> {
/// let (mut party, root) = Party::open(7, 3, 1, 1, b"AB")?;
/// party.agree_root(&root)?;
/// let mut out = [0; MAX_OUTBOX];
/// let length = party.agree_bit(true, &mut out)?;
/// let second = entries(&out[..length]).and_then(|mut entries| entries.nth(1));
/// let packet = read_packet(3, second.unwrap())?.unwrap();
/// assert_eq!((packet.number, packet.share), (2, &[0x82, 0x86][..]));
/// assert!(check_path(7, 3, 2, packet.share, packet.path, &root)?);
/// assert!(!check_path(8, 3, 2, packet.share, packet.path, &root)?);
/// assert_eq!(read_packet(3, b"")?, None);
/// # Ok(())
/// # }
/// ```
pub fn read_packet(n: usize, packet: &[u8]) -> Result<Option<Packet<'_>>, Cause> {
    let found = calls::read_packet(n, packet).accepted()?;
    if found == 0 {
        return Ok(None);
    }
    let [_, number, high, low] = found.to_be_bytes();
    let length = u16::from_be_bytes([high, low]).into();
    // The reader found the share from byte 4 on, and the path behind it.
    let behind = packet.get(4..).unwrap_or_default();
    let (share, path) = behind.split_at_checked(length).unwrap_or_default();
    Ok(Some(Packet {
        number: number.into(),
        share,
        path,
    }))
}

/// The message in the packet of a named sender, or nothing where it is silence, which is no byte or one
/// zero byte. The empty message is a message. Cause: [`Cause::Packet`].
///
/// ```
/// use cipangohu::{read_message, Cause};
///
/// assert_eq!(read_message(&[8, 0, 2, b'A', b'B']), Ok(Some(&b"AB"[..])));
/// assert_eq!(read_message(&[8, 0, 0]), Ok(Some(&b""[..])));
/// assert_eq!(read_message(b""), Ok(None));
/// assert_eq!(read_message(&[8, 0, 2, b'A']), Err(Cause::Packet));
/// ```
pub fn read_message(packet: &[u8]) -> Result<Option<&[u8]>, Cause> {
    match calls::read_message(packet).accepted()? {
        0 => Ok(None),
        // The reader found the message from byte 3 on, up to the end.
        _ => Ok(Some(packet.get(3..).unwrap_or_default())),
    }
}

/// Whether the path leads from share j of n to the root, in the session of this number; not, if it has
/// another length than n and j give. Causes: [`Cause::Parties`], [`Cause::Number`], and
/// [`Cause::Length`] for a share of more than [`MAX_HASHED`](crate::MAX_HASHED) − 2 bytes under session
/// number 0, more than [`MAX_HASHED`](crate::MAX_HASHED) − 6 under any other.
pub fn check_path(
    session: u32,
    n: usize,
    j: usize,
    share: &[u8],
    path: &[u8],
    root: &Hash,
) -> Result<bool, Cause> {
    let passes = calls::check_path(session, (n, j), share, path, root);
    Ok(passes.accepted()? == 1)
}
