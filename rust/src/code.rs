//! The coder: a message as n shares, and back.

use alloc::vec;
use alloc::vec::Vec;

use crate::calls;
use crate::cause::Cause;
use crate::entries::lay_out;
use crate::limits::{MAX_MESSAGE, MAX_SHARES};
use crate::Hash;

/// The n shares of a message, of which any n − t give it back. With the feature `alloc`. Causes:
/// [`Cause::Parties`], [`Cause::Faults`], [`Cause::Length`].
///
/// ```
/// # fn main() -> Result<(), cipangohu::Cause> {
/// let mut shares = cipangohu::shares(3, 1, b"AB")?;
/// assert_eq!(shares, [[0x41, 0x40], [0x82, 0x86], [0xC3, 0xC4]]);
/// shares[0].clear();
/// assert_eq!(cipangohu::rebuild(3, 1, &shares)?, b"AB");
/// # Ok(())
/// # }
/// ```
pub fn shares(n: usize, t: usize, message: &[u8]) -> Result<Vec<Vec<u8>>, Cause> {
    let mut out = vec![0; MAX_SHARES];
    let length = calls::shares((n, t), message, &mut out).accepted()? as usize;
    out.truncate(length);
    // They are equal in length, and no part of a division may be 0 even if the archive were not the
    // proved one.
    let each = (length / n.max(1)).max(1);
    Ok(out.chunks(each).map(<[u8]>::to_vec).collect())
}

/// The message that the shares of parties 1 to n give; an empty share counts as missing, and so does
/// one of more than [`MAX_ENTRY`](crate::MAX_ENTRY) bytes. With the feature `alloc`.
///
/// Of the shares present the first n − t are used, and none is checked: with an altered one another
/// message may come out. [`check_path`](crate::check_path) tells whether a share is a root's own, and
/// [`rebuild_with_root`] takes a message only if it is.
///
/// Causes: [`Cause::Parties`], [`Cause::Faults`], [`Cause::Entries`], [`Cause::FewShares`],
/// [`Cause::NoMessage`].
pub fn rebuild<S: AsRef<[u8]>>(n: usize, t: usize, shares: &[S]) -> Result<Vec<u8>, Cause> {
    let mut out = vec![0; MAX_MESSAGE];
    let length = calls::rebuild((n, t), &lay_out(shares), &mut out).accepted()?;
    out.truncate(length as usize);
    Ok(out)
}

/// The message that the shares of parties 1 to n give, if its root is this one. The root of a message is
/// the one that [`Party::open`](crate::Party::open) gives, with this session number, n and t. With the
/// feature `alloc`.
///
/// Shares are used as by [`rebuild`], and what they give is coded again.
///
/// Causes: [`Cause::Parties`], [`Cause::Faults`], [`Cause::Entries`], [`Cause::FewShares`],
/// [`Cause::NoMessage`], [`Cause::OtherRoot`].
///
/// ```
/// use cipangohu::{rebuild, rebuild_with_root, shares, Cause, Party};
///
/// # fn main() -> Result<(), Cause> {
/// let (_, root) = Party::open(5, 3, 1, 1, b"Unit 7")?;
/// let mut shares = shares(3, 1, b"Unit 7")?;
/// assert_eq!(rebuild_with_root(5, 3, 1, &root, &shares)?, b"Unit 7");
/// assert_eq!(rebuild_with_root(6, 3, 1, &root, &shares), Err(Cause::OtherRoot));
/// shares[0][3] ^= 1;
/// assert_ne!(rebuild(3, 1, &shares)?, b"Unit 7");
/// assert_eq!(rebuild_with_root(5, 3, 1, &root, &shares), Err(Cause::OtherRoot));
/// shares[0].clear();
/// assert_eq!(rebuild_with_root(5, 3, 1, &root, &shares)?, b"Unit 7");
/// # Ok(())
/// # }
/// ```
pub fn rebuild_with_root<S: AsRef<[u8]>>(
    session: u32,
    n: usize,
    t: usize,
    root: &Hash,
    shares: &[S],
) -> Result<Vec<u8>, Cause> {
    let mut out = vec![0; MAX_MESSAGE];
    let answer = calls::rebuild_with_root(session, (n, t), root, &lay_out(shares), &mut out);
    out.truncate(answer.accepted()? as usize);
    Ok(out)
}
