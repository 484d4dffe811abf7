//! Inboxes, outboxes and the shares for rebuilding: for each party from 1 upward a two-byte length
//! and as many bytes.

use core::iter::FusedIterator;

use crate::cause::Cause;

/// What a part is as an entry. More than [`MAX_ENTRY`](crate::MAX_ENTRY) bytes are no packet and no
/// share of a message; they stand as none.
fn entry(part: &[u8]) -> ([u8; 2], &[u8]) {
    match u16::try_from(part.len()) {
        Ok(length) => (length.to_be_bytes(), part),
        Err(_) => ([0; 2], &[]),
    }
}

/// Lays bytes out as entries, the first being party 1's. More than [`MAX_ENTRY`](crate::MAX_ENTRY)
/// bytes are no packet and no share of a message; they stand as none. With the feature `alloc`.
#[cfg(feature = "alloc")]
pub fn lay_out<B: AsRef<[u8]>>(parts: &[B]) -> alloc::vec::Vec<u8> {
    let mut bytes = alloc::vec::Vec::new();
    for part in parts {
        let (length, part) = entry(part.as_ref());
        bytes.extend_from_slice(&length);
        bytes.extend_from_slice(part);
    }
    bytes
}

/// Lays bytes out as [`lay_out`] does, in a lent buffer; the answer is how many it has then.
///
/// ```
/// use cipangohu::{lay_out_in, Cause};
///
/// let mut inbox = [7; 8];
/// assert_eq!(lay_out_in(&[&b"AB"[..], b""], &mut inbox), Ok(6));
/// assert_eq!(inbox, [0, 2, b'A', b'B', 0, 0, 7, 7]);
/// let short = lay_out_in(&[b"AB"], &mut inbox[..3]);
/// assert_eq!(short, Err(Cause::Room { needed: 4 }));
/// ```
pub fn lay_out_in<B: AsRef<[u8]>>(parts: &[B], out: &mut [u8]) -> Result<usize, Cause> {
    let laid = || parts.iter().map(|part| entry(part.as_ref()));
    let needed = laid().map(|(length, part)| length.len() + part.len()).sum();
    let room = out.get_mut(..needed).ok_or(Cause::Room { needed })?;
    let bytes = laid().flat_map(|(length, part)| length.into_iter().chain(part.iter().copied()));
    room.iter_mut()
        .zip(bytes)
        .for_each(|(place, byte)| *place = byte);
    Ok(needed)
}

/// Takes the entries of all parties apart, the first being party 1's; none if they run short. How many
/// there are is not judged, so that of a buffer only what was written to it is to be handed in.
///
/// ```
/// use cipangohu::entries;
///
/// let mut outbox = entries(&[0, 0, 0, 2, 65, 66]).unwrap();
/// assert_eq!(outbox.next(), Some(&b""[..]));
/// assert_eq!(outbox.next(), Some(&b"AB"[..]));
/// assert_eq!(outbox.next(), None);
/// assert!(entries(&[0, 2, 65]).is_none());
/// ```
pub fn entries(bytes: &[u8]) -> Option<Entries<'_>> {
    let mut read = Entries { rest: bytes };
    while read.next().is_some() {}
    let whole = read.rest.is_empty();
    whole.then_some(Entries { rest: bytes })
}

/// The entries of an inbox or an outbox, one after the other; made by [`entries()`].
#[derive(Clone, Debug)]
pub struct Entries<'a> {
    rest: &'a [u8],
}

impl<'a> Iterator for Entries<'a> {
    type Item = &'a [u8];

    fn next(&mut self) -> Option<&'a [u8]> {
        let (length, rest) = self.rest.split_first_chunk::<2>()?;
        let (part, rest) = rest.split_at_checked(u16::from_be_bytes(*length).into())?;
        self.rest = rest;
        Some(part)
    }
}

impl FusedIterator for Entries<'_> {}
