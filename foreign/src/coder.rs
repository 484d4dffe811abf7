//! The coder: a message becomes n shares, and b = n - t of them become the message again.
//! Rebuilding is Gauss elimination on the system of the powers of the party numbers.

use crate::field::{inv, mul, pow};
use crate::limits::{LONGEST_MESSAGE, MOST_PARTIES};

/// What a call answers: a cause, the length needed (cause 9), or the bytes written.
#[derive(Clone, Copy, Debug, PartialEq, Eq)]
pub enum Answer {
    Refused(u32),
    Short(usize),
    Done(usize),
}

/// Cause 1 or 2, if one applies.
pub(crate) fn bad_parties(n: usize, t: usize) -> Option<u32> {
    if !(1..=MOST_PARTIES).contains(&n) {
        return Some(1);
    }
    if t >= n.div_ceil(2) {
        return Some(2);
    }
    None
}

/// s: the length of a share when b blocks hold a message of `length` bytes.
pub fn share_length(b: usize, length: usize) -> usize {
    (length + 2).div_ceil(b)
}

/// The frame: length in two bytes, message, zeros up to b * s bytes.
pub fn frame_of(b: usize, message: &[u8]) -> Vec<u8> {
    let mut frame = (message.len() as u16).to_be_bytes().to_vec();
    frame.extend_from_slice(message);
    frame.resize(b * share_length(b, message.len()), 0);
    frame
}

/// The n shares of any frame whose length is a multiple of b, well made or not.
pub fn shares_of(n: usize, b: usize, frame: &[u8]) -> Vec<Vec<u8>> {
    assert_eq!(frame.len() % b, 0);
    let s = frame.len() / b;
    (1..=n)
        .map(|party| {
            let mut share = vec![0u8; s];
            for k in 0..b {
                let factor = pow(party as u8, k as u64);
                for (c, byte) in share.iter_mut().enumerate() {
                    *byte ^= mul(frame[k * s + c], factor);
                }
            }
            share
        })
        .collect()
}

/// Writes the n shares of `message`, concatenated.
pub fn encode(n: usize, t: usize, message: &[u8], out: &mut [u8]) -> Answer {
    if let Some(cause) = bad_parties(n, t) {
        return Answer::Refused(cause);
    }
    if message.len() > LONGEST_MESSAGE {
        return Answer::Refused(4);
    }
    let b = n - t;
    place(&shares_of(n, b, &frame_of(b, message)).concat(), out)
}

/// Copies `bytes` to the start of `out`, if they have room there.
pub(crate) fn place(bytes: &[u8], out: &mut [u8]) -> Answer {
    if out.len() < bytes.len() {
        return Answer::Short(bytes.len());
    }
    out[..bytes.len()].copy_from_slice(bytes);
    Answer::Done(bytes.len())
}

/// Writes the message that the b lowest-numbered present shares give.
pub fn rebuild(n: usize, t: usize, entries: &[u8], out: &mut [u8]) -> Answer {
    match find_message(n, t, entries) {
        Ok(message) => place(&message, out),
        Err(cause) => Answer::Refused(cause),
    }
}

/// That message, or why there is none: causes 1, 2, 8, 11 and 12.
pub fn find_message(n: usize, t: usize, entries: &[u8]) -> Result<Vec<u8>, u32> {
    if let Some(cause) = bad_parties(n, t) {
        return Err(cause);
    }
    let b = n - t;
    let shares = read_entries(n, entries).ok_or(8u32)?;
    let present = (1u8..).zip(shares).filter(|(_, share)| !share.is_empty());
    let used: Vec<(u8, &[u8])> = present.take(b).collect();
    if used.len() < b {
        return Err(11);
    }
    let s = used[0].1.len();
    if used.iter().any(|(_, share)| share.len() != s) {
        return Err(12);
    }
    message_in(b, &solve(&used)).ok_or(12)
}

/// The n shares of the entries; none if they run short or leave bytes over.
fn read_entries(n: usize, entries: &[u8]) -> Option<Vec<&[u8]>> {
    let mut rest = entries;
    let mut shares = Vec::new();
    for _ in 0..n {
        let length = usize::from(*rest.first()?) * 256 + usize::from(*rest.get(1)?);
        shares.push(rest.get(2..2 + length)?);
        rest = &rest[2 + length..];
    }
    rest.is_empty().then_some(shares)
}

/// The frame behind b numbered shares of one length.
/// Each row is a party's b powers followed by its share. The numbers differ, so every
/// leading square is of full rank, and no pivot met on the way is zero.
fn solve(used: &[(u8, &[u8])]) -> Vec<u8> {
    let b = used.len();
    let mut rows: Vec<Vec<u8>> = used
        .iter()
        .map(|&(party, share)| {
            let mut row: Vec<u8> = (0..b as u64).map(|k| pow(party, k)).collect();
            row.extend_from_slice(share);
            row
        })
        .collect();
    for column in 0..b {
        clear_column(&mut rows, column);
    }
    rows.iter().flat_map(|row| row[b..].to_vec()).collect()
}

/// Makes the pivot of `column` one and every other entry of the column zero.
fn clear_column(rows: &mut [Vec<u8>], column: usize) {
    assert_ne!(rows[column][column], 0);
    let scale = inv(rows[column][column]);
    let pivot: Vec<u8> = rows[column].iter().map(|&x| mul(x, scale)).collect();
    for (place, row) in rows.iter_mut().enumerate() {
        if place == column {
            row.copy_from_slice(&pivot);
            continue;
        }
        let factor = row[column];
        for (x, &p) in row.iter_mut().zip(&pivot) {
            *x ^= mul(factor, p);
        }
    }
}

/// The message in a well-made frame of b blocks; none if the frame is not one.
fn message_in(b: usize, frame: &[u8]) -> Option<Vec<u8>> {
    if frame.len() < 2 {
        return None;
    }
    let length = usize::from(frame[0]) * 256 + usize::from(frame[1]);
    if length > LONGEST_MESSAGE || share_length(b, length) * b != frame.len() {
        return None;
    }
    let (message, filling) = frame[2..].split_at(length);
    filling.iter().all(|&x| x == 0).then(|| message.to_vec())
}

#[cfg(test)]
mod tests {
    use super::*;
    use crate::limits::{LONGEST_SHARES, MOST_FAULTS};

    fn encoded(n: usize, t: usize, message: &[u8]) -> Vec<u8> {
        let mut out = vec![0u8; LONGEST_SHARES];
        let Answer::Done(length) = encode(n, t, message, &mut out) else {
            panic!("refused");
        };
        out.truncate(length);
        out
    }

    #[test]
    fn worked_shares() {
        assert_eq!(encoded(3, 1, b"AB"), [0x41, 0x40, 0x82, 0x86, 0xC3, 0xC4]);
        let five = encoded(5, 2, b"AB");
        assert_eq!(five[6..], [0x1F, 0x11, 0x5E, 0x53]);
        assert_eq!(encoded(2, 0, b"A"), [0x41, 0x01, 0x82, 0x01]);
        assert_eq!(encoded(3, 1, b""), [0, 0, 0]);
    }

    #[test]
    fn worked_rebuild() {
        let entries = [0, 0, 0, 2, 0x82, 0x86, 0, 2, 0xC3, 0xC4];
        let mut out = [0xA5; 3];
        assert_eq!(rebuild(3, 1, &entries, &mut out), Answer::Done(2));
        assert_eq!(out, [0x41, 0x42, 0xA5]);
        assert_eq!(rebuild(3, 1, &entries, &mut out[..1]), Answer::Short(2));
        assert_eq!(rebuild(3, 1, &entries[..9], &mut out), Answer::Refused(8));
        assert_eq!(rebuild(3, 0, &entries, &mut out), Answer::Refused(11));
        let one = [0, 1, 0];
        assert_eq!(rebuild(1, 0, &one, &mut out), Answer::Refused(12));
    }

    #[test]
    fn worked_limits() {
        let mut out = vec![0u8; LONGEST_SHARES];
        let (n, t) = (MOST_PARTIES, MOST_FAULTS);
        let message = vec![7u8; LONGEST_MESSAGE + 1];
        assert_eq!(
            encode(n, t, &message[1..], &mut out),
            Answer::Done(n * share_length(n - t, LONGEST_MESSAGE))
        );
        assert_eq!(encode(n, t, &message, &mut out), Answer::Refused(4));
        for t in [t + 1, 1 << 63, usize::MAX] {
            assert_eq!(encode(n, t, b"", &mut out), Answer::Refused(2));
        }
        assert_eq!(encode(n + 1, 0, b"", &mut out), Answer::Refused(1));
        assert_eq!(encode(0, 0, b"", &mut out), Answer::Refused(1));
    }

    #[test]
    fn every_choice_of_b_shares_rebuilds() {
        let message: Vec<u8> = (0..50).map(|x| x * 5 + 1).collect();
        for (n, t) in [(1, 0), (2, 0), (3, 1), (8, 3), (9, 4), (12, 5)] {
            let shares = shares_of(n, n - t, &frame_of(n - t, &message));
            for map in (0..1u32 << n).filter(|map| map.count_ones() as usize == n - t) {
                let mut entries = Vec::new();
                for (place, share) in shares.iter().enumerate() {
                    let there = (map >> place) & 1 == 1;
                    entries.extend([0, if there { share.len() as u8 } else { 0 }]);
                    entries.extend(if there { &share[..] } else { &[] });
                }
                let mut out = vec![0u8; 50];
                assert_eq!(rebuild(n, t, &entries, &mut out), Answer::Done(50));
                assert_eq!(out, message);
            }
        }
    }
}
