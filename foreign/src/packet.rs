//! Packets as the parties send them: how one is written, read, and held against the number
//! demanded of it and the agreed root.

use crate::inbox;
use crate::limits::{LONGEST_SHARE, MOST_PARTIES};
use crate::sha256::Hash;
use crate::tree::{check, path_length};

/// The bytes in front of the share: map, number, and the share's length.
pub const HEADER: usize = 4;

/// The map of a packet that has number, share and path.
const ALL_FIELDS: u8 = 1 | 2 | 4;

/// What a reader finds in a packet's bytes.
#[derive(Debug, PartialEq)]
pub enum Reading {
    Refused(u32),
    Silence,
    Share {
        number: usize,
        share: Vec<u8>,
        path: Vec<Hash>,
    },
}

/// A share by its place among the bytes that it was read from: its number, where it lies and how
/// long it is, and how many hashes follow it.
#[derive(Clone, Copy, Debug, PartialEq)]
pub struct Place {
    pub number: usize,
    pub from: usize,
    pub length: usize,
    pub hashes: usize,
}

/// What a packet is worth to a party that demands a number under a root.
#[derive(Debug, PartialEq)]
pub enum Standing {
    Silent,
    Valid(Vec<u8>),
    Faulty,
}

/// Map, number, share length, share, path; the fields are taken as they come, so that bad
/// packets can be made as well.
pub fn write(number: usize, share: &[u8], path: &[Hash]) -> Vec<u8> {
    let number = u8::try_from(number).expect("a number in one byte");
    let length = u16::try_from(share.len()).expect("a length in two bytes");
    let [high, low] = length.to_be_bytes();
    [&[ALL_FIELDS, number, high, low], share, &path.concat()].concat()
}

/// The writer with any arguments: the packet at the start of the buffer and its length, or
/// the lowest cause that applies with, for cause 9, the length needed. Cause 9 is asked
/// only of what is a packet.
pub fn write_into(
    (n, number): (usize, usize),
    share: &[u8],
    path: &[Hash],
    out: &mut [u8],
) -> Result<usize, (u32, usize)> {
    if !(1..=MOST_PARTIES).contains(&n) {
        return Err((1, 0));
    }
    if !(1..=n).contains(&number) {
        return Err((3, 0));
    }
    if !(1..=LONGEST_SHARE).contains(&share.len()) || path.len() != path_length(n, number) {
        return Err((10, 0));
    }
    let packet = write(number, share, path);
    let Some(start) = out.get_mut(..packet.len()) else {
        return Err((9, packet.len()));
    };
    start.copy_from_slice(&packet);
    Ok(packet.len())
}

pub fn read(n: usize, bytes: &[u8]) -> Reading {
    if !(1..=MOST_PARTIES).contains(&n) {
        return Reading::Refused(1);
    }
    if matches!(bytes, [] | [0]) {
        return Reading::Silence;
    }
    match fields(n, bytes) {
        Some((number, share, path)) => Reading::Share {
            number,
            share: share.to_vec(),
            path: hashes(path),
        },
        None => Reading::Refused(10),
    }
}

/// What is read of the entry at a place of an inbox, and the place of the next one. Where n is out
/// of its range or the entry runs short, the place stays.
pub fn read_entry(n: usize, bytes: &[u8], at: usize) -> (Reading, usize) {
    if !(1..=MOST_PARTIES).contains(&n) {
        return (Reading::Refused(1), at);
    }
    match bytes.get(at..).and_then(inbox::first) {
        Some((packet, _)) => (read(n, packet), at + 2 + packet.len()),
        None => (Reading::Refused(8), at),
    }
}

/// Number, share and the path's bytes of a packet that has them all and nothing besides.
fn fields(n: usize, bytes: &[u8]) -> Option<(usize, &[u8], &[u8])> {
    let (&[map, number, high, low], rest) = bytes.split_first_chunk::<HEADER>()?;
    let number = usize::from(number);
    let length = usize::from(u16::from_be_bytes([high, low]));
    let in_range = (1..=n).contains(&number) && (1..=LONGEST_SHARE).contains(&length);
    if map != ALL_FIELDS || !in_range {
        return None;
    }
    let (share, path) = rest.split_at_checked(length)?;
    (path.len() == 32 * path_length(n, number)).then_some((number, share, path))
}

fn hashes(bytes: &[u8]) -> Vec<Hash> {
    let hash = |chunk: &[u8]| chunk.try_into().expect("whole hashes");
    bytes.chunks(32).map(hash).collect()
}

/// The packet's standing for a party that demands number j under the root, or the lowest
/// cause against n and j.
pub fn classify(
    session: u32,
    n: usize,
    j: usize,
    root: Hash,
    bytes: &[u8],
) -> Result<Standing, u32> {
    let reading = read(n, bytes);
    if reading == Reading::Refused(1) {
        return Err(1);
    }
    if !(1..=n).contains(&j) {
        return Err(3);
    }
    Ok(match reading {
        Reading::Silence => Standing::Silent,
        Reading::Share {
            number,
            share,
            path,
        } if number == j && check(session, n, j, &share, &path, root) => Standing::Valid(share),
        _ => Standing::Faulty,
    })
}

/// The standing of a share that is said to lie at a place of the bytes. It is faulty if it is longer
/// than a share may be, or if it or its path runs past the end.
pub fn classify_at(
    session: u32,
    (n, j): (usize, usize),
    root: Hash,
    bytes: &[u8],
    place: Place,
) -> Result<Standing, u32> {
    if !(1..=MOST_PARTIES).contains(&n) {
        return Err(1);
    }
    if !(1..=n).contains(&j) {
        return Err(3);
    }
    Ok(match lying(bytes, place) {
        Some((share, path)) if place.number == j && check(session, n, j, share, &path, root) => {
            Standing::Valid(share.to_vec())
        }
        _ => Standing::Faulty,
    })
}

fn lying(bytes: &[u8], place: Place) -> Option<(&[u8], Vec<Hash>)> {
    if place.length > LONGEST_SHARE {
        return None;
    }
    let (share, behind) = bytes.get(place.from..)?.split_at_checked(place.length)?;
    let path = behind.get(..place.hashes.checked_mul(32)?)?;
    Some((share, hashes(path)))
}

#[cfg(test)]
mod tests {
    use super::*;
    use crate::sha256::hash;
    use crate::tree;

    fn some_shares(n: usize, length: usize) -> Vec<Vec<u8>> {
        let share = |j: usize| (0..length).map(|c| (31 * j + c) as u8).collect();
        (1..=n).map(share).collect()
    }

    #[test]
    fn what_was_written_is_read_back() {
        for n in 1..=MOST_PARTIES {
            for length in [1, 2, 255, 256, LONGEST_SHARE] {
                let shares = some_shares(n, length);
                let root = tree::root(0, &shares);
                for number in 1..=n {
                    let share = shares[number - 1].clone();
                    let path = tree::path(0, &shares, number);
                    let packet = write(number, &share, &path);
                    let valid = Standing::Valid(share.clone());
                    assert_eq!(classify(0, n, number, root, &packet), Ok(valid));
                    let expected = Reading::Share {
                        number,
                        share,
                        path,
                    };
                    assert_eq!(read(n, &packet), expected);
                }
            }
        }
    }

    #[test]
    fn hand_made_for_one_party() {
        let share = Reading::Share {
            number: 1,
            share: vec![9, 8],
            path: vec![],
        };
        assert_eq!(read(1, &[7, 1, 0, 2, 9, 8]), share);
        let unreadable: [&[u8]; 12] = [
            &[7],
            &[0, 0],
            &[7, 1, 0],
            &[7, 1, 0, 2],
            &[7, 1, 0, 2, 9],
            &[7, 1, 0, 2, 9, 8, 0],
            &[7, 0, 0, 2, 9, 8],
            &[7, 2, 0, 2, 9, 8],
            &[7, 1, 0, 0],
            &[7, 1, 2, 0, 9, 8],
            &[3, 1, 0, 2, 9, 8],
            &[15, 1, 0, 2, 9, 8],
        ];
        for bytes in unreadable {
            assert_eq!(read(1, bytes), Reading::Refused(10), "{bytes:?}");
        }
    }

    #[test]
    fn hand_made_for_three_parties() {
        let packet = |number, hashes: usize| {
            let header = vec![7, number, 0, 1, 0xC3];
            [header, vec![5; 32 * hashes]].concat()
        };
        let whole =
            |number, hashes| matches!(read(3, &packet(number, hashes)), Reading::Share { .. });
        for hashes in 0..5 {
            assert_eq!(whole(1, hashes), hashes == 2);
            assert_eq!(whole(2, hashes), hashes == 2);
            assert_eq!(whole(3, hashes), hashes == 1);
            assert!(!whole(0, hashes) && !whole(4, hashes));
        }
    }

    #[test]
    fn longest_share() {
        for (length, readable) in [(LONGEST_SHARE, true), (LONGEST_SHARE + 1, false)] {
            let [high, low] = u16::to_be_bytes(length as u16);
            let bytes = [vec![7, 1, high, low], vec![3; length]].concat();
            assert_eq!(read(1, &bytes) != Reading::Refused(10), readable);
        }
    }

    #[test]
    fn silence_and_causes() {
        let root = hash(&[0, 1, 9]);
        for bytes in [&[][..], &[0]] {
            let most = MOST_PARTIES;
            assert_eq!(read(most, bytes), Reading::Silence);
            assert_eq!(classify(0, most, most, root, bytes), Ok(Standing::Silent));
            assert_eq!(classify(0, most, most + 1, root, bytes), Err(3));
            assert_eq!(classify(0, most, 0, root, bytes), Err(3));
            for n in [0, most + 1] {
                assert_eq!(read(n, bytes), Reading::Refused(1));
                assert_eq!(classify(0, n, 0, root, bytes), Err(1));
            }
        }
        let packet = [7, 1, 0, 1, 9];
        assert_eq!(
            classify(0, 1, 1, root, &packet),
            Ok(Standing::Valid(vec![9]))
        );
        assert_eq!(classify(0, 1, 1, [0; 32], &packet), Ok(Standing::Faulty));
        assert_eq!(classify(0, 1, 1, root, &packet[1..]), Ok(Standing::Faulty));
        assert_eq!(classify(0, 2, 1, root, &packet), Ok(Standing::Faulty));
    }

    #[test]
    fn a_packet_of_another_session_is_faulty() {
        let root = hash(&[0, 0, 0, 1, 0, 1, 9]);
        let packet = write(1, &[9], &[]);
        let valid = Ok(Standing::Valid(vec![9]));
        for (session, expected) in [
            (256, valid),
            (0, Ok(Standing::Faulty)),
            (1, Ok(Standing::Faulty)),
        ] {
            assert_eq!(classify(session, 1, 1, root, &packet), expected);
            let place = Place {
                number: 1,
                from: HEADER,
                length: 1,
                hashes: 0,
            };
            assert_eq!(classify_at(session, (1, 1), root, &packet, place), expected);
        }
    }

    #[test]
    fn entry_after_entry() {
        let share = Reading::Share {
            number: 1,
            share: vec![9],
            path: vec![],
        };
        let bytes = [0, 5, 7, 1, 0, 1, 9, 0, 0, 0, 1, 7, 0, 2, 0];
        assert_eq!(read_entry(1, &bytes, 0), (share, 7));
        assert_eq!(read_entry(1, &bytes, 7), (Reading::Silence, 9));
        assert_eq!(read_entry(1, &bytes, 9), (Reading::Refused(10), 12));
        for at in [12, 14, 15, 16, usize::MAX] {
            assert_eq!(read_entry(1, &bytes, at), (Reading::Refused(8), at));
            assert_eq!(read_entry(17, &bytes, at), (Reading::Refused(1), at));
        }
    }

    #[test]
    fn shares_by_their_place() {
        let root = hash(&[0, 1, 9]);
        let place = Place {
            number: 1,
            from: 2,
            length: 1,
            hashes: 0,
        };
        let stands = |bytes: &[u8], place| classify_at(0, (1, 1), root, bytes, place);
        assert_eq!(stands(&[5, 5, 9], place), Ok(Standing::Valid(vec![9])));
        assert_eq!(stands(&[5, 5], place), Ok(Standing::Faulty));
        assert_eq!(stands(&[5, 5, 8], place), Ok(Standing::Faulty));
        for hashes in [1, 1 << 59, usize::MAX] {
            assert_eq!(
                stands(&[5, 5, 9], Place { hashes, ..place }),
                Ok(Standing::Faulty)
            );
        }
        let other = Place { number: 2, ..place };
        assert_eq!(stands(&[5, 5, 9], other), Ok(Standing::Faulty));
        assert_eq!(classify_at(0, (1, 2), root, &[5, 5, 9], place), Err(3));
        assert_eq!(classify_at(0, (0, 1), root, &[5, 5, 9], place), Err(1));
    }

    #[test]
    fn written_into_a_buffer() {
        let mut out = [0xA5; 7];
        assert_eq!(write_into((1, 1), &[9, 8], &[], &mut out), Ok(6));
        assert_eq!(out, [7, 1, 0, 2, 9, 8, 0xA5]);
        let mut out = [0xA5; 5];
        assert_eq!(write_into((1, 1), &[9, 8], &[], &mut out), Err((9, 6)));
        assert_eq!(write_into((1, 1), &[], &[], &mut out), Err((10, 0)));
        assert_eq!(write_into((1, 1), &[9], &[[0; 32]], &mut out), Err((10, 0)));
        assert_eq!(write_into((1, 2), &[], &[], &mut out), Err((3, 0)));
        let over = (MOST_PARTIES + 1, MOST_PARTIES + 2);
        assert_eq!(write_into(over, &[], &[], &mut out), Err((1, 0)));
        assert_eq!(out, [0xA5; 5]);
    }
}
