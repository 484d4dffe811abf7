//! The packet in which one party, the sender, hands its whole message to every other before these
//! open: how one is written and read. Its map has a bit that no packet of a share has, and none of
//! those that it has, so that neither is read for the other.

use crate::limits::LONGEST_MESSAGE;

/// The bytes in front of the message: map, and the message's length.
pub const HEADER: usize = 3;

/// The map of a packet that has a message.
pub const MAP: u8 = 8;

/// What a reader finds in the bytes.
#[derive(Clone, Debug, PartialEq, Eq)]
pub enum Reading {
    Refused(u32),
    Silence,
    Message(Vec<u8>),
}

/// Map, length, message; the message may be longer than may be, so that bad packets can be made as
/// well.
pub fn write(message: &[u8]) -> Vec<u8> {
    let length = u16::try_from(message.len()).expect("a length in two bytes");
    let [high, low] = length.to_be_bytes();
    [&[MAP, high, low], message].concat()
}

/// The writer with any arguments: the packet at the start of the buffer and its length, or the lowest
/// cause that applies with, for cause 9, the length needed.
pub fn write_into(message: &[u8], out: &mut [u8]) -> Result<usize, (u32, usize)> {
    if message.len() > LONGEST_MESSAGE {
        return Err((4, 0));
    }
    let packet = write(message);
    let Some(start) = out.get_mut(..packet.len()) else {
        return Err((9, packet.len()));
    };
    start.copy_from_slice(&packet);
    Ok(packet.len())
}

pub fn read(bytes: &[u8]) -> Reading {
    if matches!(bytes, [] | [0]) {
        return Reading::Silence;
    }
    match message(bytes) {
        Some(message) => Reading::Message(message.to_vec()),
        None => Reading::Refused(10),
    }
}

/// The message of a packet that has one of the stated length and nothing besides.
fn message(bytes: &[u8]) -> Option<&[u8]> {
    let (&[map, high, low], message) = bytes.split_first_chunk::<HEADER>()?;
    let length = usize::from(u16::from_be_bytes([high, low]));
    let fits = length <= LONGEST_MESSAGE && length == message.len();
    (map == MAP && fits).then_some(message)
}

#[cfg(test)]
mod tests {
    use super::*;
    use crate::limits::{INSIDE, LONGEST_MESSAGE_PACKET, LONGEST_SHARE, MOST_PARTIES};
    use crate::packet;
    use crate::tree::path_length;

    #[test]
    fn what_was_written_is_read_back() {
        let edges = [
            0,
            1,
            2,
            7,
            8,
            255,
            256,
            LONGEST_MESSAGE - 1,
            LONGEST_MESSAGE,
        ];
        for length in INSIDE.into_iter().chain(edges) {
            let message: Vec<u8> = (0..length).map(|place| (31 * place) as u8).collect();
            let packet = write(&message);
            assert_eq!(packet.len(), 3 + length);
            assert!(packet.len() <= LONGEST_MESSAGE_PACKET);
            assert_eq!(read(&packet), Reading::Message(message));
        }
    }

    #[test]
    fn hand_made() {
        assert_eq!(read(&[]), Reading::Silence);
        assert_eq!(read(&[0]), Reading::Silence);
        assert_eq!(read(&[8, 0, 0]), Reading::Message(vec![]));
        assert_eq!(read(&[8, 0, 2, 9, 7]), Reading::Message(vec![9, 7]));
        let unreadable: [&[u8]; 13] = [
            &[8],
            &[8, 0],
            &[0, 0],
            &[0, 0, 0],
            &[8, 0, 0, 0],
            &[8, 0, 2, 9],
            &[8, 0, 2, 9, 7, 5],
            &[8, 2, 0, 9, 7],
            &[9, 0, 2, 9, 7],
            &[15, 0, 2, 9, 7],
            &[24, 0, 2, 9, 7],
            &[7, 0, 2, 9, 7],
            &[7, 1, 0, 2, 9, 8],
        ];
        for bytes in unreadable {
            assert_eq!(read(bytes), Reading::Refused(10), "{bytes:?}");
        }
    }

    #[test]
    fn longest_message() {
        for more in [0, 1, 2, 500] {
            let packet = write(&vec![7; LONGEST_MESSAGE + more]);
            assert_eq!(read(&packet) == Reading::Refused(10), more > 0);
        }
        let header = [8, 0xFF, 0xFF];
        assert_eq!(read(&header), Reading::Refused(10));
        let whole = [&header[..], &[7; u16::MAX as usize]].concat();
        assert_eq!(read(&whole), Reading::Refused(10));
    }

    /// Every map with the bytes of either packet behind it: no reader takes what the other takes.
    #[test]
    fn no_packet_is_read_for_the_other() {
        for n in 1..=MOST_PARTIES {
            let path = vec![[5; 32]; path_length(n, n)];
            let share = packet::write(n, &[9; 2], &path);
            for map in 0..=255 {
                for mut bytes in [share.clone(), write(&share[HEADER..]), write(&[9, 7])] {
                    bytes[0] = map;
                    let whole = matches!(read(&bytes), Reading::Message(_));
                    let shared = packet::read(n, &bytes) != packet::Reading::Refused(10);
                    assert!(!(whole && shared), "map {map}");
                    assert!(map == MAP || !whole, "map {map}");
                }
            }
        }
    }

    #[test]
    fn written_into_a_buffer() {
        let mut out = [0xA5; 6];
        assert_eq!(write_into(&[9, 7], &mut out), Ok(5));
        assert_eq!(out, [8, 0, 2, 9, 7, 0xA5]);
        let mut out = [0xA5; 4];
        assert_eq!(write_into(&[9, 7], &mut out), Err((9, 5)));
        assert_eq!(write_into(&[], &mut out[..2]), Err((9, 3)));
        for length in [LONGEST_MESSAGE + 1, LONGEST_SHARE, 1 << 17] {
            assert_eq!(write_into(&vec![7; length], &mut out), Err((4, 0)));
        }
        assert_eq!(out, [0xA5; 4]);
        let needed = LONGEST_MESSAGE_PACKET;
        let longest = write_into(&[7; LONGEST_MESSAGE], &mut out);
        assert_eq!(longest, Err((9, needed)));
    }
}
