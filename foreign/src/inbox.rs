//! The inbox, for each sender from 1 upward a two-byte length and a packet: how it is laid
//! out and taken apart.

/// The inbox that holds these packets, the first being sender 1's.
pub fn lay_out<P: AsRef<[u8]>>(packets: &[P]) -> Vec<u8> {
    let mut inbox = Vec::new();
    for packet in packets.iter().map(AsRef::as_ref) {
        let length = u16::try_from(packet.len()).expect("a length in two bytes");
        inbox.extend(length.to_be_bytes());
        inbox.extend(packet);
    }
    inbox
}

/// The packet of the first entry, and what is behind it; nothing if the entry runs short.
pub fn first(bytes: &[u8]) -> Option<(&[u8], &[u8])> {
    let (length, behind) = bytes.split_first_chunk::<2>()?;
    behind.split_at_checked(usize::from(u16::from_be_bytes(*length)))
}

/// The packets of n senders; cause 8 if they run short or leave bytes over.
pub fn entries(n: usize, bytes: &[u8]) -> Result<Vec<&[u8]>, u32> {
    let mut packets = Vec::new();
    let mut rest = bytes;
    for _ in 0..n {
        let (packet, behind) = first(rest).ok_or(8u32)?;
        packets.push(packet);
        rest = behind;
    }
    if rest.is_empty() {
        Ok(packets)
    } else {
        Err(8)
    }
}

/// Whether the entries of n senders fill the bytes exactly.
pub fn laid_out(n: usize, bytes: &[u8]) -> bool {
    entries(n, bytes).is_ok()
}

#[cfg(test)]
mod tests {
    use super::*;
    use crate::limits::MOST_PARTIES;

    #[test]
    fn hand_made() {
        let bytes = [0, 2, 7, 8, 0, 0, 0, 1, 9];
        assert_eq!(entries(3, &bytes), Ok(vec![&[7, 8][..], &[], &[9]]));
        assert_eq!(entries(2, &bytes), Err(8));
        assert_eq!(entries(4, &bytes), Err(8));
        for length in 0..bytes.len() {
            assert_eq!(entries(3, &bytes[..length]), Err(8));
        }
        assert_eq!(entries(1, &[1, 0, 5]), Err(8));
        assert!(laid_out(1, &[0, 0]) && laid_out(2, &[0, 0, 0, 0]));
        assert!(!laid_out(1, &[]) && !laid_out(1, &[0]));
    }

    #[test]
    fn what_was_laid_out_is_taken_apart() {
        for n in 1..=MOST_PARTIES {
            let packets: Vec<Vec<u8>> = (0..n).map(|i| vec![i as u8; 97 * i]).collect();
            let bytes = lay_out(&packets);
            let found = entries(n, &bytes).expect("a good layout");
            assert_eq!(found, packets);
            assert!(!laid_out(n + 1, &bytes));
        }
    }
}
