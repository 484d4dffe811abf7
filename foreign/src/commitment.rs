//! Where coder and tree meet: the root that stands for a message, and rebuilding under a root, where
//! what the shares give is coded again and counts only if it has that root.

use crate::coder::{bad_parties, find_message, frame_of, place, shares_of, Answer};
use crate::sha256::Hash;
use crate::tree;

/// The root over the n shares of a message.
pub fn root(session: u32, n: usize, t: usize, message: &[u8]) -> Hash {
    let b = n - t;
    tree::root(session, &shares_of(n, b, &frame_of(b, message)))
}

/// Writes the message that the entries give, if its root is the given one.
pub fn rebuild_with_root(
    session: u32,
    n: usize,
    t: usize,
    root: &[u8],
    entries: &[u8],
    out: &mut [u8],
) -> Answer {
    match message_under(session, (n, t), root, entries) {
        Ok(message) => place(&message, out),
        Err(cause) => Answer::Refused(cause),
    }
}

/// That message, or the first cause in the order 1, 2, 7, 8, 11, 12, 15.
fn message_under(
    session: u32,
    (n, t): (usize, usize),
    given: &[u8],
    entries: &[u8],
) -> Result<Vec<u8>, u32> {
    bad_parties(n, t).map_or(Ok(()), Err)?;
    let given: Hash = given.try_into().map_err(|_| 7u32)?;
    let message = find_message(n, t, entries)?;
    match root(session, n, t, &message) == given {
        true => Ok(message),
        false => Err(15),
    }
}

#[cfg(test)]
mod tests {
    use super::*;
    use crate::inbox::lay_out;
    use crate::liars::Sharing;
    use crate::limits::{LONGEST_MESSAGE, MOST_FAULTS, MOST_PARTIES};
    use crate::random::Random;
    use crate::sessions::pairs;
    use crate::sha256::hex;

    const LENT: u8 = 0xA5;

    /// The answer under session 0, with what was written; no byte behind that is touched.
    fn rebuilt(
        group: (usize, usize),
        root: &[u8],
        entries: &[u8],
        room: usize,
    ) -> (Answer, Vec<u8>) {
        rebuilt_in(0, group, root, entries, room)
    }

    fn rebuilt_in(
        session: u32,
        (n, t): (usize, usize),
        root: &[u8],
        entries: &[u8],
        room: usize,
    ) -> (Answer, Vec<u8>) {
        let mut out = vec![LENT; room];
        let answer = rebuild_with_root(session, n, t, root, entries, &mut out);
        let written = match answer {
            Answer::Done(length) => length,
            _ => 0,
        };
        assert!(out[written..].iter().all(|&x| x == LENT));
        out.truncate(written);
        (answer, out)
    }

    #[test]
    fn worked_root() {
        let given = root(0, 3, 1, b"AB");
        assert_eq!(
            hex(&given),
            "52eff964324cb6ca803184f4e72573046a4c8f21d980c3dd7e2c1a6073b0c2ee"
        );
        let entries = [0, 0, 0, 2, 0x82, 0x86, 0, 2, 0xC3, 0xC4];
        let found = rebuilt((3, 1), &given, &entries, 3);
        assert_eq!(found, (Answer::Done(2), b"AB".to_vec()));
        assert_eq!(rebuilt((3, 1), &given, &entries, 1).0, Answer::Short(2));
        let other = root(0, 3, 1, b"AC");
        assert_eq!(rebuilt((3, 1), &other, &entries, 2).0, Answer::Refused(15));
    }

    /// A message has another root in each session, and is rebuilt under that of its own alone.
    #[test]
    fn a_root_is_its_own_sessions() {
        let entries = lay_out(&Sharing::of(0, 5, 2, b"message").shares);
        for (session, other) in pairs() {
            let given = root(session, 5, 2, b"message");
            let expected = match other == session {
                true => (Answer::Done(7), b"message".to_vec()),
                false => (Answer::Refused(15), Vec::new()),
            };
            assert_eq!(rebuilt_in(other, (5, 2), &given, &entries, 9), expected);
        }
    }

    /// Each cause with those that come after it in the order.
    #[test]
    fn the_first_cause_is_given() {
        let right = root(0, 3, 1, b"AB");
        let mut wrong = right;
        wrong[31] ^= 1;
        let good = lay_out(&[&[][..], &[0x82, 0x86], &[0xC3, 0xC4]]);
        let few = lay_out(&[&[][..], &[], &[0xC3]]);
        let unequal = lay_out(&[&[][..], &[0x82], &[0xC3, 0xC4]]);
        let cut = &good[..good.len() - 1];
        let above = MOST_PARTIES + 1;
        let cause = |group, root: &[u8], entries: &[u8]| {
            let [answer, short] = [9, 0].map(|room| rebuilt(group, root, entries, room).0);
            assert_eq!(answer, short);
            answer
        };
        for root in [&right[..], &wrong, &wrong[1..], &[]] {
            for entries in [&good[..], &few, &unequal, cut] {
                assert_eq!(cause((above, above), root, entries), Answer::Refused(1));
                assert_eq!(cause((3, 2), root, entries), Answer::Refused(2));
                if root.len() < 32 {
                    assert_eq!(cause((3, 1), root, entries), Answer::Refused(7));
                }
            }
        }
        for root in [&right, &wrong] {
            assert_eq!(cause((3, 1), root, cut), Answer::Refused(8));
            assert_eq!(cause((3, 1), root, &few), Answer::Refused(11));
            assert_eq!(cause((3, 1), root, &unequal), Answer::Refused(12));
        }
        assert_eq!(cause((3, 1), &wrong, &good), Answer::Refused(15));
        assert_eq!(rebuilt((3, 1), &right, &good, 0).0, Answer::Short(2));
    }

    #[test]
    fn a_root_that_is_not_32_bytes() {
        let right = root(0, 1, 0, b"A").to_vec();
        let entries = [0, 3, 0, 1, 0x41];
        for length in [0, 1, 31, 33, 64, 256 + 32] {
            let mut given = right.clone();
            given.resize(length, 0);
            assert_eq!(rebuilt((1, 0), &given, &entries, 1).0, Answer::Refused(7));
        }
        assert_eq!(rebuilt((1, 0), &right, &entries, 1).0, Answer::Done(1));
    }

    /// Under the root of shares that no message has, nothing is rebuilt; under that of the message
    /// that the lowest b give, it is.
    #[test]
    fn no_codeword_is_taken() {
        let mut random = Random::new(7);
        for (n, t) in [(3, 1), (5, 2), (9, 4), (MOST_PARTIES, MOST_FAULTS)] {
            let no_codeword = Sharing::no_codeword(0, n, t, &mut random);
            let Sharing {
                shares, root: tree, ..
            } = no_codeword;
            let entries = lay_out(&shares);
            let given = rebuilt((n, t), &tree, &entries, LONGEST_MESSAGE).0;
            assert_eq!(given, Answer::Refused(15));
            let message = find_message(n, t, &entries).expect("a message");
            let found = rebuilt((n, t), &root(0, n, t, &message), &entries, message.len());
            assert_eq!(found, (Answer::Done(message.len()), message));
        }
    }
}
