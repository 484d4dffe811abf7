//! Sessions of different numbers: a message has a root in each, and a party of another session is none
//! of this one's.

use cipangohu::{entries, lay_out, Hash, Outcome, Party, Stage, MAX_OUTBOX, MAX_PACKET};
use foreign::random::Random;
use foreign::sessions::{another, some, EDGES};

use crate::made::{group, message};
use crate::times;

/// One message has as many roots as there are sessions.
#[test]
fn a_root_in_each_session() {
    let mut random = Random::new(17);
    for _ in 0..times(400) {
        let ((n, t), message) = (group(&mut random), message(&mut random));
        let root = |session| Party::open(session, n, t, 1, &message).expect("opened").1;
        let mut roots = EDGES.map(root);
        roots.sort();
        assert!(roots.windows(2).all(|pair| pair[0] != pair[1]));
        let number = some(&mut random);
        assert_ne!(root(number), root(another(number, &mut random)));
    }
}

/// What each party wrote for party `own`, or relayed, as an inbox.
fn delivered(outboxes: &[Vec<u8>], own: usize) -> Vec<u8> {
    let sent = |outbox: &Vec<u8>| entries(outbox).and_then(|mut it| it.nth(own - 1).map(Vec::from));
    let packets: Vec<Vec<u8>> = outboxes
        .iter()
        .map(|it| sent(it).expect("n entries"))
        .collect();
    lay_out(&packets)
}

/// Plays the steps under a root, on bit 1.
fn played(mut parties: Vec<Party>, root: &Hash) -> Vec<Party> {
    let mut out = [0; MAX_OUTBOX];
    let mut outbox = |party: &mut Party| {
        party.agree_root(root).expect("in turn");
        let length = party.agree_bit(true, &mut out).expect("in turn");
        out[..length].to_vec()
    };
    let outboxes: Vec<Vec<u8>> = parties.iter_mut().map(&mut outbox).collect();
    let mut relay = [0; MAX_PACKET];
    let mut relayed = |party: &mut Party| {
        let inbox = delivered(&outboxes, party.own());
        let length = party.take_shares(&inbox, &mut relay).expect("in turn");
        relay[..length].to_vec()
    };
    let relays: Vec<Vec<u8>> = parties.iter_mut().map(&mut relayed).collect();
    let inbox = lay_out(&relays);
    for party in &mut parties {
        party.take_relays(&inbox).expect("in turn");
    }
    parties
}

/// The last party was opened with another number: it is not happy though it has the message, finds no
/// share that passes, and ends with nothing where the others settle. It takes them all for cheats,
/// which they do not say of it, since it sends nothing.
#[test]
fn a_party_of_another_session() {
    let mut random = Random::new(18);
    for _ in 0..times(300) {
        let n = 3 + random.below(6);
        let (number, message) = (some(&mut random), message(&mut random));
        let other = another(number, &mut random);
        let open = |own| {
            let session = if own == n { other } else { number };
            Party::open(session, n, 1, own, &message).expect("opened")
        };
        let (parties, roots): (Vec<Party>, Vec<Hash>) = (1..=n).map(open).unzip();
        let ended = played(parties, &roots[0]);
        let (last, others) = ended.split_last().expect("parties");
        assert_eq!(
            (last.session(), last.stage()),
            (other, Stage::EndedWithNothing)
        );
        assert!(last.faulty().iter().eq(1..n));
        for party in others {
            assert_eq!(party.session(), number);
            assert_eq!(party.result(), Some(Outcome::Message(&message)));
            assert!(party.faulty().is_empty());
        }
    }
}
