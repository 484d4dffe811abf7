//! Rebuilding under a root: by the tool that is given one, and in step 5, where it is the agreed one.

use cipangohu::{lay_out, HASH, MAX_OUTBOX, MAX_PARTIES, STATE};
use foreign::commitment;
use foreign::liars::{flip, Sharing};
use foreign::random::Random;
use foreign::sessions;

use crate::call::{Call, Lent};
use crate::made::{dirt, group, message, odd_group};
use crate::reference::AT_STAGE;
use crate::tally::{compare, Tally};
use crate::{entries_of, stateless, times};

/// Entries and a root: mostly those of a message, else shares that no message has under their own
/// root.
fn shared(session: u32, n: usize, t: usize, random: &mut Random) -> (Vec<u8>, Vec<u8>) {
    if t > 0 && random.once_in(6) {
        let Sharing { shares, root, .. } = Sharing::no_codeword(session, n, t, random);
        return (lay_out(&shares), root.to_vec());
    }
    let message = message(random);
    let entries = entries_of(n, t, &message, random);
    (entries, commitment::root(session, n, t, &message).to_vec())
}

#[test]
fn messages_have_the_root_given() {
    let (mut random, mut tally) = (Random::new(12), Tally::default());
    for _ in 0..times(4_000) {
        let (mut session, (n, t)) = (sessions::some(&mut random), group(&mut random));
        let (entries, mut root) = shared(session, n, t, &mut random);
        match random.below(10) {
            0 => flip(&mut root, &mut random),
            1 => root.resize(random.pick(&[0, 1, 31, 33, 64]), 7),
            2 => session = sessions::another(session, &mut random),
            _ => {}
        }
        let group = match random.once_in(8) {
            true => odd_group(&mut random),
            false => (n, t),
        };
        let call = Call::RebuildWithRoot(session, group, root, entries);
        stateless(&call, &mut random, &mut tally);
    }
    tally.expect("rebuild_with_root", &[0, 1, 2, 7, 8, 9, 11, 12, 15]);
}

/// Under the root of shares that no message has, a party ends with nothing, which needs no room, from
/// whichever of them it rebuilds.
#[test]
fn no_other_message_is_settled_on() {
    let (mut random, mut tally) = (Random::new(13), Tally::default());
    for _ in 0..times(600) {
        let n = 3 + random.below(MAX_PARTIES - 2);
        let t = 1 + random.below((n - 1) / 2);
        let own = 1 + random.below(n);
        let agreed = Sharing::no_codeword(sessions::some(&mut random), n, t, &mut random);
        let missing = random.below(t + 1);
        let missing = random.choice(n, missing);
        let relay = |j: usize| match (missing >> (j - 1)) & 1 {
            1 => Vec::new(),
            _ => agreed.packet(j),
        };
        let relays: Vec<Vec<u8>> = (1..=n).map(relay).collect();
        let mut lent = Lent {
            state: dirt(STATE, &mut random),
            root: dirt(HASH, &mut random),
            out: dirt(MAX_OUTBOX, &mut random),
        };
        for call in [
            Call::Open(agreed.session, (n, t, own), message(&mut random)),
            Call::AgreeRoot(agreed.root.to_vec()),
            Call::AgreeBit(1),
            Call::TakeShares(lay_out(&vec![agreed.packet(own); n])),
        ] {
            assert_eq!(compare(&call, &mut lent, &mut tally).cause, 0, "{call:?}");
        }
        lent.out.clear();
        let answer = compare(&Call::TakeRelays(lay_out(&relays)), &mut lent, &mut tally);
        assert_eq!((answer.cause, answer.value), (0, 0));
        assert_eq!(lent.state[AT_STAGE], 4);
    }
    tally.expect("take_relays", &[0]);
}
