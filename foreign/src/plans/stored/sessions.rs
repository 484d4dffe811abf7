//! The stored plans that give the session's number, each beside those of the other options.

use super::of_three;
use super::senders::{small_bad, small_good};
use crate::liars::{Lie, Sharing};
use crate::plans::{Damage, Draft, Made, Size};
use crate::sessions::{in_place, EDGES};

/// A number whose bytes differ, and the same bytes from the last to the first.
const ORDERED: u32 = 0x0102_0304;
const TURNED: u32 = ORDERED.swap_bytes();

pub(super) fn stored() -> impl Iterator<Item = Made> {
    options()
        .chain(pairs().map(other_packets))
        .chain(pairs().flat_map(other_roots))
}

/// What may be written of the number, from this place on in turn: now and then nothing, else a number
/// of the list.
pub(super) fn written(first: usize) -> impl Iterator<Item = Option<u32>> {
    (first..).map(|place| (!place.is_multiple_of(8)).then(|| in_place(place)))
}

fn numbers() -> impl Iterator<Item = u32> + Clone {
    EDGES.into_iter().chain([ORDERED, TURNED])
}

/// The number of a session, and another one.
fn pairs() -> impl Iterator<Item = (u32, u32)> {
    let both = numbers().flat_map(|one| numbers().map(move |other| (one, other)));
    both.filter(|(one, other)| one != other)
}

/// Three parties without a sender, with a good one, and with a bad one.
const BESIDE: [fn() -> Draft; 3] = [|| of_three(3), small_good, small_bad];

/// Every number with and without a root, with and without a bit, and beside each kind of sender.
fn options() -> impl Iterator<Item = Made> {
    let given = |session| {
        [(false, false), (false, true), (true, false), (true, true)]
            .into_iter()
            .flat_map(move |given| BESIDE.map(|plan| (session, given, plan)))
    };
    numbers()
        .flat_map(given)
        .map(|(session, (root, bit), plan)| {
            let mut draft = plan();
            draft.session = Some(session);
            draft.root = root.then(|| draft.sharing(b"A").root);
            draft.bit = bit.then_some(1);
            draft.made(Size::Small, vec![])
        })
}

/// The first of three parties hands out the packets of another session, which fail the check; the
/// third needs one, and has the second's.
fn other_packets((session, other): (u32, u32)) -> Made {
    let mut draft = of_three(1);
    draft.session = Some(session);
    let sharing = Sharing::of(other, 3, 1, b"A");
    for (exchange, number) in [(0, 3), (1, 1)] {
        let block = &mut draft.exchanges[exchange][0];
        block.packets.insert(3, sharing.packet(number));
    }
    draft.lies.insert(Lie::OtherSession);
    draft.made(Size::Small, vec![])
}

/// The agreed root is that of a good party's message in another session: nobody is happy, and where
/// all have the message it is against the rule.
fn other_roots((session, other): (u32, u32)) -> [Made; 2] {
    [vec![], vec![Damage::RootAgainst]].map(|damages| {
        let mut draft = of_three(3);
        draft.session = Some(session);
        draft.root = Some(Sharing::of(other, 3, 1, b"A").root);
        draft.divided = false;
        if !damages.is_empty() {
            draft.equalize();
        }
        draft.made(Size::Small, damages)
    })
}

/// The first of three parties alone has the message of the root, which counts under no number but the
/// plan's: if a bit of that is turned, both end with nothing.
pub(super) fn small() -> Draft {
    let mut draft = of_three(3);
    draft.session = Some(ORDERED);
    draft.root = Some(draft.sharing(b"A").root);
    draft
}

#[cfg(test)]
mod tests {
    use super::*;
    use crate::rehearsal::{play, rehearse, Session};
    use crate::tally::outcome;
    use std::collections::BTreeSet;

    fn played(made: &Made) -> Session {
        play(&made.bytes).expect("a sound plan")
    }

    /// Every number with each choice of the other options is accepted.
    #[test]
    fn numbers_stand_beside_all_options() {
        let mut seen = BTreeSet::new();
        for made in options() {
            let session = played(&made);
            let plan = &session.plan;
            assert_eq!(made.bytes[2] & 8, 8);
            assert_eq!(
                session.root,
                Sharing::of(plan.session_number(), 3, 1, b"A").root
            );
            assert!(session.results.iter().all(|it| it.as_deref() == Some(b"A")));
            let sender = plan
                .sender
                .as_ref()
                .map(|it| plan.good.contains(&it.number));
            seen.insert((plan.session, plan.root.is_some(), plan.bit, sender));
        }
        assert_eq!(seen.len(), 7 * 2 * 2 * 3);
    }

    /// The third party takes the second's share, and gathers that and its own.
    #[test]
    fn packets_of_another_session_are_left() {
        assert_eq!(pairs().count(), 42);
        for made in pairs().map(other_packets) {
            let takings = played(&made).takings.expect("bit 1");
            assert_eq!(takings.sources[1], Some(2));
            let gathered = takings.gathered[1].as_ref().expect("unhappy");
            assert!(gathered[0].is_empty() && !gathered[1].is_empty());
        }
    }

    #[test]
    fn roots_of_another_session_are_nobodys() {
        for [differing, alike] in pairs().map(other_roots) {
            assert_eq!(outcome(&rehearse(&differing.bytes)), "nothing");
            assert_eq!(rehearse(&alike.bytes), b"refused 14\n");
        }
    }

    #[test]
    fn a_turned_number_ends_with_nothing() {
        let bytes = small().bytes();
        assert_eq!(rehearse(&bytes), b"1 = 41\n2 = 41\nsent 388\n");
        let at = 3 + 32;
        assert_eq!(bytes[at..at + 4], ORDERED.to_be_bytes());
        for bit in 0..32 {
            let mut bytes = bytes.clone();
            bytes[at + bit / 8] ^= 1 << (bit % 8);
            assert_eq!(rehearse(&bytes), b"1 -\n2 -\nsent 0\n");
        }
    }
}
