//! The stored plans that name a sender.

use super::sessions::written;
use super::{groups, lies, of_three, seeded, Group};
use crate::liars::senders::{Offer, SenderLie};
use crate::liars::{Lie, Scene};
use crate::limits::{LONGEST_MESSAGE, LONGEST_PLAN, MOST_PARTIES};
use crate::message_packet::write;
use crate::plans::{Block, Damage, Draft, Made, Size, Source};
use crate::random::Random;
use crate::rehearsal::SENDER_GIVEN;

pub(super) fn stored() -> impl Iterator<Item = Made> {
    let [mut first, mut second] = [(); 2].map(|()| lies().cycle());
    let mut own = sender_lies().skip(1).cycle();
    groups()
        .zip(written(0))
        .map(move |group| good(group, &mut first))
        .chain(
            groups()
                .zip(written(3))
                .map(move |group| bad(group, &mut own, &mut second)),
        )
        .chain(each_lie())
        .chain(alone())
        .chain(numbers())
        .chain([huge()])
        .chain(pairs(small_good))
        .chain(pairs(small_bad))
}

/// Every lie of a sender, the truth first.
fn sender_lies() -> impl Iterator<Item = SenderLie> + Clone {
    SenderLie::SMALL.into_iter().chain(SenderLie::LARGE)
}

/// Two messages of different lengths for a plan.
fn offer(draft: &Draft, random: &mut Random) -> Offer {
    let [one, other] = [draft.n, draft.n + 3].map(|length| random.bytes(length));
    Offer {
        shares: draft.sharing(&one),
        one,
        other,
    }
}

fn scene(draft: &Draft, offer: &Offer) -> Scene {
    let [agreed, other] = [&offer.one, &offer.other].map(|message| draft.sharing(message));
    Scene { agreed, other }
}

/// A good party sends. As many are bad as may be, with the lowest numbers, and lie in the exchanges.
fn good(((n, t), session): Group, lies: &mut impl Iterator<Item = Lie>) -> Made {
    let mut random = seeded(n, t);
    let mut draft = Draft::of(n, t, (1 << t) - 1);
    draft.session = session;
    draft.source = Some(Source::new(t + 1 + random.below(n - t)));
    let offer = offer(&draft, &mut random);
    draft.messages = vec![offer.one.clone(); n - t];
    draft.lie_in_turn(&scene(&draft, &offer), lies, &mut random);
    draft.made(Size::Small, vec![])
}

/// A bad party sends, honest to one good party and lying to the next; those of the lowest numbers are
/// bad, and lie in the exchanges too. The root is that of the honest packet, and the bit is 1. With t 0
/// that is one bad party too many.
fn bad(
    ((n, t), session): Group,
    own: &mut impl Iterator<Item = SenderLie>,
    lies: &mut impl Iterator<Item = Lie>,
) -> Made {
    let mut random = seeded(n, t);
    let count = t.max(1);
    let mut draft = Draft::of(n, t, (1 << count) - 1);
    draft.session = session;
    draft.source = Some(Source::new(1 + random.below(count)));
    let offer = offer(&draft, &mut random);
    let lie = own.next().expect("they go round");
    for (place, receiver) in draft.good.clone().into_iter().enumerate() {
        let lie = [SenderLie::Honest, lie][place % 2];
        draft.hand(&offer, lie, receiver, &mut random);
    }
    draft.root = Some(offer.shares.root);
    draft.bit = Some(1);
    draft.divided = t > 0;
    draft.lie_in_turn(&scene(&draft, &offer), lies, &mut random);
    let damages = match t {
        0 => vec![Damage::TooMany],
        _ => vec![],
    };
    draft.made(Size::Small, damages)
}

/// Every lie, from the lowest party and from the highest, to all, to all but the first who is told the
/// truth, and to the first alone.
fn each_lie() -> impl Iterator<Item = Made> {
    let places = |lie| {
        [1, 4]
            .into_iter()
            .flat_map(move |it| [(it, lie, 0), (it, lie, 1), (it, lie, 2)])
    };
    sender_lies().flat_map(places).map(|(number, lie, way)| {
        let mut random = seeded(number, lie as usize);
        let mut draft = Draft::of(4, 1, 1 << (number - 1));
        draft.source = Some(Source::new(number));
        draft.exchanges = [(); 2].map(|()| vec![Block::default()]);
        let offer = offer(&draft, &mut random);
        for (place, receiver) in draft.good.clone().into_iter().enumerate() {
            let lies = [true, place > 0, place == 0][way];
            let told = if lies { lie } else { SenderLie::Honest };
            draft.hand(&offer, told, receiver, &mut random);
        }
        draft.divided = way > 0 && lie != SenderLie::Honest;
        draft.made(Size::Small, vec![])
    })
}

/// The sender sits alone.
fn alone() -> impl Iterator<Item = Made> {
    let lengths = [0, 1, 2, LONGEST_MESSAGE];
    lengths.into_iter().map(|length| {
        let mut draft = Draft::of(1, 0, 0);
        draft.source = Some(Source::new(1));
        draft.messages = vec![Random::new(length as u64).bytes(length)];
        draft.made(Size::Small, vec![])
    })
}

/// Numbers that no party has, with packets and without.
fn numbers() -> impl Iterator<Item = Made> {
    let groups = [(1, 0), (2, 0), (3, 1), (15, 7), (MOST_PARTIES, 7)];
    let named = |(n, t)| [0, n + 1, n + 2, 128, 255].map(|number| (n, t, number));
    groups
        .into_iter()
        .flat_map(named)
        .flat_map(|(n, t, number)| {
            [false, true].map(|sends| {
                let mut draft = Draft::of(n, t, 0);
                let mut source = Source::new(number);
                if sends {
                    source.block.packets.insert(1, write(b"A"));
                }
                draft.source = Some(source);
                draft.made(Size::Small, vec![Damage::NoSender])
            })
        })
}

/// A plan as long as may be, for a packet that the sender hands to one party, in the greatest session.
fn huge() -> Made {
    let mut draft = small_bad();
    draft.session = Some(u32::MAX);
    let rest = draft.bytes().len() - write(b"B").len();
    let source = draft.bad_sender_mut().expect("a bad one");
    source.block.packets.insert(2, vec![8; LONGEST_PLAN - rest]);
    draft.messages[1] = Vec::new();
    draft.made(Size::Brim, vec![])
}

/// Of three parties the first sends, and the third is bad and silent.
pub(super) fn small_good() -> Draft {
    let mut draft = of_three(3);
    draft.source = Some(Source::new(1));
    draft.messages = vec![b"A".to_vec(); 2];
    draft.divided = false;
    draft
}

/// The third sends two messages to the others.
pub(super) fn small_bad() -> Draft {
    let mut draft = of_three(3);
    let mut source = Source::new(3);
    source.block.packets.insert(1, write(b"A"));
    source.block.packets.insert(2, write(b"B"));
    draft.source = Some(source);
    draft
}

/// A cause, the damage that it is for, and how a small plan gets it.
type Wrong = (u32, Damage, fn(&mut Draft));

/// In the order in which a plan is judged.
const WRONGS: [Wrong; 13] = [
    (1, Damage::Parties, |draft| draft.head[0] = 0),
    (1, Damage::Parties, |draft| {
        draft.head[0] = MOST_PARTIES as u8 + 1
    }),
    (2, Damage::Faults, |draft| draft.head[1] = 2),
    (13, Damage::Options, |draft| draft.turned_options = 16),
    (13, Damage::Options, |draft| {
        draft.turned_options = SENDER_GIVEN
    }),
    (13, Damage::Receiver, |draft| {
        draft.exchanges[1][0].strays.insert(3);
    }),
    (3, Damage::NoSender, |draft| name(draft, 0)),
    (3, Damage::NoSender, |draft| name(draft, 4)),
    (4, Damage::LongMessage, |draft| {
        draft.messages[0].resize(LONGEST_MESSAGE + 1, 0x42)
    }),
    (14, Damage::TooMany, |draft| {
        draft.good.remove(&2);
        for exchange in &mut draft.exchanges {
            exchange.push(Block::default());
        }
        if let Some(source) = &mut draft.source {
            source.block.packets.remove(&2);
        }
    }),
    (14, Damage::BitAbove, |draft| draft.bit = Some(2)),
    (14, Damage::RootAgainst, |draft| {
        draft.equalize();
        draft.root = Some([9; 32]);
    }),
    (14, Damage::BitAgainst, |draft| {
        draft.equalize();
        draft.bit = Some(0);
    }),
];

fn name(draft: &mut Draft, number: usize) {
    draft.source.as_mut().expect("a sender").number = number;
}

/// Every two of them for this plan, as far as they can meet: a message that is too long stands in a
/// plan only if its sender is good.
fn pairs(plan: fn() -> Draft) -> impl Iterator<Item = Made> {
    let meet = move |causes: [u32; 2]| {
        let listed = plan().place_of_sender().is_some();
        causes[0] != causes[1] && causes != [3, 4] && (listed || !causes.contains(&4))
    };
    let places = (0..WRONGS.len()).flat_map(|one| (one + 1..WRONGS.len()).map(move |it| (one, it)));
    let pairs = places.map(|(one, other)| [WRONGS[one], WRONGS[other]]);
    let pairs = pairs.filter(move |pair| meet(pair.map(|it| it.0)));
    pairs.map(move |pair| {
        let mut draft = plan();
        // The later first: where it changes who is good, or what all open with, the other stands.
        for (_, _, wrong) in pair.iter().rev() {
            wrong(&mut draft);
        }
        draft.made(Size::Small, pair.map(|it| it.1).to_vec())
    })
}

#[cfg(test)]
mod tests {
    use super::*;
    use crate::coder::share_length;
    use crate::rehearsal::{play, rehearse};
    use crate::tree::path_length;
    use std::collections::BTreeSet;

    fn refused(cause: u32) -> Vec<u8> {
        format!("refused {cause}\n").into_bytes()
    }

    /// Every n and t, and with each t over 0 a bad sender too.
    #[test]
    fn every_group_has_a_sender() {
        let mut seen = BTreeSet::new();
        for made in stored().filter(|made| made.damages.is_empty()) {
            let session = play(&made.bytes).expect("a sound plan");
            let plan = session.plan;
            let sender = plan.sender.expect("a sender").number;
            seen.insert((plan.n, plan.t, plan.good.contains(&sender)));
        }
        for (n, t) in groups() {
            assert!(seen.contains(&(n, t, true)), "n {n}, t {t}");
            assert_eq!(seen.contains(&(n, t, false)), t > 0, "n {n}, t {t}");
        }
    }

    /// A good sender's message is every good party's result.
    #[test]
    fn a_good_senders_message_is_settled() {
        let mut lies = lies().cycle();
        for group in groups().zip(written(0)) {
            let session = play(&good(group, &mut lies).bytes).expect("a sound plan");
            let number = session.plan.sender.expect("a sender").number;
            let message = &session.plan.messages[&number];
            assert!(session
                .results
                .iter()
                .all(|it| it.as_ref() == Some(message)));
        }
    }

    /// Whoever sends, all good parties end alike. What they send is within the bound of a session
    /// without a sender and, from a good sender, its packet to each other party; and where they end
    /// with nothing they send nothing.
    #[test]
    fn all_end_alike_within_the_bound() {
        for session in stored().filter_map(|made| play(&made.bytes).ok()) {
            let (plan, sent) = (&session.plan, session.bytes_sent().iter().sum::<usize>());
            let (good, others) = (plan.good.len(), plan.n - 1);
            assert!(session.results.windows(2).all(|it| it[0] == it[1]));
            let most = session.results[0].as_ref().map_or(0, |message| {
                let s = share_length(plan.n - plan.t, message.len());
                let packets = 2 * good * others * (4 + s + 32 * path_length(plan.n, 1));
                let number = plan.sender.as_ref().expect("a sender").number;
                let whole = others * (3 + message.len());
                packets
                    + if plan.good.contains(&number) {
                        whole
                    } else {
                        0
                    }
            });
            assert!(sent <= most, "n {}, t {}", plan.n, plan.t);
        }
    }

    #[test]
    fn lies_are_told_as_they_are_counted() {
        let made: Vec<Made> = each_lie().collect();
        assert_eq!(made.len(), 15 * 6);
        for made in made {
            let session = play(&made.bytes).expect("a sound plan");
            let alike = session.bits.windows(2).all(|pair| pair[0] == pair[1]);
            assert_eq!(alike, !made.divided);
        }
        assert!(alone().all(|made| play(&made.bytes).is_ok()));
    }

    #[test]
    fn numbers_of_no_party_are_refused() {
        assert_eq!(numbers().count(), 50);
        assert!(numbers().all(|made| rehearse(&made.bytes) == refused(3)));
        assert_eq!(huge().bytes.len(), LONGEST_PLAN);
        assert!(rehearse(&huge().bytes).starts_with(b"1 = 41\n2 = 41\nsent "));
    }

    /// Each is refused alone, and of two the one that is judged first.
    #[test]
    fn the_first_of_two_causes_is_told() {
        for plan in [small_good, small_bad] {
            let listed = plan().place_of_sender().is_some();
            assert!(play(&plan().bytes()).is_ok());
            for (cause, damage, wrong) in WRONGS.iter().filter(|it| listed || it.0 != 4) {
                let mut draft = plan();
                wrong(&mut draft);
                assert_eq!(rehearse(&draft.bytes()), refused(*cause), "{damage:?}");
            }
            for made in pairs(plan) {
                let first = WRONGS.iter().find(|it| it.1 == made.damages[0]);
                let cause = first.expect("a damage of the list").0;
                assert_eq!(rehearse(&made.bytes), refused(cause), "{:?}", made.damages);
            }
        }
        assert_eq!(
            (pairs(small_good).count(), pairs(small_bad).count()),
            (65, 55)
        );
    }
}
