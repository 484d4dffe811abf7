//! The plans that are stored and run by the tests: random ones, and beside them those that
//! chance may leave out, made one by one.

mod senders;
mod sessions;

use std::collections::BTreeSet;

use self::sessions::written;
use super::{plan, Block, Damage, Draft, Made, Size, Source};
use crate::liars::{flip, Lie, Scene, Sharing, Way};
use crate::limits::{INSIDE, LONGEST_MESSAGE, LONGEST_PLAN, MOST_PARTIES};
use crate::random::Random;

/// The plans that a person can run.
const KEPT: [&[u8]; 10] = [
    include_bytes!("../../../plans/worked-1.plan"),
    include_bytes!("../../../plans/worked-2.plan"),
    include_bytes!("../../../plans/worked-3.plan"),
    include_bytes!("../../../plans/liar.plan"),
    include_bytes!("../../../plans/longest.plan"),
    include_bytes!("../../../plans/alone.plan"),
    include_bytes!("../../../plans/sender.plan"),
    include_bytes!("../../../plans/two-books.plan"),
    include_bytes!("../../../plans/silent-sender.plan"),
    include_bytes!("../../../plans/sitting.plan"),
];

/// So many random plans from this number on; without a count, the stored plans.
pub fn chosen(count: Option<u64>, first: u64) -> Box<dyn Iterator<Item = Made>> {
    match count {
        Some(count) => Box::new((first..first + count).map(plan)),
        None => Box::new(stored()),
    }
}

pub fn stored() -> impl Iterator<Item = Made> {
    let mut lies = lies().cycle();
    random()
        .chain(groups().zip(written(0)).map(all_good))
        .chain(groups().zip(written(1)).map(move |it| liars(it, &mut lies)))
        .chain(KEPT.map(|bytes| laid_out(bytes.to_vec(), vec![])))
        .chain(longest())
        .chain(lengths())
        .chain(no_codewords())
        .chain(senders::stored())
        .chain(sessions::stored())
        .chain(small().map(|bytes| laid_out(bytes, vec![])))
        .chain(small().into_iter().flat_map(damaged))
}

/// Plans much longer than one long message would make the file large, so most of them are left out.
fn random() -> impl Iterator<Item = Made> {
    (1..)
        .map(|k| (k, plan(k)))
        .filter(|(k, made)| k % 20 == 0 || made.bytes.len() <= LONGEST_MESSAGE + 2_000)
        .map(|(_, made)| made)
        .take(2_000)
}

/// Every n with every t.
fn groups() -> impl Iterator<Item = (usize, usize)> {
    (1..=MOST_PARTIES).flat_map(|n| (0..n.div_ceil(2)).map(move |t| (n, t)))
}

/// n and t, and what is written of the session's number.
type Group = ((usize, usize), Option<u32>);

/// Nobody is bad. The lowest party has the longest message, the others have the empty one.
fn all_good(((n, t), session): Group) -> Made {
    let mut draft = Draft::of(n, t, 0);
    draft.session = session;
    draft.messages = vec![Vec::new(); n];
    draft.messages[0] = seeded(n, t).bytes(LONGEST_MESSAGE);
    draft.divided = n > 1;
    draft.made(Size::Small, vec![])
}

fn seeded(n: usize, t: usize) -> Random {
    Random::new((MOST_PARTIES * n + t) as u64)
}

/// Every lie that is a packet.
fn lies() -> impl Iterator<Item = Lie> + Clone {
    let packets = |lie: &Lie| ![Lie::Honest, Lie::Unnamed].contains(lie);
    let small = Lie::SMALL.into_iter().filter(packets);
    small.chain([Lie::Huge])
}

/// As many are bad as may be, with the lowest numbers, so that their packets are looked at
/// first. Root and bit are given, and of the good parties only the lowest is happy.
fn liars(((n, t), session): Group, lies: &mut impl Iterator<Item = Lie>) -> Made {
    let mut random = seeded(n, t);
    let mut draft = Draft::of(n, t, (1 << t) - 1);
    draft.session = session;
    let one = random.bytes(n);
    let mut other = one.clone();
    flip(&mut other, &mut random);
    let scene = Scene {
        agreed: draft.sharing(&one),
        other: draft.sharing(&other),
    };
    draft.messages = vec![other; n - t];
    draft.messages[0] = one;
    draft.root = Some(scene.agreed.root);
    draft.bit = Some(1);
    draft.divided = n > 1;
    draft.lie_in_turn(&scene, lies, &mut random);
    draft.made(Size::Small, vec![])
}

impl Draft {
    /// Every bad party tells the next one of these lies, in the first exchange and in the second.
    fn lie_in_turn(
        &mut self,
        scene: &Scene,
        lies: &mut impl Iterator<Item = Lie>,
        random: &mut Random,
    ) {
        let count = self.bad.len();
        let places = (0..2 * count).map(|it| (it / count, it % count));
        for (place, lie) in places.zip(lies) {
            self.two_faced(scene, place, lie, random);
        }
    }

    /// The bad party in this place is honest to one good party, and lies to the next, who is
    /// unhappy. There are more good parties than bad ones.
    fn two_faced(
        &mut self,
        scene: &Scene,
        (exchange, place): (usize, usize),
        lie: Lie,
        random: &mut Random,
    ) {
        let mut block = Block::default();
        let receivers = self.good.iter().skip(place);
        for (&receiver, lie) in receivers.zip([Lie::Honest, lie]) {
            let way = Way::new(exchange, self.bad[place], receiver);
            let packet = scene.told(lie, way, random).expect("a packet");
            block.packets.insert(receiver, packet);
            self.lies.insert(lie);
        }
        self.exchanges[exchange].push(block);
    }
}

/// A plan whose bytes alone are known.
fn laid_out(bytes: Vec<u8>, damages: Vec<Damage>) -> Made {
    Made {
        bytes,
        size: Size::Small,
        damages,
        lies: BTreeSet::new(),
        sender_lies: BTreeSet::new(),
        divided: false,
    }
}

/// Three parties; this one is bad and silent, and the others differ.
fn of_three(bad: usize) -> Draft {
    let mut draft = Draft::of(3, 1, 1 << (bad - 1));
    draft.messages = vec![b"A".to_vec(), b"B".to_vec()];
    draft.exchanges = [(); 2].map(|()| vec![Block::default()]);
    draft.divided = true;
    draft
}

/// A plan as long as may be.
fn brim() -> Draft {
    let mut brim = of_three(1);
    brim.stretch(LONGEST_PLAN);
    brim
}

/// It, and that plan with a byte more: a program that reads a byte less than it has to takes both
/// for the same.
pub fn edge() -> [Vec<u8>; 2] {
    let plan = brim().bytes();
    let over = [&plan[..], &[0]].concat();
    [plan, over]
}

/// Plans that are handed to a program in parts: those that a person can run, and the longest.
pub fn parted() -> impl Iterator<Item = Vec<u8>> {
    KEPT.into_iter().map(<[u8]>::to_vec).chain(edge())
}

/// A plan as long as may be, and plans that are one byte longer: causes 1 and 2 come before
/// that, the others after it.
fn longest() -> [Made; 6] {
    let over = |damages: &[Damage], change: fn(&mut Draft)| {
        let mut draft = of_three(1);
        change(&mut draft);
        draft.stretch(LONGEST_PLAN + 1);
        draft.made(Size::Small, [&[Damage::Oversize], damages].concat())
    };
    [
        brim().made(Size::Brim, vec![]),
        over(&[], |_| {}),
        over(&[Damage::Parties], |draft| {
            draft.head[0] = MOST_PARTIES as u8 + 1
        }),
        over(&[Damage::Faults], |draft| draft.head[1] = 2),
        over(&[Damage::NoSender], |draft| {
            draft.source = Some(Source::new(0))
        }),
        over(&[Damage::LongMessage, Damage::BitAbove], |draft| {
            draft.messages[0].resize(LONGEST_MESSAGE + 1, 0x42);
            draft.bit = Some(2);
        }),
    ]
}

/// Messages of lengths at the edges, which the lowest party has, or the other one alone.
fn lengths() -> impl Iterator<Item = Made> {
    let most = LONGEST_MESSAGE;
    let lengths = INSIDE.into_iter().chain([most - 1, most, most + 1]);
    lengths.flat_map(move |length| {
        let damages = match length > most {
            true => vec![Damage::LongMessage],
            false => vec![],
        };
        [0, 1].map(|place| {
            let mut draft = of_three(1 + 2 * place);
            draft.messages[place] = Random::new(length as u64).bytes(length);
            draft.made(Size::Small, damages.clone())
        })
    })
}

/// The agreed root is that over shares that no message has, though any b of them give one. The bad
/// parties hand them out, and relay theirs to some good ones only, who would rebuild other messages
/// than the rest. Nobody is happy, so that by the rule the bit is 0, and bit 1 is refused.
fn no_codewords() -> impl Iterator<Item = Made> {
    let groups = [(3, 1), (4, 1), (5, 2), (7, 3), (9, 4)];
    groups.into_iter().flat_map(|(n, t)| {
        [
            (None, vec![]),
            (Some(0), vec![]),
            (Some(1), vec![Damage::BitAgainst]),
        ]
        .map(|(bit, damages)| no_codeword((n, t), bit).made(Size::Small, damages))
    })
}

fn no_codeword((n, t): (usize, usize), bit: Option<u8>) -> Draft {
    let mut random = seeded(n, t);
    let sharing = Sharing::no_codeword(0, n, t, &mut random);
    let mut draft = Draft::of(n, t, (1 << t) - 1);
    draft.messages = (0..n - t).map(|_| random.bytes(5)).collect();
    draft.root = Some(sharing.root);
    draft.bit = bit;
    for (place, &sender) in draft.bad.iter().enumerate() {
        let mut blocks = [Block::default(), Block::default()];
        for &receiver in &draft.good {
            blocks[0].packets.insert(receiver, sharing.packet(receiver));
        }
        for &receiver in draft.good.iter().skip(1 + place) {
            blocks[1].packets.insert(receiver, sharing.packet(sender));
        }
        for (exchange, block) in draft.exchanges.iter_mut().zip(blocks) {
            exchange.push(block);
        }
    }
    draft
}

/// The sound plans that are damaged in every way: the first worked one, one with root and bit,
/// one whose bad party sends the packets that a good one would send, one with a good sender, one with
/// a bad sender that gives two messages, and one with a session's number.
fn small() -> [Vec<u8>; 6] {
    let agreed = Sharing::of(0, 3, 1, b"A");
    let mut given = of_three(3);
    given.root = Some(agreed.root);
    given.bit = Some(1);
    let mut sending = of_three(1);
    for (exchange, number) in [(0, 3), (1, 1)] {
        let block = &mut sending.exchanges[exchange][0];
        block.packets.insert(3, agreed.packet(number));
    }
    [
        KEPT[0].to_vec(),
        given.bytes(),
        sending.bytes(),
        senders::small_good().bytes(),
        senders::small_bad().bytes(),
        sessions::small().bytes(),
    ]
}

/// The plan cut short at every offset, with a byte more, and with every bit turned.
fn damaged(plan: Vec<u8>) -> Vec<Made> {
    let cut = |length| laid_out(plan[..length].to_vec(), vec![Damage::Cut]);
    let turned = |place: usize| {
        let mut bytes = plan.clone();
        bytes[place / 8] ^= 1 << (place % 8);
        laid_out(bytes, vec![Damage::Flip])
    };
    let over = laid_out([&plan[..], &[0]].concat(), vec![Damage::Over]);
    (0..plan.len())
        .map(cut)
        .chain([over])
        .chain((0..8 * plan.len()).map(turned))
        .collect()
}

#[cfg(test)]
mod tests {
    use super::*;
    use crate::liars::senders::SenderLie;
    use crate::rehearsal::{play, rehearse, Session};
    use crate::rehearsal::{BIT_GIVEN, ROOT_GIVEN, SENDER_GIVEN, SESSION_GIVEN};
    use crate::sessions::EDGES;
    use crate::tally::{outcome, Tally};
    use std::collections::BTreeMap;

    /// What is counted here is what is run: the stored plans, no others.
    #[test]
    fn everything_is_stored_amply() {
        let mut tally = Tally::default();
        for made in stored() {
            tally.count(&made, &rehearse(&made.bytes));
        }
        let seen = |outcome: &str| tally.outcomes.get(outcome).copied().unwrap_or(0);
        assert!(seen("message") >= 1_000 && seen("nothing") >= 200);
        for cause in [1, 2, 3, 4, 13, 14] {
            assert!(seen(&format!("refused {cause}")) >= 30, "cause {cause}");
        }
        assert_eq!(tally.outcomes.len(), 8);
        for lie in Lie::SMALL {
            assert!(tally.lies[&format!("{lie:?}")][1] >= 40, "{lie:?}");
        }
        assert!(tally.lies["Huge"][1] >= 10);
        for lie in SenderLie::SMALL.into_iter().chain(SenderLie::LARGE) {
            assert!(tally.sender_lies[&format!("{lie:?}")][1] >= 8, "{lie:?}");
        }
        let damages = Damage::ALL.map(|damage| format!("{damage:?}"));
        let others = ["Small", "Large", "Brim", "two damages"].map(String::from);
        for kind in damages.iter().chain(&others) {
            let long = ["Oversize", "Brim"].contains(&kind.as_str());
            let count: usize = tally.kinds[kind].values().sum();
            assert!(count >= if long { 1 } else { 10 }, "{kind}");
        }
    }

    /// The stored plans that are accepted, played.
    fn played() -> impl Iterator<Item = (Made, Session)> {
        stored().filter_map(|made| play(&made.bytes).ok().map(|session| (made, session)))
    }

    /// Every n and t is accepted with nobody bad, and with t bad parties of which some send
    /// what a good one would not.
    #[test]
    fn every_group_is_accepted() {
        let mut seen = BTreeSet::new();
        for (made, session) in played() {
            let plan = session.plan;
            let lied = lies().any(|lie| made.lies.contains(&lie));
            seen.insert((plan.n, plan.t, plan.n - plan.good.len(), lied));
        }
        for (n, t) in groups() {
            assert!(seen.contains(&(n, t, 0, false)), "n {n}, t {t}");
            assert!(seen.contains(&(n, t, t, t > 0)), "n {n}, t {t}");
        }
        assert_eq!(groups().count(), 72);
    }

    /// Root and bit given and not, messages equal and not, the empty one and the longest.
    #[test]
    fn every_field_is_accepted() {
        let (mut given, mut lengths, mut equal) = (BTreeSet::new(), BTreeSet::new(), [0; 2]);
        for (_, session) in played() {
            let plan = session.plan;
            given.insert((plan.root.is_some(), plan.bit));
            lengths.extend(session.results.into_iter().flatten().map(|it| it.len()));
            let alike = session.messages.windows(2).all(|pair| pair[0] == pair[1]);
            equal[usize::from(alike)] += 1;
        }
        assert_eq!(given.len(), 6);
        let edges = [0, LONGEST_MESSAGE - 1, LONGEST_MESSAGE];
        assert!(edges.iter().chain(&INSIDE).all(|it| lengths.contains(it)));
        assert!(equal.iter().all(|count| *count >= 100));
    }

    /// Every edge among the numbers, 0 too, and many others; and one that is not 0 for every n and t.
    #[test]
    fn every_session_is_accepted_amply() {
        let (mut numbers, mut groups) = (BTreeMap::new(), BTreeSet::new());
        for (_, session) in played() {
            let plan = session.plan;
            *numbers.entry(plan.session).or_insert(0) += 1;
            if plan.session_number() > 0 {
                groups.insert((plan.n, plan.t));
            }
        }
        for number in EDGES {
            assert!(numbers[&Some(number)] >= 60, "number {number}");
        }
        assert!(numbers[&None] >= 1_000 && numbers.len() > 200);
        assert_eq!(groups.len(), 72);
    }

    #[test]
    fn longest_plans_are_stored() {
        let mut seen = BTreeSet::new();
        for made in stored().filter(|made| made.bytes.len() >= LONGEST_PLAN) {
            let output = outcome(&rehearse(&made.bytes)).to_string();
            seen.insert((made.bytes.len() - LONGEST_PLAN, output));
        }
        let of = |over: usize, text: &str| (over, text.to_string());
        assert!(seen.contains(&of(0, "message")));
        for text in ["refused 1", "refused 2", "refused 13"] {
            assert!(seen.contains(&of(1, text)), "{text}");
        }
    }

    /// A byte more than the longest message has cause 4, and no shorter one.
    #[test]
    fn lengths_at_the_edges_are_stored() {
        let refused = |made: &Made| rehearse(&made.bytes) == b"refused 4\n";
        let (over, within): (Vec<Made>, Vec<Made>) = lengths().partition(refused);
        assert_eq!((over.len(), within.len()), (2, 8));
        assert!(over.iter().all(|it| it.damages == [Damage::LongMessage]));
        assert!(within.iter().all(|it| play(&it.bytes).is_ok()));
    }

    #[test]
    fn no_message_is_taken_from_shares_that_none_has() {
        for made in no_codewords() {
            let output = rehearse(&made.bytes);
            match made.damages.is_empty() {
                true => assert_eq!(outcome(&output), "nothing"),
                false => assert_eq!(output, b"refused 14\n"),
            }
        }
        assert_eq!(no_codewords().count(), 15);
    }

    #[test]
    fn a_byte_more_than_the_longest_is_refused() {
        let [plan, over] = edge();
        assert_eq!((plan.len(), over.len()), (LONGEST_PLAN, LONGEST_PLAN + 1));
        assert_eq!(over[..plan.len()], plan);
        assert!(play(&plan).is_ok());
        assert_eq!(rehearse(&over), b"refused 13\n");
    }

    /// The small plans are sound, and the third one has packets in both exchanges.
    #[test]
    fn kept_and_damaged_plans_are_stored() {
        let stored: BTreeSet<Vec<u8>> = stored().map(|made| made.bytes).collect();
        assert!(KEPT.iter().all(|plan| stored.contains(*plan)));
        let (agreed, numbered) = (ROOT_GIVEN | BIT_GIVEN, ROOT_GIVEN | SESSION_GIVEN);
        let options = [0, agreed, 0, SENDER_GIVEN, SENDER_GIVEN, numbered];
        for (plan, options) in small().iter().zip(options) {
            assert!(stored.contains(plan) && play(plan).is_ok() && plan[2] == options);
            assert!((0..plan.len()).all(|length| stored.contains(&plan[..length])));
            assert!(stored.contains(&[&plan[..], &[0]].concat()));
            for place in 0..8 * plan.len() {
                let mut bytes = plan.clone();
                bytes[place / 8] ^= 1 << (place % 8);
                assert!(stored.contains(&bytes), "bit {place}");
            }
        }
        let sending = play(&small()[2]).expect("a sound plan").plan;
        assert!(sending.first[0][2].is_some() && sending.second[0][2].is_some());
    }
}
