//! Tests of the map of the parties seen to cheat.

use super::tests::{cause, short, wrote, LENT};
use super::*;
use crate::liars::{Lie, Scene, Sharing, Way};
use crate::random::Random;
use crate::sessions::EDGES;

/// The group, and the number of the party that looks.
const N: usize = 4;
const T: usize = 1;
const OWN: usize = 2;

/// What the party has under the root of "AB": it is happy, or it is not.
const MESSAGES: [&[u8]; 2] = [b"AB", b"no"];

/// All that lawfully stand in its map.
const OTHERS: u32 = 0b1101;

fn agreed(session: u32) -> Sharing {
    Sharing::of(session, N, T, b"AB")
}

/// A party before its first inbox.
fn before_first(session: u32, own: usize, message: &[u8]) -> State {
    let (state, _) = State::open(session, N as u64, T as u64, own as u64, message);
    let (state, happy) = state.agree_root(&agreed(session).root);
    assert_eq!(happy, Ok(message == b"AB"));
    wrote(|out| state.agree_bit(1, out)).0
}

/// An inbox in which the senders in a map have these bytes, and the others none.
fn from(map: u32, bytes: &[u8]) -> Vec<u8> {
    let packets = (0..N).map(|place| match map >> place & 1 {
        1 => bytes,
        _ => &[],
    });
    lay_out(&packets.collect::<Vec<_>>())
}

/// The map in the state after the first inbox, and that in the end: the result is given with it, the
/// state has it, and gives it again.
fn maps(state: State, first: &[u8], second: &[u8]) -> [u32; 2] {
    let (state, _) = wrote(|out| state.take_shares(first, out));
    let seen = state.faulty;
    let mut out = [LENT; 2];
    let (ended, answer) = state.take_relays(second, &mut out);
    let ending = answer.expect("accepted");
    assert_eq!(ended.faulty, ending.faulty);
    let again = ended.clone().take_relays(&[9], &mut out);
    assert_eq!(again, (ended, Ok(ending)));
    [seen, ending.faulty]
}

/// The maps of the party with each message, which are the same.
fn seen(first: &[u8], second: &[u8]) -> [u32; 2] {
    let [happy, not] = MESSAGES.map(|it| maps(before_first(0, OWN, it), first, second));
    assert_eq!(happy, not);
    happy
}

#[test]
fn silence_does_not_count() {
    for bytes in [&[][..], &[0]] {
        let inbox = from(OTHERS, bytes);
        assert_eq!(seen(&inbox, &inbox), [0, 0]);
    }
}

#[test]
fn what_is_right_does_not_count() {
    let packets: Vec<Vec<u8>> = (1..=N).map(|j| agreed(0).packet(j)).collect();
    let first = from(OTHERS, &packets[OWN - 1]);
    assert_eq!(seen(&first, &lay_out(&packets)), [0, 0]);
}

/// A map 0 with bytes behind it is no silence, nor is any other map.
#[test]
fn what_cannot_be_read_counts() {
    let good = agreed(0).packet(OWN);
    let mapped = |map: u8| [&[map], &good[1..]].concat();
    let numbered = |number: u8| [&[good[0], number], &good[2..]].concat();
    let maps = (0..=255u8).filter(|map| *map != 7).map(mapped);
    let alone = (1..=255u8).map(|map| vec![map]);
    let numbers = [0, N as u8 + 1, 255].map(numbered);
    let mut all: Vec<Vec<u8>> = maps.chain(alone).chain(numbers).collect();
    all.extend([
        vec![0, 0],
        [&good[..], &[0]].concat(),
        good[1..].to_vec(),
        vec![8, 0, 0],
        vec![8, 0, 1, 65],
    ]);
    all.extend((2..good.len()).map(|length| good[..length].to_vec()));
    for bytes in &all {
        assert_eq!(seen(&from(0b1000, bytes), &from(0, &[])), [8, 8]);
        assert_eq!(seen(&from(0, &[]), &from(0b0001, bytes)), [0, 1]);
    }
}

/// In the first inbox the receiver's number is demanded, also of a sender with its own good share; in
/// the second the sender's, also of one with the receiver's.
#[test]
fn another_number_counts() {
    let silent = from(0, &[]);
    for number in 1..=N {
        let packet = agreed(0).packet(number);
        let first = if number == OWN { 0 } else { OTHERS };
        assert_eq!(seen(&from(OTHERS, &packet), &silent), [first, first]);
        let second = OTHERS & !(1 << (number - 1));
        assert_eq!(seen(&silent, &from(OTHERS, &packet)), [0, second]);
    }
}

#[test]
fn a_failed_path_check_counts() {
    let (good, other) = (agreed(0), Sharing::of(0, N, T, b"other"));
    let silent = from(0, &[]);
    let failing = |j: usize| {
        let path = tree::path(0, &good.shares, j);
        let mut share = good.packet(j);
        share[4] ^= 1;
        let mut bent = good.packet(j);
        *bent.last_mut().expect("a path") ^= 1;
        [
            share,
            bent,
            other.packet(j),
            good.in_session(1).packet(j),
            packet::write(j, &good.shares[j % N], &path),
        ]
    };
    for bytes in failing(OWN) {
        assert_eq!(seen(&from(0b0100, &bytes), &silent), [4, 4]);
    }
    for bytes in failing(3) {
        assert_eq!(seen(&silent, &from(0b0100, &bytes)), [0, 4]);
    }
}

/// Of all that a liar may send, all but silence and the truth counts, in either inbox and session.
#[test]
fn every_lie_counts() {
    let mut random = Random::new(7);
    for (session, message) in EDGES.into_iter().flat_map(|it| MESSAGES.map(|to| (it, to))) {
        let other = Sharing::of(session, N, T, b"other");
        let agreed = agreed(session);
        let scene = Scene { agreed, other };
        for lie in Lie::SMALL.into_iter().chain([Lie::Huge]) {
            let fair = [Lie::Honest, Lie::Unnamed, Lie::Empty, Lie::MapZero].contains(&lie);
            for (sender, exchange) in [(1, 0), (3, 0), (4, 0), (1, 1), (3, 1), (4, 1)] {
                let way = Way::new(exchange, sender, OWN);
                let told = scene.told(lie, way, &mut random).unwrap_or_default();
                let map = 1 << (sender - 1);
                let mut inboxes = [from(0, &[]), from(0, &[])];
                inboxes[exchange] = from(map, &told);
                let state = before_first(session, OWN, message);
                let expected = match (fair, exchange) {
                    (true, _) => [0, 0],
                    (_, 0) => [map, map],
                    _ => [0, map],
                };
                let found = maps(state, &inboxes[0], &inboxes[1]);
                assert_eq!(found, expected, "{lie:?} from {sender}");
            }
        }
    }
}

#[test]
fn the_own_entry_never_counts() {
    let good = agreed(0);
    let mut random = Random::new(8);
    let some = [
        good.packet(OWN),
        good.packet(3),
        vec![0],
        vec![0, 0],
        vec![8],
    ];
    let noise = (1..90).map(|length| random.bytes(length));
    for bytes in some.into_iter().chain(noise) {
        let own = from(1 << (OWN - 1), &bytes);
        assert_eq!(seen(&own, &own), [0, 0]);
        let all = from(0b1111, &[0, 0]);
        assert_eq!(seen(&all, &own), [OTHERS, OTHERS]);
    }
}

#[test]
fn both_inboxes_count_together() {
    for first in 0..16 {
        for second in 0..16 {
            let found = seen(&from(first, &[8]), &from(second, &[0, 0]));
            assert_eq!(found, [first & OTHERS, (first | second) & OTHERS]);
        }
    }
}

/// Party 1 lies to party 2 in both exchanges and says nothing to party 3.
#[test]
fn a_liar_may_be_seen_by_one_alone() {
    let (lie, silent) = (from(1, &[7, 7]), from(0, &[]));
    for message in MESSAGES {
        let state = |own| before_first(0, own, message);
        assert_eq!(maps(state(2), &lie, &lie), [1, 1]);
        assert_eq!(maps(state(3), &silent, &silent), [0, 0]);
    }
}

/// The share of the lowest sender that passes is taken as before, and all behind it are judged too.
#[test]
fn senders_behind_the_one_taken_are_judged() {
    let good = agreed(0).packet(OWN);
    let inbox = lay_out(&[&good[..], &[], &good[1..], &[0, 0]]);
    let state = before_first(0, OWN, b"no");
    let (state, relay) = wrote(|out| state.take_shares(&inbox, out));
    assert_eq!((relay, state.faulty), (good, 0b1100));
    assert!(state.held > 0);
}

/// States with a lawful map at a stage that has none, and what the step in turn gives back.
#[test]
fn a_map_that_the_stage_does_not_have_is_not_kept() {
    for message in MESSAGES {
        let opened = State::open(0, N as u64, T as u64, OWN as u64, message).0;
        let dirty = |state: &State| State {
            faulty: OTHERS,
            ..state.clone()
        };
        let root = agreed(0).root;
        let clean = opened.clone().agree_root(&root);
        assert_eq!(dirty(&opened).agree_root(&root), clean);
        assert_eq!(clean.0.faulty, 0);
        for bit in [0, 1] {
            let (given, _) = wrote(|out| dirty(&clean.0).agree_bit(bit, out));
            let (expected, _) = wrote(|out| clean.0.clone().agree_bit(bit, out));
            assert_eq!((given.faulty, &given), (0, &expected));
        }
        let first = before_first(0, OWN, message);
        let inbox = from(0b0001, &[9]);
        let (given, _) = wrote(|out| dirty(&first).take_shares(&inbox, out));
        assert_eq!(given.faulty, 1);
        assert_eq!(given, wrote(|out| first.take_shares(&inbox, out)).0);
    }
}

#[test]
fn a_refused_step_keeps_the_map() {
    let first = State {
        faulty: 0b1000,
        ..before_first(0, OWN, b"AB")
    };
    let lie = from(0b0001, &[9]);
    let given = first.clone().take_shares(&lie, &mut []);
    assert_eq!((&given.0, short(given.clone()).0), (&first, 9));
    let (second, _) = wrote(|out| first.take_shares(&lie, out));
    let given = second.clone().take_relays(&from(0b0100, &[9]), &mut [0]);
    assert_eq!((&given.0, short(given.clone())), (&second, (9, 2)));
    let given = second.clone().take_relays(&[9], &mut [0]);
    assert_eq!((&given.0, cause(given.clone())), (&second, 8));
}

/// Cause 5 at every stage, for each bit alone and for all others' with one more.
#[test]
fn a_bit_beyond_n_or_the_own_one_breaks_a_limit() {
    let stages = [Stage::Root, Stage::Bit, Stage::First, Stage::Second];
    let ends = [Outcome::Nothing, Outcome::Message(2)].map(Stage::Ended);
    for (n, t, own) in [(1, 0, 1), (2, 0, 1), (4, 1, 4), (15, 7, 3), (16, 7, 16)] {
        let opened = State::open(0, n, t, own, b"AB").0;
        let others = ((1u32 << n) - 1) & !(1 << (own - 1));
        for (stage, place) in stages
            .into_iter()
            .chain(ends)
            .flat_map(|it| (0..u32::BITS).map(move |place| (it, place)))
        {
            for faulty in [1 << place, others | 1 << place] {
                let state = State {
                    stage,
                    faulty,
                    ..opened.clone()
                };
                let lawful = others >> place & 1 == 1;
                assert_eq!(state.is_lawful(), lawful);
                let root = cause(state.clone().agree_root(&[]));
                let turn = if stage == Stage::Root { 7 } else { 6 };
                assert_eq!(root, if lawful { turn } else { 5 });
                let relays = state.clone().take_relays(&[9], &mut [LENT; 2]);
                match relays.1 {
                    Err(refusal) if !lawful => assert_eq!(refusal.cause, 5),
                    Err(refusal) => assert!([6, 8].contains(&refusal.cause)),
                    Ok(ending) => assert_eq!((lawful, ending.faulty), (true, faulty)),
                }
            }
        }
    }
}
