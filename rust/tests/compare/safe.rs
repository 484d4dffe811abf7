//! The safe types beside the foreign implementation: a party's steps with its state, packets,
//! shares, rebuilding.

use cipangohu::{
    calls, check_path, entries, hash, lay_out, lay_out_in, read_packet, rebuild, rebuild_with_root,
    shares, version, Cause, Ending, Hash, Outcome, Packet, Party, Stage, HASH, MAX_ENTRY,
    MAX_OUTBOX, MAX_PACKET, MAX_PARTIES, STATE,
};
use foreign::coder::{self, frame_of, shares_of};
use foreign::liars::flip;
use foreign::limits::LONGEST_MESSAGE;
use foreign::packet::Reading;
use foreign::party::{Refusal, State};
use foreign::random::Random;
use foreign::{commitment, inbox, packet, sessions, sha256};

use crate::call::{Answer, Call, Lent};
use crate::faulty::map_of;
use crate::made::{group, message, spoil, Play};
use crate::reference::{self, encoded, AT_STAGE};
use crate::{some_step, times};

/// A cause by its number, with what a buffer needs.
fn cause(number: u32, needed: usize) -> Cause {
    let answer = Answer {
        value: needed as u32,
        cause: number,
    };
    answer.accepted().expect_err("a cause")
}

/// An answer of the foreign implementation in the library's words.
fn told<T>(answer: Result<T, Refusal>) -> Result<T, Cause> {
    answer.map_err(|refusal| cause(refusal.cause, refusal.needed))
}

/// What a step wrote, or its cause.
fn wrote(answer: Result<usize, Cause>, out: &[u8]) -> Result<Vec<u8>, Cause> {
    answer.map(|length| out[..length].to_vec())
}

/// What step 5 gave, with the parties seen to cheat as a map.
fn given(ending: Ending) -> (Outcome, u32) {
    (ending.outcome, map_of(ending.faulty))
}

/// The library's party and its root.
fn opened(play: &Play) -> (Party, Hash) {
    let (n, t, own) = play.group;
    let opened = Party::open(play.session, n, t, own, &play.message);
    opened.expect("a lawful opening")
}

/// The four steps on the library's party and on the foreign state, and a second reader; tells
/// whether it ended with a message.
fn steps(play: &Play, random: &mut Random) -> bool {
    let (mut party, root) = opened(play);
    let (n, t, own) = play.group;
    let (state, expected) =
        State::open(play.session, n as u64, t as u64, own as u64, &play.message);
    assert_eq!(Ok(root), expected);
    assert_eq!((party.own(), party.stage()), (own, Stage::AwaitsRoot));
    let (state, happy) = state.agree_root(&play.scene.agreed.root);
    assert_eq!(party.agree_root(&play.scene.agreed.root), told(happy));
    let (mut out, mut theirs) = (vec![0; MAX_OUTBOX], vec![0; MAX_OUTBOX]);
    let (state, length) = state.agree_bit(1, &mut theirs);
    let outbox = wrote(party.agree_bit(true, &mut out), &out).expect("a step in turn");
    assert_eq!(wrote(told(length), &theirs), Ok(outbox.clone()));
    let packets = entries(&outbox).map(|entries| entries.collect());
    assert_eq!(packets, inbox::entries(n, &outbox).ok());
    let first = play.inbox(0, random);
    let (state, length) = state.take_shares(&first, &mut theirs);
    let relay = wrote(party.take_shares(&first, &mut out[..MAX_PACKET]), &out);
    assert_eq!(relay, wrote(told(length), &theirs));
    let second = play.inbox(1, random);
    let (state, ending) = state.take_relays(&second, &mut theirs);
    let expected = told(ending).map(|ending| match ending.length {
        Some(length) => (Outcome::Message(&theirs[..length]), ending.faulty),
        None => (Outcome::Nothing, ending.faulty),
    });
    assert_eq!(party.take_relays(&second).map(given), expected);
    if expected.is_ok() {
        let again = party.take_relays(&play.any_inbox(1, random));
        assert_eq!(again.map(given), expected);
    }
    assert_eq!(party.result(), expected.ok().map(|(outcome, _)| outcome));
    assert_eq!(party.state()[..], encoded(&state));
    assert_eq!(party.session(), play.session);
    assert_eq!(map_of(party.faulty()), state.faulty);
    assert_eq!(Party::from_state(party.state()).as_ref(), Ok(&party));
    party.stage() == Stage::EndedWithMessage
}

#[test]
fn parties() {
    let mut random = Random::new(7);
    let (mut messages, mut nothing) = (0, 0);
    for _ in 0..times(1_500) {
        match steps(&Play::new(&mut random), &mut random) {
            true => messages += 1,
            false => nothing += 1,
        }
    }
    println!("parties: {messages} ended with a message, {nothing} with nothing or refused");
    assert!(messages >= 100 && nothing >= 100);
}

/// A step with such arguments as the types of a party's methods have room for.
fn typed(call: Call) -> Call {
    match call {
        Call::AgreeRoot(mut root) => {
            root.resize(HASH, 7);
            Call::AgreeRoot(root)
        }
        Call::AgreeBit(bit) => Call::AgreeBit(bit.min(1)),
        other => other,
    }
}

/// The cause that a step of a party has, which must be the foreign one's.
fn judged(call: &Call, party: &mut Party) -> Option<Cause> {
    let mut out = vec![0; MAX_OUTBOX];
    match call {
        Call::AgreeRoot(root) => {
            let root: &Hash = root[..].try_into().expect("a root");
            party.agree_root(root).err()
        }
        Call::AgreeBit(bit) => party.agree_bit(*bit == 1, &mut out).err(),
        Call::TakeShares(inbox) => party.take_shares(inbox, &mut out).err(),
        Call::TakeRelays(inbox) => party.take_relays(inbox).err(),
        other => panic!("{other:?} is no step"),
    }
}

#[test]
fn any_state_is_judged() {
    let mut random = Random::new(10);
    let mut accepted = 0;
    for _ in 0..times(3_000) {
        let play = Play::new(&mut random);
        let mut state = opened(&play).0.state().to_vec();
        (0..3).for_each(|_| spoil(&mut state, &play, &mut random));
        state.resize(STATE, 0);
        let call = typed(some_step(&play, state[AT_STAGE], &mut random));
        let restored = Party::from_state(&state);
        let mut lent = Lent {
            state,
            out: vec![0; MAX_OUTBOX],
            ..Lent::default()
        };
        let expected = reference::answer(&call, &mut lent).accepted().err();
        let Ok(mut party) = restored else {
            assert_eq!(
                (restored, expected),
                (Err(Cause::State), Some(Cause::State))
            );
            continue;
        };
        assert_eq!(judged(&call, &mut party), expected, "{call:?}");
        assert_eq!(party.state()[..], lent.state);
        assert_eq!(Party::from_state(&lent.state), Ok(party));
        accepted += usize::from(expected.is_none());
    }
    println!("any state: {accepted} steps accepted");
    assert!(accepted >= 100);
}

/// Reads a packet on both sides and checks its path on the way.
fn reads(session: u32, n: usize, bytes: &[u8], root: &[u8; 32]) {
    let expected = match packet::read(n, bytes) {
        Reading::Refused(number) => Err(cause(number, 0)),
        Reading::Silence => Ok(None),
        Reading::Share {
            number,
            share,
            path,
        } => Ok(Some((number, share, path.concat()))),
    };
    let found = read_packet(n, bytes);
    if let Ok(Some(packet)) = found {
        let Packet {
            number,
            share,
            path,
        } = packet;
        let passes = check_path(session, n, number, share, path, root);
        let standing = packet::classify(session, n, number, *root, bytes);
        let valid = matches!(standing, Ok(packet::Standing::Valid(_)));
        assert_eq!(passes, Ok(valid));
    }
    let found = found.map(|packet| packet.map(|p| (p.number, p.share.to_vec(), p.path.to_vec())));
    assert_eq!(found, expected);
}

#[test]
fn packets_read() {
    let mut random = Random::new(8);
    for _ in 0..times(600) {
        let play = Play::new(&mut random);
        let inbox = play.inbox(random.below(2), &mut random);
        for bytes in entries(&inbox).into_iter().flatten() {
            reads(play.session, play.group.0, bytes, &play.scene.agreed.root);
        }
    }
}

/// What a foreign call wrote with room for any message, or its cause.
fn joined(call: impl FnOnce(&mut [u8]) -> coder::Answer) -> Result<Vec<u8>, Cause> {
    let mut out = vec![0; LONGEST_MESSAGE];
    match call(&mut out) {
        coder::Answer::Done(length) => Ok(out[..length].to_vec()),
        coder::Answer::Refused(number) => Err(cause(number, 0)),
        coder::Answer::Short(needed) => Err(cause(9, needed)),
    }
}

#[test]
fn shares_made_and_joined() {
    let (mut random, mut other_roots) = (Random::new(9), 0);
    for _ in 0..times(600) {
        let (session, (n, t)) = (sessions::some(&mut random), group(&mut random));
        let message = message(&mut random);
        let mut made = shares(n, t, &message).expect("a lawful group");
        assert_eq!(made, shares_of(n, n - t, &frame_of(n - t, &message)));
        assert_eq!(hash(&message), Ok(sha256::hash(&message)));
        let count = random.below(t + 2).min(n);
        let missing = random.choice(n, count);
        (0..n)
            .filter(|place| (missing >> place) & 1 == 1)
            .for_each(|place| made[place].clear());
        let place = random.below(n);
        if !made[place].is_empty() && random.once_in(3) {
            flip(&mut made[place], &mut random);
        }
        let entries = lay_out(&made);
        let expected = joined(|out| coder::rebuild(n, t, &entries, out));
        assert_eq!(rebuild(n, t, &made), expected);
        let root = commitment::root(session, n, t, &message);
        let expected =
            joined(|out| commitment::rebuild_with_root(session, n, t, &root, &entries, out));
        assert_eq!(rebuild_with_root(session, n, t, &root, &made), expected);
        other_roots += usize::from(expected == Err(Cause::OtherRoot));
    }
    println!("shares: {other_roots} messages had another root");
    assert!(other_roots >= 10);
}

#[test]
fn bytes_too_many_for_a_length_stand_as_none() {
    let parts = [vec![1; MAX_ENTRY + 1], vec![2]];
    assert_eq!(lay_out(&parts), [0, 0, 0, 1, 2]);
    let mut lent = [7; 6];
    assert_eq!(lay_out_in(&parts, &mut lent), Ok(5));
    assert_eq!(lent, [0, 0, 0, 1, 2, 7]);
    for short in 0..5 {
        let refused = lay_out_in(&parts, &mut lent[..short]);
        assert_eq!(refused, Err(Cause::Room { needed: 5 }));
    }
    assert!(entries(&[0, 1]).is_none() && entries(&[0]).is_none());
    assert_eq!(shares(MAX_PARTIES + 1, 0, b""), Err(Cause::Parties));
}

/// What is told of the archive is what this crate was written for.
#[test]
fn the_archive_is_this_version() {
    let (major, minor, patch) = version();
    assert_eq!(
        env!("CARGO_PKG_VERSION"),
        format!("{major}.{minor}.{patch}")
    );
    assert_eq!(calls::state_size(), STATE);
}

#[test]
fn a_party_is_shown_in_short() {
    let (party, _) = Party::open(7, 3, 1, 2, b"AB").expect("a lawful opening");
    let shown = format!("{party:?}");
    let expected = "Party { session: 7, own: 2, stage: AwaitsRoot, faulty: {}, .. }";
    assert_eq!(shown, expected);
}
