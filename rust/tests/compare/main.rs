//! The library beside the foreign implementation: every call on random arguments, valid and
//! damaged, with exact, short and long buffers. Answers are compared, and every byte of states and
//! buffers.
//!
//! COMPARE_ROUNDS multiplies the number of cases (1 if left out).

mod again;
mod call;
mod faulty;
mod made;
mod reference;
mod root;
mod safe;
mod sender;
mod session;
mod tally;

use cipangohu::{lay_out, MAX_HASHED, MAX_MESSAGE, MAX_PARTIES, MAX_SHARE, STATE};
use foreign::liars::{flip, Lie, Scene, Sharing, Way};
use foreign::random::Random;
use foreign::sessions;

use call::{Answer, Call, Lent};
use made::{dirt, group, message, odd_group, room, spoil, Play, ODD};
use reference::AT_STAGE;
use tally::{compare, Tally};

/// How many cases a test runs.
fn times(usual: usize) -> usize {
    let rounds = std::env::var("COMPARE_ROUNDS").ok();
    usual * rounds.map_or(1, |text| text.parse().expect("COMPARE_ROUNDS is a number"))
}

/// How many bytes the call writes when it has room: as many as it asks for where it has none.
fn needed(call: &Call, state: &[u8]) -> usize {
    let mut lent = Lent {
        state: state.to_vec(),
        ..Lent::default()
    };
    match reference::answer(call, &mut lent) {
        Answer { value, cause: 9 } => value as usize,
        _ => 0,
    }
}

/// Makes the call with buffers of several lengths on the same state. The last length is left to
/// chance, and the state that it gives is kept.
fn in_every_room(call: &Call, state: &mut Vec<u8>, random: &mut Random, tally: &mut Tally) {
    let needed = needed(call, state);
    let before = state.clone();
    let by_chance = room(needed, random);
    for length in [needed.saturating_sub(1), needed, needed + 1, by_chance] {
        let mut lent = Lent {
            state: before.clone(),
            out: dirt(length, random),
            ..Lent::default()
        };
        compare(call, &mut lent, tally).accepted().ok();
        *state = lent.state;
    }
}

/// A call without a state.
fn stateless(call: &Call, random: &mut Random, tally: &mut Tally) {
    in_every_room(call, &mut Vec::new(), random, tally);
}

/// The calls that ask something of a state.
fn ask(state: &[u8], tally: &mut Tally) {
    for call in [
        Call::ResultLength,
        Call::Stage,
        Call::Own,
        Call::Session,
        Call::Faulty,
    ] {
        let mut lent = Lent {
            state: state.to_vec(),
            ..Lent::default()
        };
        compare(&call, &mut lent, tally).accepted().ok();
    }
}

/// The step that is in turn, mostly, or any other. At the end it is step 5, with any bytes as the
/// inbox.
fn some_step(play: &Play, stage: u8, random: &mut Random) -> Call {
    let turn = if random.once_in(4) {
        random.below(4) as u8
    } else {
        stage
    };
    match turn {
        0 => {
            let mut root = play.scene.agreed.root.to_vec();
            if random.once_in(6) {
                root.resize(random.pick(&[0, 1, 31, 33, 64]), 7);
            }
            Call::AgreeRoot(root)
        }
        1 => {
            let odd = random.pick(&ODD).wrapping_add(random.below(2));
            Call::AgreeBit(random.pick(&[1, 1, 1, 1, 1, 1, 0, 2, 255, odd]))
        }
        2 => Call::TakeShares(play.inbox(0, random)),
        3 => Call::TakeRelays(play.inbox(1, random)),
        _ => Call::TakeRelays(play.any_inbox(1, random)),
    }
}

#[test]
fn lists_of_calls() {
    let (mut random, mut tally) = (Random::new(1), Tally::default());
    for list in 0..times(20_000) {
        let play = Play::new(&mut random);
        let opening = Call::Open(play.session, play.group, play.message.clone());
        let mut lent = Lent {
            state: dirt(STATE, &mut random),
            root: dirt(32, &mut random),
            ..Lent::default()
        };
        assert_eq!(compare(&opening, &mut lent, &mut tally).cause, 0);
        let mut state = lent.state;
        for _ in 0..16 {
            // Every other list keeps to lawful states, so that it gets to the end.
            if list % 2 == 1 && random.once_in(4) {
                spoil(&mut state, &play, &mut random);
            }
            ask(&state, &mut tally);
            let stage = state.get(AT_STAGE).copied().unwrap_or(0);
            if stage > 3 && random.once_in(2) {
                break;
            }
            let call = some_step(&play, stage, &mut random);
            in_every_room(&call, &mut state, &mut random, &mut tally);
        }
    }
    tally.expect("agree_root", &[0, 5, 6, 7]);
    tally.expect("agree_bit", &[0, 5, 6, 7, 9]);
    tally.expect("take_shares", &[0, 5, 6, 8, 9]);
    tally.expect("take_relays", &[0, 5, 6, 8, 9]);
    tally.expect("result_length", &[0, 5, 6]);
    tally.expect("stage", &[0, 5]);
    tally.expect("own", &[0, 5]);
    tally.expect("session", &[0, 5]);
    tally.expect("faulty", &[0, 5]);
}

#[test]
fn openings() {
    let (mut random, mut tally) = (Random::new(2), Tally::default());
    for _ in 0..times(4_000) {
        let (n, t) = match random.once_in(3) {
            true => odd_group(&mut random),
            false => group(&mut random),
        };
        let own = match random.once_in(5) {
            true => random.pick(&ODD),
            false => 1 + random.below(MAX_PARTIES + 1),
        };
        let mut message = message(&mut random);
        if random.once_in(8) {
            message.resize(MAX_MESSAGE + 1 + random.below(3), 7);
        }
        let (state, root) = (room(STATE, &mut random), room(32, &mut random));
        let mut lent = Lent {
            state: dirt(state, &mut random),
            root: dirt(root, &mut random),
            ..Lent::default()
        };
        let call = Call::Open(sessions::some(&mut random), (n, t, own), message);
        compare(&call, &mut lent, &mut tally).accepted().ok();
    }
    tally.expect("open", &[0, 1, 2, 3, 4, 9]);
}

/// Packets good and bad, and bytes of them changed.
#[test]
fn packets() {
    let (mut random, mut tally) = (Random::new(3), Tally::default());
    for _ in 0..times(4_000) {
        let n = 2 + random.below(MAX_PARTIES - 1);
        let t = random.below(n.div_ceil(2));
        let scene = Scene {
            agreed: Sharing::of(0, n, t, &message(&mut random)),
            other: Sharing::of(0, n, t, b"other"),
        };
        let way = Way::new(random.below(2), 1 + random.below(n), 1 + random.below(n));
        let small = random.pick(&Lie::SMALL);
        let lie = random.pick(&[small, Lie::Honest, Lie::Huge]);
        let mut packet = scene.told(lie, way, &mut random).unwrap_or_default();
        if !packet.is_empty() && random.once_in(4) {
            flip(&mut packet, &mut random);
        }
        let odd = random.pick(&ODD);
        let n = random.pick(&[n, n, n, n, 1, n - 1, odd]);
        stateless(&Call::ReadPacket(n, packet), &mut random, &mut tally);
    }
    tally.expect("read_packet", &[0, 1, 10]);
}

#[test]
fn paths() {
    let (mut random, mut tally) = (Random::new(4), Tally::default());
    let mut yes = 0;
    for _ in 0..times(4_000) {
        let (mut session, (n, t)) = (sessions::some(&mut random), group(&mut random));
        let j = 1 + random.below(n);
        let sharing = Sharing::of(session, n, t, &message(&mut random));
        let mut share = sharing.shares[j - 1].clone();
        let mut path = sharing.packet(j).split_off(4 + share.len());
        let (mut place, mut root) = ((n, j), sharing.root.to_vec());
        match random.below(15) {
            0 => place = (random.pick(&ODD), j),
            1 => place = (n, random.pick(&ODD)),
            2 => place = (n, 1 + random.below(n)),
            3 => root.truncate(random.below(32)),
            4 => root.push(0),
            5 => flip(&mut root, &mut random),
            6 => flip(&mut share, &mut random),
            7 => path.truncate(random.below(path.len() + 1)),
            8 => path.extend(vec![1; 1 + random.below(200)]),
            9 if !path.is_empty() => flip(&mut path, &mut random),
            10 => share.resize(MAX_HASHED - 7 + random.below(8), 3),
            11 => share.clear(),
            12 => session = sessions::another(session, &mut random),
            _ => {}
        }
        let call = Call::CheckPath(session, place, share, path, root);
        let mut lent = Lent::default();
        let answer = compare(&call, &mut lent, &mut tally);
        assert!(answer.value == 0 || session == sharing.session);
        yes += answer.value;
    }
    println!("check_path: yes {yes} times");
    assert!(yes >= 100);
    tally.expect("check_path", &[0, 1, 3, 4, 7]);
}

#[test]
fn shares_and_rebuilding() {
    let (mut random, mut tally) = (Random::new(5), Tally::default());
    for _ in 0..times(3_000) {
        let (n, t) = match random.once_in(8) {
            true => odd_group(&mut random),
            false => group(&mut random),
        };
        let mut message = message(&mut random);
        if random.once_in(12) {
            message.resize(MAX_MESSAGE + 1, 7);
        }
        stateless(
            &Call::Shares((n, t), message.clone()),
            &mut random,
            &mut tally,
        );
        let (real_n, real_t) = group(&mut random);
        message.truncate(MAX_MESSAGE);
        let entries = entries_of(real_n, real_t, &message, &mut random);
        let group = random.pick(&[(n, t), (real_n, real_t), (real_n, real_t)]);
        stateless(&Call::Rebuild(group, entries), &mut random, &mut tally);
    }
    tally.expect("shares", &[0, 1, 2, 4, 9]);
    tally.expect("rebuild", &[0, 1, 2, 8, 9, 11, 12]);
}

/// The entries of a message's shares, some missing, now and then damaged.
fn entries_of(n: usize, t: usize, message: &[u8], random: &mut Random) -> Vec<u8> {
    let mut shares = Sharing::of(0, n, t, message).shares;
    let count = random.below(t + 2).min(n);
    let missing = random.choice(n, count);
    for (place, share) in shares.iter_mut().enumerate() {
        if (missing >> place) & 1 == 1 {
            share.clear();
        }
    }
    let place = random.below(n);
    match random.below(8) {
        0 if !shares[place].is_empty() => flip(&mut shares[place], random),
        1 => shares[place].push(0),
        2 => shares.iter_mut().for_each(|share| share.push(0)),
        3 => shares[place] = random.bytes(MAX_SHARE + 4),
        _ => {}
    }
    let mut entries = lay_out(&shares);
    match random.below(16) {
        0 => entries.truncate(random.below(entries.len())),
        1 => entries.push(0),
        _ => {}
    }
    entries
}

#[test]
fn hashes() {
    let (mut random, mut tally) = (Random::new(6), Tally::default());
    let limits = [MAX_HASHED - 1, MAX_HASHED, MAX_HASHED + 1, 100_000];
    let some: Vec<usize> = (0..times(300)).map(|_| random.below(4_000)).collect();
    for length in (0..=200)
        .chain(limits)
        .chain([MAX_HASHED + 1; 4])
        .chain(some)
    {
        let call = Call::Hash(random.bytes(length));
        stateless(&call, &mut random, &mut tally);
    }
    tally.expect("hash", &[0, 4, 9]);
}
