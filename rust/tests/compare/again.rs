//! Parties that have ended: step 5 gives their results again, and all other steps are over. The
//! states may have stale bytes beside the result, or break a limit.

use cipangohu::{LAYOUT, MAX_MESSAGE, MAX_OUTBOX, STATE};
use foreign::random::Random;

use crate::call::{Call, Lent};
use crate::made::{bit, dirt, hold, others, put, Play};
use crate::reference::{
    AT_FAULTY, AT_GROUP, AT_HELD, AT_LENGTH, AT_MESSAGE, AT_ROOT, AT_SESSION, AT_SHARE,
};
use crate::tally::{compare, Tally};
use crate::times;

/// How a party ended, whom it saw cheat, and its state as a step gives it.
struct End {
    result: Option<Vec<u8>>,
    faulty: u32,
    state: Vec<u8>,
}

impl End {
    fn new(play: &Play, random: &mut Random) -> End {
        let any = random.below(MAX_MESSAGE);
        let length = random.pick(&[0, 1, 2, any, MAX_MESSAGE - 1, MAX_MESSAGE]);
        let result = (!random.once_in(4)).then(|| dirt(length, random));
        let (n, t, own) = play.group;
        let faulty = others([n, own]) & random.word() as u32;
        let stage = if result.is_some() { 5 } else { 4 };
        let mut state = vec![0; STATE];
        let head = [n, t, own].map(|number| number as u8);
        put(&mut state, 0, &[&[LAYOUT], &head[..], &[stage]].concat());
        let bytes = result.as_deref().unwrap_or_default();
        put(&mut state, AT_LENGTH, &(bytes.len() as u16).to_be_bytes());
        put(&mut state, AT_SESSION, &play.session.to_be_bytes());
        put(&mut state, AT_FAULTY, &faulty.to_be_bytes());
        put(&mut state, AT_MESSAGE, bytes);
        End {
            result,
            faulty,
            state,
        }
    }

    fn bytes(&self) -> &[u8] {
        self.result.as_deref().unwrap_or_default()
    }

    /// The state with bytes that no ended one has; the result stays.
    fn soiled(&self, play: &Play, random: &mut Random) -> Vec<u8> {
        let mut state = self.state.clone();
        if random.once_in(2) {
            put(&mut state, AT_ROOT, &play.scene.agreed.root);
        }
        if random.once_in(2) {
            hold(&mut state, play);
        }
        if random.once_in(2) {
            let behind = AT_MESSAGE + self.bytes().len();
            let length = random.below(AT_SHARE - behind + 1);
            put(&mut state, behind, &dirt(length, random));
        }
        if self.result.is_none() && random.once_in(2) {
            let length = random.pick(&[1, 24, MAX_MESSAGE as u16]);
            put(&mut state, AT_LENGTH, &length.to_be_bytes());
        }
        state
    }

    /// Step 5 gives the result, and the state as it was given first, or wants room for it.
    fn read(&self, again: &Call, state: &[u8], out: Vec<u8>, tally: &mut Tally) {
        let (bytes, room) = (self.bytes(), out.len());
        let mut lent = Lent {
            state: state.to_vec(),
            out,
            ..Lent::default()
        };
        let answer = compare(again, &mut lent, tally);
        if room < bytes.len() {
            assert_eq!((answer.cause, answer.value as usize), (9, bytes.len()));
            return;
        }
        let given = 2 * self.faulty + u32::from(self.result.is_some());
        assert_eq!((answer.cause, answer.value), (0, given));
        assert_eq!(lent.state, self.state);
        assert_eq!(lent.out[..bytes.len()], *bytes);
    }
}

/// A state that breaks one limit.
fn broken(state: &[u8], random: &mut Random) -> Vec<u8> {
    let mut state = state.to_vec();
    match random.below(9) {
        0 => state.truncate(random.below(STATE)),
        1 => state[0] = random.pick(&[LAYOUT - 1, LAYOUT + 1]),
        2 => state[AT_GROUP] = 0,
        3 => state[AT_GROUP + 1] = 255,
        4 => state[AT_GROUP + 2] = 0,
        5 => put(
            &mut state,
            AT_LENGTH,
            &(MAX_MESSAGE as u16 + 1).to_be_bytes(),
        ),
        6 => put(&mut state, AT_HELD, &[255, 255]),
        7 => {
            let own = usize::from(state[AT_GROUP + 2]);
            put(&mut state, AT_FAULTY, &bit(own).to_be_bytes());
        }
        _ => {
            let above = usize::from(state[AT_GROUP]) + 1;
            put(&mut state, AT_FAULTY, &bit(above).to_be_bytes());
        }
    }
    state
}

/// A call on a copy of the state that has to have this cause.
fn refused(cause: u32, call: &Call, state: &[u8], random: &mut Random, tally: &mut Tally) {
    let room = random.pick(&[0, 1, MAX_OUTBOX]);
    let mut lent = Lent {
        state: state.to_vec(),
        out: dirt(room, random),
        ..Lent::default()
    };
    let answer = compare(call, &mut lent, tally);
    assert_eq!(answer.cause, cause, "{call:?}");
}

/// The steps that are over, most of them with a cause above 6 as well.
fn over(play: &Play, random: &mut Random) -> [Call; 3] {
    let mut root = play.scene.agreed.root.to_vec();
    root.truncate(random.pick(&[0, 31, 32]));
    let inbox = play.any_inbox(0, random);
    [
        Call::AgreeRoot(root),
        Call::AgreeBit(random.below(3)),
        Call::TakeShares(inbox),
    ]
}

#[test]
fn results_are_read_again() {
    let (mut random, mut tally) = (Random::new(11), Tally::default());
    for _ in 0..times(2_000) {
        let play = Play::new(&mut random);
        let end = End::new(&play, &mut random);
        let state = end.soiled(&play, &mut random);
        let again = Call::TakeRelays(play.any_inbox(1, &mut random));
        let needed = end.bytes().len();
        for room in [0, needed.saturating_sub(1), needed, needed + 1, needed + 70] {
            end.read(&again, &state, dirt(room, &mut random), &mut tally);
        }
        let over = over(&play, &mut random);
        for call in &over {
            refused(6, call, &state, &mut random, &mut tally);
        }
        let broken = broken(&state, &mut random);
        for call in over.iter().chain([&again]) {
            refused(5, call, &broken, &mut random, &mut tally);
        }
    }
    tally.expect("agree_root", &[5, 6]);
    tally.expect("agree_bit", &[5, 6]);
    tally.expect("take_shares", &[5, 6]);
    tally.expect("take_relays", &[0, 5, 9]);
}
