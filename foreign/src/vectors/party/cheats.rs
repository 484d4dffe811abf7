//! The map of the parties seen to cheat: every lie in either inbox, and every map in a state.

use super::{turn, Call, File, Number, Place};
use crate::inbox::lay_out;
use crate::liars::{Lie, Scene, Sharing, Way};
use crate::party::{Outcome, Stage};
use crate::vectors::GREATEST;

/// Maps that break a limit: the own bit, the lowest that no party has, with the others' and alone, the
/// highest, and all.
pub(super) fn unlawful(n: u64, own: u64) -> [u64; 5] {
    let beyond = 1 << n;
    [
        1 << (own - 1),
        beyond,
        others(n, own) | beyond,
        1 << 31,
        u32::MAX.into(),
    ]
}

/// The map of all parties but the own one.
fn others(n: u64, own: u64) -> u64 {
    ((1 << n) - 1) & !(1 << (own - 1))
}

impl File {
    /// Sets another lawful map: of some others, of all or of none.
    pub(super) fn other_map(&mut self) {
        let all = others(self.state.n, self.state.own);
        let some = self.random.word() & all;
        let map = self.pick(&[some, some, some, all, 0]);
        self.set(Number::Faulty, map);
    }

    /// The inbox of an exchange. The liar's entry is told by a lie; of the others each tells the truth,
    /// nothing or a lie, and the own entry may be anything.
    fn lied_to(&mut self, scene: &Scene, way: Way, lie: Option<Lie>, exchange: usize) -> Vec<u8> {
        let mut packets = Vec::new();
        for sender in 1..=scene.agreed.shares.len() {
            let any = self.pick(&Lie::SMALL);
            let other = self.pick(&[Lie::Honest, Lie::Unnamed, any]);
            let told = match lie {
                Some(lie) if sender == way.sender => lie,
                _ => other,
            };
            let way = Way::new(exchange, sender, way.receiver);
            let packet = scene.told(told, way, &mut self.random);
            packets.push(packet.unwrap_or_default());
        }
        lay_out(&packets)
    }
}

/// Whether who sends this is seen to cheat.
fn counts(lie: Lie) -> bool {
    ![Lie::Honest, Lie::Unnamed, Lie::Empty, Lie::MapZero].contains(&lie)
}

/// Each lie to a happy and to an unhappy party, in the first inbox, in the second and in both.
pub(super) fn lies(file: &mut File) {
    let groups = [(3, 1), (2, 0), (4, 1), (5, 2), (7, 3), (9, 4), GREATEST];
    let lies = Lie::SMALL.into_iter().chain([Lie::Huge]);
    let ways = [[true, false], [false, true], [true, true]];
    for (lie, told) in lies.flat_map(|it| ways.map(|to| (it, to))) {
        for message in [&b"AB"[..], b"no"] {
            let (n, t) = file.pick(&groups);
            let session = file.session();
            let agreed = Sharing::of(session, n, t, b"AB");
            let other = Sharing::of(session, n, t, b"other");
            let scene = Scene { agreed, other };
            let receiver = 1 + file.random.below(n);
            let sender = 1 + (receiver + file.random.below(n - 1)) % n;
            let way = Way::new(0, sender, receiver);
            file.open(session, n as u64, t as u64, receiver as u64, message);
            file.call(&Call::Root(scene.agreed.root.to_vec()), 0);
            file.short_then_enough(&Call::Bit(1));
            let [first, second] = told.map(|tells| tells.then_some(lie));
            let inbox = file.lied_to(&scene, way, first, 0);
            file.short_then_enough(&Call::Shares(inbox));
            let inbox = file.lied_to(&scene, way, second, 1);
            file.short_then_enough(&Call::Relays(inbox));
            assert!(!counts(lie) || file.state.faulty >> (sender - 1) & 1 == 1);
            file.short_then_enough(&Call::Relays(Vec::new()));
        }
    }
}

/// At every stage maps of every kind: the lawful ones are taken, and in an inbox one party cheats.
pub(super) fn maps(file: &mut File) {
    let stages = [Stage::Root, Stage::Bit, Stage::First, Stage::Second];
    let ends = [Outcome::Nothing, Outcome::Message(2)].map(Stage::Ended);
    for (n, t, own) in [(1, 0, 1), (2, 0, 2), (3, 1, 1), (15, 7, 8), (16, 7, 16)] {
        let all = others(n, own);
        let lowest = all & all.wrapping_neg();
        let highest = all.checked_ilog2().map_or(0, |place| 1 << place);
        for stage in stages.into_iter().chain(ends) {
            for map in unlawful(n, own).into_iter().chain([lowest, highest, all]) {
                let session = file.session();
                file.open(session, n, t, own, b"AB");
                if file.once_in(2) {
                    let root = Sharing::of(session, n as usize, t as usize, b"AB").root;
                    file.put(Place::Root, 0, &root);
                }
                file.set_stage(stage);
                file.set(Number::Faulty, map);
                let call = in_turn(file, turn(stage));
                file.short_then_enough(&call);
                file.two_calls();
            }
        }
    }
}

/// The step in turn, well called; where it takes an inbox, the highest of the others cheats.
fn in_turn(file: &mut File, kind: u8) -> Call {
    let [n, own] = [file.state.n, file.state.own].map(|number| number as usize);
    let liar = (1..=n).rev().find(|number| *number != own);
    let entries = (1..=n).map(|number| match Some(number) == liar {
        true => vec![0, 0],
        false => Vec::new(),
    });
    let inbox = lay_out(&entries.collect::<Vec<_>>());
    match kind {
        4 => Call::Shares(inbox),
        5 => Call::Relays(inbox),
        _ => file.some_call(kind, true),
    }
}
