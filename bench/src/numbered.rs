//! What a session number costs: each work under a number beside the same under 0, taken in turns.

use std::hint::black_box;

use cipangohu::{calls, entries, read_packet};

use crate::clock::Race;
use crate::contest::LENGTHS;
use crate::growth::STEPS;
use crate::party::Proved;
use crate::session::{moments, Moments, Setting, GREATEST};
use crate::steps::{work, Work};

/// No number, and one; what is hashed is as long under any other.
pub const NUMBERS: [u32; 2] = [0, u32::MAX];

/// The times of a work at each length, under each of the two.
pub struct Numbered {
    pub work: &'static str,
    times: [[f64; NUMBERS.len()]; LENGTHS.len()],
}

impl Numbered {
    /// Time under the number as a multiple of that under 0.
    pub fn ratios(&self) -> [f64; LENGTHS.len()] {
        self.times.map(|[without, with]| with / without)
    }

    pub fn each(&mut self) -> impl Iterator<Item = &mut f64> {
        self.times.iter_mut().flatten()
    }
}

/// A session that was played, by its length and its number.
type Played = [[(Setting, Moments<Proved>); NUMBERS.len()]; LENGTHS.len()];

/// The steps that hash leaves, and the check of a path.
pub fn numbered(rounds: u32) -> Vec<Numbered> {
    let played: Played = LENGTHS.map(|length| {
        NUMBERS.map(|session| {
            let setting = Setting {
                session,
                length,
                ..GREATEST
            };
            (setting, moments(setting))
        })
    });
    let steps = STEPS.iter().map(|&step| {
        timed(step.name(), rounds, &played, |setting, at| {
            work(step, setting, at)
        })
    });
    let path = std::iter::once_with(|| timed("a path checked", rounds, &played, check));
    steps.chain(path).collect()
}

fn timed<'a>(
    name: &'static str,
    rounds: u32,
    played: &'a Played,
    work: impl Fn(Setting, &'a Moments<Proved>) -> Work<'a>,
) -> Numbered {
    let mut race = Race::default();
    for (setting, at) in played.iter().flatten() {
        race.add(work(*setting, at));
    }
    let times = race.run(rounds);
    let mut pairs = times.chunks_exact(NUMBERS.len());
    let mut next = |_| pairs.next().and_then(|it| it.try_into().ok());
    Numbered {
        work: name,
        times: std::array::from_fn(|place| next(place).expect("times of each session")),
    }
}

/// The check of the share that the first party relays.
fn check(setting: Setting, at: &Moments<Proved>) -> Work<'_> {
    let Setting { session, n, .. } = setting;
    let relay = entries(&at.second).and_then(|mut relays| relays.next());
    let packet = relay.and_then(|relay| read_packet(n, relay).ok()?);
    let packet = packet.expect("a share");
    Box::new(move || {
        let (share, path) = (black_box(packet.share), packet.path);
        let passes = calls::check_path(session, (n, packet.number), share, path, &at.root);
        assert_eq!(passes.value, 1);
    })
}
