//! How the time of a step grows with the length of the message, the number of parties and the fault
//! limit, as multiples of the time of the opening in the greatest session.

use crate::clock::Race;
use crate::party::Proved;
use crate::session::{moments, most_faults, Setting, GREATEST, SHORTER};
use crate::steps::{work, Step};

pub const STEPS: [Step; 4] = [Step::Open, Step::Bit, Step::ShareSent, Step::Rebuild];

/// How far apart the lengths are; the one that the contests have is among them.
const APART: usize = SHORTER / 4;

/// What grows.
#[derive(Clone, Copy, PartialEq, Eq)]
pub enum Sweep {
    Length,
    Parties,
    Faults,
}

#[derive(Clone)]
pub struct Point {
    pub x: usize,
    pub times: [f64; STEPS.len()],
}

pub type Sweeps = Vec<(Sweep, Vec<Point>)>;

/// The times of all points, and that of the opening in the greatest session.
pub struct Growth {
    opening: f64,
    sweeps: Sweeps,
}

impl Growth {
    pub fn each(&mut self) -> impl Iterator<Item = &mut f64> {
        let points = self.sweeps.iter_mut().flat_map(|(_, points)| points);
        std::iter::once(&mut self.opening).chain(points.flat_map(|point| &mut point.times))
    }

    /// The times as multiples of that opening's.
    pub fn relative(&self) -> Sweeps {
        let mut sweeps = self.sweeps.clone();
        for point in sweeps.iter_mut().flat_map(|(_, points)| points) {
            point.times = point.times.map(|time| time / self.opening);
        }
        sweeps
    }
}

impl Sweep {
    pub const ALL: [Sweep; 3] = [Sweep::Length, Sweep::Parties, Sweep::Faults];

    fn settings(self) -> Vec<(usize, Setting)> {
        match self {
            Sweep::Length => (0..GREATEST.length)
                .step_by(APART)
                .chain([GREATEST.length])
                .map(|length| (length, Setting { length, ..GREATEST }))
                .collect(),
            Sweep::Parties => (2..=GREATEST.n)
                .map(|n| {
                    (
                        n,
                        Setting {
                            n,
                            t: most_faults(n),
                            ..GREATEST
                        },
                    )
                })
                .collect(),
            Sweep::Faults => (0..=GREATEST.t)
                .map(|t| (t, Setting { t, ..GREATEST }))
                .collect(),
        }
    }
}

/// The points of each sweep, all measured in turns.
pub fn growth(rounds: u32) -> Growth {
    let settings: Vec<_> = Sweep::ALL.iter().map(|sweep| sweep.settings()).collect();
    let all = settings.iter().flatten();
    let states: Vec<_> = all
        .map(|&(_, setting)| (setting, moments::<Proved>(setting)))
        .collect();
    let greatest = moments::<Proved>(GREATEST);
    let mut race = Race::default();
    race.add(work(Step::Open, GREATEST, &greatest));
    for (setting, at) in &states {
        STEPS
            .iter()
            .for_each(|&step| race.add(work(step, *setting, at)));
    }
    let times = race.run(rounds);
    let mut measured = times[1..].chunks_exact(STEPS.len());
    let mut point = |&(x, _): &(usize, Setting)| {
        let own = measured.next().expect("times for each setting");
        Point {
            x,
            times: std::array::from_fn(|step| own[step]),
        }
    };
    let swept = settings
        .iter()
        .map(|of| of.iter().map(&mut point).collect());
    Growth {
        opening: times[0],
        sweeps: Sweep::ALL.into_iter().zip(swept).collect(),
    }
}
