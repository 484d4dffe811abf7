//! The proved code against others at the same work: how many times as long it takes.

use std::hint::black_box;

use cipangohu::{calls, lay_out, HASH, MAX_HASHED};
use foreign::{coder, random::Random, sha256};

use crate::clock::Race;
use crate::library::{Encoder, Isal, Openssl, Zfec};
use crate::markdown::grouped;
use crate::numbered::{numbered, Numbered};
use crate::party::{Foreign, Proved};
use crate::session::{moments, play, Setting, GREATEST, SHORTER};
use crate::steps::{work, Step};

/// The columns of the tables.
pub const FOREIGN: &str = "foreign";
pub const PORTABLE: &str = "ISA-L, portable";
pub const PORTABLE_WHOLE: &str = "ISA-L, portable, tables made in the call";
pub const NATIVE: &str = "ISA-L, for this processor";
pub const ZFEC: &str = "zfec";
pub const OPENSSL_PLAIN: &str = "OpenSSL, any x86-64";
pub const OPENSSL: &str = "OpenSSL, for this processor";

/// The least times at one work: the proved code's, and each other's.
pub struct Times {
    pub work: &'static str,
    /// That of the message, where there is one.
    pub length: Option<usize>,
    pub(crate) proved: f64,
    pub(crate) others: Vec<(&'static str, f64)>,
}

impl Times {
    /// The work and the length.
    pub fn name(&self) -> String {
        let length = self.length.map(|length| format!(", L {}", grouped(length)));
        self.work.to_string() + &length.unwrap_or_default()
    }

    /// Time of the proved code as a multiple of the time of each other.
    pub fn ratios(&self) -> impl Iterator<Item = (&'static str, f64)> + '_ {
        let ratio = |&(name, time): &(&'static str, f64)| (name, self.proved / time);
        self.others.iter().map(ratio)
    }

    /// The proved code's time on this machine.
    pub fn microseconds(&self) -> f64 {
        self.proved * 1e6
    }

    /// The proved code's time, then the others'.
    fn each(&mut self) -> impl Iterator<Item = &mut f64> {
        let others = self.others.iter_mut().map(|(_, time)| time);
        std::iter::once(&mut self.proved).chain(others)
    }
}

/// The lengths of the messages that the contests are held with.
pub const LENGTHS: [usize; 2] = [SHORTER, GREATEST.length];

/// A work of both implementations, whose times at both lengths are taken in turns, so that they can
/// be compared.
pub struct Grown {
    pub work: &'static str,
    pub at: [Times; LENGTHS.len()],
}

impl Grown {
    /// How many times as long the longer message takes: the proved code, and the foreign one.
    pub fn factors(&self) -> [f64; 2] {
        let [short, long] = &self.at;
        [
            long.proved / short.proved,
            long.others[0].1 / short.others[0].1,
        ]
    }
}

/// The contests by their tables.
pub struct Tables {
    /// Steps and sessions.
    pub played: Vec<Grown>,
    pub coder: Vec<Times>,
    pub hash: Vec<Times>,
    /// The proved code against itself in a session of another number.
    pub numbered: Vec<Numbered>,
}

impl Tables {
    pub fn rows(&self) -> impl Iterator<Item = &Times> {
        let played = self.played.iter().flat_map(|grown| &grown.at);
        played.chain(&self.coder).chain(&self.hash)
    }

    pub fn each(&mut self) -> impl Iterator<Item = &mut f64> {
        let played = self.played.iter_mut().flat_map(|grown| &mut grown.at);
        let rows = played.chain(&mut self.coder).chain(&mut self.hash);
        let numbered = self.numbered.iter_mut().flat_map(Numbered::each);
        rows.flat_map(Times::each).chain(numbered)
    }
}

/// Whole sessions take longer: of so many rounds they get one.
const SESSIONS: u32 = 5;

/// All contests, with so many rounds each.
pub fn contests(others: &Others, rounds: u32) -> Tables {
    let mut played = steps(rounds);
    played.extend(sessions(rounds.div_ceil(SESSIONS)));
    let encodings = LENGTHS.map(|length| encoding(length, others, rounds));
    let rebuildings = LENGTHS.map(|length| rebuilding(length, others, rounds));
    Tables {
        played,
        coder: encodings.into_iter().chain(rebuildings).collect(),
        hash: hashing(others, rounds),
        numbered: numbered(rounds),
    }
}

/// The libraries that are there.
pub struct Others {
    pub isal: Option<Isal>,
    pub zfec: Option<Zfec>,
    pub openssl: Option<Openssl>,
    pub openssl_plain: Option<Openssl>,
}

/// The shape of the greatest session's code: as many blocks.
const N: usize = GREATEST.n;
pub const B: usize = GREATEST.n - GREATEST.t;

/// The bytes of a block: of a share.
pub const fn share(length: usize) -> usize {
    (length + 2).div_ceil(B)
}

struct Contest<'a> {
    work: &'static str,
    length: Option<usize>,
    names: Vec<&'static str>,
    race: Race<'a>,
}

impl<'a> Contest<'a> {
    fn of(work: &'static str, length: Option<usize>, proved: impl FnMut() + 'a) -> Self {
        let mut race = Race::default();
        race.add(proved);
        Contest {
            work,
            length,
            names: Vec::new(),
            race,
        }
    }

    fn against(&mut self, name: &'static str, other: impl FnMut() + 'a) {
        self.names.push(name);
        self.race.add(other);
    }

    fn run(self, rounds: u32) -> Times {
        let times = self.race.run(rounds);
        Times {
            work: self.work,
            length: self.length,
            proved: times[0],
            others: self
                .names
                .into_iter()
                .zip(times[1..].iter().copied())
                .collect(),
        }
    }
}

/// Times a work, given for a length as both implementations do it.
fn grown<'a, W: FnMut() + 'a>(
    name: &'static str,
    rounds: u32,
    works: impl Fn(usize) -> [W; 2],
) -> Grown {
    let mut race = Race::default();
    for work in LENGTHS.into_iter().flat_map(works) {
        race.add(work);
    }
    let times = race.run(rounds);
    let at = |place: usize| Times {
        work: name,
        length: Some(LENGTHS[place]),
        proved: times[2 * place],
        others: vec![(FOREIGN, times[2 * place + 1])],
    };
    Grown {
        work: name,
        at: std::array::from_fn(at),
    }
}

/// The greatest session with shorter or longer messages.
fn setting(length: usize, unhappy: usize) -> Setting {
    Setting {
        length,
        unhappy,
        ..GREATEST
    }
}

/// The steps of one party in the greatest session.
fn steps(rounds: u32) -> Vec<Grown> {
    let settings = LENGTHS.map(|length| setting(length, GREATEST.unhappy));
    let states = settings.map(|of| (of, moments::<Proved>(of), moments::<Foreign>(of)));
    let times = Step::ALL.iter().map(|&step| {
        grown(step.name(), rounds, |length| {
            let at = states.iter().find(|(of, ..)| of.length == length);
            let (of, proved, foreign) = at.expect("a session of each length");
            [work(step, *of, proved), work(step, *of, foreign)]
        })
    });
    times.collect()
}

/// Whole sessions: all parties happy, and as many unhappy as there may be bad.
fn sessions(rounds: u32) -> Vec<Grown> {
    let named = [
        ("a sitting, one book", 0),
        ("a sitting, t rebuild", GREATEST.t),
    ];
    let times =
        named.map(|(name, unhappy)| grown(name, rounds, |length| whole(setting(length, unhappy))));
    times.into()
}

/// A session as both implementations play it.
fn whole(setting: Setting) -> [Box<dyn FnMut()>; 2] {
    let messages: Vec<_> = (1..=N).map(|own| setting.message(own)).collect();
    let found = play::<Proved>(setting, &messages);
    assert_eq!(found, play::<Foreign>(setting, &messages));
    let again = messages.clone();
    [
        Box::new(move || {
            black_box(play::<Proved>(setting, &messages));
        }),
        Box::new(move || {
            black_box(play::<Foreign>(setting, &again));
        }),
    ]
}

/// All shares of a message.
fn encoding(length: usize, others: &Others, rounds: u32) -> Times {
    let message = setting(length, 0).message(1);
    let s = share(length);
    let mut frame = coder::frame_of(B, &message);
    let (mut ours, mut theirs) = (vec![0; N * s], vec![0; N * s]);
    let mut contest = Contest::of("all shares of a book", Some(length), || {
        calls::shares((N, GREATEST.t), black_box(&message), &mut ours)
            .accepted()
            .expect("lawful");
    });
    contest.against(FOREIGN, || {
        coder::encode(N, GREATEST.t, black_box(&message), &mut theirs);
    });
    if let Some(isal) = others.isal {
        for (column, by, ready) in [
            (PORTABLE, Encoder::Portable, true),
            (PORTABLE_WHOLE, Encoder::Portable, false),
            (NATIVE, Encoder::Native, true),
        ] {
            contest.against(column, isal_encode(isal, by, ready, frame.clone()));
        }
    }
    if let Some(zfec) = others.zfec {
        let mut out = vec![0; N * s];
        contest.against(ZFEC, move || {
            zfec.encode(black_box(&mut frame), s, &mut out)
        });
    }
    contest.run(rounds)
}

/// ISA-L's way from the frame to the shares. Its tables are ready, or made in the call.
fn isal_encode(isal: Isal, by: Encoder, ready: bool, mut frame: Vec<u8>) -> impl FnMut() {
    let numbers: Vec<u8> = (1..=N as u8).collect();
    let mut matrix = isal.powers(&numbers, B);
    let mut tables = isal.tables(&mut matrix, B);
    let s = frame.len() / B;
    let mut out = vec![0; N * s];
    move || {
        if !ready {
            tables = isal.tables(&mut matrix, B);
        }
        isal.encode(by, &mut tables, black_box(&mut frame), s, &mut out);
    }
}

/// A message from the shares of the last b parties.
fn rebuilding(length: usize, others: &Others, rounds: u32) -> Times {
    let message = setting(length, 0).message(1);
    let s = share(length);
    let mut frame = coder::frame_of(B, &message);
    let mut shares = coder::shares_of(N, B, &frame);
    shares[..GREATEST.t].fill(Vec::new());
    let entries = lay_out(&shares);
    let (mut ours, mut theirs) = (vec![0; length], vec![0; length]);
    let mut contest = Contest::of("a book from b shares", Some(length), || {
        calls::rebuild((N, GREATEST.t), black_box(&entries), &mut ours)
            .accepted()
            .expect("lawful");
    });
    contest.against(FOREIGN, || {
        coder::rebuild(N, GREATEST.t, black_box(&entries), &mut theirs);
    });
    if let Some(isal) = others.isal {
        for (column, by) in [(PORTABLE, Encoder::Portable), (NATIVE, Encoder::Native)] {
            contest.against(column, isal_rebuild(isal, by, &mut frame));
        }
    }
    if let Some(zfec) = others.zfec {
        let mut coded = vec![0; N * s];
        zfec.encode(&mut frame, s, &mut coded);
        let mut out = vec![0; B * s];
        zfec.decode(&mut coded[..B * s], s, &mut out);
        assert_eq!(out[..], frame[..]);
        contest.against(ZFEC, move || {
            zfec.decode(black_box(&mut coded[..B * s]), s, &mut out)
        });
    }
    contest.run(rounds)
}

/// ISA-L's way from the last b shares to the frame: the inverse of their matrix, its tables, and the
/// product, all in the call.
fn isal_rebuild(isal: Isal, by: Encoder, frame: &mut [u8]) -> impl FnMut() {
    let numbers: Vec<u8> = (1..=N as u8).skip(GREATEST.t).collect();
    let matrix = isal.powers(&numbers, B);
    let s = frame.len() / B;
    let mut shares = vec![0; B * s];
    isal.encode(
        by,
        &mut isal.tables(&mut matrix.clone(), B),
        frame,
        s,
        &mut shares,
    );
    let mut rebuild = move |out: &mut [u8]| {
        let mut inverse = isal.inverse(&mut black_box(matrix.clone()), B);
        let mut tables = isal.tables(&mut inverse, B);
        isal.encode(by, &mut tables, black_box(&mut shares), s, out);
    };
    let mut out = vec![0; B * s];
    rebuild(&mut out);
    assert_eq!(out[..], frame[..]);
    move || rebuild(&mut out)
}

/// The hash of the longest string, and of leaf strings of the greatest session.
fn hashing(others: &Others, rounds: u32) -> Vec<Times> {
    let leaf = |length| ("hash of a leaf string", Some(length), 2 + share(length));
    let longest = ("hash of the longest string", None, MAX_HASHED);
    let named = std::iter::once(longest).chain(LENGTHS.map(leaf));
    let times = named.map(|(name, length, hashed)| {
        let string = Random::new(3).bytes(hashed);
        let mut digest = [0; HASH];
        let mut contest = Contest::of(name, length, || {
            calls::hash(black_box(&string), &mut digest)
                .accepted()
                .expect("lawful");
        });
        contest.against(FOREIGN, || {
            black_box(sha256::hash(black_box(&string)));
        });
        for (column, openssl) in [
            (OPENSSL_PLAIN, &others.openssl_plain),
            (OPENSSL, &others.openssl),
        ] {
            let Some(openssl) = openssl else { continue };
            assert_eq!(openssl.hash(&string), sha256::hash(&string));
            contest.against(column, || {
                black_box(openssl.hash(black_box(&string)));
            });
        }
        contest.run(rounds)
    });
    times.collect()
}
