//! The field and the erasure code.
//!
//! - Products: a (1 byte). Its 256 products with 0 to 255.
//! - Inverses: nothing. The 256 inverses of 0 to 255 (0 for 0).
//! - Powers: a (1), k (8). The power (1).
//! - Encode, and rebuild: n (2), t (2), the length of the buffer lent (4), the message or the
//!   entries. The answer, and the buffer, in which every byte past those written is untouched.
//!
//! Messages and entries are at most twice as long as an entry may be, buffers twice as long as all
//! shares of a message.

use super::{lent, Case, Kind, Part, FAR, GREATEST, UNTOUCHED};
use crate::coder::{self, frame_of, share_length, shares_of, Answer, Answer::*};
use crate::field;
use crate::limits::{INSIDE, LONGEST_ENTRY, LONGEST_MESSAGE, LONGEST_SHARE, LONGEST_SHARES};
use crate::limits::{MOST_FAULTS, MOST_PARTIES};
use crate::random::Random;

pub(super) const MOST_INPUT: usize = 2 * LONGEST_ENTRY;
pub(super) const MOST_ROOM: usize = 2 * LONGEST_SHARES;

/// Pairs n, t on which wrongly made frames are tried.
pub(super) const CHOSEN: [(usize, usize); 10] = [
    (1, 0),
    (2, 0),
    (3, 0),
    (3, 1),
    (4, 1),
    (5, 2),
    (8, 3),
    (9, 4),
    (MOST_PARTIES, 0),
    GREATEST,
];

pub(super) type Shares = Vec<Vec<u8>>;
type Call = fn(usize, usize, &[u8], &mut [u8]) -> Answer;

/// The cases so far, and the source of randomness.
struct File {
    out: Vec<Case>,
    random: Random,
}

impl File {
    /// Runs one call and writes it as a case; gives the answer and what was written.
    fn case(
        &mut self,
        kind: Kind,
        (n, t): (usize, usize),
        input: &[u8],
        room: usize,
    ) -> (Answer, Vec<u8>) {
        assert!(input.len() <= MOST_INPUT && room <= MOST_ROOM);
        let call: Call = if kind == Kind::Encode {
            coder::encode
        } else {
            coder::rebuild
        };
        let mut out = vec![UNTOUCHED; room];
        let answer = call(n, t, input, &mut out);
        self.out.push(Case {
            kind,
            given: Part::new().two(n).two(t).four(room).bytes(input),
            expected: lent(answer, &out),
        });
        out.truncate(match answer {
            Done(length) => length,
            _ => 0,
        });
        (answer, out)
    }

    /// An encode case whose answer is known beforehand.
    fn encode(&mut self, parties: (usize, usize), message: &[u8], room: usize, answer: Answer) {
        assert_eq!(
            self.case(Kind::Encode, parties, message, room).0,
            answer,
            "{parties:?}"
        );
    }

    /// A rebuild case whose answer is known beforehand.
    fn rebuild(&mut self, parties: (usize, usize), entries: &[u8], room: usize, answer: Answer) {
        assert_eq!(
            self.case(Kind::Rebuild, parties, entries, room).0,
            answer,
            "{parties:?}"
        );
    }

    /// A rebuild case that must give `message`.
    fn found(&mut self, parties: (usize, usize), shares: &Shares, room: usize, message: &[u8]) {
        let (answer, out) = self.case(Kind::Rebuild, parties, &join(shares), room);
        assert_eq!(answer, Done(message.len()), "{parties:?}");
        assert_eq!(out, message);
    }

    /// A rebuild case of b shares of `frame`, which must be refused with cause 12.
    fn wrong_frame(&mut self, (n, t): (usize, usize), frame: &[u8], room: usize) {
        let present = self.random.choice(n, n - t);
        let shares = keep(&shares_of(n, n - t, frame), present);
        self.rebuild((n, t), &join(&shares), room, Refused(12));
    }

    /// A message of up to 60 random bytes.
    fn message(&mut self) -> Vec<u8> {
        let length = self.random.below(61);
        self.random.bytes(length)
    }
}

/// The entries of n shares, an empty one standing for a missing one.
pub(super) fn join(shares: &Shares) -> Vec<u8> {
    let mut entries = Vec::new();
    for share in shares {
        entries.extend((share.len() as u16).to_be_bytes());
        entries.extend(share);
    }
    entries
}

/// The shares whose bit stands in `map`, the others missing.
pub(super) fn keep(shares: &Shares, map: u32) -> Shares {
    let there = |place: usize| (map >> place) & 1 == 1;
    let pick =
        |(place, share): (usize, &Vec<u8>)| if there(place) { share.clone() } else { vec![] };
    shares.iter().enumerate().map(pick).collect()
}

/// The shares of a message.
pub(super) fn coded((n, t): (usize, usize), message: &[u8]) -> Shares {
    shares_of(n, n - t, &frame_of(n - t, message))
}

/// A frame of `size` bytes saying `length`, whatever the body has.
pub(super) fn framed(length: usize, body: &[u8], size: usize) -> Vec<u8> {
    let mut frame = (length as u16).to_be_bytes().to_vec();
    frame.extend(body);
    frame.resize(size, 0);
    frame
}

/// Every n and t within the limits, n from `first` to `last`.
pub(super) fn pairs(first: usize, last: usize) -> Vec<(usize, usize)> {
    (first..=last)
        .flat_map(|n| (0..n.div_ceil(2)).map(move |t| (n, t)))
        .collect()
}

fn field_cases(file: &mut File) {
    for a in 0..=255u8 {
        let row: Vec<u8> = (0..=255).map(|b| field::mul(a, b)).collect();
        file.out.push(Case {
            kind: Kind::Products,
            given: Part::new().bytes(&[a]),
            expected: Part(row),
        });
    }
    file.out.push(Case {
        kind: Kind::Inverses,
        given: Part::new(),
        expected: Part((0..=255).map(field::inv).collect()),
    });
    for a in 0..=255u8 {
        let any = file.random.word();
        for k in [0, 1, 2, 3, 254, 255, any] {
            power(file, a, k);
        }
    }
    let far = [
        256,
        509,
        510,
        511,
        765,
        (1 << 16) - 1,
        1 << 16,
        1 << 32,
        (1 << 32) - 1,
        1 << 63,
    ];
    for a in [0, 1, 2, 3, 0x10, 0x53, 0x80, 0xFE, 0xFF] {
        for k in far {
            power(file, a, k);
        }
        for less in [0, 1, 2, 254, 255, 256] {
            power(file, a, u64::MAX - less);
        }
    }
}

fn power(file: &mut File, a: u8, k: u64) {
    file.out.push(Case {
        kind: Kind::Powers,
        given: Part::new().bytes(&[a]).eight(k),
        expected: Part(vec![field::pow(a, k)]),
    });
}

/// The worked cases.
fn worked_cases(file: &mut File) {
    let three = [0x41, 0x40, 0x82, 0x86, 0xC3, 0xC4];
    assert_eq!(
        file.case(Kind::Encode, (3, 1), b"AB", 6),
        (Done(6), three.to_vec())
    );
    let (answer, five) = file.case(Kind::Encode, (5, 2), b"AB", 10);
    assert_eq!(
        (answer, &five[6..]),
        (Done(10), &[0x1F, 0x11, 0x5E, 0x53][..])
    );
    let two = [0x41, 0x01, 0x82, 0x01];
    assert_eq!(
        file.case(Kind::Encode, (2, 0), b"A", 4),
        (Done(4), two.to_vec())
    );
    assert_eq!(
        file.case(Kind::Encode, (3, 1), b"", 3),
        (Done(3), vec![0; 3])
    );
    file.found(
        (3, 1),
        &vec![vec![], vec![0x82, 0x86], vec![0xC3, 0xC4]],
        2,
        b"AB",
    );
    file.found((3, 1), &vec![vec![0]; 3], 0, b"");
}

fn encode_cases(file: &mut File) {
    for (n, t) in pairs(1, MOST_PARTIES) {
        for length in [0, 1, 2, 100] {
            let needed = n * share_length(n - t, length);
            let message = file.random.bytes(length);
            file.encode((n, t), &message, needed, Done(needed));
            file.encode((n, t), &message, needed + 1, Done(needed));
            file.encode((n, t), &vec![0xFF; length], needed, Done(needed));
            if length < 100 {
                file.encode((n, t), &message, needed - 1, Short(needed));
            }
        }
        let needed = n * share_length(n - t, LONGEST_MESSAGE);
        let message = file.random.bytes(LONGEST_MESSAGE);
        file.encode((n, t), &message, needed, Done(needed));
    }
    for (n, t) in [(1, 0), (3, 1), GREATEST] {
        let needed = n * share_length(n - t, LONGEST_MESSAGE);
        file.encode((n, t), &[0xFF; LONGEST_MESSAGE], needed, Done(needed));
        file.encode((n, t), &[0xFF; LONGEST_MESSAGE], needed - 1, Short(needed));
        file.encode((n, t), &[0xFF; LONGEST_MESSAGE], 0, Short(needed));
        file.encode((n, t), b"AB", MOST_ROOM, Done(n * share_length(n - t, 2)));
    }
}

/// Messages of lengths at the edges, and rebuilt from the shares with the highest numbers.
fn edge_lengths(file: &mut File) {
    for (n, t) in [(1, 0), (3, 1), (4, 1), GREATEST] {
        for length in INSIDE.into_iter().chain([LONGEST_MESSAGE - 1]) {
            let needed = n * share_length(n - t, length);
            let message = file.random.bytes(length);
            file.encode((n, t), &message, needed, Done(needed));
            file.encode((n, t), &message, needed - 1, Short(needed));
            let shares = keep(&coded((n, t), &message), ((1 << n) - 1) << t);
            file.found((n, t), &shares, length, &message);
            file.rebuild((n, t), &join(&shares), length - 1, Short(length));
        }
    }
}

/// Causes 1, 2 and 4 of encode.
fn encode_refusals(file: &mut File) {
    let long = file.random.bytes(LONGEST_MESSAGE + 1);
    for n in [0, MOST_PARTIES + 1, MOST_PARTIES + 2, 255, 256, 257, FAR] {
        file.encode((n, 0), b"AB", 100, Refused(1));
    }
    for parties in [
        (1, 1),
        (2, 1),
        (3, 2),
        (4, 2),
        (7, 4),
        (MOST_PARTIES - 1, MOST_FAULTS + 1),
        (MOST_PARTIES, MOST_FAULTS + 1),
        (MOST_PARTIES, MOST_FAULTS + 2),
    ] {
        file.encode(parties, b"AB", 100, Refused(2));
        file.encode(parties, &long, 100, Refused(2));
        file.encode(parties, b"AB", 0, Refused(2));
    }
    for t in [127, 128, 129, 255, 256, 32_767, 32_768, 32_769, FAR] {
        file.encode((3, t), b"AB", 100, Refused(2));
        file.encode((MOST_PARTIES, t), b"AB", 100, Refused(2));
    }
    let huge = file.random.bytes(LONGEST_ENTRY + 1);
    file.encode((3, 1), &huge, LONGEST_SHARES, Refused(4));
}

/// Several causes of encode at once; the lowest is given.
fn encode_several(file: &mut File) {
    let long = file.random.bytes(LONGEST_MESSAGE + 1);
    for parties in [
        (0, 0),
        (0, 1),
        (MOST_PARTIES + 1, MOST_FAULTS + 2),
        (MOST_PARTIES + 1, FAR),
        (MOST_PARTIES + 2, MOST_FAULTS + 2),
        (FAR, 32_768),
    ] {
        file.encode(parties, b"AB", 100, Refused(1));
    }
    let above = MOST_PARTIES + 1;
    for parties in [(0, 0), (above, 0), (above, above / 2), (FAR, FAR)] {
        file.encode(parties, &long, 100, Refused(1));
        file.encode(parties, b"AB", 0, Refused(1));
    }
    for parties in [(1, 0), (2, 0), (3, 1), (MOST_PARTIES, 0), GREATEST] {
        file.encode(parties, &long, LONGEST_SHARES, Refused(4));
        file.encode(parties, &long, 0, Refused(4));
        let needed = parties.0 * share_length(parties.0 - parties.1, 0);
        file.encode(parties, b"", 0, Short(needed));
    }
}

/// Rebuilds that succeed, from exactly b shares and from more.
fn rebuild_choices(file: &mut File) {
    for (n, t) in pairs(1, 8) {
        for map in (1..1u32 << n).filter(|map| map.count_ones() as usize == n - t) {
            let message = file.message();
            let room = message.len() + file.random.below(3);
            file.found((n, t), &keep(&coded((n, t), &message), map), room, &message);
        }
        let message = file.message();
        file.found((n, t), &coded((n, t), &message), message.len(), &message);
    }
    for (n, t) in pairs(9, MOST_PARTIES) {
        for _ in 0..6 {
            let message = file.message();
            let count = n - t + file.random.below(t + 1);
            let map = file.random.choice(n, count);
            let room = message.len() + file.random.below(3);
            file.found((n, t), &keep(&coded((n, t), &message), map), room, &message);
        }
    }
    let (most, next) = (MOST_PARTIES, MOST_PARTIES - 1);
    let next = (next, (next - 1) / 2);
    for (n, t) in [(1, 0), (2, 0), (3, 1), next, (most, 0), GREATEST] {
        let message = file.random.bytes(LONGEST_MESSAGE);
        let map = file.random.choice(n, n - t);
        let shares = keep(&coded((n, t), &message), map);
        file.found((n, t), &shares, LONGEST_MESSAGE, &message);
        let answer = Short(LONGEST_MESSAGE);
        file.rebuild((n, t), &join(&shares), LONGEST_MESSAGE - 1, answer);
        file.found((n, t), &shares, MOST_ROOM, &message);
    }
}

/// Shares beyond the b lowest present ones hold rubbish, and it does not matter.
fn rebuild_ignoring(file: &mut File) {
    for (n, t) in pairs(3, MOST_PARTIES).into_iter().filter(|&(_, t)| t > 0) {
        let message = file.message();
        let shares = coded((n, t), &message);
        let count = n - t + 1 + file.random.below(t);
        let map = file.random.choice(n, count);
        let mut kept = keep(&shares, map);
        let places: Vec<usize> = (0..n).filter(|place| (map >> place) & 1 == 1).collect();
        for &place in &places[n - t..] {
            let length = 1 + file.random.below(40);
            kept[place] = file.random.bytes(length);
        }
        file.found((n, t), &kept, message.len(), &message);
    }
    let mut shares = coded((3, 1), b"AB");
    for length in [1, 2, 3, LONGEST_SHARE, LONGEST_SHARE + 1, LONGEST_ENTRY] {
        shares[2] = file.random.bytes(length);
        file.found((3, 1), &shares, 2, b"AB");
    }
}

/// Room one short, exact, and none for the empty message.
fn rebuild_room(file: &mut File) {
    for (n, t) in CHOSEN {
        for length in [1, 2, 3, 30] {
            let message = file.random.bytes(length);
            let shares = coded((n, t), &message);
            file.rebuild((n, t), &join(&shares), length - 1, Short(length));
            file.rebuild((n, t), &join(&shares), 0, Short(length));
            file.found((n, t), &shares, length, &message);
        }
        file.found((n, t), &coded((n, t), b""), 0, b"");
        file.found((n, t), &coded((n, t), b""), 5, b"");
    }
}

/// Causes 1 and 2, alone and together with later ones.
fn rebuild_parties(file: &mut File) {
    let good = join(&coded((3, 1), b"AB"));
    let above = MOST_PARTIES + 1;
    let too_many = join(&shares_of(above, above, &frame_of(above, b"AB")));
    file.rebuild((above, 0), &too_many, 100, Refused(1));
    file.rebuild((above, above / 2), &too_many, 0, Refused(1));
    file.rebuild((0, 0), b"", 100, Refused(1));
    for parties in [
        (0, 0),
        (0, 5),
        (above, above.div_ceil(2)),
        (above + 1, above.div_ceil(2)),
        (256, 0),
        (259, 1),
        (FAR, FAR),
    ] {
        file.rebuild(parties, &good, 100, Refused(1));
        file.rebuild(parties, b"", 0, Refused(1));
    }
    for t in [
        2, 3, 127, 128, 129, 255, 256, 257, 32_767, 32_768, 32_769, FAR,
    ] {
        file.rebuild((3, t), &good, 100, Refused(2));
        file.rebuild((3, t), b"", 0, Refused(2));
        file.rebuild((3, t), &[0; 6], 100, Refused(2));
        file.rebuild((3, t), &good[..good.len() - 1], 100, Refused(2));
    }
    let (most, half) = GREATEST;
    let many = join(&coded(GREATEST, b"AB"));
    file.rebuild((most, half), &many, 2, Done(2));
    file.rebuild((most, half + 1), &many, 2, Refused(2));
    file.rebuild((most, half + 2), &many, 2, Refused(2));
    file.rebuild((2, 1), &join(&coded((2, 0), b"AB")), 2, Refused(2));
    file.rebuild((1, 1), &join(&coded((1, 0), b"AB")), 2, Refused(2));
}

/// Cause 8, alone and together with 11, 12 and 9.
fn rebuild_layout(file: &mut File) {
    for (n, t) in CHOSEN {
        let message = file.random.bytes(20);
        let shares = coded((n, t), &message);
        let good = join(&shares);
        let last = good.len() - shares[n - 1].len() - 1;
        for room in [20, 0] {
            file.rebuild((n, t), &good[..good.len() - 1], room, Refused(8));
            file.rebuild((n, t), &[&good[..], &[0]].concat(), room, Refused(8));
            file.rebuild((n, t), &[&good[..], &[0, 0]].concat(), room, Refused(8));
            file.rebuild((n, t), &good[..last - 1], room, Refused(8));
            file.rebuild((n, t), &good[..last], room, Refused(8));
        }
        for length in [good[last] + 1, good[last] - 1, 0, 255] {
            let mut lying = good.clone();
            lying[last] = length;
            file.rebuild((n, t), &lying, 20, Refused(8));
        }
        let mut lying = good.clone();
        lying[last - 1..=last].fill(0xFF);
        file.rebuild((n, t), &lying, 20, Refused(8));
        for count in [0, 1, 2 * n - 1, 2 * n + 1, 2 * n + 2] {
            file.rebuild((n, t), &vec![0; count], 20, Refused(8));
        }
        lying = join(&vec![vec![1]; n]);
        lying.push(7);
        file.rebuild((n, t), &lying, 20, Refused(8));
    }
    let long = file.random.bytes(LONGEST_ENTRY + 2);
    file.rebuild(
        (1, 0),
        &[&[0xFF, 0xFF], &long[..LONGEST_ENTRY - 1]].concat(),
        9,
        Refused(8),
    );
}

/// Cause 11, alone and together with 12 and 9.
fn rebuild_too_few(file: &mut File) {
    for (n, t) in pairs(1, MOST_PARTIES) {
        let b = n - t;
        let message = file.random.bytes(10);
        let map = file.random.choice(n, b - 1);
        let mut shares = keep(&coded((n, t), &message), map);
        file.rebuild((n, t), &join(&shares), 10, Refused(11));
        file.rebuild((n, t), &join(&shares), 0, Refused(11));
        file.rebuild((n, t), &vec![0; 2 * n], 10, Refused(11));
        file.rebuild((n, t), &vec![0; 2 * n], 0, Refused(11));
        if let Some(share) = shares.iter_mut().find(|share| !share.is_empty()) {
            share.push(0);
            file.rebuild((n, t), &join(&shares), 10, Refused(11));
        }
    }
    file.rebuild((3, 1), &[0, 0, 0, 1, 9, 0, 0], 10, Refused(11));
}

/// Cause 12 by used shares of unequal lengths.
fn rebuild_unequal(file: &mut File) {
    for (n, t) in pairs(2, MOST_PARTIES) {
        let b = n - t;
        let message = file.random.bytes(3 * b);
        let map = file.random.choice(n, b);
        let shares = keep(&coded((n, t), &message), map);
        let places: Vec<usize> = (0..n).filter(|place| (map >> place) & 1 == 1).collect();
        for place in [places[0], places[b - 1]] {
            let mut changed = shares.clone();
            changed[place].push(0);
            file.rebuild((n, t), &join(&changed), 60, Refused(12));
            changed[place] = shares[place][1..].to_vec();
            file.rebuild((n, t), &join(&changed), 0, Refused(12));
        }
        let mut swapped = shares.clone();
        let byte = swapped[places[0]].pop().unwrap();
        swapped[places[1]].push(byte);
        file.rebuild((n, t), &join(&swapped), 60, Refused(12));
    }
    let over = LONGEST_SHARE + 1;
    for lengths in [
        (1, over),
        (over, 1),
        (LONGEST_SHARE, over),
        (2, 258),
        (257, 1),
    ] {
        let shares = vec![vec![0; lengths.0], vec![], vec![0; lengths.1]];
        file.rebuild((3, 1), &join(&shares), 10, Refused(12));
    }
}

/// Every small share length against every length a frame of it may say.
fn rebuild_lengths(file: &mut File) {
    for byte in [0, 1, 255] {
        file.rebuild((1, 0), &[0, 1, byte], 10, Refused(12));
        file.rebuild((1, 0), &[0, 1, byte], 0, Refused(12));
    }
    for (n, t) in CHOSEN {
        let b = n - t;
        for s in 1..=3 {
            for length in 0..b * s + 3 {
                if b * s < 2 {
                    continue;
                }
                let body = file.random.bytes(length.min(b * s - 2));
                let frame = framed(length, &body, b * s);
                if b * (s - 1) < length + 2 && length + 2 <= b * s {
                    let map = file.random.choice(n, b);
                    file.found((n, t), &keep(&shares_of(n, b, &frame), map), length, &body);
                } else {
                    file.wrong_frame((n, t), &frame, 60);
                }
            }
        }
    }
}

/// Cause 12 by the length the frame says, all else right where it can be, and room or none.
fn rebuild_over(file: &mut File) {
    for (n, t) in CHOSEN {
        let b = n - t;
        let (longest, over) = (LONGEST_MESSAGE, LONGEST_MESSAGE + 1);
        let body = file.random.bytes(over);
        let right = framed(over, &body, b * share_length(b, over));
        file.wrong_frame((n, t), &right, over);
        file.wrong_frame((n, t), &right, 0);
        let tight = framed(over, &body[..longest], b * share_length(b, longest));
        file.wrong_frame((n, t), &tight, over);
        let large = framed(
            longest,
            &body[..longest],
            b * (share_length(b, longest) + 1),
        );
        file.wrong_frame((n, t), &large, longest);
        let size = b * (share_length(b, longest) - 1);
        file.wrong_frame((n, t), &framed(longest, &body[..size - 2], size), longest);
        for length in [over, over + 1, 256 * 40, 32_768, FAR - 1, FAR] {
            file.wrong_frame((n, t), &framed(length, &body[..b * 2], b * 4), over);
            file.wrong_frame((n, t), &framed(length, &body[..b * 2], b * 4), 0);
        }
    }
}

/// Cause 12 by a non-zero byte at each offset of the filling; room or none.
fn rebuild_filling(file: &mut File) {
    for (n, t) in CHOSEN.into_iter().filter(|&(n, t)| n - t > 1) {
        let b = n - t;
        let length = 3 * b - 1;
        let body = file.random.bytes(length);
        let good = framed(length, &body, 4 * b);
        for place in length + 2..4 * b {
            let mut frame = good.clone();
            frame[place] = 1 << file.random.below(8);
            file.wrong_frame((n, t), &frame, [60, 0][place % 2]);
        }
        let mut frame = framed(0, &[], b);
        for place in [2, b - 1]
            .into_iter()
            .filter(|&place| place >= 2 && place < b)
        {
            frame[2..].fill(0);
            frame[place] = 0x80;
            file.wrong_frame((n, t), &frame, 0);
        }
    }
}

/// Cause 12 by used shares longer than any message gives.
fn rebuild_long_shares(file: &mut File) {
    let (longest, share) = (LONGEST_MESSAGE, LONGEST_SHARE);
    for (n, t) in [(1, 0), (2, 0), (3, 1), GREATEST] {
        let size = (share + 1) * (n - t);
        let body = file.random.bytes(longest);
        file.wrong_frame((n, t), &framed(longest, &body, size), longest);
        file.wrong_frame((n, t), &vec![0; size], longest);
        file.wrong_frame((n, t), &framed(longest + 1, &body, size), 0);
    }
    let filled = 2 * share - 2;
    let body = file.random.bytes(filled);
    let frame = framed(longest, &body[..longest], share + 2);
    file.wrong_frame((1, 0), &frame, longest);
    file.wrong_frame((2, 0), &framed(filled, &body, 2 * share), MOST_ROOM);
    let body = file.random.bytes(LONGEST_ENTRY);
    let filled = LONGEST_ENTRY - 2;
    let frame = framed(filled, &body[..filled], LONGEST_ENTRY);
    file.wrong_frame((1, 0), &frame, MOST_ROOM);
    let frame = framed(LONGEST_ENTRY, &body, LONGEST_ENTRY + 3);
    file.wrong_frame((2, 0), &frame, MOST_ROOM);
}

/// Entries with one bit flipped, cut short or lengthened, whatever comes of it.
fn rebuild_random(file: &mut File) {
    let all = pairs(1, MOST_PARTIES);
    for round in 0..330 {
        let (n, t) = all[file.random.below(all.len())];
        let message = file.message();
        let count = n - t + file.random.below(t + 1);
        let map = file.random.choice(n, count);
        let mut entries = join(&keep(&coded((n, t), &message), map));
        match round % 6 {
            0..=3 => {
                let place = file.random.below(entries.len());
                entries[place] ^= 1 << file.random.below(8);
            }
            4 => entries.truncate(file.random.below(entries.len())),
            _ => {
                let more = 1 + file.random.below(5);
                entries.extend(file.random.bytes(more));
            }
        }
        let room = [80, 80, file.random.below(61)][round % 3];
        file.case(Kind::Rebuild, (n, t), &entries, room);
    }
}

/// The parts, in order.
const PARTS: [fn(&mut File); 18] = [
    field_cases,
    worked_cases,
    encode_cases,
    edge_lengths,
    encode_refusals,
    encode_several,
    rebuild_choices,
    rebuild_ignoring,
    rebuild_room,
    rebuild_parties,
    rebuild_layout,
    rebuild_too_few,
    rebuild_unequal,
    rebuild_lengths,
    rebuild_over,
    rebuild_filling,
    rebuild_long_shares,
    rebuild_random,
];

pub fn cases() -> Vec<Case> {
    let mut file = File {
        out: Vec::new(),
        random: Random::new(2024),
    };
    for part in PARTS {
        part(&mut file);
    }
    file.out
}
