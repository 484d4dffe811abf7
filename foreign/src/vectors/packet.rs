//! The packets and the inboxes.
//!
//! - Reads: n (2 bytes), an offset (8), the bytes. What is read of the packet from the offset to the
//!   end, and of that of the entry at the offset: each the answer (0 silence, 1 a share), and the
//!   share's number, offset and length and the count of hashes (8 each, 0 without a share). Then the
//!   next entry's offset (8).
//! - Judgements: the session's number (4), n (2), j (2), the root (32), what was read (1: 0 silence,
//!   1 a share, 2 no packet) with the share's number, offset and length and the count of hashes (8
//!   each), the bytes. The answer: 0 for a silent, 1 for a valid and 2 for a faulty packet.
//! - Inboxes: n (1), the inbox. 1 if it is laid out well, else 0 (1).
//! - Writes: n (2), the number (2), the count of hashes (1), the length of the buffer lent (2), the
//!   first [`MOST_HASHES`] hashes, those that are not there of bytes 0xEE, the share. The answer,
//!   and the buffer, in which what is not written over is untouched; then the same of the packet's
//!   entry, for which the buffer has two bytes more.
//!
//! Bytes handed in are at most three of the longest packets; packets and shares have at most a byte
//! more than may be, paths a hash more, buffers for a packet [`MOST_ROOM`] bytes.

use std::cmp::Ordering;

use super::{Answer, Case, Kind, Part, FAR, UNTOUCHED};
use crate::inbox::{laid_out, lay_out};
use crate::limits::{INSIDE, LONGEST_PACKET, LONGEST_SHARE, MOST_HASHES, MOST_PARTIES};
use crate::packet::{self, classify, classify_at, read_entry, write_into};
use crate::packet::{Place, Reading, Standing, HEADER};
use crate::random::Random;
use crate::sessions::{another, in_place, EDGES};
use crate::sha256::{hash, Hash};
use crate::tree::{self, leaf_string, node, path_length};

const SILENCE: Answer = Answer::Done(0);
const SHARE: Answer = Answer::Done(1);
const SILENT: Answer = Answer::Done(0);
const VALID: Answer = Answer::Done(1);
const FAULTY: Answer = Answer::Done(2);
const SHORT: Answer = Answer::Refused(8);
const UNREADABLE: Answer = Answer::Refused(10);
const UNSTORED: Hash = [0xEE; 32];
const LARGEST_INBOX: usize = 3 * LONGEST_PACKET;
const MOST_ROOM: usize = LONGEST_PACKET + 100;

/// The party counts tried.
const CHOSEN: [usize; 5] = [1, 2, 3, 5, MOST_PARTIES];

/// Numbers far past any bytes; with 32 for each of so many hashes some sums wrap.
const PAST_ALL: [usize; 5] = [FAR, FAR + 1, 1 << 59, 1 << 63, usize::MAX];

/// Party counts with a number whose packet is tried in many ways.
const PAIRS: [(usize, usize); 8] = [
    (1, 1),
    (2, 1),
    (2, 2),
    (3, 1),
    (3, 3),
    (5, 1),
    (5, 5),
    (MOST_PARTIES, MOST_PARTIES),
];

/// The lowest and the highest number of n, which may be one.
fn ends(n: usize) -> Vec<usize> {
    if n == 1 {
        vec![1]
    } else {
        vec![1, n]
    }
}

/// A good packet, what it was made of, and the root it passes under.
#[derive(Clone)]
struct Good {
    session: u32,
    n: usize,
    j: usize,
    root: Hash,
    share: Vec<u8>,
    path: Vec<Hash>,
    bytes: Vec<u8>,
}

/// What the writer is called with.
#[derive(Clone)]
struct Call {
    n: usize,
    number: usize,
    share: Vec<u8>,
    path: Vec<Hash>,
    room: usize,
}

impl Good {
    /// Where the share lies, if the packet begins at a place.
    fn place(&self, at: usize) -> Place {
        Place {
            number: self.j,
            from: at + HEADER,
            length: self.share.len(),
            hashes: self.path.len(),
        }
    }

    /// The call that writes this packet into a buffer of its length.
    fn call(&self) -> Call {
        Call {
            n: self.n,
            number: self.j,
            share: self.share.clone(),
            path: self.path.clone(),
            room: self.bytes.len(),
        }
    }
}

impl Call {
    /// The call with something changed.
    fn with(&self, change: impl FnOnce(&mut Call)) -> Call {
        let mut call = self.clone();
        change(&mut call);
        call
    }
}

/// The cases so far, the source of randomness, and the place of the next session in their list.
struct File {
    out: Vec<Case>,
    random: Random,
    sessions: usize,
}

/// A share's number, its place and length, and the count of hashes.
fn numbers_of(part: Part, share: [usize; 4]) -> Part {
    share
        .into_iter()
        .fold(part, |part, number| part.eight(number as u64))
}

/// The answer for what was read of a packet that begins at a place, and its share by its place.
fn placed(reading: Reading, bytes: &[u8], at: usize) -> (Answer, [usize; 4]) {
    match reading {
        Reading::Refused(cause) => (Answer::Refused(cause), [0; 4]),
        Reading::Silence => (SILENCE, [0; 4]),
        Reading::Share {
            number,
            share,
            path,
        } => {
            let from = at + HEADER;
            let lies = bytes[from..].starts_with(&[&share[..], &path.concat()].concat());
            assert!(lies);
            (SHARE, [number, from, share.len(), path.len()])
        }
    }
}

/// The answer for a packet's standing.
fn answered(standing: Result<Standing, u32>) -> Answer {
    match standing {
        Ok(Standing::Silent) => SILENT,
        Ok(Standing::Valid(_)) => VALID,
        Ok(Standing::Faulty) => FAULTY,
        Err(cause) => Answer::Refused(cause),
    }
}

impl File {
    /// The next session's number; the first is 0.
    fn session(&mut self) -> u32 {
        self.sessions += 1;
        in_place(self.sessions - 1)
    }

    /// Packet j of n over random shares of this length, in the next session.
    fn good(&mut self, n: usize, j: usize, length: usize) -> Good {
        let session = self.session();
        let shares: Vec<Vec<u8>> = (0..n).map(|_| self.random.bytes(length)).collect();
        let path = tree::path(session, &shares, j);
        Good {
            session,
            n,
            j,
            root: tree::root(session, &shares),
            bytes: packet::write(j, &shares[j - 1], &path),
            share: shares[j - 1].clone(),
            path,
        }
    }

    fn random_hash(&mut self) -> Hash {
        hash(&self.random.bytes(8))
    }

    /// Reads the bytes at a place, to the end and as an entry, and writes that as a case; gives
    /// both answers and the next entry's place.
    fn tried_at(&mut self, n: usize, bytes: &[u8], at: usize) -> (Answer, Answer, usize) {
        assert!(bytes.len() <= LARGEST_INBOX);
        let rest = bytes.get(at..).unwrap_or(b"");
        let (to_end, share) = placed(packet::read(n, rest), bytes, at);
        let (reading, next) = read_entry(n, bytes, at);
        let (entry, behind) = placed(reading, bytes, at.saturating_add(2));
        let told = numbers_of(Part::new().answer(to_end), share);
        self.out.push(Case {
            kind: Kind::Reads,
            given: Part::new().two(n).eight(at as u64).bytes(bytes),
            expected: numbers_of(told.answer(entry), behind).eight(next as u64),
        });
        (to_end, entry, next)
    }

    /// A reading from the start to the end whose answer is known beforehand.
    fn read(&mut self, n: usize, bytes: &[u8], answer: Answer) {
        let (found, ..) = self.tried_at(n, bytes, 0);
        assert_eq!(found, answer, "n {n}, bytes {bytes:?}");
    }

    /// An entry whose answer and next place are known beforehand.
    fn entry(&mut self, n: usize, bytes: &[u8], at: usize, answer: Answer, next: usize) {
        let (_, found, behind) = self.tried_at(n, bytes, at);
        assert_eq!((found, behind), (answer, next), "n {n}, at {at}");
    }

    /// Writes the judgement of what was read of the bytes as a case.
    fn judgement(
        &mut self,
        session: u32,
        (n, j): (usize, usize),
        root: Hash,
        (read, share): (usize, [usize; 4]),
        bytes: &[u8],
        answer: Answer,
    ) {
        let numbers = Part::new().session(session).two(n).two(j);
        let demand = numbers.bytes(&root).one(read);
        self.out.push(Case {
            kind: Kind::Judgements,
            given: numbers_of(demand, share).bytes(bytes),
            expected: Part::new().answer(answer),
        });
    }

    /// Finds the standing of the bytes and writes it as a case; gives the answer.
    fn stood(&mut self, session: u32, n: usize, j: usize, root: Hash, bytes: &[u8]) -> Answer {
        let answer = answered(classify(session, n, j, root, bytes));
        let read = match placed(packet::read(n, bytes), bytes, 0) {
            (SILENCE, share) => (0, share),
            (SHARE, share) => (1, share),
            (_, share) => (2, share),
        };
        self.judgement(session, (n, j), root, read, bytes, answer);
        answer
    }

    /// The standing of a share that is said to lie at a place, which is known beforehand.
    fn stands_at(
        &mut self,
        session: u32,
        (n, j): (usize, usize),
        root: Hash,
        bytes: &[u8],
        place: Place,
        answer: Answer,
    ) {
        let found = answered(classify_at(session, (n, j), root, bytes, place));
        assert_eq!(found, answer, "n {n}, j {j}, {place:?}");
        let share = [place.number, place.from, place.length, place.hashes];
        self.judgement(session, (n, j), root, (1, share), bytes, answer);
    }

    /// A standing that is known beforehand.
    fn stands(
        &mut self,
        session: u32,
        n: usize,
        j: usize,
        root: Hash,
        bytes: &[u8],
        answer: Answer,
    ) {
        let found = self.stood(session, n, j, root, bytes);
        assert_eq!(found, answer, "n {n}, j {j}, bytes {bytes:?}");
    }

    /// Bytes that came instead of a good packet, read and then held against its number.
    fn instead(&mut self, good: &Good, bytes: &[u8], reading: Answer, standing: Answer) {
        self.read(good.n, bytes, reading);
        self.stands(good.session, good.n, good.j, good.root, bytes, standing);
    }

    /// Bytes that cannot be read, in place of a good packet.
    fn unreadable(&mut self, good: &Good, bytes: &[u8]) {
        self.instead(good, bytes, UNREADABLE, FAULTY);
    }

    /// Judges an inbox's layout and writes that as a case; gives the answer.
    fn judged(&mut self, n: usize, bytes: &[u8]) -> bool {
        assert!(bytes.len() <= LARGEST_INBOX);
        let well = laid_out(n, bytes);
        self.out.push(Case {
            kind: Kind::Inboxes,
            given: Part::new().one(n).bytes(bytes),
            expected: Part::new().one(well.into()),
        });
        well
    }

    /// An inbox whose layout is known beforehand.
    fn inbox(&mut self, n: usize, bytes: &[u8], well: bool) {
        assert_eq!(self.judged(n, bytes), well, "n {n}, bytes {bytes:?}");
    }

    /// Writes a packet, and that as a case; the answer is known beforehand.
    fn write(&mut self, call: &Call, answer: Answer) {
        assert!(call.share.len() <= LONGEST_SHARE + 1 && call.path.len() <= MOST_HASHES + 1);
        assert!(call.room <= MOST_ROOM);
        let mut out = vec![UNTOUCHED; call.room];
        let parties = (call.n, call.number);
        let (found, written) = match write_into(parties, &call.share, &call.path, &mut out) {
            Ok(length) => (Answer::Done(length), length),
            Err((9, needed)) => (Answer::Short(needed), 0),
            Err((cause, _)) => (Answer::Refused(cause), 0),
        };
        assert_eq!(found, answer, "n {}, j {}", call.n, call.number);
        assert!(out[written..].iter().all(|&x| x == UNTOUCHED));
        let (entry, front) = match found {
            Answer::Done(length) => (Answer::Done(length + 2), (length as u16).to_be_bytes()),
            Answer::Short(needed) => (Answer::Short(needed + 2), [UNTOUCHED; 2]),
            other => (other, [UNTOUCHED; 2]),
        };
        let mut path = call.path.clone();
        path.resize(MOST_HASHES, UNSTORED);
        let numbers = Part::new().two(call.n).two(call.number);
        let lengths = numbers.one(call.path.len()).two(call.room);
        let alone = Part::new().answer(found).bytes(&out);
        self.out.push(Case {
            kind: Kind::Writes,
            given: lengths.bytes(&path.concat()).bytes(&call.share),
            expected: alone.answer(entry).bytes(&front).bytes(&out),
        });
    }
}

/// Every number with a short share, and one number with the longest.
fn good_packets(file: &mut File) {
    for n in CHOSEN {
        for j in 1..=n {
            let good = file.good(n, j, 1 + (n + j) % 5);
            file.instead(&good, &good.bytes, SHARE, VALID);
        }
        let good = file.good(n, n.div_ceil(2), LONGEST_SHARE);
        file.instead(&good, &good.bytes, SHARE, VALID);
    }
    for length in 1..=5 {
        let good = file.good(1, 1, length);
        file.instead(&good, &good.bytes, SHARE, VALID);
    }
    let edges = INSIDE.map(|length| length + 2).into_iter();
    for length in edges.chain([255, 256, 257, 512, LONGEST_SHARE - 1]) {
        let good = file.good(1, 1, length);
        file.read(1, &good.bytes, SHARE);
    }
    for length in INSIDE {
        let good = file.good(3, 2, length + 2);
        file.instead(&good, &good.bytes, SHARE, VALID);
        file.unreadable(&good, &good.bytes[..good.bytes.len() - 1]);
    }
}

/// Paths that belong to no tree of shares: the check asks only whether they fold.
fn made_up_paths(file: &mut File) {
    for n in CHOSEN {
        let (session, share) = (file.session(), file.random.bytes(3));
        let path: Vec<Hash> = (0..path_length(n, 1)).map(|_| file.random_hash()).collect();
        let leaf = hash(&leaf_string(session, 1, &share));
        let root = path.iter().fold(leaf, |below, &right| node(below, right));
        let bytes = packet::write(1, &share, &path);
        file.stands(session, n, 1, root, &bytes, VALID);
        if n > 1 {
            let turned = path.iter().fold(leaf, |below, &left| node(left, below));
            file.stands(session, n, 1, turned, &bytes, FAULTY);
        }
    }
}

/// Packets cut off at every byte, and with one byte more behind or one fewer in front.
/// Cuts inside a long path are read, but not all held against the number.
fn cuts(file: &mut File) {
    for (n, j) in PAIRS {
        let good = file.good(n, j, 2);
        let whole = good.bytes.len();
        file.instead(&good, b"", SILENCE, SILENT);
        for length in 1..whole {
            let bytes = &good.bytes[..length];
            file.read(n, bytes, UNREADABLE);
            let missing = whole - length;
            if good.path.len() < 3 || length <= HEADER + 2 || [0, 1, 31].contains(&(missing % 32)) {
                file.stands(good.session, n, j, good.root, bytes, FAULTY);
            }
        }
        file.unreadable(&good, &good.bytes[1..]);
        for more in [0, 7, 255] {
            file.unreadable(&good, &[&good.bytes[..], &[more]].concat());
        }
    }
    let good = file.good(MOST_PARTIES, 9, LONGEST_SHARE);
    file.unreadable(&good, &good.bytes[..LONGEST_PACKET - 1]);
    file.unreadable(&good, &[&good.bytes[..], &[0]].concat());
}

/// Each bit of a packet flipped in turn, for each of the chosen numbers of parties.
fn flips(file: &mut File) {
    for (n, j) in [(1, 1), (2, 2), (3, 1), (5, 5), (MOST_PARTIES, 11)] {
        let good = file.good(n, j, 1);
        for place in 0..good.bytes.len() {
            flip_byte(file, &good, place);
        }
    }
}

/// Each bit of one byte flipped in turn: a share or path stays readable, map and length do
/// not, and a number does if its path is as long.
fn flip_byte(file: &mut File, good: &Good, place: usize) {
    for bit in 0..8 {
        let mut bytes = good.bytes.clone();
        bytes[place] ^= 1 << bit;
        let number = usize::from(bytes[1]);
        let readable = match place {
            1 => (1..=good.n).contains(&number) && path_length(good.n, number) == good.path.len(),
            0..HEADER => false,
            _ => true,
        };
        let reading = if readable { SHARE } else { UNREADABLE };
        file.instead(good, &bytes, reading, FAULTY);
    }
}

/// Every map alone and in front of what follows a good one.
fn maps(file: &mut File) {
    let (one, three) = (file.good(1, 1, 2), file.good(3, 3, 1));
    for map in 0..=255 {
        file.read(1, &[map], if map == 0 { SILENCE } else { UNREADABLE });
        let good_map = map == 7;
        let reading = if good_map { SHARE } else { UNREADABLE };
        let standing = if good_map { VALID } else { FAULTY };
        let rest = &one.bytes[1..];
        file.instead(&one, &[&[map], rest].concat(), reading, standing);
        let rest = &three.bytes[1..];
        file.read(3, &[&[map], rest].concat(), reading);
    }
    for map in [1, 2, 3, 4, 5, 6, 7, 8, 128, 255] {
        file.stands(one.session, 1, 1, one.root, &[map], FAULTY);
        file.read(MOST_PARTIES, &[map], UNREADABLE);
    }
}

/// Map 0 is silence when alone only.
fn silence(file: &mut File) {
    for n in CHOSEN {
        for j in ends(n) {
            let good = file.good(n, j, 3);
            file.instead(&good, b"", SILENCE, SILENT);
            file.instead(&good, &[0], SILENCE, SILENT);
            for next in [0, 1, 7, 255] {
                file.unreadable(&good, &[0, next]);
            }
            file.unreadable(&good, &[&[0], &good.bytes[..]].concat());
            file.unreadable(&good, &[0; 6]);
        }
    }
}

/// Another number in a good packet.
fn numbers(file: &mut File) {
    for (n, j) in PAIRS {
        let good = file.good(n, j, 2);
        let above = MOST_PARTIES + 1;
        for number in (0..=n + 1).chain([above, above + 1, 128 + j, 239 + j, 255]) {
            let mut bytes = good.bytes.clone();
            bytes[1] = number as u8;
            let known = (1..=n).contains(&number);
            let readable = known && path_length(n, number) == good.path.len();
            let reading = if readable { SHARE } else { UNREADABLE };
            let standing = if number == j { VALID } else { FAULTY };
            file.instead(&good, &bytes, reading, standing);
        }
    }
}

/// Stated share lengths that are not the share's, or that no share may have.
fn stated_lengths(file: &mut File) {
    // Lengths that lead back to the packet's end if sums wrap at two to the 16.
    file.read(MOST_PARTIES, &[7, 1, 0xFF, 0x80], UNREADABLE);
    file.read(2, &[7, 1, 0xFF, 0xE1, 9], UNREADABLE);
    let long = file.good(2, 1, LONGEST_SHARE + 1);
    file.unreadable(&long, &long.bytes);
    for n in CHOSEN {
        for j in ends(n) {
            let good = file.good(n, j, 4);
            let longest = LONGEST_SHARE as u16;
            let near = [0, 1, 3, 5, 36, 4 << 8, 260, longest, longest + 1];
            for length in near.into_iter().chain([32_772, u16::MAX]) {
                let mut bytes = good.bytes.clone();
                bytes[2..HEADER].copy_from_slice(&length.to_be_bytes());
                file.unreadable(&good, &bytes);
                file.read(n, &bytes[..HEADER], UNREADABLE);
            }
            let mut bytes = good.bytes.clone();
            bytes[3] += 1;
            bytes.push(0);
            file.instead(&good, &bytes, SHARE, FAULTY);
            bytes[3] -= 2;
            bytes.truncate(good.bytes.len() - 1);
            file.instead(&good, &bytes, SHARE, FAULTY);
        }
        let empty = file.good(n, 1, 0);
        file.unreadable(&empty, &empty.bytes);
        let long = file.good(n, n, LONGEST_SHARE + 1);
        file.read(n, &long.bytes, UNREADABLE);
    }
}

/// Paths of every count of hashes, and the right hashes in the wrong order.
fn path_counts(file: &mut File) {
    for n in CHOSEN {
        for j in ends(n) {
            let good = file.good(n, j, 3);
            let right = good.path.len();
            let mut hashes = good.path.clone();
            while hashes.len() <= MOST_HASHES {
                hashes.push(file.random_hash());
            }
            for count in (0..=MOST_HASHES + 1).filter(|&count| count != right) {
                let bytes = packet::write(j, &good.share, &hashes[..count]);
                file.unreadable(&good, &bytes);
            }
            if right > 1 {
                let turned: Vec<Hash> = good.path.iter().rev().copied().collect();
                let bytes = packet::write(j, &good.share, &turned);
                file.instead(&good, &bytes, SHARE, FAULTY);
            }
        }
    }
}

/// Good packets read among one party fewer and one more: still good where the way up stays
/// the same.
fn other_sizes(file: &mut File) {
    for n in CHOSEN {
        for j in 1..=n {
            let good = file.good(n, j, 1);
            for m in [n - 1, n + 1] {
                let (reading, ..) = file.tried_at(m, &good.bytes, 0);
                let standing = file.stood(good.session, m, j, good.root, &good.bytes);
                let allowed = (1..=MOST_PARTIES).contains(&m);
                let readable = allowed && j <= m && path_length(m, j) == good.path.len();
                assert_eq!(reading == SHARE, readable);
                assert!(readable || standing != VALID);
            }
        }
    }
}

/// No such n, whatever the bytes and whatever is demanded.
fn bad_sizes(file: &mut File) {
    let above = MOST_PARTIES + 1;
    for (place, n) in [1, 3, MOST_PARTIES].into_iter().enumerate() {
        let good = file.good(n, 1, 2);
        for bad in [0, above, above + 1, 255, 256, 256 + n, FAR] {
            for bytes in [&b""[..], &[0], &[0, 0], &[7], &good.bytes] {
                file.read(bad, bytes, Answer::Refused(1));
            }
            for (j, bytes) in [(1, &good.bytes[..]), (0, b""), (bad + place, &[0])] {
                let j = j.min(FAR);
                file.stands(good.session, bad, j, good.root, bytes, Answer::Refused(1));
            }
        }
    }
}

/// Another number demanded than the packet bears, or one that nobody bears.
fn demands(file: &mut File) {
    for n in CHOSEN {
        for number in if n == MOST_PARTIES { 12..=12 } else { 1..=n } {
            let good = file.good(n, number, 1 + n % 3);
            for j in 1..=n {
                let standing = if j == number { VALID } else { FAULTY };
                file.stands(good.session, n, j, good.root, &good.bytes, standing);
            }
            for j in [0, n + 1, 255, 256, 256 + number, FAR] {
                let refused = Answer::Refused(3);
                file.stands(good.session, n, j, good.root, &good.bytes, refused);
            }
        }
        let (session, root) = (file.session(), file.random_hash());
        for j in [0, n + 1, FAR] {
            for bytes in [&b""[..], &[0], &[0, 0], &[7]] {
                file.stands(session, n, j, root, bytes, Answer::Refused(3));
            }
        }
    }
}

/// A good packet under another root.
fn other_roots(file: &mut File) {
    for n in CHOSEN {
        for j in ends(n) {
            let good = file.good(n, j, 2);
            let mut roots = vec![file.random_hash(), [0; 32], [0xFF; 32]];
            roots.push(hash(&leaf_string(good.session, j, &good.share)));
            for place in [0, 1, 15, 16, 30, 31] {
                let mut root = good.root;
                root[place] ^= 1 << file.random.below(8);
                roots.push(root);
            }
            for root in roots {
                let standing = if root == good.root { VALID } else { FAULTY };
                file.stands(good.session, n, j, root, &good.bytes, standing);
            }
            file.stands(good.session, n, j, good.root, &good.bytes, VALID);
        }
    }
}

/// A good packet in another session, and at its place in an inbox.
fn other_sessions(file: &mut File) {
    for n in CHOSEN {
        for j in ends(n) {
            let good = file.good(n, j, 2);
            let near = another(good.session, &mut file.random);
            for session in EDGES.into_iter().chain([near]) {
                let standing = if session == good.session {
                    VALID
                } else {
                    FAULTY
                };
                file.stands(session, n, j, good.root, &good.bytes, standing);
            }
            let bytes = lay_out(&[&good.bytes]);
            file.stands_at(near, (n, j), good.root, &bytes, good.place(2), FAULTY);
        }
    }
}

/// Inboxes walked from entry to entry, good packets, silence and rubbish; each good packet is judged
/// where it lies.
fn walks(file: &mut File) {
    for n in CHOSEN {
        let goods: Vec<Good> = (1..=n).map(|j| file.good(n, j, 1 + j % 3)).collect();
        let mut packets: Vec<Vec<u8>> = goods.iter().map(|good| good.bytes.clone()).collect();
        let mut answers = vec![SHARE; n];
        packets.extend([vec![], vec![0], vec![7; 6], packets[0].clone()]);
        answers.extend([SILENCE, SILENCE, UNREADABLE, SHARE]);
        let bytes = lay_out(&packets);
        let mut at = 0;
        for (place, (packet, answer)) in packets.iter().zip(answers).enumerate() {
            let next = at + 2 + packet.len();
            file.entry(n, &bytes, at, answer, next);
            if let Some(good) = goods.get(place) {
                judged_there(file, good, &bytes, at + 2);
            }
            at = next;
        }
        file.entry(n, &bytes, at, SHORT, at);
    }
}

/// A good packet judged at a place, and there under another root and another number.
fn judged_there(file: &mut File, good: &Good, bytes: &[u8], at: usize) {
    let Good {
        session,
        n,
        j,
        root,
        ..
    } = *good;
    let place = good.place(at);
    file.stands_at(session, (n, j), root, bytes, place, VALID);
    let other = file.random_hash();
    file.stands_at(session, (n, j), other, bytes, place, FAULTY);
    if n > 1 {
        file.stands_at(session, (n, j % n + 1), root, bytes, place, FAULTY);
    }
}

/// Two entries cut at every byte, and with a last length that lies: an entry that runs short stays
/// where it is.
fn short_entries(file: &mut File) {
    for n in CHOSEN {
        let packets = [file.good(n, n, 2).bytes, file.good(n, 1, 1).bytes];
        let bytes = lay_out(&packets);
        let last = 2 + packets[0].len();
        for length in 0..bytes.len() {
            let cut = &bytes[..length];
            if length < last {
                file.entry(n, cut, 0, SHORT, 0);
            } else {
                file.entry(n, cut, 0, SHARE, last);
                file.entry(n, cut, last, SHORT, last);
            }
        }
        let right = packets[1].len();
        for length in [right - 1, right, right + 1, 65_535] {
            let mut bytes = bytes.clone();
            bytes[last..last + 2].copy_from_slice(&(length as u16).to_be_bytes());
            let (answer, next) = match length.cmp(&right) {
                Ordering::Less => (UNREADABLE, last + 2 + length),
                Ordering::Equal => (SHARE, last + 2 + length),
                Ordering::Greater => (SHORT, last),
            };
            file.entry(n, &bytes, last, answer, next);
        }
    }
}

/// Places at the end and past it; numbers of parties out of their range are told first.
fn far_places(file: &mut File) {
    let good = file.good(3, 2, 2);
    let bytes = lay_out(&[&good.bytes]);
    let end = bytes.len();
    let near = [end - 1, end, end + 1, usize::MAX - 2, usize::MAX - 1];
    for at in near.into_iter().chain(PAST_ALL) {
        for bytes in [&bytes[..], b"", &[0]] {
            file.entry(3, bytes, at, SHORT, at);
        }
        for n in [0, 17, 65_535] {
            file.entry(n, &bytes, at, Answer::Refused(1), at);
        }
    }
    for n in [0, 17] {
        file.entry(n, &bytes, 0, Answer::Refused(1), 0);
    }
}

/// Packets behind other bytes, from their place to the end.
fn packets_behind(file: &mut File) {
    for n in CHOSEN {
        let good = file.good(n, n, 3);
        for front in [1, 2, 7, 300] {
            let bytes = [&file.random.bytes(front)[..], &good.bytes].concat();
            let cut = &bytes[..bytes.len() - 1];
            for (bytes, at, answer) in [
                (&bytes[..], front, SHARE),
                (cut, front, UNREADABLE),
                (&bytes, bytes.len(), SILENCE),
            ] {
                let (found, ..) = file.tried_at(n, bytes, at);
                assert_eq!(found, answer, "n {n}, at {at}");
            }
        }
    }
}

/// Shares that are said to lie where they do not, and bytes that end before them.
fn false_places(file: &mut File) {
    for (n, j) in PAIRS {
        let good = file.good(n, j, 4);
        let Good { session, root, .. } = good;
        let bytes = [&[9; 5][..], &good.bytes, &[9]].concat();
        let (place, end) = (good.place(5), bytes.len() - 1);
        for length in [end + 1, end] {
            file.stands_at(session, (n, j), root, &bytes[..length], place, VALID);
        }
        for length in [end - 1, end - 4, 9, 5, 0] {
            file.stands_at(session, (n, j), root, &bytes[..length], place, FAULTY);
        }
        let near = [1, 2, 32, 256, usize::MAX - 8, usize::MAX - 3];
        for change in near.into_iter().chain(PAST_ALL) {
            for place in changed(place, change) {
                file.stands_at(session, (n, j), root, &bytes, place, FAULTY);
            }
        }
    }
}

/// A place with so much added to each of its numbers in turn; sums wrap.
fn changed(place: Place, change: usize) -> [Place; 4] {
    let number = place.number.wrapping_add(change);
    let from = place.from.wrapping_add(change);
    let length = place.length.wrapping_add(change);
    let hashes = place.hashes.wrapping_add(change);
    [
        Place { number, ..place },
        Place { from, ..place },
        Place { length, ..place },
        Place { hashes, ..place },
    ]
}

/// Shares that lead to the root, of lengths that no reader tells too: none, and one too many.
fn false_lengths(file: &mut File) {
    let lengths = [0, 1, LONGEST_SHARE, LONGEST_SHARE + 1];
    for (length, answer) in lengths.into_iter().zip([VALID, VALID, VALID, FAULTY]) {
        let (session, bytes) = (file.session(), file.random.bytes(2 + length));
        let root = hash(&leaf_string(session, 1, &bytes[2..]));
        let place = Place {
            number: 1,
            from: 2,
            length,
            hashes: 0,
        };
        file.stands_at(session, (1, 1), root, &bytes, place, answer);
        for (n, j, cause) in [(0, 1, 1), (17, 0, 1), (1, 0, 3), (1, 2, 3), (1, 65_535, 3)] {
            let refused = Answer::Refused(cause);
            file.stands_at(session, (n, j), root, &bytes, place, refused);
        }
    }
}

/// The packets of n senders for number j, the own entry empty.
fn letters(file: &mut File, n: usize, j: usize, length: usize) -> Vec<Vec<u8>> {
    let mut packets: Vec<Vec<u8>> = (0..n).map(|_| file.good(n, j, length).bytes).collect();
    packets[j - 1].clear();
    packets
}

/// Inboxes of good packets, of silence, of rubbish, and with the own entry filled.
fn good_inboxes(file: &mut File) {
    for n in CHOSEN {
        file.inbox(n, &vec![0; 2 * n], true);
        let silent = vec![[0]; n];
        file.inbox(n, &lay_out(&silent), true);
        let mut packets = letters(file, n, n, 2);
        let bytes = lay_out(&packets);
        file.inbox(n, &bytes, true);
        around(file, n, &bytes);
        packets[n - 1] = file.random.bytes(7);
        let bytes = lay_out(&packets);
        file.inbox(n, &bytes, true);
        if n < MOST_PARTIES {
            around(file, n, &bytes);
        }
    }
    for n in [1, 2] {
        let mut packets = letters(file, n, 1, LONGEST_SHARE);
        packets[0] = file.random.bytes(LONGEST_PACKET);
        let bytes = lay_out(&packets);
        file.inbox(n, &bytes, true);
        around(file, n, &bytes);
    }
}

/// A good inbox short by one byte and long by one.
fn around(file: &mut File, n: usize, bytes: &[u8]) {
    file.inbox(n, &bytes[..bytes.len() - 1], false);
    file.inbox(n, &[bytes, &[0]].concat(), false);
}

/// Inboxes of short entries, some empty, cut at every byte and with entries too many.
fn cut_inboxes(file: &mut File) {
    for n in CHOSEN {
        let packets: Vec<Vec<u8>> = (0..n).map(|i| file.random.bytes(i % 4)).collect();
        let bytes = lay_out(&packets);
        for length in 0..=bytes.len() {
            file.inbox(n, &bytes[..length], length == bytes.len());
        }
        for more in [&[0][..], &[255], &[0, 0], &[0, 1, 9]] {
            file.inbox(n, &[&bytes, more].concat(), false);
        }
        for m in [n - 1, n + 1] {
            if (1..=MOST_PARTIES).contains(&m) {
                file.inbox(m, &bytes, false);
            }
        }
    }
}

/// One length that lies: one more, one less, its bytes swapped, or far too much. In the
/// last entry no lie goes unseen; elsewhere the bytes behind may happen to fit.
fn lying_inboxes(file: &mut File) {
    for n in CHOSEN {
        let packets: Vec<Vec<u8>> = (0..n).map(|i| file.random.bytes(1 + i % 3)).collect();
        let bytes = lay_out(&packets);
        let mut place = 0;
        for packet in &packets {
            let length = packet.len() as u16;
            let swapped = length.swap_bytes();
            let back = 0u16.wrapping_sub(bytes.len() as u16);
            let far = [1 << 15, u16::MAX - 2, u16::MAX - 1, u16::MAX, back];
            let lies = [length + 1, length - 1, swapped];
            for lie in lies.into_iter().chain(far) {
                let mut bytes = bytes.clone();
                bytes[place..place + 2].copy_from_slice(&lie.to_be_bytes());
                let well = file.judged(n, &bytes);
                assert!(!well || place + 2 + packet.len() < bytes.len());
            }
            place += 2 + packet.len();
        }
    }
}

/// Lies that fit: a length takes over the entry behind it, which is made up by another.
fn fitting_inboxes(file: &mut File) {
    file.inbox(2, &[0, 3, 0, 0, 0, 0, 0], true);
    file.inbox(2, &[0, 0, 0, 3, 0, 0, 0], true);
    file.inbox(3, &[0, 2, 0, 1, 0, 0, 0, 1, 0], true);
    file.inbox(3, &[0, 0, 0, 1, 0, 0, 0], true);
    file.inbox(3, &[0, 1, 0, 0, 0, 0, 0], true);
    // The second length leads back into the first entry if offsets wrap at two to the 16.
    file.inbox(3, &[0, 3, 0, 3, 9, 0xFF, 0xFB], false);
    file.inbox(1, &[0], false);
    file.inbox(1, &[1], false);
    file.inbox(1, &[0, 1], false);
    file.inbox(1, &[1, 0], false);
    file.inbox(1, &[0, 1, 7], true);
    let bytes = [&[1, 0][..], &[7; 256]].concat();
    file.inbox(1, &bytes, true);
    file.inbox(1, &bytes[..257], false);
    file.inbox(2, &bytes, false);
    for n in CHOSEN {
        file.inbox(n, b"", false);
    }
}

/// Every number written into exactly enough room, and some with more and with less.
fn written(file: &mut File) {
    for n in CHOSEN {
        for j in 1..=n {
            let good = file.good(n, j, 1 + (n * j) % 5);
            file.write(&good.call(), Answer::Done(good.bytes.len()));
        }
        for j in ends(n) {
            let good = file.good(n, j, 3);
            rooms(file, &good);
        }
    }
    for n in [1, MOST_PARTIES] {
        let good = file.good(n, n.div_ceil(2), LONGEST_SHARE);
        let needed = good.bytes.len();
        file.write(&good.call(), Answer::Done(needed));
        let call = good.call().with(|call| call.room -= 1);
        file.write(&call, Answer::Short(needed));
    }
}

/// One good packet, and rooms about its length and far from it.
fn rooms(file: &mut File, good: &Good) {
    let needed = good.bytes.len();
    for room in [needed, needed + 1, MOST_ROOM] {
        let call = good.call().with(|call| call.room = room);
        file.write(&call, Answer::Done(needed));
    }
    for room in [needed - 1, needed - good.share.len(), 1, 0] {
        let call = good.call().with(|call| call.room = room);
        file.write(&call, Answer::Short(needed));
    }
}

/// Each cause alone, the rest of the call being right.
fn unwritten(file: &mut File) {
    for n in CHOSEN {
        for j in ends(n) {
            let good = file.good(n, j, 2).call();
            for n in [0, MOST_PARTIES + 1, 255, 256, 256 + n, FAR] {
                file.write(&good.with(|call| call.n = n), Answer::Refused(1));
            }
            for number in [0, n + 1, 255, 256, 256 + j, FAR] {
                file.write(&good.with(|call| call.number = number), Answer::Refused(3));
            }
            let roomy = good.with(|call| call.room = MOST_ROOM);
            file.write(&roomy.with(|call| call.share.clear()), Answer::Refused(10));
            for count in (0..=MOST_HASHES + 1).filter(|&count| count != good.path.len()) {
                let path = (0..count).map(|_| file.random_hash()).collect();
                file.write(&roomy.with(|call| call.path = path), Answer::Refused(10));
            }
        }
        let long = file.good(n, n, LONGEST_SHARE + 1);
        file.write(&long.call(), Answer::Refused(10));
    }
}

/// Two causes at once, and all of them. A call that is no packet is not asked for room.
fn several_causes(file: &mut File) {
    for n in [1, 3, MOST_PARTIES] {
        let good = file.good(n, n, 2).call();
        for bad in [0, MOST_PARTIES + 1, FAR] {
            under_cause_one(file, &good.with(|call| call.n = bad));
        }
        for number in [0, n + 1] {
            let call = good.with(|call| call.number = number);
            file.write(&call.with(|call| call.room -= 1), Answer::Refused(3));
            no_packets(file, &call, 3);
        }
        no_packets(file, &good.with(|call| call.room -= 1), 10);
    }
}

/// No such n, along with a bad number, no share, little room, and all of these.
fn under_cause_one(file: &mut File, call: &Call) {
    let numbers = [0, call.n, FAR];
    for number in numbers {
        let call = call.with(|call| call.number = number);
        file.write(&call, Answer::Refused(1));
        file.write(&call.with(|call| call.room -= 1), Answer::Refused(1));
    }
    file.write(&call.with(|call| call.room -= 1), Answer::Refused(1));
    let call = call.with(|call| call.share.clear());
    file.write(&call, Answer::Refused(1));
    let all = call.with(|call| (call.number, call.room) = (0, 0));
    file.write(&all, Answer::Refused(1));
}

/// A call that is bad already, now with a share or a path that no packet has, in as much
/// room as it had, in much and in none.
fn no_packets(file: &mut File, call: &Call, cause: u32) {
    for room in [call.room, MOST_ROOM, 0] {
        let call = call.with(|call| call.room = room);
        file.write(
            &call.with(|call| call.share.clear()),
            Answer::Refused(cause),
        );
        file.write(
            &call.with(|call| call.path.push([9; 32])),
            Answer::Refused(cause),
        );
        if !call.path.is_empty() {
            file.write(
                &call.with(|call| call.path.truncate(0)),
                Answer::Refused(cause),
            );
        }
    }
    let long = vec![5; LONGEST_SHARE + 1];
    file.write(&call.with(|call| call.share = long), Answer::Refused(cause));
}

/// All cases of readings and standings.
fn packet_cases(file: &mut File) {
    good_packets(file);
    made_up_paths(file);
    cuts(file);
    flips(file);
    maps(file);
    silence(file);
    numbers(file);
    stated_lengths(file);
    path_counts(file);
    other_sizes(file);
    bad_sizes(file);
    demands(file);
    other_roots(file);
    other_sessions(file);
}

/// All cases of entries one behind the other, and of places.
fn place_cases(file: &mut File) {
    walks(file);
    short_entries(file);
    far_places(file);
    packets_behind(file);
    false_places(file);
    false_lengths(file);
}

pub fn cases() -> Vec<Case> {
    let mut file = File {
        out: Vec::new(),
        random: Random::new(180),
        sessions: 0,
    };
    packet_cases(&mut file);
    good_inboxes(&mut file);
    cut_inboxes(&mut file);
    lying_inboxes(&mut file);
    fitting_inboxes(&mut file);
    written(&mut file);
    unwritten(&mut file);
    several_causes(&mut file);
    place_cases(&mut file);
    file.out
}
