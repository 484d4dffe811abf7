//! Random plans for the rehearsal, plan k from the number k alone: about two thirds of them
//! valid, with liars of every kind, the rest damaged in one way or two. Some two in five name a
//! sender, which is bad more often than good, and as many give the session's number.
//!
//! Where the agreed bit is 1, good parties end with the agreed message whatever the bad ones
//! send. A program that takes a lie shows it only where a good party is unhappy and the liar
//! has a low number, so that such plans are made often.

mod senders;
pub mod stored;

use std::collections::{BTreeMap, BTreeSet};

use crate::liars::senders::SenderLie;
use crate::liars::{flip, Lie, Scene, Sharing, Way, LONGEST_LIE};
use crate::limits::{INSIDE, LONGEST_ENTRY, LONGEST_MESSAGE, LONGEST_PLAN};
use crate::limits::{MOST_NAMED, MOST_PARTIES};
use crate::random::Random;
use crate::rehearsal::{BIT_GIVEN, ROOT_GIVEN, SENDER_GIVEN, SESSION_GIVEN};
use crate::sessions;
use crate::sha256::Hash;

/// A plan, and what was put into it.
pub struct Made {
    pub bytes: Vec<u8>,
    pub size: Size,
    pub damages: Vec<Damage>,
    pub lies: BTreeSet<Lie>,
    pub sender_lies: BTreeSet<SenderLie>,
    /// Before any damage the agreed bit was 1 and a good party unhappy.
    pub divided: bool,
}

#[derive(Clone, Copy, Debug, PartialEq, Eq, PartialOrd, Ord)]
pub enum Size {
    /// Mostly under 2,000 bytes.
    Small,
    /// Long messages, and packets for everybody.
    Large,
    /// As long as a plan may be, or a few bytes less.
    Brim,
}

/// A way to make a plan that should be refused; but a turned bit may do no harm.
#[derive(Clone, Copy, Debug, PartialEq, Eq, PartialOrd, Ord)]
pub enum Damage {
    Parties,
    Faults,
    Options,
    GoodBeyond,
    Receiver,
    Oversize,
    Cut,
    Over,
    /// The sender's number is no party's.
    NoSender,
    LongMessage,
    TooMany,
    BitAbove,
    RootAgainst,
    BitAgainst,
    Flip,
}

impl Damage {
    pub const ALL: [Damage; 15] = [
        Damage::Parties,
        Damage::Faults,
        Damage::Options,
        Damage::GoodBeyond,
        Damage::Receiver,
        Damage::Oversize,
        Damage::Cut,
        Damage::Over,
        Damage::NoSender,
        Damage::LongMessage,
        Damage::TooMany,
        Damage::BitAbove,
        Damage::RootAgainst,
        Damage::BitAgainst,
        Damage::Flip,
    ];
}

/// What one bad party sends in one exchange: packets by receiver, and receivers that stand
/// in the map without a packet, which no sound plan has.
#[derive(Default)]
struct Block {
    packets: BTreeMap<usize, Vec<u8>>,
    strays: BTreeSet<usize>,
}

/// The sender that a plan names: its number, which need not be a party's, and what it sends. The
/// block is written only if it is bad.
struct Source {
    number: usize,
    block: Block,
}

impl Source {
    fn new(number: usize) -> Source {
        Source {
            number,
            block: Block::default(),
        }
    }
}

/// A plan before it is laid out.
struct Draft {
    n: usize,
    t: usize,
    /// n and t as they are written.
    head: [u8; 2],
    /// Options that are written though their fields are not, or not written though these are.
    turned_options: u8,
    root: Option<Hash>,
    bit: Option<u8>,
    source: Option<Source>,
    /// The session's number as it is written.
    session: Option<u32>,
    good: BTreeSet<usize>,
    bad: Vec<usize>,
    /// What the good parties open with.
    messages: Vec<Vec<u8>>,
    exchanges: [Vec<Block>; 2],
    lies: BTreeSet<Lie>,
    sender_lies: BTreeSet<SenderLie>,
    divided: bool,
}

pub fn plan(number: u64) -> Made {
    let mut random = Random::new(number.wrapping_mul(0xD134_2543_DE82_EF95));
    let (size, damages) = kind(&mut random);
    let mut draft = Draft::new(size, &damages, &mut random);
    if size == Size::Brim {
        draft.stretch(LONGEST_PLAN - random.pick(&[0, 0, 1, 2]));
    }
    for &damage in &damages {
        draft.damage(damage, &mut random);
    }
    let mut made = draft.made(size, damages);
    for &damage in &made.damages {
        damage_bytes(damage, &mut made.bytes, &mut random);
    }
    made
}

/// How large the plan is and what damage it takes.
fn kind(random: &mut Random) -> (Size, Vec<Damage>) {
    let some = |random: &mut Random| random.pick(&Damage::ALL);
    match random.below(100) {
        0..62 => (Size::Small, vec![]),
        62..64 => (Size::Large, vec![]),
        64 => (Size::Brim, vec![]),
        65..90 => (Size::Small, vec![some(random)]),
        _ => (Size::Small, vec![some(random), some(random)]),
    }
}

/// The two-byte map of these parties, each from 1 to [`MOST_NAMED`].
pub fn map_of<'a>(parties: impl IntoIterator<Item = &'a usize>) -> [u8; 2] {
    let bits = parties.into_iter().map(|party| 1u16 << (party - 1));
    bits.fold(0, |map, bit| map | bit).to_be_bytes()
}

/// How long so many messages of a plan may be.
fn longest(size: Size, count: usize, random: &mut Random) -> usize {
    let most = match size == Size::Small {
        true if random.once_in(10) => 1_500 / count.max(1),
        true => 40,
        false => LONGEST_MESSAGE,
    };
    most.min(LONGEST_MESSAGE)
}

fn two_bytes(length: usize) -> [u8; 2] {
    u16::try_from(length).expect("a short length").to_be_bytes()
}

/// The layout that docs/REFERENCE.md tells.
impl Draft {
    fn made(self, size: Size, damages: Vec<Damage>) -> Made {
        Made {
            bytes: self.bytes(),
            size,
            damages,
            lies: self.lies,
            sender_lies: self.sender_lies,
            divided: self.divided,
        }
    }

    fn bytes(&self) -> Vec<u8> {
        let sender = self.source.as_ref().map(|it| it.number as u8);
        let given = [
            (self.root.is_some(), ROOT_GIVEN),
            (self.bit.is_some(), BIT_GIVEN),
            (sender.is_some(), SENDER_GIVEN),
            (self.session.is_some(), SESSION_GIVEN),
        ];
        let options: u8 = given.iter().filter(|it| it.0).map(|it| it.1).sum();
        let mut bytes = [&self.head[..], &[self.turned_options ^ options]].concat();
        bytes.extend(self.root.iter().flatten());
        bytes.extend(self.bit);
        bytes.extend(sender);
        bytes.extend(self.session.iter().flat_map(|it| it.to_be_bytes()));
        bytes.extend(map_of(&self.good));
        for message in self.listed() {
            bytes.extend(two_bytes(message.len()));
            bytes.extend(message);
        }
        let blocks = self.exchanges.iter().flatten();
        for block in self
            .bad_sender()
            .map(|it| &it.block)
            .into_iter()
            .chain(blocks)
        {
            block.lay_out(&mut bytes);
        }
        bytes
    }
}

impl Block {
    fn length(&self) -> usize {
        let mut bytes = Vec::new();
        self.lay_out(&mut bytes);
        bytes.len()
    }

    fn lay_out(&self, bytes: &mut Vec<u8>) {
        bytes.extend(map_of(self.packets.keys().chain(&self.strays)));
        for packet in self.packets.values() {
            bytes.extend(two_bytes(packet.len()));
            bytes.extend(packet);
        }
    }
}

/// Sound drafts, but for too many bad parties where these are wanted.
impl Draft {
    /// The numbers alone: the parties in the map are bad, the lowest bit for party 1.
    fn of(n: usize, t: usize, bad_map: u32) -> Draft {
        let (bad, good) = (1..=n).partition(|party| bad_map >> (party - 1) & 1 == 1);
        Draft {
            n,
            t,
            head: [n as u8, t as u8],
            turned_options: 0,
            root: None,
            bit: None,
            source: None,
            session: None,
            good: Vec::into_iter(good).collect(),
            bad,
            messages: Vec::new(),
            exchanges: [Vec::new(), Vec::new()],
            lies: BTreeSet::new(),
            sender_lies: BTreeSet::new(),
            divided: false,
        }
    }

    fn new(size: Size, damages: &[Damage], random: &mut Random) -> Draft {
        let mut draft = Draft::group(size, damages, random);
        draft.session = (random.below(5) < 2).then(|| sessions::some(random));
        draft.name_sender(damages, random);
        match draft.source {
            Some(_) => draft.hand_out(size, random),
            None => draft.messages = draft.some_messages(size, random),
        }
        let scene = draft.agree(random);
        draft.lie(&scene, size, random);
        draft
    }

    /// n, t, and who is bad.
    fn group(size: Size, damages: &[Damage], random: &mut Random) -> Draft {
        let liar = size == Size::Brim
            || damages.contains(&Damage::Receiver)
            || damages.contains(&Damage::Oversize);
        let room_above = damages.contains(&Damage::GoodBeyond);
        // Half of the plans have room for a liar anyway.
        let least = if liar { 3 } else { random.pick(&[1, 3]) };
        let nameable = MOST_NAMED - usize::from(room_above);
        let most = random.pick(&[6, MOST_PARTIES.min(nameable)]);
        let n = least + random.below(most - least + 1);
        let greatest = (n - 1) / 2;
        let any = random.below(greatest + 1);
        let t = random.pick(&[greatest, any]).max(usize::from(liar));
        let (few, over) = (random.below(t + 1), random.below(n - t));
        let count = match damages.contains(&Damage::TooMany) {
            true => t + 1 + random.pick(&[0, over]),
            false => random.pick(&[t, few]).max(liar.into()),
        };
        let map = match random.once_in(2) {
            true => (1u32 << count) - 1,
            false => random.choice(n, count),
        };
        Draft::of(n, t, map)
    }

    /// The good parties' messages: all equal, or of two kinds, or each another one.
    fn some_messages(&self, size: Size, random: &mut Random) -> Vec<Vec<u8>> {
        let count = self.good.len();
        let most = longest(size, count, random);
        let one = self.some_message(most, random);
        let other = self.other_message(&one, most, random);
        let odd = random.below(count.max(1));
        let way = random.below(5);
        let message = |place: usize| match way {
            0 => one.clone(),
            1 if place == odd => other.clone(),
            1 => one.clone(),
            2 => self.some_message(most, random),
            _ => random.pick(&[&one, &other]).clone(),
        };
        (0..count).map(message).collect()
    }

    /// A message of any length up to `most`; often one that fills its frame, or just does not, or
    /// one at an edge.
    fn some_message(&self, most: usize, random: &mut Random) -> Vec<u8> {
        let b = self.n - self.t;
        let full = (b * (1 + random.below(4))).max(2) - 2;
        let any = random.below(most + 1);
        let below = most.saturating_sub(1);
        let inside = random.pick(&INSIDE);
        let lengths = [
            0,
            1,
            2,
            full,
            full + 1,
            any,
            any,
            any,
            most,
            most,
            below,
            inside,
        ];
        let length = random.pick(&lengths).min(most);
        match random.once_in(8) {
            true => vec![0; length],
            false => random.bytes(length),
        }
    }

    /// A message other than the given one, often close to it.
    fn other_message(&self, one: &[u8], most: usize, random: &mut Random) -> Vec<u8> {
        let mut other = one.to_vec();
        match random.below(4) {
            0 if !other.is_empty() => flip(&mut other, random),
            1 if other.len() < most => other.push(0),
            2 if !other.is_empty() => {
                other.pop();
            }
            _ => other = self.some_message(most, random),
        }
        if other == one {
            other = vec![random.word() as u8; 1 - one.len().min(1)];
        }
        other
    }

    /// The number of the plan's session.
    fn session_number(&self) -> u32 {
        self.session.unwrap_or(0)
    }

    /// The shares of a message in that session.
    fn sharing(&self, message: &[u8]) -> Sharing {
        Sharing::of(self.session_number(), self.n, self.t, message)
    }

    fn roots(&self) -> Vec<Hash> {
        let root = |message: &Vec<u8>| self.sharing(message).root;
        self.messages.iter().map(root).collect()
    }

    /// A root that no good party puts in.
    fn strange_root(&self, random: &mut Random) -> Hash {
        let mut root = [0; 32];
        match random.below(5) {
            0 => root.copy_from_slice(&random.bytes(32)),
            1 if !self.messages.is_empty() => {
                root = self.sharing(&self.messages[0]).root;
                flip(&mut root, random);
            }
            // A good party's in another session.
            2 if !self.messages.is_empty() => {
                let session = sessions::another(self.session_number(), random);
                root = self.sharing(&self.messages[0]).in_session(session).root;
            }
            // A frame of three rows is well made only by rare luck.
            3 => {
                let frame = random.bytes(3 * (self.n - self.t));
                root = Sharing::of_frame(self.session_number(), self.n, self.t, &frame).root;
            }
            _ => root = self.sharing(&random.bytes(45)).root,
        }
        root
    }

    /// Root and bit, given or not, by the rule of the short agreement, and the messages that
    /// the liars know.
    fn agree(&mut self, random: &mut Random) -> Scene {
        let roots = self.roots();
        let equal = roots.windows(2).all(|pair| pair[0] == pair[1]);
        self.root = match random.below(8) {
            0..4 => None,
            4 if !equal => Some(self.strange_root(random)),
            _ if roots.is_empty() => Some(self.strange_root(random)),
            _ => Some(random.pick(&roots)),
        };
        let agreed = self.root.or(roots.first().copied()).unwrap_or_default();
        let bits: Vec<bool> = roots.iter().map(|root| *root == agreed).collect();
        let lowest = bits.first().copied().unwrap_or(random.once_in(2));
        let divided = bits.iter().any(|bit| *bit != lowest);
        self.bit = match random.below(8) {
            0..4 => None,
            4 if divided => Some(0),
            _ => Some((divided || lowest).into()),
        };
        self.divided = divided && self.bit.map_or(lowest, |bit| bit == 1);
        self.scene(&bits, random)
    }

    /// The shares of a happy party's message, if there is one, and those of another message.
    fn scene(&self, bits: &[bool], random: &mut Random) -> Scene {
        let of = |happy: bool| {
            let mut found = bits.iter().zip(&self.messages);
            found.find(|(bit, _)| **bit == happy).map(|it| it.1.clone())
        };
        let one = of(true).or(of(false)).unwrap_or_default();
        let other = match of(false) {
            Some(message) if random.once_in(2) => message,
            _ => self.other_message(&one, LONGEST_MESSAGE.min(one.len() + 1), random),
        };
        Scene {
            agreed: self.sharing(&one),
            other: self.sharing(&other),
        }
    }
}

/// How a bad party chooses among the lies that there are, of which the first is the truth.
#[derive(Clone, Copy)]
enum Manner<L> {
    /// The same for everybody.
    Steady(L),
    /// The good packet to one, a lie to the next.
    TwoFaced(L),
    Mixed,
}

impl<L: Copy> Manner<L> {
    fn some(lies: &[L], random: &mut Random) -> Manner<L> {
        let lie = random.pick(lies);
        random.pick(&[Manner::Steady(lie), Manner::TwoFaced(lie), Manner::Mixed])
    }

    /// The lie to the receiver in this place among the good ones.
    fn lie(self, place: usize, lies: &[L], random: &mut Random) -> L {
        match self {
            Manner::Steady(lie) => lie,
            Manner::TwoFaced(_) if place.is_multiple_of(2) => lies[0],
            Manner::TwoFaced(lie) => lie,
            Manner::Mixed => random.pick(lies),
        }
    }
}

/// The bytes that may still be spent on packets, and how often one is offered.
struct Purse {
    left: usize,
    chance: usize,
    of: usize,
}

impl Purse {
    fn offers(&self, random: &mut Random) -> bool {
        random.below(self.of) < self.chance
    }

    /// Whether the packet could be paid for, with its length.
    fn pays(&mut self, packet: &[u8]) -> bool {
        let left = self.left.checked_sub(2 + packet.len());
        self.left = left.unwrap_or(self.left);
        left.is_some()
    }
}

/// What the bad parties send.
impl Draft {
    fn lie(&mut self, scene: &Scene, size: Size, random: &mut Random) {
        let some = |random: &mut Random| Manner::some(&Lie::SMALL, random);
        let manners: Vec<Manner<Lie>> = self.bad.iter().map(|_| some(random)).collect();
        let mut purse = self.purse(scene, size);
        for exchange in 0..2 {
            for (place, &manner) in manners.iter().enumerate() {
                let sender = self.bad[place];
                let block = self.block(scene, (exchange, sender), manner, &mut purse, random);
                self.exchanges[exchange].push(block);
            }
        }
        if random.once_in(25) {
            self.enlarge(scene, random);
        }
    }

    /// Everybody gets something if that fits; else so many that about all is spent. Then a huge packet
    /// has room yet. In a small plan what a sender hands out is not counted, since it may be long.
    fn purse(&self, scene: &Scene, size: Size) -> Purse {
        let most: usize = match size {
            Size::Small => 1_950 + self.bad_sender().map_or(0, |it| it.block.length()),
            _ => LONGEST_PLAN - 2 - LONGEST_LIE,
        };
        let maps = 4 * self.bad.len();
        let left = most.saturating_sub(self.bytes().len() + maps);
        let packets = 2 * self.bad.len() * self.good.len();
        let all = packets * (6 + scene.agreed.packet(1).len());
        Purse {
            left,
            chance: left.min(all),
            of: all.max(1),
        }
    }

    /// What one bad party sends in one exchange.
    fn block(
        &mut self,
        scene: &Scene,
        (exchange, sender): (usize, usize),
        manner: Manner<Lie>,
        purse: &mut Purse,
        random: &mut Random,
    ) -> Block {
        let mut block = Block::default();
        for (place, &receiver) in self.good.iter().enumerate() {
            let way = Way::new(exchange, sender, receiver);
            let lie = match purse.offers(random) {
                true => manner.lie(place, &Lie::SMALL, random),
                false => Lie::Unnamed,
            };
            let packet = scene.told(lie, way, random);
            let Some(packet) = packet.filter(|packet| purse.pays(packet)) else {
                self.lies.insert(Lie::Unnamed);
                continue;
            };
            self.lies.insert(lie);
            block.packets.insert(receiver, packet);
        }
        block
    }

    /// Makes one packet huge, if somebody is there to send and to receive.
    fn enlarge(&mut self, scene: &Scene, random: &mut Random) {
        if self.bad.is_empty() || self.good.is_empty() {
            return;
        }
        let (place, exchange) = (random.below(self.bad.len()), random.below(2));
        let good: Vec<usize> = self.good.iter().copied().collect();
        let (sender, receiver) = (self.bad[place], random.pick(&good));
        let way = Way::new(exchange, sender, receiver);
        let packet = scene.told(Lie::Huge, way, random).expect("a packet");
        self.lies.insert(Lie::Huge);
        let block = &mut self.exchanges[exchange][place];
        block.packets.insert(receiver, packet);
    }

    /// Lengthens the packets for the lowest good party until the plan has `total` bytes, if
    /// it is shorter and they can grow so much.
    fn stretch(&mut self, total: usize) {
        let Some(&receiver) = self.good.first() else {
            return;
        };
        for block in self.exchanges.iter_mut().flatten() {
            block.packets.entry(receiver).or_default();
        }
        let mut missing = total.saturating_sub(self.bytes().len());
        for block in self.exchanges.iter_mut().flatten() {
            let packet = block.packets.entry(receiver).or_default();
            let growth = missing.min(LONGEST_ENTRY - packet.len());
            packet.resize(packet.len() + growth, 0x5A);
            missing -= growth;
        }
    }
}

/// Damage.
impl Draft {
    /// The damage that is done before the plan is laid out.
    fn damage(&mut self, damage: Damage, random: &mut Random) {
        match damage {
            Damage::Parties => {
                let over = MOST_PARTIES as u8 + 1;
                let above = over + random.below(255 - MOST_PARTIES) as u8;
                self.head[0] = random.pick(&[0, 0, over, over, over + 1, 32, 128, 255, above]);
            }
            Damage::Faults => {
                let least = self.n.div_ceil(2) as u8;
                let above = least + random.below(240) as u8;
                self.head[1] = random.pick(&[least, least, least + 1, 127, 128, 129, 255, above]);
            }
            Damage::Options => self.turned_options |= random.pick(&[4, 8, 16, 32, 64, 128, 240]),
            Damage::GoodBeyond => self.name_beyond(random),
            Damage::Receiver => self.name_not_good(random),
            Damage::Oversize => {
                let more = [1, 1, 2, 1 + random.below(300), random.below(LONGEST_PLAN)];
                self.stretch(LONGEST_PLAN + random.pick(&more));
            }
            Damage::LongMessage => self.lengthen(random),
            Damage::BitAbove => self.bit = Some(random.pick(&[2, 3, 128, 254, 255])),
            Damage::RootAgainst => {
                self.equalize();
                self.root = Some(self.strange_root(random));
            }
            Damage::BitAgainst => self.set_bit_against(random),
            // Who is bad and who sends is chosen with the group; the others are done to the bytes.
            Damage::TooMany | Damage::NoSender => {}
            Damage::Cut | Damage::Over | Damage::Flip => {}
        }
    }

    /// Makes a party beyond n good, with or without a message.
    fn name_beyond(&mut self, random: &mut Random) {
        let n = self.n.min(MOST_NAMED - 1);
        self.good.insert(n + 1 + random.below(MOST_NAMED - n));
        if random.once_in(2) {
            self.messages.push(random.bytes(3));
        }
    }

    /// Names a receiver who is not good: the sender, another bad one or one beyond n, with a
    /// packet or without, so that nothing but the map is wrong to a reader who skips it.
    fn name_not_good(&mut self, random: &mut Random) {
        let place = random.below(self.bad.len().max(1));
        let Some(&sender) = self.bad.get(place) else {
            return;
        };
        let others: Vec<usize> = (1..=MOST_NAMED)
            .filter(|party| !self.good.contains(party))
            .collect();
        let other = random.pick(&others);
        let receiver = random.pick(&[sender, other]);
        let block = match self.bad_sender().is_some() && random.once_in(2) {
            true => &mut self.bad_sender_mut().expect("a bad one").block,
            false => &mut self.exchanges[random.below(2)][place],
        };
        match random.below(3) {
            0 => {
                block.packets.insert(receiver, random.bytes(4));
            }
            1 => {
                block.packets.insert(receiver, Vec::new());
            }
            _ => {
                block.strays.insert(receiver);
            }
        }
    }

    /// Makes a message too long that is listed.
    fn lengthen(&mut self, random: &mut Random) {
        let any = random.below(self.messages.len().max(1));
        let place = self.place_of_sender().unwrap_or(any);
        let over = LONGEST_MESSAGE + 1;
        let far = over + random.below(300);
        let length = match random.once_in(10) {
            true => over + random.below(LONGEST_ENTRY - LONGEST_MESSAGE),
            false => random.pick(&[over, over, over, over + 1, 2 * LONGEST_MESSAGE, far]),
        };
        if let Some(message) = self.messages.get_mut(place) {
            message.resize(length, 0x42);
        }
    }

    fn equalize(&mut self) {
        if let Some(source) = self.bad_sender_mut() {
            source.block = Block::default();
            self.messages.fill(Vec::new());
        }
        let first = self.messages.first().cloned().unwrap_or_default();
        self.messages.fill(first);
    }

    /// Gives the bit that no good party puts in: 0 where all are happy, or 1 where none is.
    fn set_bit_against(&mut self, random: &mut Random) {
        let unequal = self.messages.windows(2).any(|pair| pair[0] != pair[1]);
        if unequal && random.once_in(2) {
            self.root = Some(self.strange_root(random));
            self.bit = Some(1);
        } else {
            self.equalize();
            self.root = None;
            self.bit = Some(0);
        }
    }
}

/// The damage that is done to the laid out bytes.
fn damage_bytes(damage: Damage, bytes: &mut Vec<u8>, random: &mut Random) {
    match damage {
        Damage::Cut => {
            let any = random.below(bytes.len().max(1));
            let less = [any, any, bytes.len().saturating_sub(1), random.below(5)];
            bytes.truncate(random.pick(&less));
        }
        Damage::Over => {
            let more = [1, 1, 2, 3, 32, 1 + random.below(40)];
            let more = random.pick(&more);
            match random.once_in(2) {
                true => bytes.extend(vec![0; more]),
                false => bytes.extend(random.bytes(more)),
            }
        }
        Damage::Flip if !bytes.is_empty() => {
            let end = random.pick(&[bytes.len(), bytes.len().min(12)]);
            flip(&mut bytes[..end], random);
        }
        _ => {}
    }
}

#[cfg(test)]
mod tests {
    use super::*;
    use crate::rehearsal::rehearse;

    const COUNT: u64 = 2_000;

    #[test]
    fn a_number_gives_one_plan() {
        let plans: BTreeSet<Vec<u8>> = (1..=COUNT).map(|k| plan(k).bytes).collect();
        assert!(plans.len() > 1_900);
        assert!((1..=COUNT).all(|k| plans.contains(&plan(k).bytes)));
    }

    /// Whatever the bad parties send, the good ones end alike.
    #[test]
    fn good_parties_end_alike() {
        for k in 1..=COUNT {
            let made = plan(k);
            if made.damages.is_empty() {
                let text = String::from_utf8(rehearse(&made.bytes)).expect("a text");
                let mut lines: Vec<&str> = text.lines().collect();
                assert!(lines.pop().is_some_and(|last| last.starts_with("sent ")));
                let results = lines
                    .iter()
                    .map(|it| it.split_once(' ').expect("a blank").1);
                assert_eq!(results.collect::<BTreeSet<_>>().len(), 1, "plan {k}");
            }
        }
    }
}
