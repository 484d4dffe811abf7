//! Parties seen to cheat: maps of every kind in states of every stage, and whole sessions in which
//! bad parties send every kind of lie.

use std::collections::BTreeMap;

use cipangohu::{entries, lay_out, Parties, Party, MAX_OUTBOX, MAX_PACKET, MAX_PARTIES};
use foreign::liars::{Lie, Way};
use foreign::packet::{classify, Standing};
use foreign::random::Random;

use crate::call::{Call, Lent};
use crate::made::{bit, others, put, Play};
use crate::reference::{AT_FAULTY, AT_STAGE};
use crate::tally::{compare, Tally};
use crate::{ask, times};

/// The map of these parties.
pub fn map_of(parties: Parties) -> u32 {
    parties.iter().map(bit).sum()
}

/// All steps on a state whose map has these parties: cause 5 if that is broken, else never.
fn judged(state: &[u8], n: usize, broken: bool, tally: &mut Tally) {
    let silence = lay_out(&vec![[]; n]);
    for call in [
        Call::AgreeRoot(vec![7; 32]),
        Call::AgreeBit(1),
        Call::TakeShares(silence.clone()),
        Call::TakeRelays(silence),
    ] {
        let mut lent = Lent {
            state: state.to_vec(),
            out: vec![7; MAX_OUTBOX],
            ..Lent::default()
        };
        let answer = compare(&call, &mut lent, tally);
        assert_eq!(answer.cause == 5, broken, "{call:?}");
    }
    ask(state, tally);
    assert_eq!(Party::from_state(state).is_err(), broken);
}

/// Each bit alone, and beside those of all others, in a state of each stage.
#[test]
fn a_map_of_any_bits() {
    let mut tally = Tally::default();
    let most = MAX_PARTIES;
    for (n, t, own) in [
        (1, 0, 1),
        (2, 0, 2),
        (4, 1, 1),
        (most, 7, 3),
        (most, 0, most),
    ] {
        let (party, _) = Party::open(7, n, t, own, b"AB").expect("opened");
        let (mut state, all) = (party.state().to_vec(), others([n, own]));
        for (stage, place) in (0..=5).flat_map(|stage| (1..=32).map(move |place| (stage, place))) {
            for map in [bit(place), all | bit(place)] {
                state[AT_STAGE] = stage;
                put(&mut state, AT_FAULTY, &map.to_be_bytes());
                judged(&state, n, map & !all != 0, &mut tally);
                if let Ok(party) = Party::from_state(&state) {
                    assert_eq!(map_of(party.faulty()), map);
                }
            }
        }
    }
    tally.expect("faulty", &[0, 5]);
}

/// The packets that a good party wrote in an exchange, by receiver.
type Written = BTreeMap<usize, Vec<Vec<u8>>>;

/// Good parties of one n, root and number among bad ones.
struct Session {
    play: Play,
    good: Vec<Party>,
}

impl Session {
    fn new(random: &mut Random) -> Session {
        let mut play = Play::new(random);
        while play.group.0 == 1 {
            play = Play::new(random);
        }
        let (n, t, _) = play.group;
        let count = random.below(n);
        let bad = random.choice(n, count);
        let mut open = |own| {
            let message = random.pick(&[&play.message[..], b"other"]);
            let opened = Party::open(play.session, n, t, own, message);
            let (mut party, _) = opened.expect("opened");
            let happy = party.agree_root(&play.scene.agreed.root);
            happy.expect("in turn");
            party
        };
        let numbers = (1..=n).filter(|own| bad & bit(*own) == 0);
        let good = numbers.map(&mut open).collect();
        Session { play, good }
    }

    /// What comes to a party in an exchange: from good ones what they wrote, from bad ones any lie.
    fn heard(&self, way: (usize, usize), sent: &Written, random: &mut Random) -> Vec<Vec<u8>> {
        let (exchange, own) = way;
        let mut said = |sender| match sent.get(&sender) {
            Some(packets) => packets[own - 1].clone(),
            None => {
                let (lie, way) = (random.pick(&Lie::SMALL), Way::new(exchange, sender, own));
                let told = self.play.scene.told(lie, way, random);
                told.unwrap_or_default()
            }
        };
        (1..=self.play.group.0).map(&mut said).collect()
    }

    /// The map of those whose packets are faulty, as the foreign implementation judges them.
    fn faulty(&self, (exchange, own): (usize, usize), heard: &[Vec<u8>]) -> u32 {
        let (session, n, root) = (
            self.play.session,
            self.play.group.0,
            self.play.scene.agreed.root,
        );
        let is_faulty = |(sender, packet): &(usize, &Vec<u8>)| {
            let due = [own, *sender][exchange];
            let standing = classify(session, n, due, root, packet);
            *sender != own && standing == Ok(Standing::Faulty)
        };
        let faulty = (1..).zip(heard).filter(is_faulty);
        faulty.map(|(sender, _)| bit(sender)).sum()
    }

    /// Steps 3 to 5; gives for each good party its number and its maps after steps 4 and 5.
    fn played(&mut self, random: &mut Random) -> Vec<(usize, [u32; 2])> {
        let (mut good, mut out) = (std::mem::take(&mut self.good), [0; MAX_OUTBOX]);
        let (mut first, mut second) = (Written::new(), Written::new());
        for party in &mut good {
            let length = party.agree_bit(true, &mut out).expect("in turn");
            let packets = entries(&out[..length]).expect("an outbox");
            first.insert(party.own(), packets.map(Vec::from).collect());
        }
        let mut maps = Vec::new();
        for party in &mut good {
            let own = party.own();
            let heard = self.heard((0, own), &first, random);
            let relay = &mut out[..MAX_PACKET];
            let length = party.take_shares(&lay_out(&heard), relay).expect("in turn");
            second.insert(own, vec![relay[..length].to_vec(); self.play.group.0]);
            let seen = map_of(party.faulty());
            assert_eq!(seen, self.faulty((0, own), &heard));
            maps.push((own, [seen; 2]));
        }
        for (party, (own, [seen, all])) in good.iter_mut().zip(&mut maps) {
            let heard = self.heard((1, *own), &second, random);
            let ending = party.take_relays(&lay_out(&heard)).expect("in turn");
            *all = map_of(ending.faulty);
            assert_eq!(*all, *seen | self.faulty((1, *own), &heard));
            assert_eq!(map_of(party.faulty()), *all);
        }
        maps
    }
}

/// However many are bad, no good party is in a good one's map, and a bad one is exactly if it sent
/// something faulty. Some are seen by one good party and not by another.
#[test]
fn no_good_party_is_seen_to_cheat() {
    let mut random = Random::new(19);
    let (mut seen_by_some, mut seen_later) = (0, 0);
    for _ in 0..times(1_500) {
        let maps = Session::new(&mut random).played(&mut random);
        let good: u32 = maps.iter().map(|(own, _)| bit(*own)).sum();
        assert!(maps.iter().all(|(_, [_, all])| all & good == 0));
        let all = maps.iter().map(|(_, [_, all])| *all);
        let any = all.clone().fold(0, |one, other| one | other);
        seen_by_some += usize::from(all.into_iter().any(|map| map != any));
        seen_later += maps.iter().filter(|(_, [seen, all])| seen != all).count();
    }
    println!("{seen_by_some} sessions with a liar seen by some, {seen_later} maps grew in step 5");
    assert!(seen_by_some >= 100 && seen_later >= 100);
}
