//! The sender of a plan: who it is, and what it hands out.

use super::{longest, Damage, Draft, Manner, Size, Source};
use crate::liars::senders::{Offer, SenderLie};
use crate::message_packet::{read, Reading};
use crate::random::Random;

impl Draft {
    /// The sender if it is bad, as one is whose number is no party's.
    pub(super) fn bad_sender(&self) -> Option<&Source> {
        let good = &self.good;
        self.source.as_ref().filter(|it| !good.contains(&it.number))
    }

    pub(super) fn bad_sender_mut(&mut self) -> Option<&mut Source> {
        let good = &self.good;
        self.source.as_mut().filter(|it| !good.contains(&it.number))
    }

    /// The place of a good sender among the good parties.
    pub(super) fn place_of_sender(&self) -> Option<usize> {
        let number = self.source.as_ref()?.number;
        self.good.iter().position(|party| *party == number)
    }

    /// The messages that stand in the plan: all, or where there is a sender its own, if it is good.
    pub(super) fn listed(&self) -> &[Vec<u8>] {
        match (&self.source, self.place_of_sender()) {
            (None, _) => &self.messages,
            (_, Some(place)) => self.messages.get(place..=place).unwrap_or_default(),
            _ => &[],
        }
    }

    /// Names a sender, or none.
    pub(super) fn name_sender(&mut self, damages: &[Damage], random: &mut Random) {
        let good: Vec<usize> = self.good.iter().copied().collect();
        let above = self.n + 1;
        let far = above + random.below(256 - above);
        // Only a good sender's message can be too long.
        let among = match random.once_in(3) || damages.contains(&Damage::LongMessage) {
            true => &good,
            false => &self.bad,
        };
        let number = match damages.contains(&Damage::NoSender) {
            true => Some(random.pick(&[0, 0, above, above, 17, 32, 255, far])),
            false if among.is_empty() || random.once_in(2) => None,
            false => Some(random.pick(among)),
        };
        self.source = number.map(Source::new);
    }

    /// What the sender has, or makes up, and what the good parties open with then.
    pub(super) fn hand_out(&mut self, size: Size, random: &mut Random) {
        let good: Vec<usize> = self.good.iter().copied().collect();
        if self.place_of_sender().is_some() {
            let most = longest(size, 1, random);
            self.messages = vec![self.some_message(most, random); good.len()];
            return;
        }
        let offer = self.offer(longest(size, good.len(), random), random);
        let some = Manner::some(&SenderLie::SMALL, random);
        let two = Manner::TwoFaced(SenderLie::OtherMessage);
        let manner = random.pick(&[some, some, two]);
        let large = size == Size::Small && random.once_in(12);
        let large = large.then(|| random.below(good.len().max(1)));
        for (place, receiver) in good.into_iter().enumerate() {
            let lie = match large == Some(place) {
                true => random.pick(&SenderLie::LARGE),
                false => manner.lie(place, &SenderLie::SMALL, random),
            };
            self.hand(&offer, lie, receiver, random);
        }
    }

    /// Two messages up to this length.
    fn offer(&self, most: usize, random: &mut Random) -> Offer {
        let one = self.some_message(most, random);
        Offer {
            other: self.other_message(&one, most, random),
            shares: self.sharing(&one),
            one,
        }
    }

    /// Has the bad sender lie to one more of the good parties, who opens with what it reads.
    pub(super) fn hand(
        &mut self,
        offer: &Offer,
        lie: SenderLie,
        receiver: usize,
        random: &mut Random,
    ) {
        let packet = offer.told(lie, receiver, random);
        let message = match read(packet.as_deref().unwrap_or_default()) {
            Reading::Message(message) => message,
            _ => Vec::new(),
        };
        self.messages.push(message);
        self.sender_lies.insert(lie);
        if let (Some(source), Some(packet)) = (self.bad_sender_mut(), packet) {
            source.block.packets.insert(receiver, packet);
        }
    }
}
