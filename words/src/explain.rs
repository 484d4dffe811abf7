//! A sitting told in text, round by round, for a person. The last lines are those that the
//! rehearsal prints.

use foreign::rehearsal::{Fault, Round, Sender, Takings};

use crate::books::Hints;
use crate::causes::{detail, words};
use crate::phrases::{bytes, name, named, numbers, short, EXCHANGES};
use crate::text::written;
use crate::view::{Parcel, View};

pub fn explain(plan: &[u8], hints: &Hints) -> String {
    match View::new(plan, hints) {
        Ok(view) => {
            let front = view.fault.map(|fault| preface(fault, plan) + "\n\n");
            front.unwrap_or_default() + &view.told() + "\n" + &view.printed()
        }
        Err(fault) => format!("{}\nrefused {}\n", refused(fault, plan), fault.cause()),
    }
}

/// What stands before the sitting of a plan that is refused.
pub fn preface(fault: Fault, plan: &[u8]) -> String {
    let refused = refused(fault, plan);
    format!(
        "{refused}\nThe rehearsal does not play this. The boxes would do their steps all the same:"
    )
}

/// Why a plan is refused.
pub fn refused(fault: Fault, plan: &[u8]) -> String {
    let (cause, detail) = (fault.cause(), detail(fault, plan));
    format!("Refused with cause {cause}: {}.\n{detail}\n", words(cause))
}

impl View {
    fn told(&self) -> String {
        let plan = &self.session.plan;
        let least = plan.n - plan.t;
        let heading = format!(
            "{}; {least} of the shares give a book back.\n",
            self.title()
        );
        let rest = match &self.session.takings {
            Some(takings) => self.exchanges(takings),
            None => "\nOn bit 0 every good box ends with nothing and sees no box cheat; \
                what the plan says of the first and the second exchange is not used.\n"
                .to_string(),
        };
        let sender = plan.sender.as_ref().map(|it| self.sender(it));
        let opened = sender.unwrap_or_default() + &self.openings();
        heading + &self.known() + &opened + &self.agreement() + &rest
    }

    fn known(&self) -> String {
        let mut text = "\nBooks\n".to_string();
        for book in &self.books.known {
            let (name, length) = (&book.name, bytes(book.message.len()));
            text += &format!("  {name}, {length}: {}\n", written(&book.message));
        }
        text
    }

    fn sender(&self, sender: &Sender) -> String {
        let mut text = format!("\nThe sender's exchange: {}\n", self.sender_title(sender));
        text += &packets(&self.parcels(Round::Sender));
        for (place, number) in self.session.plan.good.iter().enumerate() {
            text += &format!("  box {number} {}\n", self.opening(sender, place));
        }
        text
    }

    fn openings(&self) -> String {
        let mut text = "\nOpenings\n".to_string();
        for (place, number) in self.session.plan.good.iter().enumerate() {
            let root = short(&self.session.roots[place]);
            text += &format!("  box {number} has {}, root {root}\n", self.book_of(place));
        }
        match &self.bad()[..] {
            [] => text,
            bad => text + &format!("  bad: {}\n", numbers(bad)),
        }
    }

    fn agreement(&self) -> String {
        let session = &self.session;
        let mut text = format!(
            "\nAgreed root {} {} ({})\n",
            short(&session.root),
            self.root_name(),
            self.origin(session.plan.root.is_some())
        );
        for (place, number) in session.plan.good.iter().enumerate() {
            let (mood, bit) = (self.mood(place), session.bits[place]);
            text += &format!("  box {number} is {mood}, bit {bit}\n");
        }
        let origin = self.origin(session.plan.bit.is_some());
        text + &format!("Agreed bit {} ({origin})\n", session.bit)
    }

    fn exchanges(&self, takings: &Takings) -> String {
        let mut text = String::new();
        for round in EXCHANGES {
            let parcels = self.parcels(round);
            text += &format!("\nThe {} exchange\n{}", name(round), packets(&parcels));
            for (place, number) in self.session.plan.good.iter().enumerate() {
                let step = self.step(round, takings, place);
                text += &format!("  box {number} {step}\n");
            }
            text += &cheats(&parcels);
        }
        text + &self.results()
    }

    fn results(&self) -> String {
        let mut text = "\nResults\n".to_string();
        for (place, number) in self.session.plan.good.iter().enumerate() {
            text += &format!("  box {number} {}\n", self.ending(place));
        }
        let empty = |result: &Option<Vec<u8>>| result.as_ref().is_some_and(Vec::is_empty);
        if self.session.results.iter().any(empty) {
            text += "  the empty book is a book and not nothing: below, '=' stands for it and '-' \
                for nothing\n";
        }
        for (place, number) in self.session.plan.good.iter().enumerate() {
            text += &format!("  box {number} saw {} cheat\n", named(&self.seen(place)));
        }
        let [sender, first, second] = self.session.bytes_sent();
        text + &match self.session.plan.sender {
            Some(_) => format!(
                "  bytes sent by good boxes: {sender} in the sender's exchange, {first} in the \
                 first, {second} in the second; 'sent' has all of them\n"
            ),
            None => format!(
                "  bytes sent by good boxes: {first} in the first exchange, {second} in the second\n"
            ),
        }
    }
}

/// A line for each packet.
fn packets(parcels: &[Parcel]) -> String {
    let mut text = String::new();
    for it in parcels {
        let (length, worth) = (bytes(it.length), it.worth.words());
        let way = format!("{} to {}", it.sender, it.receiver);
        text += &format!("  {way:<8} {length:>11}   {worth:<18} {}\n", it.what);
    }
    text
}

/// A line for each packet that shows that its sender cheats, by receiver and sender.
fn cheats(parcels: &[Parcel]) -> String {
    let mut seen: Vec<&Parcel> = parcels.iter().filter(|it| it.fault.is_some()).collect();
    seen.sort_by_key(|it| (it.receiver, it.sender));
    let line = |it: &Parcel| {
        let fault = it.fault.as_ref()?;
        Some(format!(
            "  box {} sees box {} cheat: its packet {fault}\n",
            it.receiver, it.sender
        ))
    };
    seen.into_iter().filter_map(line).collect()
}
