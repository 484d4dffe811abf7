//! What text and picture tell of a session that was played: every packet with the words for it
//! and its worth to the receiver, and what each good box did. All of it is worked out by the
//! foreign implementation; here it is put into words.

use foreign::message_packet;
use foreign::packet::{classify, read, Reading, Standing};
use foreign::party::Rebuilt;
use foreign::rehearsal::{play, play_regardless, Fault, Round, Row, Sender, Session, Takings};

use crate::books::{Books, Hints};
use crate::phrases::{boxes, bytes, cut, numbers};
use crate::recognise::recognise;
use crate::text::{known, named_root, written};

/// The words for a packet, and for a book that is not taken, are cut here.
const SHOWN: usize = 72;

pub struct View {
    /// Why the rehearsal refuses the plan, if it does; the session is then what the boxes would do.
    pub fault: Option<Fault>,
    pub session: Session,
    pub books: Books,
}

/// A packet on its way.
pub struct Parcel {
    pub sender: usize,
    pub receiver: usize,
    pub length: usize,
    pub what: String,
    pub worth: Worth,
    /// Its share is the one that the receiver relays.
    pub taken: bool,
    /// The fault by which the receiver sees the sender cheat, if it does.
    pub fault: Option<String>,
}

/// What a packet is to its receiver.
#[derive(Clone, Copy, Debug, PartialEq, Eq)]
pub enum Worth {
    /// A whole book that the receiver opens with.
    Book,
    Passes,
    FailsCheck,
    OtherNumber(usize),
    Unreadable,
    Silence,
    ToBadBox,
}

impl Worth {
    pub fn words(self) -> String {
        match self {
            Worth::Book => "is read".to_string(),
            Worth::Passes => "passes".to_string(),
            Worth::FailsCheck => "fails the check".to_string(),
            Worth::OtherNumber(number) => format!("bears number {number}"),
            Worth::Unreadable => "cannot be read".to_string(),
            Worth::Silence => "is silence".to_string(),
            Worth::ToBadBox => "goes to a bad box".to_string(),
        }
    }

    /// What is wrong with a packet in which this number is due, if it shows that its sender cheats.
    fn fault(self, due: usize) -> Option<String> {
        match self {
            Worth::FailsCheck => Some("does not lead to the agreed root".to_string()),
            Worth::OtherNumber(number) => Some(format!("bears number {number}, and {due} is due")),
            Worth::Unreadable => Some("cannot be read".to_string()),
            Worth::Book | Worth::Passes | Worth::Silence | Worth::ToBadBox => None,
        }
    }
}

impl View {
    /// Plays the plan, also one that only breaks what is supposed of a sitting; the named books are
    /// called by their names.
    pub fn new(plan: &[u8], hints: &Hints) -> Result<View, Fault> {
        let (fault, session) = match play(plan) {
            Ok(session) => (None, session),
            Err(fault) => (Some(fault), play_regardless(plan).ok_or(fault)?),
        };
        let books = known(&session.plan, hints);
        Ok(View {
            fault,
            session,
            books,
        })
    }

    /// The lines that the rehearsal prints.
    pub fn printed(&self) -> String {
        match self.fault {
            Some(fault) => format!("refused {}\n", fault.cause()),
            None => self.session.report(),
        }
    }

    pub fn n(&self) -> usize {
        self.session.plan.n
    }

    pub fn bad(&self) -> Vec<usize> {
        let good = &self.session.plan.good;
        (1..=self.n()).filter(|it| !good.contains(it)).collect()
    }

    /// The place of a good box in the session's lists.
    pub fn place(&self, number: usize) -> Option<usize> {
        self.session.plan.good.iter().position(|&it| it == number)
    }

    pub fn happy(&self, place: usize) -> bool {
        self.session.bits[place] == 1
    }

    pub fn mood(&self, place: usize) -> &'static str {
        match self.happy(place) {
            true => "happy",
            false => "unhappy",
        }
    }

    pub fn book_of(&self, place: usize) -> &str {
        let name = self.books.name_of(&self.session.messages[place]);
        name.expect("every good box's book is known")
    }

    /// Where a value of the short agreement comes from.
    pub fn origin(&self, given: bool) -> String {
        match given {
            true => "as the plan gives it".to_string(),
            false => format!(
                "box {}'s, as the plan gives none",
                self.session.plan.good[0]
            ),
        }
    }

    pub fn root_name(&self) -> String {
        let name = named_root(&self.books, self.session.root);
        name.map_or("of no book here".to_string(), |name| format!("of {name}"))
    }

    /// The sitting, with its number where the plan has one.
    pub fn title(&self) -> String {
        let (plan, boxes) = (&self.session.plan, boxes(self.n()));
        let sitting = match plan.session {
            Some(number) => format!("Sitting {number}, of {boxes}"),
            None => format!("Sitting of {boxes}"),
        };
        format!("{sitting}, of which {} may be bad", plan.t)
    }

    /// The packets of an exchange, by sender and receiver.
    pub fn parcels(&self, round: Round) -> Vec<Parcel> {
        let plan = &self.session.plan;
        let rows: Vec<(usize, &Row)> = match round {
            Round::Sender => plan.sender.iter().map(|it| (it.number, &it.row)).collect(),
            Round::First => (1..).zip(&plan.first).collect(),
            Round::Second => (1..).zip(&plan.second).collect(),
        };
        let mut parcels = Vec::new();
        for (sender, row) in rows {
            for (receiver, packet) in (1..).zip(row) {
                let parcel = |it: &Vec<u8>| self.parcel(round, (sender, receiver), it);
                parcels.extend(packet.as_ref().map(parcel));
            }
        }
        parcels
    }

    fn parcel(&self, round: Round, (sender, receiver): (usize, usize), packet: &[u8]) -> Parcel {
        let place = self.place(receiver);
        let due = match round {
            Round::Sender => None,
            Round::First => Some(receiver),
            Round::Second => Some(sender),
        };
        let worth = match (place, due) {
            (None, _) => Worth::ToBadBox,
            (_, None) => book_worth(packet),
            (_, Some(due)) => self.share_worth(due, packet),
        };
        let taken = match (&self.session.takings, place, round) {
            (Some(takings), Some(place), Round::First) => takings.sources[place] == Some(sender),
            _ => false,
        };
        Parcel {
            sender,
            receiver,
            length: packet.len(),
            what: self.what(packet),
            worth,
            taken,
            fault: due.and_then(|due| worth.fault(due)),
        }
    }

    /// The boxes that a good box saw cheat in the whole sitting.
    pub fn seen(&self, place: usize) -> Vec<usize> {
        let takings = self.session.takings.as_ref();
        let map = takings.map_or(0, |takings| takings.faulty[place]);
        (1..=self.n())
            .filter(|it| map >> (it - 1) & 1 == 1)
            .collect()
    }

    /// The good boxes that saw a box cheat.
    pub fn seen_by(&self, number: usize) -> Vec<usize> {
        let good = self.session.plan.good.iter().enumerate();
        good.filter(|it| self.seen(it.0).contains(&number))
            .map(|it| *it.1)
            .collect()
    }

    /// The worth to a box that demands this share.
    fn share_worth(&self, demanded: usize, packet: &[u8]) -> Worth {
        let (number, root) = (self.session.plan.session_number(), self.session.root);
        let standing = classify(number, self.n(), demanded, root, packet);
        match (standing, read(self.n(), packet)) {
            (Ok(Standing::Valid(_)), _) => Worth::Passes,
            (Ok(Standing::Silent), _) => Worth::Silence,
            (_, Reading::Share { number, .. }) if number != demanded => Worth::OtherNumber(number),
            (_, Reading::Share { .. }) => Worth::FailsCheck,
            _ => Worth::Unreadable,
        }
    }

    /// Words for a packet, cut short if they are long.
    fn what(&self, packet: &[u8]) -> String {
        cut(&recognise(&self.books, packet).to_string(), SHOWN)
    }

    /// Who sends in the sender's exchange.
    pub fn sender_title(&self, sender: &Sender) -> String {
        let number = sender.number;
        let [sent, ..] = self.session.bytes_sent();
        match self.place(number) {
            Some(_) if self.n() == 1 => format!("box {number} is alone and sends nothing"),
            Some(_) => format!(
                "good box {number} gives its book to the others, {} in all",
                bytes(sent)
            ),
            None => format!("bad box {number} sends what it likes"),
        }
    }

    /// How a good box opens by the sender.
    pub fn opening(&self, sender: &Sender, place: usize) -> String {
        let (own, book) = (self.session.plan.good[place], self.book_of(place));
        if own == sender.number {
            return format!("is the sender and opens with its own book {book}");
        }
        let came = sender.row[own - 1].as_deref();
        let why = match came.map(book_worth) {
            Some(Worth::Book) => return format!("reads {book} and opens with it"),
            Some(Worth::Unreadable) => "cannot read its packet",
            _ => "gets nothing",
        };
        format!("{why} and opens with the empty book, {book}")
    }

    /// What a good box does with its inbox of the first or the second exchange.
    pub fn step(&self, round: Round, takings: &Takings, place: usize) -> String {
        match round {
            Round::First => self.first_step(takings, place),
            _ => self.second_step(takings, place),
        }
    }

    fn first_step(&self, takings: &Takings, place: usize) -> String {
        let own = self.session.plan.good[place];
        match takings.sources[place] {
            _ if self.n() == 1 => "is alone and relays nothing".to_string(),
            _ if self.happy(place) => {
                format!("is happy and relays its own share {own}")
            }
            Some(sender) => format!("takes share {own} from box {sender} and relays it"),
            None => "finds no share that passes and relays nothing".to_string(),
        }
    }

    fn second_step(&self, takings: &Takings, place: usize) -> String {
        let Some(gathered) = &takings.gathered[place] else {
            return "is happy and keeps its book".to_string();
        };
        let present = (1..).zip(gathered).filter(|(_, share)| !share.is_empty());
        let present: Vec<usize> = present.map(|(number, _)| number).collect();
        let least = self.session.plan.n - self.session.plan.t;
        let (shares, used) = (
            numbers(&present),
            numbers(&present[..least.min(present.len())]),
        );
        match &takings.rebuilt[place] {
            Some(Rebuilt::Message(_)) => {
                format!("gathers shares {shares} and rebuilds the book from {used}")
            }
            Some(Rebuilt::OtherRoot(message)) => format!(
                "gathers shares {shares}, rebuilds {} from {used} and does not take it, \
                 since its root is not the agreed one",
                cut(&self.called(message), SHOWN)
            ),
            _ if present.is_empty() => "gathers no share".to_string(),
            Some(Rebuilt::Refused(11)) => format!("gathers shares {shares}, too few for a book"),
            _ => format!("gathers shares {shares} and finds no book in them"),
        }
    }

    /// A book by its name, or as it is.
    fn called(&self, message: &[u8]) -> String {
        let name = self.books.name_of(message).map(String::from);
        name.unwrap_or_else(|| written(message))
    }

    /// How a good box ended.
    pub fn ending(&self, place: usize) -> String {
        match &self.session.results[place] {
            None => "ends with nothing".to_string(),
            Some(message) if message.is_empty() => {
                format!("ends with {}, the empty book", self.called(message))
            }
            Some(message) => format!("ends with {}", self.called(message)),
        }
    }
}

/// The worth of a sender's packet to a good box.
fn book_worth(packet: &[u8]) -> Worth {
    match message_packet::read(packet) {
        message_packet::Reading::Message(_) => Worth::Book,
        message_packet::Reading::Silence => Worth::Silence,
        message_packet::Reading::Refused(_) => Worth::Unreadable,
    }
}
