//! A sitting as a picture: boxes as columns, time downward, an arrow for each packet.

use foreign::rehearsal::{Fault, Round, Sender, Takings};

use crate::books::Hints;
use crate::explain::{preface, refused};
use crate::phrases::{bytes, cut, name, named, short, EXCHANGES};
use crate::svg::{wrapped, Svg};
use crate::text::written;
use crate::view::{Parcel, View, Worth};

const MARGIN: i32 = 16;
const LINE: i32 = 13;
/// How far an arrow falls.
const FALL: i32 = 40;
/// The width of a letter, at most.
const LETTER: i32 = 7;
/// So many letters of a book, and of the words for a packet, are shown.
const BOOK_SHOWN: usize = 80;
const PACKET_SHOWN: usize = 40;
/// The narrowest picture, so that headings have room.
const LEAST_WIDTH: i32 = 640;

/// What the mark on an arrow means.
const CHEAT: &str = "the receiver sees the sender cheat";

/// What an arrow of a kind, with further classes, means.
type Entry = (&'static str, &'static str, &'static str);
const OF_BOOKS: [Entry; 1] = [("book", "", "a book that is read")];
const OF_SHARES: [Entry; 3] = [
    ("passes", "", "passes the check"),
    ("passes", "taken", "passes, is taken and relayed"),
    ("fails", "", "fails the check, or bears another number"),
];
const OF_BOTH: [Entry; 3] = [
    ("unreadable", "", "cannot be read"),
    ("silence", "", "silence"),
    ("to-bad", "pale", "to a bad box"),
];

pub fn picture(plan: &[u8], hints: &Hints) -> String {
    match View::new(plan, hints) {
        Ok(view) => Picture::new(&view).drawn(plan),
        Err(fault) => refusal(fault, plan),
    }
}

/// A picture of a refused plan tells why.
fn refusal(fault: Fault, plan: &[u8]) -> String {
    let mut svg = Svg::default();
    let (told, letters) = (refused(fault, plan), (LEAST_WIDTH / LETTER) as usize);
    let lines: Vec<String> = told.lines().flat_map(|it| wrapped(it, letters)).collect();
    let mut y = MARGIN;
    for line in &lines {
        y += LINE + 4;
        svg.text((MARGIN, y), "heading", line);
    }
    svg.document(LEAST_WIDTH + 2 * MARGIN, y + MARGIN)
}

/// The picture so far, and how far down it reaches.
struct Picture<'a> {
    view: &'a View,
    svg: Svg,
    column: i32,
    y: i32,
}

impl Picture<'_> {
    fn new(view: &View) -> Picture<'_> {
        let n = view.n() as i32;
        Picture {
            view,
            svg: Svg::default(),
            column: (800 / n).clamp(112, 160).max(LEAST_WIDTH / n),
            y: MARGIN,
        }
    }

    fn width(&self) -> i32 {
        self.view.n() as i32 * self.column + 2 * MARGIN
    }

    /// The middle of a box's column.
    fn x(&self, number: usize) -> i32 {
        MARGIN + self.column * (number as i32 - 1) + self.column / 2
    }

    /// The letters that have room in a column.
    fn letters(&self) -> usize {
        ((self.column - 12) / LETTER) as usize
    }

    fn drawn(mut self, plan: &[u8]) -> String {
        if let Some(fault) = self.view.fault {
            let told = preface(fault, plan);
            let lines = told.lines().filter(|line| !line.is_empty());
            lines.for_each(|line| self.paragraph("heading", line));
        }
        self.titles();
        let top = self.y;
        if let Some(sender) = &self.view.session.plan.sender {
            self.sender(sender);
        }
        self.heads();
        let lanes_end = match &self.view.session.takings {
            Some(takings) => self.exchanges(takings),
            None => self.no_exchange(),
        };
        self.legend();
        let mut whole = Svg::default();
        for number in 1..=self.view.n() {
            let x = self.x(number);
            whole.line((x, top), (x, lanes_end), "lane");
        }
        let (width, height) = (self.width(), self.y + MARGIN);
        whole.append(self.svg);
        whole.document(width, height)
    }

    fn paragraph(&mut self, class: &str, text: &str) {
        let letters = (self.width() - 2 * MARGIN) / LETTER;
        for line in wrapped(text, letters as usize) {
            self.y += LINE + 2;
            self.svg.text((MARGIN, self.y), class, &line);
        }
    }

    fn titles(&mut self) {
        let (session, view) = (&self.view.session, self.view);
        let root = format!("{} {}", short(&session.root), view.root_name());
        let root_origin = view.origin(session.plan.root.is_some());
        let bit_origin = view.origin(session.plan.bit.is_some());
        self.y += 4;
        self.paragraph("title", &view.title());
        self.y += 4;
        self.paragraph("", &format!("Agreed root: {root} ({root_origin})"));
        self.paragraph("", &format!("Agreed bit: {} ({bit_origin})", session.bit));
        for book in &view.books.known {
            let words = cut(&written(&book.message), BOOK_SHOWN);
            self.paragraph("", &format!("Book {}: {words}", book.name));
        }
        self.y += 12;
    }

    /// The sender's exchange, above what the boxes open with.
    fn sender(&mut self, sender: &Sender) {
        let cards = (1..=self.view.n()).map(|number| self.role(number, sender.number));
        self.cards(cards.collect());
        let title = self.view.sender_title(sender);
        self.bar(&format!("The sender's exchange: {title}"));
        let parcels = self.exchange(Round::Sender);
        self.steps(&parcels, |view, place| view.opening(sender, place));
    }

    /// What a box is before it opens.
    fn role(&self, number: usize, sender: usize) -> Card {
        let (class, kind) = match self.view.place(number) {
            Some(_) => ("step", "good"),
            None => ("bad", "bad"),
        };
        let mut text = vec![format!("box {number}"), kind.to_string()];
        text.extend((number == sender).then(|| "the sender".to_string()));
        Card::new(number, class, &text)
    }

    /// What each box is and has.
    fn heads(&mut self) {
        let cards = (1..=self.view.n()).map(|number| self.head(number));
        self.cards(cards.collect());
    }

    fn head(&self, number: usize) -> Card {
        let title = format!("box {number}");
        let Some(place) = self.view.place(number) else {
            return Card::new(number, "bad", &[title, "bad".to_string()]);
        };
        let class = self.view.mood(place);
        let root = format!("root {}", short(&self.view.session.roots[place]));
        let book = format!("has {}", self.view.book_of(place));
        Card::new(number, class, &[title, book, root, class.to_string()])
    }

    /// Cards beside each other, all as high as the highest.
    fn cards(&mut self, cards: Vec<Card>) {
        let letters = self.letters();
        let most = cards.iter().map(|card| card.lines(letters).len()).max();
        let height = most.unwrap_or(0) as i32 * LINE + 10;
        for card in cards {
            let x = self.x(card.number);
            let corner = (x - self.column / 2 + 4, self.y);
            let class = format!("card {}", card.class);
            self.svg.rect(corner, (self.column - 8, height), &class);
            for (place, (line, class)) in (1..).zip(card.lines(letters)) {
                let at = (x, self.y + place * LINE + 2);
                self.svg.text(at, &format!("middle {class}"), &line);
            }
        }
        self.y += height + 12;
    }

    fn bar(&mut self, title: &str) {
        let size = (self.width() - 2 * MARGIN, 22);
        self.svg.rect((MARGIN, self.y), size, "bar");
        self.svg.text((MARGIN + 8, self.y + 15), "heading", title);
        self.y += 22 + 8;
    }

    fn exchanges(&mut self, takings: &Takings) -> i32 {
        let [_, sent @ ..] = self.view.session.bytes_sent();
        for (round, sent) in EXCHANGES.into_iter().zip(sent) {
            let (name, sent) = (name(round), bytes(sent));
            self.bar(&format!("The {name} exchange: the good boxes send {sent}"));
            let parcels = self.exchange(round);
            self.steps(&parcels, |view, place| view.step(round, takings, place));
        }
        self.results()
    }

    fn no_exchange(&mut self) -> i32 {
        self.bar("On bit 0 no shares are sent");
        self.results()
    }

    /// How the boxes end; the columns end here too.
    fn results(&mut self) -> i32 {
        self.bar("Results");
        let end = self.y;
        let cards = (1..=self.view.n()).map(|number| self.result(number));
        self.cards(cards.collect());
        end
    }

    /// How a good box ends and whom it saw cheat, or who saw a bad one.
    fn result(&self, number: usize) -> Card {
        let title = format!("box {number}");
        let Some(place) = self.view.place(number) else {
            let by = named(&self.view.seen_by(number));
            return Card::new(number, "bad", &[title, format!("seen to cheat by {by}")]);
        };
        let class = match self.view.session.results[place] {
            Some(_) => "happy",
            None => "step",
        };
        let seen = self.view.seen(place);
        let saw = format!("saw {} cheat", named(&seen));
        let mut card = Card::new(number, class, &[title, self.view.ending(place)]);
        match seen.is_empty() {
            true => card.text.push(saw),
            false => card.seen = Some(saw),
        }
        card
    }

    /// What each good box does with these packets, and whom it sees cheat.
    fn steps(&mut self, parcels: &[Parcel], step: impl Fn(&View, usize) -> String) {
        let good = self.view.session.plan.good.iter().enumerate();
        let cards = good.map(|(place, &number)| Card {
            number,
            class: "step",
            text: vec![step(self.view, place)],
            titled: false,
            seen: sees(parcels, number),
        });
        self.cards(cards.collect());
    }

    /// The packets of an exchange.
    fn exchange(&mut self, round: Round) -> Vec<Parcel> {
        let parcels = self.view.parcels(round);
        for row in parcels.chunk_by(|one, next| one.sender == next.sender) {
            self.row(row);
        }
        parcels
    }

    /// One sender's packets.
    fn row(&mut self, row: &[Parcel]) {
        let from = (self.x(row[0].sender), self.y + 18);
        let sender = format!("box {} sends", row[0].sender);
        let above = (from.0, from.1 - 8);
        self.svg.text(above, "middle strong halo", &sender);
        let heights = row.iter().map(|parcel| self.parcel(from, parcel));
        let most = heights.max();
        self.svg.dot(from);
        self.y = from.1 + FALL + most.unwrap_or(0) + 12;
    }

    /// An arrow and the words at its tip, which are so high.
    fn parcel(&mut self, from: (i32, i32), parcel: &Parcel) -> i32 {
        let (x, y) = (self.x(parcel.receiver), from.1 + FALL);
        let kind = kind(parcel.worth);
        let class = match (parcel.taken, parcel.worth) {
            (true, _) => "taken",
            (_, Worth::ToBadBox) => "pale",
            _ => "",
        };
        self.svg.arrow(from, (x, y), kind, class);
        if parcel.fault.is_some() {
            self.svg.mark(behind_head(from, (x, y)));
        }
        let what = wrapped(&cut(&parcel.what, PACKET_SHOWN), self.letters());
        let worth = match parcel.worth {
            Worth::Book | Worth::Passes | Worth::ToBadBox => Vec::new(),
            worth => wrapped(&worth.words(), self.letters()),
        };
        let what = what.into_iter().map(|line| (line, "ink"));
        let lines = what.chain(worth.into_iter().map(|line| (line, kind)));
        let mut height = 0;
        for (line, class) in lines {
            height += LINE;
            let class = format!("middle halo {class}");
            self.svg.text((x, y + height), &class, &line);
        }
        height
    }

    /// The kinds of arrows that the picture may have.
    fn legend(&mut self) {
        let session = &self.view.session;
        let sender = session.plan.sender.iter().flat_map(|_| OF_BOOKS);
        let shares = session.takings.iter().flat_map(|_| OF_SHARES);
        let mut entries: Vec<Entry> = sender.chain(shares).collect();
        if !entries.is_empty() {
            entries.extend(OF_BOTH);
        }
        let width = 310;
        let in_row = ((self.width() - 2 * MARGIN) / width).max(1);
        let top = self.y + 8;
        let at = |place: i32| (MARGIN + place % in_row * width, top + place / in_row * 18);
        let mut cells = 0;
        for (kind, class, words) in entries {
            let (x, y) = at(cells);
            self.svg.arrow((x, y), (x + 40, y), kind, class);
            self.svg.text((x + 48, y + 4), "", words);
            cells += 1;
        }
        if session.takings.is_some() {
            let (x, y) = at(cells);
            self.svg.mark((x + 20, y));
            self.svg.text((x + 48, y + 4), "", CHEAT);
            cells += 1;
        }
        self.y += (cells + in_row - 1) / in_row * 18;
    }
}

/// A box in a column, with lines of text, of which the first may be its title, and whom it saw cheat.
struct Card {
    number: usize,
    class: &'static str,
    text: Vec<String>,
    titled: bool,
    seen: Option<String>,
}

impl Card {
    fn new(number: usize, class: &'static str, text: &[String]) -> Card {
        Card {
            number,
            class,
            text: text.to_vec(),
            titled: true,
            seen: None,
        }
    }

    /// The lines of so many letters, each with its class.
    fn lines(&self, letters: usize) -> Vec<(String, &'static str)> {
        let text = self.text.iter().flat_map(|it| wrapped(it, letters));
        let seen = self.seen.iter().flat_map(|it| wrapped(it, letters));
        let class = |place| match place == 0 && self.titled {
            true => "strong",
            false => "ink",
        };
        let text = text.enumerate().map(|(place, it)| (it, class(place)));
        text.chain(seen.map(|it| (it, "strong cheat"))).collect()
    }
}

/// Whom a box sees cheat by these packets, if anybody.
fn sees(parcels: &[Parcel], number: usize) -> Option<String> {
    let own = parcels.iter().filter(|it| it.receiver == number);
    let cheats: Vec<usize> = own
        .filter(|it| it.fault.is_some())
        .map(|it| it.sender)
        .collect();
    (!cheats.is_empty()).then(|| format!("sees {} cheat", named(&cheats)))
}

/// A place on an arrow where its head does not cover it.
fn behind_head(from: (i32, i32), to: (i32, i32)) -> (i32, i32) {
    let [x, y] = [to.0 - from.0, to.1 - from.1].map(f64::from);
    let part = 18.0 / x.hypot(y);
    let back = |way: f64| (way * part).round() as i32;
    (to.0 - back(x), to.1 - back(y))
}

/// The kind of arrow for a packet of this worth.
fn kind(worth: Worth) -> &'static str {
    match worth {
        Worth::Book => "book",
        Worth::Passes => "passes",
        Worth::FailsCheck | Worth::OtherNumber(_) => "fails",
        Worth::Unreadable => "unreadable",
        Worth::Silence => "silence",
        Worth::ToBadBox => "to-bad",
    }
}
