//! Writes the words of a plan that is well laid out.

use std::collections::BTreeSet;

use foreign::message_packet::{self, Reading};
use foreign::rehearsal::{Plan, Round, Row, Sender};
use foreign::sha256::{hex, Hash};

use crate::books::{Book, Books, Hints, Source};
use crate::packet::Hex;
use crate::phrases::name;
use crate::recognise::recognise;

/// Lines are broken where they get longer than this.
const WIDTH: usize = 100;

/// The plan in words. Shares of the good parties' books and of the named ones are told as
/// such; books that are not spoken of are left out.
pub fn text(plan: &Plan, hints: &Hints) -> String {
    let mut words = Words {
        plan,
        books: known(plan, hints),
        spoken_of: BTreeSet::new(),
    };
    let agreed = words.agreed();
    let members = words.members();
    let exchanges = words.exchanges();
    // The other lines tell which books are spoken of.
    let agreed = [words.definitions(), agreed].concat();
    let parts = [vec![words.head(), agreed, members], exchanges].concat();
    let parts = parts.into_iter().filter(|lines| !lines.is_empty());
    let parts = parts.map(|lines| lines.iter().map(|line| broken(line)).collect());
    parts.collect::<Vec<String>>().join("\n")
}

/// The books: the named ones, and by letters those that are listed, sent whole or opened with.
pub fn known(plan: &Plan, hints: &Hints) -> Books {
    let mut books = Books::new(plan.session_number(), plan.n, plan.t);
    hints.sittings.iter().for_each(|it| books.sit(*it));
    for (name, message) in &hints.books {
        books.add(name, message);
    }
    let listed = plan.messages.values().cloned();
    // A good box that reads no book of a sender opens with the empty one.
    let empty = one_reads_none(plan).then(Vec::new);
    for message in listed.chain(sent_whole(plan)).chain(empty) {
        if books.name_of(&message).is_none() {
            books.add(&books.free_name(), &message);
        }
    }
    books
}

/// The books of all packets that are laid out as a book's, also of such as cannot be read.
fn sent_whole(plan: &Plan) -> Vec<Vec<u8>> {
    let sender = plan.sender.iter().map(|it| &it.row);
    let rows = sender.chain(&plan.first).chain(&plan.second);
    let whole = rows.flatten().flatten().filter_map(|packet| {
        let message = packet.get(message_packet::HEADER..)?;
        (message_packet::write(message) == *packet).then(|| message.to_vec())
    });
    whole.collect()
}

/// Whether a bad sender gives no book to one of the good boxes.
fn one_reads_none(plan: &Plan) -> bool {
    let Some(sender) = bad_sender(plan) else {
        return false;
    };
    let came = |own: &usize| sender.row[own - 1].as_deref().unwrap_or_default();
    let is_read = |bytes| matches!(message_packet::read(bytes), Reading::Message(_));
    !plan.good.iter().map(came).all(is_read)
}

/// The sender, if it is not good; only of such a one a plan says what it sends.
fn bad_sender(plan: &Plan) -> Option<&Sender> {
    let sender = plan.sender.as_ref();
    sender.filter(|it| !plan.good.contains(&it.number))
}

/// What this is the root of.
pub fn named_root(books: &Books, root: Hash) -> Option<Source> {
    let mut sources = books.sources();
    let found = sources.find(|(_, coded)| coded.root == root);
    found.map(|(source, _)| source)
}

/// A plan whose words are being found, and the books that they speak of so far.
struct Words<'a> {
    plan: &'a Plan,
    books: Books,
    spoken_of: BTreeSet<String>,
}

impl Words<'_> {
    fn head(&self) -> Vec<String> {
        let plan = self.plan;
        let mut lines = vec![format!("boxes {}", plan.n), format!("limit {}", plan.t)];
        lines.extend(plan.session.map(|number| format!("sitting {number}")));
        lines.extend(plan.sender.as_ref().map(|sender| {
            let outside = match (1..=plan.n).contains(&sender.number) {
                true => "",
                false => " outside",
            };
            format!("sender {}{outside}", sender.number)
        }));
        lines
    }

    /// The lines of the books that are spoken of.
    fn definitions(&self) -> Vec<String> {
        let known = self.books.known.iter();
        let spoken_of = known.filter(|it| self.spoken_of.contains(&it.name));
        let line = |it: &Book| format!("book {} {}", it.name, written(&it.message));
        spoken_of.map(line).collect()
    }

    /// The lines of root and bit.
    fn agreed(&mut self) -> Vec<String> {
        let named = self.plan.root.and_then(|it| named_root(&self.books, it));
        self.spoken_of
            .extend(named.iter().map(|it| it.book.clone()));
        let root = self.plan.root.map(|root| match &named {
            Some(source) => format!("root of {source}"),
            None => format!("root {}", hex(&root)),
        });
        let bit = self.plan.bit.map(|bit| format!("bit {bit}"));
        root.into_iter().chain(bit).collect()
    }

    fn members(&mut self) -> Vec<String> {
        let mut lines = Vec::new();
        for number in 1..=self.plan.n {
            let is = match self.plan.messages.get(&number) {
                Some(message) => {
                    let name = self.books.name_of(message).expect("all are known");
                    self.spoken_of.insert(name.to_string());
                    format!("has {name}")
                }
                None if self.plan.good.contains(&number) => "is good".to_string(),
                None => "is bad".to_string(),
            };
            lines.push(format!("box {number} {is}"));
        }
        lines
    }

    /// What the bad parties send, exchange by exchange.
    fn exchanges(&mut self) -> Vec<Vec<String>> {
        let plan = self.plan;
        let mut parts = Vec::new();
        if let Some(sender) = bad_sender(plan) {
            parts.push(self.exchange(Round::Sender, [(sender.number, &sender.row)]));
        }
        parts.push(self.exchange(Round::First, (1..).zip(&plan.first)));
        parts.push(self.exchange(Round::Second, (1..).zip(&plan.second)));
        parts
    }

    fn exchange<'a>(
        &mut self,
        round: Round,
        rows: impl IntoIterator<Item = (usize, &'a Row)>,
    ) -> Vec<String> {
        let mut lines = vec![format!("{} exchange", name(round))];
        for (sender, row) in rows {
            lines.extend(self.sendings(sender, row));
        }
        lines
    }

    /// What one party sends in one exchange, receivers of one packet together.
    fn sendings(&mut self, sender: usize, row: &Row) -> Vec<String> {
        let mut lines = Vec::new();
        for (receivers, bytes) in by_packet(row) {
            let packet = recognise(&self.books, bytes);
            let books = packet.books().into_iter().map(String::from);
            self.spoken_of.extend(books);
            lines.push(format!("{sender} to{receivers}: {packet}"));
        }
        lines
    }
}

/// The packets of a row, each once, with the receivers' numbers.
fn by_packet(row: &Row) -> Vec<(String, &[u8])> {
    let mut packets: Vec<(String, &[u8])> = Vec::new();
    for (receiver, packet) in (1..).zip(row) {
        let Some(packet) = packet else {
            continue;
        };
        let number = format!(" {receiver}");
        match packets.iter_mut().find(|it| it.1 == packet) {
            Some((receivers, _)) => *receivers += &number,
            None => packets.push((number, packet)),
        }
    }
    packets
}

/// A book as it can be read well; of a long one that repeats a part, that part and how often.
pub fn written(message: &[u8]) -> String {
    match repeated(message) {
        Some((times, part)) => format!("{times} times {}", spelled(part)),
        None => spelled(message),
    }
}

/// How often a long book has which part, if it is nothing else; the shortest such part.
fn repeated(message: &[u8]) -> Option<(usize, &[u8])> {
    let whole = message.len();
    if whole <= WIDTH {
        return None;
    }
    let repeats = |size: &usize| message[*size..] == message[..whole - size];
    let mut sizes = (1..=whole / 2).filter(|size| whole.is_multiple_of(*size));
    let size = sizes.find(repeats)?;
    Some((whole / size, &message[..size]))
}

/// Bytes in quotes, if that can be read well, or else in hexadecimal.
fn spelled(message: &[u8]) -> String {
    let plain = |c: char| c == ' ' || c.is_ascii_graphic() || c.is_alphanumeric();
    match std::str::from_utf8(message) {
        Ok(text) if text.chars().all(plain) => {
            format!("\"{}\"", text.replace('\\', "\\\\").replace('"', "\\\""))
        }
        _ => Hex(message).to_string(),
    }
}

/// The line, which goes on in the next where it is long; a text in quotes stays whole.
fn broken(line: &str) -> String {
    if line.len() <= WIDTH || line.contains('"') {
        return format!("{line}\n");
    }
    let mut text = String::new();
    let mut column = 0;
    for word in line.split(' ') {
        if column + word.len() > WIDTH {
            text += "\\\n    ";
            column = 4;
        }
        text += &format!("{word} ");
        column += word.len() + 1;
    }
    text.trim_end().to_string() + "\n"
}
