//! Reads a plan in words. What a line uses stands above it: the numbers of boxes and of bad
//! ones first, books before their shares, boxes before what they send or get.

mod sendings;

use std::collections::{BTreeMap, BTreeSet};

use foreign::limits::{LONGEST_ENTRY, MOST_NAMED};
use foreign::rehearsal::Round;
use foreign::sha256::Hash;

use crate::books::{Book, Books, Source};
use crate::draft::Draft;
use crate::lines::{lines, pairs, Error, Line};
use crate::phrases;

/// Words that cannot name a book.
const KEYWORDS: [&str; 2] = ["box", "hex"];

const BOOK_EXPECTED: &str = "a book: its name, a text in quotes, or 'hex' and digits";
const STATEMENTS: &str =
    "'sitting', 'sender', 'root', 'bit', 'book', 'box', \"sender's exchange\", \
    'first exchange', 'second exchange', 'options', 'behind', 'cut by' or a sender's number";

pub fn parse(text: &str) -> Result<Draft, Error> {
    let mut lines = lines(text)?.into_iter();
    let last = text.lines().count().max(1);
    let mut head = |keyword: &str, what: &str| {
        let mut line = lines.next().ok_or_else(|| Error {
            line: last,
            text: format!("expected '{keyword}', found the end of the plan"),
        })?;
        line.expect(keyword)?;
        let number = line.number(what, 0..=255)?;
        line.end().map(|()| number)
    };
    let n = head("boxes", "the number of boxes")?;
    let t = head("limit", "the greatest number of bad boxes")?;
    let mut reader = Reader {
        draft: Draft::new(n, t),
        bad: BTreeSet::new(),
        round: None,
        said: BTreeMap::new(),
    };
    for mut line in lines {
        reader.statement(&mut line)?;
        line.end()?;
    }
    reader.finished(last)
}

/// The plan so far.
struct Reader {
    draft: Draft,
    bad: BTreeSet<usize>,
    /// The exchange that the sendings belong to.
    round: Option<Round>,
    /// What may be said once, and the line where it was.
    said: BTreeMap<String, usize>,
}

impl Reader {
    fn statement(&mut self, line: &mut Line) -> Result<(), Error> {
        let unknown = || line.expected(STATEMENTS);
        match line.word().ok_or_else(unknown)? {
            "sitting" => self.sitting(line),
            "sender" => self.sender(line),
            "root" => self.root(line),
            "bit" => self.bit(line),
            "book" => self.book(line),
            "box" => self.member(line),
            "sender's" => self.exchange(line, Round::Sender),
            "first" => self.exchange(line, Round::First),
            "second" => self.exchange(line, Round::Second),
            "options" => self.options(line),
            "behind" => self.behind(line),
            "cut" => self.cut(line),
            other if other.starts_with(|c: char| c.is_ascii_digit()) => self.sending(line),
            _ => Err(line.expected(STATEMENTS)),
        }
    }

    /// Says something that may be said once.
    fn once(&mut self, what: String, line: &Line) -> Result<(), Error> {
        match self.said.get(&what) {
            Some(earlier) => Err(line.error(format!("{what} stands in line {earlier} already"))),
            None => {
                self.said.insert(what, line.number);
                Ok(())
            }
        }
    }

    /// Reads a keyword of a line that may stand once.
    fn keyword(&mut self, line: &mut Line, keyword: &str) -> Result<(), Error> {
        self.once(format!("'{keyword}'"), line)?;
        line.expect(keyword)
    }

    /// Roots and shares of books depend on it, so it stands above them and the boxes that have them.
    fn sitting(&mut self, line: &mut Line) -> Result<(), Error> {
        self.keyword(line, "sitting")?;
        let number = sitting_number(line)?;
        let Books { n, t, known, .. } = &self.draft.books;
        if !(known.is_empty() && self.bad.is_empty() && self.draft.good.is_empty()) {
            return Err(line.error("'sitting' must stand above the books and the boxes"));
        }
        self.draft.books = Books::new(number, *n, *t);
        self.draft.session = Some(number);
        Ok(())
    }

    /// Which boxes have a book depends on it, so it stands above them.
    fn sender(&mut self, line: &mut Line) -> Result<(), Error> {
        self.keyword(line, "sender")?;
        let number = line.number("the sender's number", 0..=255)?;
        if !(self.bad.is_empty() && self.draft.good.is_empty()) {
            return Err(line.error("'sender' must stand above the boxes"));
        }
        let n = self.draft.books.n;
        match ((1..=n).contains(&number), line.accept("outside")) {
            (true, true) => Err(line.error(format!("sender {number} is one of the {n} boxes"))),
            (false, false) => Err(line.error(format!(
                "sender {number} is none of the {n} boxes; a plan that is refused for it has \
                 'sender {number} outside'"
            ))),
            _ => {
                self.draft.sender = Some(number);
                Ok(())
            }
        }
    }

    fn root(&mut self, line: &mut Line) -> Result<(), Error> {
        self.keyword(line, "root")?;
        self.draft.root = Some(if line.accept("of") {
            let source = self.source(line)?;
            let coded = self.draft.books.coded(&source);
            let coded = coded.map_err(|text| line.error(text))?;
            let none = || line.error(format!("'{source}' has no root under n and t"));
            coded.ok_or_else(none)?.root
        } else {
            let hash = line.take(|word| Hash::try_from(pairs(word)?).ok());
            hash.ok_or_else(|| line.expected("'of' and a book, or 64 hexadecimal digits"))?
        });
        Ok(())
    }

    fn bit(&mut self, line: &mut Line) -> Result<(), Error> {
        self.keyword(line, "bit")?;
        self.draft.bit = Some(line.number("a bit", 0..=255)? as u8);
        Ok(())
    }

    fn options(&mut self, line: &mut Line) -> Result<(), Error> {
        self.keyword(line, "options")?;
        self.draft.options = line.number("an option map", 0..=255)? as u8;
        Ok(())
    }

    fn behind(&mut self, line: &mut Line) -> Result<(), Error> {
        self.keyword(line, "behind")?;
        line.expect("hex")?;
        self.draft.behind = line.hex()?;
        Ok(())
    }

    fn cut(&mut self, line: &mut Line) -> Result<(), Error> {
        self.keyword(line, "cut")?;
        line.expect("by")?;
        self.draft.cut = line.number("a number of bytes", 1..=LONGEST_ENTRY)?;
        Ok(())
    }

    fn book(&mut self, line: &mut Line) -> Result<(), Error> {
        line.expect("book")?;
        let name = line.take(name);
        let name = name.ok_or_else(|| {
            line.expected("a name for the book, letters and digits beginning with a letter")
        })?;
        self.once(format!("book {name}"), line)?;
        let message = written(line)?;
        let message = message.ok_or_else(|| line.expected("a text in quotes, or 'hex' and digits"));
        self.draft.books.add(&name, &message?);
        Ok(())
    }

    /// A good box, with its book if the plan lists that, or a bad box.
    fn member(&mut self, line: &mut Line) -> Result<(), Error> {
        line.expect("box")?;
        let number = line.number("a box number", 1..=255)?;
        self.once(format!("box {number}"), line)?;
        if line.accept("is") {
            return self.kind(line, number);
        }
        if !self.draft.has_listed(number) {
            return Err(line.expected("'is good' or 'is bad', as only a good sender has a book"));
        }
        if !line.accept("has") {
            return Err(line.expected("'has' and a book, or 'is bad'"));
        }
        let message = match written(line)? {
            Some(message) => message,
            None => {
                let name = line.take(name);
                let name = name.ok_or_else(|| line.expected(BOOK_EXPECTED))?;
                self.known(line, &name)?.message.clone()
            }
        };
        self.draft.books.add(&format!("box {number}"), &message);
        self.good(line, number, Some(message))
    }

    /// What a box is of which no book is said.
    fn kind(&mut self, line: &mut Line, number: usize) -> Result<(), Error> {
        if line.accept("bad") {
            return self.bad(line, number);
        }
        let listed = self.draft.has_listed(number);
        match (line.accept("good"), listed, self.draft.sender) {
            (true, false, _) => self.good(line, number, None),
            (true, true, sender) => {
                let why = sender.map_or("no line above names a sender", |_| "it is the sender");
                let book = format!("if box {number} is good, its book stands behind 'has'");
                Err(line.error(format!("{book}, as {why}")))
            }
            (false, true, _) => Err(line.expected("'bad'")),
            (false, false, _) => Err(line.expected("'good' or 'bad'")),
        }
    }

    fn good(&mut self, line: &Line, number: usize, book: Option<Vec<u8>>) -> Result<(), Error> {
        if number > MOST_NAMED {
            return Err(line.error(format!(
                "box {number} cannot be good: a plan's maps end at {MOST_NAMED}"
            )));
        }
        self.draft.good.insert(number, book);
        Ok(())
    }

    fn bad(&mut self, line: &Line, number: usize) -> Result<(), Error> {
        let n = self.draft.books.n;
        if number > n {
            return Err(line.error(format!("box {number} is none of the {n} boxes")));
        }
        self.bad.insert(number);
        Ok(())
    }

    fn exchange(&mut self, line: &mut Line, round: Round) -> Result<(), Error> {
        let name = phrases::name(round);
        self.once(phrases::quoted(round).to_string(), line)?;
        line.expect(name)?;
        line.expect("exchange")?;
        if round == Round::Sender {
            self.sender_is_bad(line)?;
        }
        self.round = Some(round);
        Ok(())
    }

    /// Of what a good sender sends a plan says nothing.
    fn sender_is_bad(&self, line: &Line) -> Result<(), Error> {
        let Some(sender) = self.draft.sender else {
            return Err(line.error("no line above names a sender"));
        };
        let outside = !(1..=self.draft.books.n).contains(&sender);
        if outside || self.bad.contains(&sender) {
            return Ok(());
        }
        Err(line.error(match self.draft.is_good(sender) {
            true => format!(
                "box {sender} is good and gives its book to all; \"sender's exchange\" is for a \
                 bad sender"
            ),
            false => format!("no line above says that box {sender} is bad"),
        }))
    }

    /// A known book's name, or `box` and a good box's number, and the sitting if it is another.
    fn source(&mut self, line: &mut Line) -> Result<Source, Error> {
        let book = if line.accept("box") {
            format!("box {}", line.number("a box number", 1..=MOST_NAMED)?)
        } else {
            let name = line.take(name);
            name.ok_or_else(|| line.expected("a book's name, or 'box' and a number"))?
        };
        self.known(line, &book)?;
        let mut session = None;
        if line.accept("in") {
            line.expect("sitting")?;
            let number = sitting_number(line)?;
            self.draft.books.sit(number);
            session = Some(number);
        }
        Ok(Source { book, session })
    }

    fn known(&self, line: &Line, name: &str) -> Result<&Book, Error> {
        let book = self.draft.books.find(name);
        book.map_err(|text| line.error(text))
    }

    /// The plan, if every box up to n is named and there is as much as is cut.
    fn finished(self, last: usize) -> Result<Draft, Error> {
        let error = |line, text| Err(Error { line, text });
        let named = |number: &usize| self.bad.contains(number) || self.draft.is_good(*number);
        if let Some(number) = (1..=self.draft.books.n).find(|number| !named(number)) {
            let good = match (number <= MOST_NAMED, self.draft.has_listed(number)) {
                (true, true) => format!("'box {number} has' and a book, or "),
                (true, false) => format!("'box {number} is good' or "),
                _ => String::new(),
            };
            let lines = format!("{good}'box {number} is bad'");
            return error(last, format!("expected {lines}, found the end of the plan"));
        }
        let whole = self.draft.uncut().len();
        match self.said.get("'cut'") {
            Some(&line) if self.draft.cut > whole => {
                error(line, format!("the plan has {whole} bytes to cut"))
            }
            _ => Ok(self.draft),
        }
    }
}

fn sitting_number(line: &mut Line) -> Result<u32, Error> {
    let number = line.number("a sitting number", 0..=u32::MAX as usize)?;
    Ok(number as u32)
}

/// A name that a book may have.
fn name(word: &str) -> Option<String> {
    let letters = word.bytes().all(|byte| byte.is_ascii_alphanumeric());
    let begins = word.starts_with(|c: char| c.is_ascii_alphabetic());
    (letters && begins && !KEYWORDS.contains(&word)).then(|| word.to_string())
}

/// A book written in this place, in quotes or in hexadecimal, once or several times; none if it does
/// not stand here.
fn written(line: &mut Line) -> Result<Option<Vec<u8>>, Error> {
    let begins = |word: &str| word.starts_with(|c: char| c.is_ascii_digit());
    let mut times = 1;
    if line.word().is_some_and(begins) {
        times = line.number("how often", 1..=LONGEST_ENTRY)?;
        line.expect("times")?;
    }
    let part = match line.accept_text() {
        Some(text) => text,
        None if line.accept("hex") => line.hex()?,
        None => return Ok(None),
    };
    match times * part.len() {
        length if length > LONGEST_ENTRY => {
            Err(line.error(format!("the book has {length} bytes, over {LONGEST_ENTRY}")))
        }
        _ => Ok(Some(part.repeat(times))),
    }
}
