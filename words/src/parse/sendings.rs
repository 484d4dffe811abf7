//! Reads the lines of what bad boxes send.

use foreign::limits::{LONGEST_ENTRY, MOST_NAMED, MOST_PARTIES};
use foreign::rehearsal::Round;

use super::{name, Reader};
use crate::lines::{pairs, Error, Line};
use crate::packet::{Change, Field, Packet};
use crate::phrases;

const CHANGES: &str = "'map', 'number', 'length', 'path', 'share byte', 'book byte', \
    'followed by' or 'cut by'";

impl Reader {
    /// What a bad box sends to one or several.
    pub(super) fn sending(&mut self, line: &mut Line) -> Result<(), Error> {
        let Some(round) = self.round else {
            return Err(line.error(
                "\"sender's exchange\", 'first exchange' or 'second exchange' must stand above",
            ));
        };
        let sender = line.number("a sender", 0..=255)?;
        self.may_send(line, round, sender)?;
        line.expect("to")?;
        let mut receivers = vec![line.number("a receiver", 1..=MOST_NAMED)?];
        while !line.accept_mark(':') {
            let receiver = line.number("':' or a receiver", 1..=MOST_NAMED)?;
            receivers.push(receiver);
        }
        let packet = self.packet(line)?;
        let bytes = packet.bytes(&self.draft.books);
        let bytes = bytes.map_err(|text| line.error(text))?;
        let place = phrases::name(round);
        for receiver in receivers {
            self.once(
                format!("{sender} to {receiver} in the {place} exchange"),
                line,
            )?;
            let packets = self.draft.packets(round);
            packets.extend(bytes.clone().map(|bytes| ((sender, receiver), bytes)));
        }
        Ok(())
    }

    /// In the sender's exchange the sender sends, and in the others bad boxes do.
    fn may_send(&self, line: &Line, round: Round, sender: usize) -> Result<(), Error> {
        let may = match round {
            Round::Sender => self.draft.sender == Some(sender),
            _ => self.bad.contains(&sender),
        };
        match (may, round) {
            (true, _) => Ok(()),
            (_, Round::Sender) => Err(line.error("only the sender sends in this exchange")),
            _ => Err(line.error(format!("no line above says that box {sender} is bad"))),
        }
    }

    fn packet(&mut self, line: &mut Line) -> Result<Packet, Error> {
        if line.accept("nothing") {
            return Ok(Packet::Nothing);
        }
        if line.accept("empty") {
            return Ok(Packet::Raw(Vec::new()));
        }
        if line.accept("hex") {
            return Ok(Packet::Raw(line.hex()?));
        }
        if line.accept("book") {
            return Ok(Packet::Book {
                book: self.named(line)?,
                changes: self.changes(line)?,
            });
        }
        if !line.accept("share") {
            return Err(line.expected("'share', 'book', 'hex', 'empty' or 'nothing'"));
        }
        let number = line.number("a share number", 1..=MOST_PARTIES)?;
        line.expect("of")?;
        Ok(Packet::Share {
            number,
            source: self.source(line)?,
            changes: self.changes(line)?,
        })
    }

    /// A known book's name.
    fn named(&self, line: &mut Line) -> Result<String, Error> {
        let name = line.take(name);
        let name = name.ok_or_else(|| line.expected("a book's name"))?;
        self.known(line, &name)?;
        Ok(name)
    }

    fn changes(&mut self, line: &mut Line) -> Result<Vec<Change>, Error> {
        let mut changes = Vec::new();
        while line.accept_mark(',') {
            changes.push(self.change(line)?);
        }
        Ok(changes)
    }

    fn change(&mut self, line: &mut Line) -> Result<Change, Error> {
        let known = |word: &str| {
            let mut all = [
                "map", "number", "length", "path", "share", "book", "followed", "cut",
            ]
            .iter();
            all.find(|it| **it == word).copied()
        };
        let keyword = line.take(known);
        match keyword.ok_or_else(|| line.expected(CHANGES))? {
            "map" => Ok(Change::Map(line.number("a map", 0..=255)? as u8)),
            "number" => Ok(Change::Number(line.number("a number", 0..=255)? as u8)),
            "length" => Ok(Change::Length(
                line.number("a length", 0..=LONGEST_ENTRY)? as u16
            )),
            "path" if line.word() != Some("byte") => {
                let number = line.number("'byte' or a share number", 1..=MOST_PARTIES)?;
                line.expect("of")?;
                let source = self.source(line)?;
                Ok(Change::Path { number, source })
            }
            "path" => damage(line, Field::Path),
            "share" => damage(line, Field::Share),
            "book" => damage(line, Field::Book),
            "followed" => {
                line.expect("by")?;
                line.expect("hex")?;
                Ok(Change::Followed(line.hex()?))
            }
            _ => {
                line.expect("by")?;
                Ok(Change::Cut(
                    line.number("a number of bytes", 1..=LONGEST_ENTRY)?,
                ))
            }
        }
    }
}

/// A field's byte with the bits that are turned in it; the lowest one if none are said.
fn damage(line: &mut Line, field: Field) -> Result<Change, Error> {
    line.expect("byte")?;
    let offset = line.number("a byte's place", 0..=LONGEST_ENTRY)?;
    line.expect("damaged")?;
    let mut bits = 1;
    if line.accept("by") {
        // Bits 00 would leave the byte as it is.
        let said = line.take(|word| match pairs(word)?[..] {
            [bits] if bits != 0 => Some(bits),
            _ => None,
        });
        bits = said.ok_or_else(|| line.expected("two hexadecimal digits other than 00"))?;
    }
    Ok(Change::Byte {
        field,
        offset,
        bits,
    })
}
