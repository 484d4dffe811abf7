//! What a bad party sends, as words say it: nothing, bytes, or a share of a book or a whole book
//! with the changes made to its packet.

use std::fmt;

use foreign::limits::{LONGEST_ENTRY, LONGEST_MESSAGE, MOST_PARTIES};
use foreign::message_packet;

use crate::books::{Books, Coded, Source};

#[derive(Clone, Debug, PartialEq, Eq)]
pub enum Packet {
    /// The receiver is not named in the plan.
    Nothing,
    Raw(Vec<u8>),
    Share {
        number: usize,
        source: Source,
        changes: Vec<Change>,
    },
    /// What a good sender that has this book gives to all.
    Book {
        book: String,
        changes: Vec<Change>,
    },
}

/// One change to the packet of a share or of a book; changes are made in the order in which they stand.
#[derive(Clone, Debug, PartialEq, Eq)]
pub enum Change {
    Map(u8),
    Number(u8),
    Length(u16),
    /// The path of another number, of another book or in another sitting.
    Path {
        number: usize,
        source: Source,
    },
    /// The byte at this offset of the field with these bits turned.
    Byte {
        field: Field,
        offset: usize,
        bits: u8,
    },
    Followed(Vec<u8>),
    /// So many bytes are left out at the end.
    Cut(usize),
}

/// What stands behind the header of a packet.
#[derive(Clone, Copy, Debug, PartialEq, Eq)]
pub enum Field {
    Share,
    Path,
    Book,
}

/// A packet cut where its fields meet.
struct Fields {
    /// The map, a share's number, and a length in two bytes.
    header: Vec<u8>,
    /// The share or the book.
    body: Vec<u8>,
    /// None behind a book.
    path: Option<Vec<u8>>,
    behind: Vec<u8>,
    cut: usize,
}

impl Packet {
    /// The packet's bytes, none if the receiver gets nothing; an error says what is wrong.
    pub fn bytes(&self, books: &Books) -> Result<Option<Vec<u8>>, String> {
        let (mut fields, changes) = match self {
            Packet::Nothing => return Ok(None),
            Packet::Raw(bytes) => return fitting(bytes.clone()),
            Packet::Share {
                number,
                source,
                changes,
            } => (Fields::of_share(books, *number, source)?, changes),
            Packet::Book { book, changes } => (Fields::of_book(books, book)?, changes),
        };
        for change in changes {
            fields.change(books, change)?;
        }
        fitting(fields.bytes()?)
    }

    /// The changes that are made to a good packet.
    pub fn changes(&self) -> &[Change] {
        match self {
            Packet::Nothing | Packet::Raw(_) => &[],
            Packet::Share { changes, .. } | Packet::Book { changes, .. } => changes,
        }
    }

    /// The names of the books that are spoken of.
    pub fn books(&self) -> Vec<&str> {
        let book = match self {
            Packet::Nothing | Packet::Raw(_) => None,
            Packet::Share { source, .. } => Some(&source.book[..]),
            Packet::Book { book, .. } => Some(&book[..]),
        };
        let others = self.changes().iter().filter_map(|change| match change {
            Change::Path { source, .. } => Some(&source.book[..]),
            _ => None,
        });
        others.chain(book).collect()
    }
}

/// The bytes, if their length can be told in two.
fn fitting(bytes: Vec<u8>) -> Result<Option<Vec<u8>>, String> {
    match bytes.len() {
        length if length > LONGEST_ENTRY => Err(format!(
            "the packet has {length} bytes, over {LONGEST_ENTRY}"
        )),
        _ => Ok(Some(bytes)),
    }
}

/// The source's shares, or why there are none of this number.
fn coded<'a>(books: &'a Books, source: &Source, number: usize) -> Result<&'a Coded, String> {
    let none = || {
        format!(
            "there are no shares: n is 1 to {MOST_PARTIES}, 2·t < n, \
             and a book has at most {LONGEST_MESSAGE} bytes"
        )
    };
    let coded = books.coded(source)?.ok_or_else(none)?;
    match (1..=books.n).contains(&number) {
        true => Ok(coded),
        false => Err(format!(
            "shares have numbers from 1 to {}, not {number}",
            books.n
        )),
    }
}

impl Fields {
    fn of_share(books: &Books, number: usize, source: &Source) -> Result<Fields, String> {
        let (header, share, path) = coded(books, source, number)?.fields(number);
        Ok(Fields {
            header: header.to_vec(),
            body: share.to_vec(),
            path: Some(path.to_vec()),
            behind: Vec::new(),
            cut: 0,
        })
    }

    fn of_book(books: &Books, book: &str) -> Result<Fields, String> {
        let mut header = message_packet::write(&books.find(book)?.message);
        Ok(Fields {
            body: header.split_off(message_packet::HEADER),
            header,
            path: None,
            behind: Vec::new(),
            cut: 0,
        })
    }

    fn change(&mut self, books: &Books, change: &Change) -> Result<(), String> {
        match change {
            Change::Map(map) => self.header[0] = *map,
            Change::Number(_) | Change::Path { .. } if self.path.is_none() => {
                return Err("a book's packet has no number and no path".to_string())
            }
            Change::Number(number) => self.header[1] = *number,
            Change::Length(length) => {
                let from = self.header.len() - 2;
                self.header[from..].copy_from_slice(&length.to_be_bytes());
            }
            Change::Path { number, source } => {
                let path = coded(books, source, *number)?.fields(*number).2;
                self.path = Some(path.to_vec());
            }
            Change::Byte {
                field,
                offset,
                bits,
            } => turn(self.field(*field)?, *offset, *bits, *field)?,
            Change::Followed(bytes) => self.behind.extend(bytes),
            Change::Cut(count) => self.cut += count,
        }
        Ok(())
    }

    fn field(&mut self, field: Field) -> Result<&mut [u8], String> {
        match (field, &mut self.path) {
            (Field::Path, Some(path)) => Ok(path),
            (Field::Share, Some(_)) | (Field::Book, None) => Ok(&mut self.body),
            (_, Some(_)) => Err(format!("a share's packet has no {field}")),
            (_, None) => Err(format!("a book's packet has no {field}")),
        }
    }

    fn bytes(self) -> Result<Vec<u8>, String> {
        let path = self.path.unwrap_or_default();
        let mut bytes = [self.header, self.body, path, self.behind].concat();
        let left = bytes.len().checked_sub(self.cut);
        bytes.truncate(left.ok_or_else(|| format!("the packet has {} bytes to cut", bytes.len()))?);
        Ok(bytes)
    }
}

fn turn(bytes: &mut [u8], offset: usize, bits: u8, field: Field) -> Result<(), String> {
    let length = bytes.len();
    let byte = bytes.get_mut(offset);
    *byte.ok_or_else(|| format!("the {field} has {length} bytes, counted from 0"))? ^= bits;
    Ok(())
}

impl fmt::Display for Packet {
    fn fmt(&self, f: &mut fmt::Formatter) -> fmt::Result {
        match self {
            Packet::Nothing => write!(f, "nothing")?,
            Packet::Raw(bytes) if bytes.is_empty() => write!(f, "empty")?,
            Packet::Raw(bytes) => write!(f, "{}", Hex(bytes))?,
            Packet::Share { number, source, .. } => write!(f, "share {number} of {source}")?,
            Packet::Book { book, .. } => write!(f, "book {book}")?,
        }
        self.changes().iter().try_for_each(|it| write!(f, ", {it}"))
    }
}

impl fmt::Display for Change {
    fn fmt(&self, f: &mut fmt::Formatter) -> fmt::Result {
        match self {
            Change::Map(map) => write!(f, "map {map}"),
            Change::Number(number) => write!(f, "number {number}"),
            Change::Length(length) => write!(f, "length {length}"),
            Change::Path { number, source } => write!(f, "path {number} of {source}"),
            Change::Byte {
                field,
                offset,
                bits: 1,
            } => write!(f, "{field} byte {offset} damaged"),
            Change::Byte {
                field,
                offset,
                bits,
            } => write!(f, "{field} byte {offset} damaged by {bits:02x}"),
            Change::Followed(bytes) => write!(f, "followed by {}", Hex(bytes)),
            Change::Cut(count) => write!(f, "cut by {count}"),
        }
    }
}

impl fmt::Display for Field {
    fn fmt(&self, f: &mut fmt::Formatter) -> fmt::Result {
        f.write_str(match self {
            Field::Share => "share",
            Field::Path => "path",
            Field::Book => "book",
        })
    }
}

/// Bytes as the notation writes them.
pub struct Hex<'a>(pub &'a [u8]);

impl fmt::Display for Hex<'_> {
    fn fmt(&self, f: &mut fmt::Formatter) -> fmt::Result {
        write!(f, "hex")?;
        self.0.iter().try_for_each(|byte| write!(f, " {byte:02x}"))
    }
}
