//! Finds the words for a packet's bytes: the share of a known book, or the whole book, that they
//! are closest to, with what was changed in it, or else the bytes themselves.

use foreign::message_packet;
use foreign::packet::HEADER;

use crate::books::{Book, Books, Coded};
use crate::packet::{Change, Field, Packet};

/// What the bytes are, in the fewest changes; the words always give the same bytes back.
pub fn recognise(books: &Books, bytes: &[u8]) -> Packet {
    let shares = books.shares().filter_map(|(source, coded, number)| {
        Some(Packet::Share {
            number,
            source,
            changes: changes(books, coded, number, bytes)?,
        })
    });
    let whole = books.known.iter().filter_map(|book| {
        Some(Packet::Book {
            book: book.name.clone(),
            changes: book_change(book, bytes)?.into_iter().collect(),
        })
    });
    let alike = shares.chain(whole).min_by_key(|it| it.changes().len());
    alike.unwrap_or_else(|| Packet::Raw(bytes.to_vec()))
}

/// What makes the share's packet into these bytes; none if they are too far from it.
fn changes(books: &Books, coded: &Coded, number: usize, bytes: &[u8]) -> Option<Vec<Change>> {
    let (good_header, good_share, good_path) = coded.fields(number);
    let (header, behind) = bytes.split_first_chunk::<HEADER>()?;
    let (share, path) = behind.split_at_checked(good_share.len())?;
    let mut changes = header_changes(good_header, header);
    if share != good_share {
        changes.push(one_byte(Field::Share, good_share, share)?);
    }
    if path == good_path {
        return Some(changes);
    }
    // With more changes than that, a packet that ends early has little in common with this one.
    let change = match good_path.starts_with(path) && changes.is_empty() {
        true => Change::Cut(good_path.len() - path.len()),
        false => path_change(books, good_path, path)?,
    };
    changes.push(change);
    Some(changes)
}

/// The change, if there is any, that makes the book's packet into these bytes; none at all if they
/// are farther from it, since a short book is close to much.
fn book_change(book: &Book, bytes: &[u8]) -> Option<Option<Change>> {
    let good = message_packet::write(&book.message);
    let (good_header, message) = good.split_at(message_packet::HEADER);
    let (header, body) = bytes.split_at_checked(message_packet::HEADER)?;
    let changes = header_changes(good_header, header);
    match &changes[..] {
        [] if body == message => Some(None),
        [change] if body == message => Some(Some(change.clone())),
        [] => Some(Some(body_change(message, body)?)),
        _ => None,
    }
}

/// How a damaged, longer or shorter book stands in the place of this one.
fn body_change(message: &[u8], found: &[u8]) -> Option<Change> {
    if let Some(behind) = found.strip_prefix(message) {
        return Some(Change::Followed(behind.to_vec()));
    }
    match message.starts_with(found) {
        true => Some(Change::Cut(message.len() - found.len())),
        false => one_byte(Field::Book, message, found),
    }
}

/// Map, number and length, of which a book's packet has no number.
fn header_changes(good: &[u8], header: &[u8]) -> Vec<Change> {
    let mut changes = Vec::new();
    if header[0] != good[0] {
        changes.push(Change::Map(header[0]));
    }
    if header.len() == HEADER && header[1] != good[1] {
        changes.push(Change::Number(header[1]));
    }
    let length = header.last_chunk().expect("a length");
    if !good.ends_with(length) {
        changes.push(Change::Length(u16::from_be_bytes(*length)));
    }
    changes
}

/// How another path, or a damaged or longer one, stands in the place of this path.
fn path_change(books: &Books, path: &[u8], found: &[u8]) -> Option<Change> {
    if let Some(change) = one_byte(Field::Path, path, found) {
        return Some(change);
    }
    if let Some(behind) = found.strip_prefix(path) {
        return Some(Change::Followed(behind.to_vec()));
    }
    let mut others = books.shares();
    let (source, _, number) = others.find(|(_, it, j)| it.fields(*j).2 == found)?;
    Some(Change::Path { number, source })
}

/// The damage to a field, if it is in one byte alone.
fn one_byte(field: Field, good: &[u8], found: &[u8]) -> Option<Change> {
    if good.len() != found.len() {
        return None;
    }
    let mut pairs = good.iter().zip(found).enumerate();
    let (offset, (good, other)) = pairs.find(|(_, (good, other))| good != other)?;
    let more = pairs.any(|(_, (good, other))| good != other);
    (!more).then_some(Change::Byte {
        field,
        offset,
        bits: good ^ other,
    })
}
