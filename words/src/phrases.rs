//! Short phrases that text and picture have in common.

use foreign::rehearsal::Round;
use foreign::sha256::{hex, Hash};

/// The exchanges of shares.
pub const EXCHANGES: [Round; 2] = [Round::First, Round::Second];

/// The line above an exchange, quoted.
pub fn quoted(round: Round) -> &'static str {
    match round {
        Round::Sender => "\"sender's exchange\"",
        Round::First => "'first exchange'",
        Round::Second => "'second exchange'",
    }
}

/// What an exchange is called.
pub fn name(round: Round) -> &'static str {
    match round {
        Round::Sender => "sender's",
        Round::First => "first",
        Round::Second => "second",
    }
}

/// The first digits of a root.
pub fn short(root: &Hash) -> String {
    hex(&root[..4]) + "…"
}

/// The text, with an ellipsis if only so many letters of it are shown.
pub fn cut(text: &str, letters: usize) -> String {
    match text.char_indices().nth(letters) {
        Some((end, _)) => text[..end].trim_end().to_string() + " …",
        None => text.to_string(),
    }
}

/// A number's digits in groups of three.
pub fn grouped(number: usize) -> String {
    match number {
        0..1_000 => number.to_string(),
        _ => format!("{},{:03}", grouped(number / 1_000), number % 1_000),
    }
}

pub fn bytes(count: usize) -> String {
    counted(count, "byte", "bytes")
}

pub fn boxes(count: usize) -> String {
    counted(count, "box", "boxes")
}

fn counted(count: usize, one: &str, more: &str) -> String {
    match count {
        1 => format!("1 {one}"),
        _ => format!("{count} {more}"),
    }
}

/// Some boxes by their numbers.
pub fn named(boxes: &[usize]) -> String {
    match boxes {
        [] => "no box".to_string(),
        [one] => format!("box {one}"),
        _ => format!("boxes {}", numbers(boxes)),
    }
}

/// Numbers one after the other.
pub fn numbers(numbers: &[usize]) -> String {
    let numbers: Vec<String> = numbers.iter().map(usize::to_string).collect();
    numbers.join(" ")
}
