//! What the ratios come to: where the proved library is behind, and why; and whether its time grows
//! faster than the messages.

use crate::contest::{
    Grown, Tables, FOREIGN, LENGTHS, NATIVE, OPENSSL, OPENSSL_PLAIN, PORTABLE, PORTABLE_WHOLE, ZFEC,
};
use crate::markdown::{figure, grouped};

/// Ratios of equal code differ by as much from run to run.
const NOISE: f64 = 0.02;

/// Why a library can be quicker.
const REASONS: [(&str, &str); 6] = [
    (
        PORTABLE,
        "its code in plain C takes a product from tables of logarithms and powers that lie in memory once",
    ),
    (
        PORTABLE_WHOLE,
        "the same, and its tables cost little beside the products",
    ),
    (
        NATIVE,
        "it multiplies 16 to 64 bytes at once, by shuffles over tables of 16 products",
    ),
    (
        ZFEC,
        "it has a table of all 65,536 products and adds multiples of whole blocks, one access and no branch for a product",
    ),
    (
        OPENSSL_PLAIN,
        "its assembler orders the work of several rounds by hand and keeps the schedule beside them",
    ),
    (
        OPENSSL,
        "it uses what this processor has for hashing, which code for any x86-64 must not",
    ),
];

/// The works at which the proved library takes longer than another, each once with its ratios.
fn behind(tables: &Tables, other: &str) -> Vec<String> {
    let mut found: Vec<(&str, Vec<String>)> = Vec::new();
    for row in tables.rows() {
        let slower = |(name, ratio): &(&str, f64)| *name == other && *ratio > 1.0 + NOISE;
        let Some((_, ratio)) = row.ratios().find(slower) else {
            continue;
        };
        let length = row
            .length
            .map(|length| format!(" at L {}", grouped(length)));
        let told = figure(ratio) + &length.unwrap_or_default();
        match found.iter_mut().find(|(work, _)| *work == row.work) {
            Some((_, before)) => before.push(told),
            None => found.push((row.work, vec![told])),
        }
    }
    let line = |(work, told): (&str, Vec<String>)| format!("{work} ({})", told.join(", "));
    found.into_iter().map(line).collect()
}

/// A line on one target.
fn target(tables: &Tables, other: &str) -> String {
    match behind(tables, other) {
        none if none.is_empty() => format!("- No slower than {other} at anything measured.\n"),
        some => format!("- Slower than {other}: {}.\n", some.join(", ")),
    }
}

/// Whether the targets are met.
pub fn targets(tables: &Tables) -> String {
    [FOREIGN, PORTABLE]
        .map(|other| target(tables, other))
        .concat()
}

/// How many times the bytes of the shorter message the longer one has.
pub fn times_the_bytes() -> f64 {
    let [short, long] = LENGTHS;
    long as f64 / short as f64
}

/// Whether the time of any work grows faster than the length of the message.
pub fn growth(played: &[Grown]) -> String {
    let named = |(work, factor): &(&str, f64)| format!("{work} ({})", figure(*factor));
    let mut factors: Vec<_> = played.iter().map(|of| (of.work, of.factors()[0])).collect();
    factors.sort_by(|a, b| b.1.total_cmp(&a.1));
    let faster = factors
        .iter()
        .filter(|(_, factor)| *factor > times_the_bytes() * (1.0 + NOISE));
    match faster.map(named).collect::<Vec<_>>() {
        none if none.is_empty() => {
            let most = factors.first().map(named).unwrap_or_default();
            format!("- No time grows faster than the book; the most is {most}.\n")
        }
        some => format!("- Faster than the book grow: {}.\n", some.join(", ")),
    }
}

/// For each library that is quicker, at what, by how much, and why.
pub fn reasons(tables: &Tables) -> String {
    let line = |(other, reason): &(&str, &str)| match behind(tables, other) {
        none if none.is_empty() => String::new(),
        some => format!("- {other}: {}; {reason}.\n", some.join(", ")),
    };
    REASONS.iter().map(line).collect()
}

#[cfg(test)]
mod tests {
    use super::*;
    use crate::contest::Times;

    /// A work that takes the foreign code a second at the shorter length, and two at the longer.
    fn grown(work: &'static str, proved: [f64; LENGTHS.len()]) -> Grown {
        let at = |place: usize| Times {
            work,
            length: Some(LENGTHS[place]),
            proved: proved[place],
            others: vec![(FOREIGN, 1.0 + place as f64)],
        };
        Grown {
            work,
            at: std::array::from_fn(at),
        }
    }

    #[test]
    fn what_grows_faster_than_the_message_is_named() {
        let as_long = times_the_bytes();
        let even = grown("even", [1.0, as_long]);
        let steep = grown("steep", [1.0, 2.0 * as_long]);
        let flat = grown("flat", [1.0, 1.0]);
        assert!(growth(&[flat, even]).contains("No time grows faster"));
        let told = growth(&[grown("flat", [1.0, 1.0]), steep]);
        assert!(told.contains("steep") && !told.contains("flat"), "{told}");
    }

    #[test]
    fn a_work_is_named_once_with_the_lengths_at_which_it_is_slower() {
        let both = grown("both", [2.0, 3.0]);
        let short = grown("short", [1.5, 2.0]);
        let tables = Tables {
            played: vec![both, short],
            coder: Vec::new(),
            hash: Vec::new(),
            numbered: Vec::new(),
        };
        let [a, b] = LENGTHS.map(grouped);
        let want = [
            format!("both (2.00 at L {a}, 1.50 at L {b})"),
            format!("short (1.50 at L {a})"),
        ];
        assert_eq!(behind(&tables, FOREIGN), want);
    }
}
