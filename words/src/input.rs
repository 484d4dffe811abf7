//! What the program is given: words, or the bytes of a plan.

use foreign::rehearsal::{play, read};

use crate::books::Hints;
use crate::causes::place;
use crate::draft::Draft;
use crate::explain::refused;
use crate::parse::parse;
use crate::text::text;

/// The plan in these words.
pub fn draft(words: &[u8]) -> Result<Draft, String> {
    let text = std::str::from_utf8(words).map_err(|error| {
        let before = &words[..error.valid_up_to()];
        let line = 1 + before.iter().filter(|&&byte| byte == b'\n').count();
        format!("line {line}: expected text in UTF-8")
    });
    // Some editors put a mark in front of the text.
    let text = text?.trim_start_matches('\u{feff}');
    parse(text).map_err(|error| error.to_string())
}

/// The words of a plan; if it is refused they say so at the top. A plan that is badly laid
/// out has none, and the error tells where.
pub fn in_words(plan: &[u8], hints: &Hints) -> Result<String, String> {
    let refusal = play(plan).err().map(|fault| refused(fault, plan));
    let refusal = refusal.unwrap_or_default();
    match read(plan) {
        Ok(layout) => {
            let note: String = refusal.lines().map(|it| format!("# {it}\n")).collect();
            Ok(note + &text(&layout, hints))
        }
        Err(misfit) => {
            // A lower cause tells of no offset.
            let place = place(misfit, plan.len());
            match refusal.trim_end() {
                told if told.ends_with(&place) => Err(told.to_string()),
                told => Err(format!("{told}\n{place}")),
            }
        }
    }
}

/// A plan's bytes and what words tell beside them, from words or bytes. A lawful plan's bytes hold a
/// control character other than a tab or a line's end, since t is below 8; blank input can be
/// no words either.
pub fn given(input: &[u8]) -> Result<(Vec<u8>, Hints), String> {
    let control = |byte: &u8| *byte < b' ' && !byte.is_ascii_whitespace();
    if input.iter().any(control) || input.trim_ascii().is_empty() {
        return Ok((input.to_vec(), Hints::default()));
    }
    let draft = draft(input)?;
    Ok((draft.bytes(), draft.hints()))
}
