//! Writes a stream of test vectors to standard output: what the proved functions are handed, and
//! what must come of it.
//!
//!     vectors                        # the stream that is stored
//!     vectors plans COUNT [FIRST]    # random plans alone, numbered FIRST (1 if left out) and upward
//!     vectors tally COUNT [FIRST]    # no stream, but what those plans come to
//!     vectors wrong KIND             # a short stream with one wrong case, of the kind of this number

use std::io::{stdout, BufWriter, Result, Write};
use std::process::ExitCode;

use foreign::plans::stored::chosen;
use foreign::rehearsal::rehearse;
use foreign::tally::Tally;
use foreign::vectors::{all, plans, write, wrong};

fn tally(count: u64, first: u64) -> Tally {
    let mut tally = Tally::default();
    for made in chosen(Some(count), first) {
        tally.count(&made, &rehearse(&made.bytes));
    }
    tally
}

fn main() -> Result<ExitCode> {
    let arguments: Vec<String> = std::env::args().skip(1).collect();
    let word = arguments.first().map(String::as_str);
    let number = |text: &String| text.parse().expect("a number");
    let numbers: Vec<u64> = arguments.iter().skip(1).map(number).collect();
    let first = numbers.get(1).copied().unwrap_or(1);
    let mut out = BufWriter::new(stdout().lock());
    match (word, numbers.first()) {
        (None, _) => write(all(), &mut out)?,
        (Some("plans"), Some(&count)) => write(plans::cases(Some(count), first), &mut out)?,
        (Some("tally"), Some(&count)) => write!(out, "{}", tally(count, first))?,
        (Some("wrong"), Some(&kind)) => write(wrong(kind as u8), &mut out)?,
        _ => {
            eprintln!("vectors [plans COUNT [FIRST] | tally COUNT [FIRST] | wrong KIND]");
            return Ok(ExitCode::from(2));
        }
    }
    out.flush()?;
    Ok(ExitCode::SUCCESS)
}
