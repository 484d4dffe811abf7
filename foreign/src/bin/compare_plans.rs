//! Compares a rehearsal program with the foreign one, output against output.
//!
//!     compare_plans PROGRAM [COUNT [FIRST]] [FILE]
//!
//! Runs PROGRAM once for each plan, with the plan on standard input. The plans are the random
//! ones numbered FIRST (1 if left out) and upward; without COUNT, those that are stored, counted
//! from 1, then the longest one with a byte more, and plans that come in parts with pauses, which
//! try how the program reads. Prints how many plans there were and how many failed, and names the
//! first that did; that one is written to FILE. The exit status is 1 if any failed. How far it is
//! goes to standard error.

use std::io::{Result, Write};
use std::process::{Command, ExitCode, Stdio};
use std::thread;
use std::time::Duration;

use foreign::plans::stored::{chosen, edge, parted};
use foreign::rehearsal::rehearse;

/// After so many plans it is told how far the comparison is.
const TOLD: u64 = 500;

/// In how many parts a plan comes that does not come at once, and how long each is waited for.
const PARTS: usize = 4;
const PAUSE: Duration = Duration::from_millis(50);

/// A plan, and in how many parts the program gets it.
struct Handed {
    plan: Vec<u8>,
    parts: usize,
}

fn at_once(plan: Vec<u8>) -> Handed {
    Handed { plan, parts: 1 }
}

fn in_parts(plan: Vec<u8>) -> Handed {
    Handed { plan, parts: PARTS }
}

/// The plans that try how a program reads.
fn readings() -> impl Iterator<Item = Handed> {
    let [_, over] = edge();
    [at_once(over)].into_iter().chain(parted().map(in_parts))
}

/// So many random plans from this number on; without a count, the stored ones and these.
fn plans(count: Option<u64>, first: u64) -> Box<dyn Iterator<Item = Handed>> {
    let plans = chosen(count, first).map(|made| at_once(made.bytes));
    match count {
        Some(_) => Box::new(plans),
        None => Box::new(plans.chain(readings())),
    }
}

/// Writes a plan, with a pause before each part but the first.
fn write(handed: &Handed, mut input: impl Write) -> Result<()> {
    let size = handed.plan.len().div_ceil(handed.parts).max(1);
    for (place, part) in handed.plan.chunks(size).enumerate() {
        if place > 0 {
            thread::sleep(PAUSE);
        }
        input.write_all(part)?;
    }
    Ok(())
}

/// What the program prints for the plan; none if it ends badly. The plan is written beside the
/// reading, and a program may stop reading before the end.
fn printed(program: &str, handed: Handed) -> Result<Option<Vec<u8>>> {
    let mut child = Command::new(program)
        .stdin(Stdio::piped())
        .stdout(Stdio::piped())
        .spawn()?;
    let input = child.stdin.take().expect("a pipe");
    let writing = thread::spawn(move || write(&handed, input).ok());
    let output = child.wait_with_output()?;
    writing.join().expect("the writing ends");
    Ok(output.status.success().then_some(output.stdout))
}

fn main() -> Result<ExitCode> {
    let arguments: Vec<String> = std::env::args().skip(1).collect();
    let [program, more @ ..] = &arguments[..] else {
        eprintln!("compare_plans PROGRAM [COUNT [FIRST]] [FILE]");
        return Ok(ExitCode::from(2));
    };
    let numbers = more.iter().map_while(|text| text.parse().ok());
    let numbers: Vec<u64> = numbers.collect();
    let file = more.get(numbers.len());
    let wanted = numbers.first().copied();
    let first = numbers.get(1).copied().unwrap_or(1);
    let total = wanted.unwrap_or_else(|| plans(None, first).count() as u64);
    let (mut count, mut failed) = (0, 0);
    for handed in plans(wanted, first) {
        if count > 0 && count % TOLD == 0 {
            eprintln!("{count} of {total} plans compared");
        }
        count += 1;
        let plan = handed.plan.clone();
        if printed(program, handed)? == Some(rehearse(&plan)) {
            continue;
        }
        failed += 1;
        if failed == 1 {
            println!("first failing plan {}", first + count - 1);
            if let Some(file) = file {
                std::fs::write(file, &plan)?;
            }
        }
    }
    println!("plans {count}\nfailed {failed}");
    Ok(ExitCode::from(u8::from(failed > 0)))
}
