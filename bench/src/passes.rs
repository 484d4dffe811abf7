//! All times, taken in several processes one after the other, of which the least count: now and then a
//! process does one of its works at half the speed from its start to its end, and the next does not.

use std::env;
use std::error::Error;
use std::process::{Command, Stdio};

use crate::contest::{contests, Others, Tables};
use crate::growth::{growth, Growth};

const PASSES: u32 = 8;

/// The word that makes the program one pass: its output is the times, a line each.
pub const WORD: &str = "pass";

pub struct Timed {
    pub contests: Tables,
    pub growth: Growth,
}

impl Timed {
    fn measure(others: &Others, rounds: u32) -> Timed {
        Timed {
            contests: contests(others, rounds),
            growth: growth(rounds),
        }
    }

    /// All times, in an order that is the same in all processes.
    fn each(&mut self) -> impl Iterator<Item = &mut f64> {
        self.contests.each().chain(self.growth.each())
    }

    /// Keeps the less of each time and its line.
    fn lessen(&mut self, lines: &str) -> Result<(), Box<dyn Error>> {
        let again = lines
            .lines()
            .map(str::parse)
            .collect::<Result<Vec<f64>, _>>()?;
        if again.len() != self.each().count() {
            return Err("the passes measure different things".into());
        }
        for (time, again) in self.each().zip(again) {
            *time = time.min(again);
        }
        Ok(())
    }
}

/// One pass, printed.
pub fn print(others: &Others, rounds: u32) {
    for time in Timed::measure(others, rounds).each() {
        println!("{time:e}");
    }
}

/// All passes, with so many rounds altogether.
pub fn all(others: &Others, rounds: u32) -> Result<Timed, Box<dyn Error>> {
    let rounds = rounds.div_ceil(PASSES);
    let mut timed = Timed::measure(others, rounds);
    for _ in 1..PASSES {
        let pass = Command::new(env::current_exe()?)
            .args([WORD, &rounds.to_string()])
            .stderr(Stdio::inherit())
            .output()?;
        if !pass.status.success() {
            return Err("a pass failed".into());
        }
        timed.lessen(&String::from_utf8(pass.stdout)?)?;
    }
    Ok(timed)
}
