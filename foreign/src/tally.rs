//! Counts what plans come to: their outcomes, and what was put into them.

use std::collections::BTreeMap;
use std::fmt::{Debug, Display, Formatter, Result};

use crate::plans::Made;

#[derive(Default)]
pub struct Tally {
    /// By outcome: a message, nothing, or a cause.
    pub outcomes: BTreeMap<String, usize>,
    /// By size and damage, each with its outcomes.
    pub kinds: BTreeMap<String, BTreeMap<String, usize>>,
    /// By lie, in accepted plans, and in those of them in which a lie could do harm.
    pub lies: BTreeMap<String, [usize; 2]>,
    /// The same of the lies of senders.
    pub sender_lies: BTreeMap<String, [usize; 2]>,
    /// By n and t, in accepted plans.
    pub groups: BTreeMap<(u8, u8), usize>,
    pub small: usize,
    pub longest: usize,
}

/// What an output says: a message, nothing, or that the plan is refused.
pub fn outcome(output: &[u8]) -> &str {
    let text = std::str::from_utf8(output).expect("a text");
    if text.starts_with("refused") {
        text.trim_end()
    } else if text.contains('=') {
        "message"
    } else {
        "nothing"
    }
}

fn kind(made: &Made) -> String {
    match &made.damages[..] {
        [] => format!("{:?}", made.size),
        [one] => format!("{one:?}"),
        _ => "two damages".to_string(),
    }
}

/// Counts the lies of one plan.
fn tell(
    counts: &mut BTreeMap<String, [usize; 2]>,
    lies: impl Iterator<Item = String>,
    divided: bool,
) {
    for lie in lies {
        let count = counts.entry(lie).or_default();
        count[0] += 1;
        count[1] += usize::from(divided);
    }
}

impl Tally {
    pub fn count(&mut self, made: &Made, output: &[u8]) {
        let outcome = outcome(output).to_string();
        let accepted = !outcome.starts_with("refused");
        if accepted {
            let lies = made.lies.iter().map(|lie| format!("{lie:?}"));
            tell(&mut self.lies, lies, made.divided);
            let lies = made.sender_lies.iter().map(|lie| format!("{lie:?}"));
            tell(&mut self.sender_lies, lies, made.divided);
            let group = (made.bytes[0], made.bytes[1]);
            *self.groups.entry(group).or_default() += 1;
        }
        let kind = self.kinds.entry(kind(made)).or_default();
        *kind.entry(outcome.clone()).or_default() += 1;
        *self.outcomes.entry(outcome).or_default() += 1;
        self.small += usize::from(made.bytes.len() < 2_000);
        self.longest = self.longest.max(made.bytes.len());
    }
}

fn lines<K: Debug, V: Debug>(f: &mut Formatter, title: &str, map: &BTreeMap<K, V>) -> Result {
    writeln!(f, "{title}")?;
    map.iter()
        .try_for_each(|(key, value)| writeln!(f, "  {key:?}: {value:?}"))
}

impl Display for Tally {
    fn fmt(&self, f: &mut Formatter) -> Result {
        lines(f, "outcomes", &self.outcomes)?;
        lines(f, "kinds", &self.kinds)?;
        let title = "lies: accepted plans, of these divided";
        lines(f, title, &self.lies)?;
        lines(f, &format!("senders' {title}"), &self.sender_lies)?;
        lines(f, "n and t of accepted plans", &self.groups)?;
        writeln!(f, "under 2000 bytes: {}", self.small)?;
        writeln!(f, "longest: {}", self.longest)
    }
}
