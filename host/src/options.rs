//! The command line. Each party is started with the same words and its own number, so that all know
//! the sitting in the same way.

use std::collections::BTreeMap;
use std::fs;
use std::ops::RangeInclusive;
use std::str::FromStr;
use std::time::Duration;

use crate::hex;
use crate::liars::Lie;
use crate::wire::{FIRST, SENDERS};

pub const USAGE: &str = "usage: host --parties N --faults T --book BOOK [--own-book I=BOOK]...
            [--sitting K] [--lie I=LIE]... [--limit-ms MS] [--seed S] [--break DUTY]
            [--screen I]
       host --parties N --faults T --book BOOK --sender J ...
  BOOK  hexadecimal bytes, or the name of a file
  K     the sitting number, 0 to 4294967295; 0 if left out
  LIE   silent, noise, split, other-book, other-sitting, too-long, replay or forge
  MS    milliseconds, the time limit of each exchange; 500 if left out
  S     a number that settles what liars do by chance; 0 if left out
  DUTY  forge, clock, agreement, state, sender or sitting, which the host then does badly
  I     a box; the screen reads a good one's result again when the sitting is over
  J     the box that alone has the book and gives it to all others";

/// What the host can be told to do badly.
#[derive(Clone, Copy, Debug, PartialEq, Eq)]
pub enum Duty {
    /// Links: a number is believed without its token.
    Forge,
    /// The clock: a good sender, or else the lowest-numbered good party, sends its first packets
    /// when the others have stopped listening.
    Clock,
    /// The agreement: each party gets back what it put in.
    Agreement,
    /// The state: somebody else writes into the highest-numbered good party's.
    State,
    /// The sender's name: the lowest-numbered good party beside the sender is told another one.
    Sender,
    /// The session number: the highest-numbered good party is told another one.
    Session,
}

#[derive(Debug)]
pub struct Options {
    /// The sitting number.
    pub session: u32,
    pub parties: usize,
    pub faults: usize,
    message: Vec<u8>,
    own_messages: BTreeMap<usize, Vec<u8>>,
    /// The party that alone has the message.
    pub sender: Option<usize>,
    pub lies: BTreeMap<usize, Lie>,
    pub limit: Duration,
    pub seed: u64,
    pub broken: Option<Duty>,
    /// The good party whose result is read a second time.
    pub screen: Option<usize>,
    /// The number of the party that this process is; none for the process that starts the others.
    pub own: Option<usize>,
}

impl FromStr for Duty {
    type Err = String;

    fn from_str(text: &str) -> Result<Duty, String> {
        match text {
            "forge" => Ok(Duty::Forge),
            "clock" => Ok(Duty::Clock),
            "agreement" => Ok(Duty::Agreement),
            "state" => Ok(Duty::State),
            "sender" => Ok(Duty::Sender),
            "sitting" => Ok(Duty::Session),
            _ => Err(format!("{text} is no duty\n{USAGE}")),
        }
    }
}

fn number<N: FromStr>(text: &str) -> Result<N, String> {
    text.parse()
        .map_err(|_| format!("{text} is no number here\n{USAGE}"))
}

/// Hexadecimal digits, else a file.
fn message(text: &str) -> Result<Vec<u8>, String> {
    match hex::decode(text) {
        Some(bytes) => Ok(bytes),
        None => fs::read(text).map_err(|error| {
            format!(
                "{text} is neither hexadecimal, two digits for each byte, \
                 nor a file that can be read: {error}"
            )
        }),
    }
}

/// A party's number, `=`, and what is said of it.
fn of_party(text: &str) -> Result<(usize, &str), String> {
    let (own, rest) = text
        .split_once('=')
        .ok_or(format!("{text} has no =\n{USAGE}"))?;
    Ok((number(own)?, rest))
}

impl Options {
    pub fn parse(arguments: &[String]) -> Result<Options, String> {
        let mut options = Options {
            session: 0,
            parties: 0,
            faults: 0,
            message: Vec::new(),
            own_messages: BTreeMap::new(),
            sender: None,
            lies: BTreeMap::new(),
            limit: Duration::from_millis(500),
            seed: 0,
            broken: None,
            screen: None,
            own: None,
        };
        let mut given = Vec::new();
        let mut words = arguments.iter();
        while let Some(name) = words.next() {
            let value = words
                .next()
                .ok_or(format!("{name} lacks its value\n{USAGE}"))?;
            options.set(name, value)?;
            given.push(name.as_str());
        }
        let needed = ["--parties", "--faults", "--book"];
        if let Some(name) = needed.iter().find(|name| !given.contains(name)) {
            return Err(format!("{name} is missing\n{USAGE}"));
        }
        options.check_numbers()?;
        options.check_sender()?;
        Ok(options)
    }

    fn set(&mut self, name: &str, value: &str) -> Result<(), String> {
        match name {
            "--sitting" => self.session = number(value)?,
            "--parties" => self.parties = number(value)?,
            "--faults" => self.faults = number(value)?,
            "--book" => self.message = message(value)?,
            "--own-book" => {
                let (own, text) = of_party(value)?;
                self.own_messages.insert(own, message(text)?);
            }
            "--sender" => self.sender = Some(number(value)?),
            "--lie" => {
                let (own, lie) = of_party(value)?;
                self.lies.insert(own, lie.parse()?);
            }
            "--limit-ms" => self.limit = Duration::from_millis(u64::from(number::<u32>(value)?)),
            "--seed" => self.seed = number(value)?,
            "--break" => self.broken = Some(value.parse()?),
            "--screen" => self.screen = Some(number(value)?),
            "--as" => self.own = Some(number(value)?),
            _ => return Err(format!("{name} is not known\n{USAGE}")),
        }
        Ok(())
    }

    /// Whatever is said of a party must be said of one of the sitting's.
    fn check_numbers(&self) -> Result<(), String> {
        let named = self
            .own_messages
            .keys()
            .chain(self.lies.keys())
            .chain(&self.sender)
            .chain(&self.screen)
            .chain(&self.own);
        let mut strange = named.filter(|own| !(1..=self.parties).contains(own));
        if let Some(own) = strange.next() {
            return Err(format!("there is no box {own}"));
        }
        match self.screen.filter(|own| self.lies.contains_key(own)) {
            Some(own) => Err(format!("box {own} lies: the screen reads a good one")),
            None => Ok(()),
        }
    }

    /// Where one party has the message, no other has one; where none is named, none is named wrongly.
    fn check_sender(&self) -> Result<(), String> {
        match self.sender {
            Some(sender) if !self.own_messages.is_empty() => Err(format!(
                "box {sender} alone has a book: --own-book does not go with --sender"
            )),
            None if self.breaks(Duty::Sender) => Err("--break sender needs --sender".to_string()),
            _ => Ok(()),
        }
    }

    /// The message that a party opens with. Where there is a sender it is the sender's alone, but
    /// known to liars.
    pub fn message_of(&self, own: usize) -> &[u8] {
        self.own_messages.get(&own).unwrap_or(&self.message)
    }

    /// The parties that have a message to open with: all, or the sender alone.
    pub fn holders(&self) -> RangeInclusive<usize> {
        match self.sender {
            Some(sender) => sender..=sender,
            None => 1..=self.parties.max(1),
        }
    }

    /// The session number that a party is told. Where that duty is broken, one party is told another.
    pub fn session_told_to(&self, own: usize) -> u32 {
        let misled = self.good().next_back() == Some(own);
        match misled && self.breaks(Duty::Session) {
            true => self.other_session(),
            false => self.session,
        }
    }

    /// A number that is not this session's.
    pub fn other_session(&self) -> u32 {
        self.session ^ 1
    }

    /// The sender that a party is told. Where that duty is broken, one party is told another.
    pub fn sender_told_to(&self, own: usize) -> Option<usize> {
        let sender = self.sender?;
        let misled = self.good().find(|good| *good != sender) == Some(own);
        let other = (1..=self.parties).find(|other| ![own, sender].contains(other));
        match other.filter(|_| misled && self.breaks(Duty::Sender)) {
            Some(other) => Some(other),
            None => Some(sender),
        }
    }

    /// The sender, if it is a good party.
    pub fn good_sender(&self) -> Option<usize> {
        self.sender.filter(|own| !self.lies.contains_key(own))
    }

    /// Whether a party is late in an exchange, since the clock is broken.
    pub fn is_late(&self, own: usize, exchange: usize) -> bool {
        let lowest = self.good().next().map(|own| (own, FIRST));
        let sender = self.good_sender().map(|own| (own, SENDERS));
        self.breaks(Duty::Clock) && sender.or(lowest) == Some((own, exchange))
    }

    /// How much later than another a good party may come to the agreement. One that waits for a sender
    /// in vain comes a limit later than one that heard it at once.
    pub fn spread(&self) -> Duration {
        match self.sender {
            Some(_) => self.limit * 2,
            None => self.limit,
        }
    }

    pub fn good(&self) -> impl DoubleEndedIterator<Item = usize> + '_ {
        (1..=self.parties).filter(|own| !self.lies.contains_key(own))
    }

    pub fn breaks(&self, duty: Duty) -> bool {
        self.broken == Some(duty)
    }
}

#[cfg(test)]
mod tests {
    use super::*;

    fn parsed(line: &str) -> Result<Options, String> {
        let words: Vec<String> = line.split_whitespace().map(String::from).collect();
        Options::parse(&words)
    }

    #[test]
    fn a_whole_line() {
        let line =
            "--parties 5 --faults 2 --book 4142 --own-book 3=43 --lie 4=noise --lie 5=split \
                    --limit-ms 70 --seed 9 --break clock --screen 2 --sitting 4294967295";
        let options = parsed(line).unwrap();
        assert_eq!((options.parties, options.faults, options.seed), (5, 2, 9));
        assert_eq!(
            (options.message_of(1), options.message_of(3)),
            (&b"AB"[..], &b"C"[..])
        );
        assert_eq!(options.good().collect::<Vec<_>>(), [1, 2, 3]);
        assert_eq!(options.lies[&4], Lie::Noise);
        assert_eq!(options.limit, Duration::from_millis(70));
        assert!(options.breaks(Duty::Clock) && !options.breaks(Duty::State));
        assert_eq!(options.screen, Some(2));
        assert_eq!((options.sender, options.holders()), (None, 1..=5));
        assert!(options.is_late(1, FIRST) && !options.is_late(1, SENDERS));
        assert_eq!(options.spread(), options.limit);
        assert!((1..=3).all(|own| options.session_told_to(own) == u32::MAX));
    }

    #[test]
    fn one_party_is_told_another_session() {
        let line = "--parties 3 --faults 1 --book 4142 --lie 3=noise";
        let told = |line: &str| {
            let options = parsed(line).unwrap();
            (1..=2).map(|own| options.session_told_to(own)).collect()
        };
        let [usual, broken]: [Vec<u32>; 2] =
            [line, &format!("{line} --sitting 7 --break sitting")].map(told);
        assert_eq!((usual, broken), (vec![0, 0], vec![7, 6]));
    }

    #[test]
    fn one_party_has_the_message() {
        let line = "--parties 4 --faults 1 --book 4142 --sender 1 --lie 2=noise";
        let options = parsed(&format!("{line} --break clock")).unwrap();
        assert_eq!((options.holders(), options.good_sender()), (1..=1, Some(1)));
        assert_eq!(options.sender_told_to(3), Some(1));
        assert!(options.is_late(1, SENDERS) && !options.is_late(1, FIRST));
        assert_eq!(options.spread(), options.limit * 2);
        let options = parsed(&format!("{line} --break sender")).unwrap();
        let told: Vec<_> = (1..=4).map(|own| options.sender_told_to(own)).collect();
        assert_eq!(told, [Some(1), Some(1), Some(2), Some(1)]);
        let options = parsed(&format!("{line} --lie 1=split --break clock")).unwrap();
        assert_eq!(options.good_sender(), None);
        assert!(options.is_late(3, FIRST));
    }

    #[test]
    fn wrong_lines() {
        let few = "--parties 3 --faults 1 --book 41";
        assert!(parsed(few).is_ok());
        for more in [
            "--lie 4=noise",
            "--lie 0=noise",
            "--lie 3",
            "--lie 3=truth",
            "--seed x",
            "--seed",
            "--what 1",
            "--break all",
            "--screen 0",
            "--screen 4",
            "--lie 3=noise --screen 3",
            "--sender 0",
            "--sender 4",
            "--sender 2 --own-book 2=42",
            "--break sender",
            "--sitting 4294967296",
            "--sitting -1",
            "--sitting seven",
            "--sitting",
        ] {
            assert!(parsed(&format!("{few} {more}")).is_err(), "{more}");
        }
        assert!(parsed("--parties 3 --faults 1").is_err());
        for message in ["4", "no/such/file"] {
            let error = parsed(&format!("--parties 3 --faults 1 --book {message}")).unwrap_err();
            let expected =
                format!("{message} is neither hexadecimal, two digits for each byte, nor");
            assert!(error.starts_with(&expected), "{error}");
        }
    }
}
