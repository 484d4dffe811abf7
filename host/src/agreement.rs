//! A stand-in for the short agreement, a service that all trust. It keeps the agreement's rule while
//! at most t parties lie: all get one value, and if all good parties put in the same value, it is
//! that one. A real host runs a protocol among the parties in its place.

use std::collections::BTreeMap;
use std::io::{Error, ErrorKind, Result};
use std::net::{TcpListener, TcpStream};
use std::sync::{Arc, Condvar, Mutex, PoisonError};
use std::thread;
use std::time::{Duration, Instant};

use cipangohu::HASH;

use crate::links::{connect, listen, PATIENCE};
use crate::wire::{self, Hello, Token, AGREEMENTS};

/// What the service is told of the sitting.
pub struct Terms {
    pub parties: usize,
    pub faults: usize,
    /// How much later than another a good party may speak.
    pub limit: Duration,
    /// By number from 1.
    pub tokens: Vec<Token>,
    /// Breaks the rule: each party gets back what it put in.
    pub echo: bool,
}

/// The values put in so far in one round, and when the waiting ends.
#[derive(Default)]
struct Round {
    values: BTreeMap<usize, Vec<u8>>,
    end: Option<Instant>,
    settled: Option<Vec<u8>>,
}

struct Service {
    terms: Terms,
    rounds: Mutex<[Round; AGREEMENTS]>,
    changed: Condvar,
}

/// Starts the service in threads of its own and gives its port.
pub fn serve(terms: Terms) -> Result<u16> {
    let (listener, port) = listen()?;
    let service = Arc::new(Service {
        terms,
        rounds: Mutex::default(),
        changed: Condvar::new(),
    });
    thread::spawn(move || accept(&listener, &service));
    Ok(port)
}

fn accept(listener: &TcpListener, service: &Arc<Service>) {
    for stream in listener.incoming().flatten() {
        let service = Arc::clone(service);
        thread::spawn(move || service.attend(stream));
    }
}

/// A root is a hash, a bit is 0 or 1; nothing else is taken from a liar.
fn lawful(round: usize, value: &[u8]) -> bool {
    match round {
        0 => value.len() == HASH,
        1 => matches!(value, [0 | 1]),
        _ => false,
    }
}

/// The value of n − t parties, as soon as there is one. They are more than t, so that a good party
/// is among them, and it is the good ones' common value if they have one. Where all have spoken or
/// the time is up, and no such value came, the lowest-numbered party's is as good as any.
fn settle(
    values: &BTreeMap<usize, Vec<u8>>,
    parties: usize,
    faults: usize,
    up: bool,
) -> Option<Vec<u8>> {
    let backed = |value: &&Vec<u8>| {
        values.values().filter(|other| other == value).count() + faults >= parties
    };
    let common = values.values().find(backed);
    let lowest = values
        .values()
        .next()
        .filter(|_| up || values.len() == parties);
    common.or(lowest).cloned()
}

impl Service {
    /// Serves one party until it goes away or breaks the form.
    fn attend(&self, mut stream: TcpStream) -> Result<()> {
        let hello = wire::read_hello(&mut stream)?;
        let place = hello.sender.wrapping_sub(1);
        if self.terms.tokens.get(place) != Some(&hello.token) {
            return Err(Error::from(ErrorKind::PermissionDenied));
        }
        loop {
            let frame = wire::read_frame(&mut stream)?;
            if !lawful(frame.round, &frame.body) {
                return Err(Error::from(ErrorKind::InvalidData));
            }
            let value = match self.terms.echo {
                true => frame.body,
                false => self.agreed(frame.round, hello.sender, frame.body),
            };
            wire::write_frame(&mut stream, frame.round, &value)?;
        }
    }

    /// Puts a party's first value of this round in, and waits for the agreed one. The time starts
    /// when more than t parties have spoken: one of them is good, so that liars cannot let it run
    /// out before the good parties are there.
    fn agreed(&self, round: usize, sender: usize, value: Vec<u8>) -> Vec<u8> {
        let Terms {
            parties,
            faults,
            limit,
            ..
        } = self.terms;
        let mut rounds = self.rounds.lock().unwrap_or_else(PoisonError::into_inner);
        rounds[round].values.entry(sender).or_insert(value);
        if rounds[round].values.len() > faults {
            rounds[round]
                .end
                .get_or_insert_with(|| Instant::now() + limit);
        }
        self.changed.notify_all();
        loop {
            let Round {
                values,
                end,
                settled,
            } = &mut rounds[round];
            let left = end.map_or(PATIENCE, |end| {
                end.saturating_duration_since(Instant::now())
            });
            if settled.is_none() {
                *settled = settle(values, parties, faults, left.is_zero());
            }
            if let Some(value) = settled {
                return value.clone();
            }
            let waited = self.changed.wait_timeout(rounds, left);
            rounds = waited.unwrap_or_else(PoisonError::into_inner).0;
        }
    }
}

/// One party's connection to the service.
pub struct Agreement {
    stream: TcpStream,
}

impl Agreement {
    /// `wait` is how long a value may take on a host that is never busy.
    pub fn join(port: u16, own: usize, token: Token, wait: Duration) -> Result<Agreement> {
        let hello = Hello { sender: own, token };
        let stream = connect(port, &hello)?;
        stream.set_read_timeout(Some(wait + PATIENCE))?;
        Ok(Agreement { stream })
    }

    /// Puts in a value and waits for the agreed one.
    pub fn agree(&mut self, round: usize, value: &[u8]) -> Result<Vec<u8>> {
        wire::write_frame(&mut self.stream, round, value)?;
        let frame = wire::read_frame(&mut self.stream);
        let none = |_| Error::new(ErrorKind::TimedOut, "the agreement gives no value");
        Ok(frame.map_err(none)?.body)
    }
}

#[cfg(test)]
mod tests {
    use super::*;

    fn settled(values: &[(usize, u8)], parties: usize, faults: usize, up: bool) -> Option<u8> {
        let values = values.iter().map(|&(sender, value)| (sender, vec![value]));
        settle(&values.collect(), parties, faults, up).map(|value| value[0])
    }

    #[test]
    fn common_value_of_the_good_wins() {
        assert_eq!(settled(&[(1, 9), (2, 5), (3, 5)], 3, 1, false), Some(5));
        assert_eq!(settled(&[(2, 5), (3, 5)], 3, 1, false), Some(5));
        assert_eq!(settled(&[(1, 9), (2, 5)], 3, 1, false), None);
        assert_eq!(settled(&[(2, 5)], 3, 1, false), None);
        assert_eq!(settled(&[(1, 7)], 1, 0, false), Some(7));
    }

    #[test]
    fn the_lowest_where_there_is_no_common_value() {
        assert_eq!(settled(&[(1, 9), (2, 5), (3, 6)], 3, 1, false), Some(9));
        assert_eq!(settled(&[(2, 5), (3, 6)], 3, 1, true), Some(5));
        assert_eq!(settled(&[], 3, 1, true), None);
    }

    #[test]
    fn only_roots_and_bits_are_taken() {
        assert!(lawful(0, &[1; 32]) && !lawful(0, &[1; 31]) && !lawful(0, &[]));
        assert!(lawful(1, &[0]) && lawful(1, &[1]) && !lawful(1, &[2]) && !lawful(1, &[0, 0]));
        assert!(!lawful(2, &[0]) && !lawful(2, &[1; 32]));
    }

    const LIMIT: Duration = Duration::from_millis(50);

    /// A service for three parties, one of which may lie. The token of each is its number.
    fn service() -> u16 {
        let tokens = vec![[1; 16], [2; 16], [3; 16]];
        let terms = Terms {
            parties: 3,
            faults: 1,
            limit: LIMIT,
            tokens,
            echo: false,
        };
        serve(terms).unwrap()
    }

    /// A party that puts in a root of this byte.
    fn ask(port: u16, own: usize, value: u8) -> thread::JoinHandle<Vec<u8>> {
        thread::spawn(move || {
            let mut agreement = Agreement::join(port, own, [own as u8; 16], LIMIT).unwrap();
            agreement.agree(0, &[value; 32]).unwrap()
        })
    }

    #[test]
    fn the_service_answers_without_the_silent() {
        let port = service();
        for answer in [ask(port, 2, 20), ask(port, 1, 10)] {
            assert_eq!(answer.join().unwrap(), [10; 32]);
        }
        let mut forger = Agreement::join(port, 3, [9; 16], LIMIT).unwrap();
        assert!(forger.agree(0, &[30; 32]).is_err());
    }

    #[test]
    fn a_liar_cannot_start_the_clock() {
        let port = service();
        let liar = ask(port, 1, 10);
        thread::sleep(LIMIT * 3);
        for answer in [ask(port, 2, 20), ask(port, 3, 20), liar] {
            assert_eq!(answer.join().unwrap(), [20; 32]);
        }
    }
}
