//! The clock of the exchanges. The ends of the first and the second are counted from one start, the
//! arrival of the agreed bit, which all good parties get at about the same time. Were the second
//! counted from the end of a party's first, a party that heard everybody early would stop listening
//! before one that waited for a silent liar has sent its relay. That of a named sender is counted
//! from the start of the sitting.

use std::time::{Duration, Instant};

pub struct Clock {
    start: Instant,
    limit: Duration,
}

impl Clock {
    pub fn start(limit: Duration) -> Clock {
        Clock {
            start: Instant::now(),
            limit,
        }
    }

    /// When a party takes what it has not heard in an exchange, counted from 1 since the start, as no
    /// bytes.
    pub fn end_of(&self, exchange: usize) -> Instant {
        self.start + self.limit * exchange as u32
    }

    /// When good parties have spoken in this exchange and still listen.
    pub fn middle_of(&self, exchange: usize) -> Instant {
        self.end_of(exchange) - self.limit / 2
    }
}
