//! The bytes that good parties with one message send, beside what is proved of them and beside the
//! plain way, in which every party sends its message to all others.

use cipangohu::HASH;

use crate::party::Proved;
use crate::session::{most_faults, play, Setting, GREATEST};

pub const LENGTHS: [usize; 3] = [0, 100, GREATEST.length];

pub struct Traffic {
    pub n: usize,
    pub t: usize,
    pub sent: usize,
    pub bound: usize,
    pub plain: usize,
}

/// 2·g·(n − 1)·(4 + s + 32·h), all parties being good.
fn bound(n: usize, t: usize, length: usize) -> usize {
    let s = (length + 2).div_ceil(n - t);
    let h = n.next_power_of_two().ilog2() as usize;
    2 * n * (n - 1) * (4 + s + HASH * h)
}

/// For n from 2 up, with the greatest fault limit.
pub fn traffic(length: usize) -> Vec<Traffic> {
    let of = |n| {
        let t = most_faults(n);
        let setting = Setting {
            n,
            t,
            length,
            unhappy: 0,
            ..GREATEST
        };
        let messages = vec![setting.message(1); n];
        let played = play::<Proved>(setting, &messages);
        assert!(played
            .results
            .iter()
            .zip(&messages)
            .all(|(r, m)| r.as_ref() == Some(m)));
        let traffic = Traffic {
            n,
            t,
            sent: played.sent,
            bound: bound(n, t, length),
            plain: n * (n - 1) * length,
        };
        assert!(traffic.sent <= traffic.bound);
        traffic
    };
    (2..=GREATEST.n).map(of).collect()
}
