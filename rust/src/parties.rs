//! Some of the parties, as a map tells them.

use core::fmt;

use crate::limits::MAX_PARTIES;

/// Some of the parties of a session, by their numbers; none of them twice.
///
/// [`Party::take_relays`](crate::Party::take_relays) and [`Party::faulty`](crate::Party::faulty) give
/// those that were seen to cheat.
#[derive(Clone, Copy, Default, PartialEq, Eq, Hash)]
pub struct Parties(u32);

impl Parties {
    /// Those in a map, in which party p counts 2 to the power p − 1.
    pub(crate) fn of(map: u32) -> Parties {
        Parties(map)
    }

    /// Whether a party is among them.
    pub fn contains(self, party: usize) -> bool {
        self.iter().any(|it| it == party)
    }

    /// Whether they are none.
    pub fn is_empty(self) -> bool {
        self.0 == 0
    }

    /// Their numbers, the lowest first.
    pub fn iter(self) -> impl DoubleEndedIterator<Item = usize> + Clone {
        (1..=MAX_PARTIES).filter(move |party| self.0 >> (party - 1) & 1 == 1)
    }
}

impl fmt::Debug for Parties {
    /// Their numbers, as a set.
    fn fmt(&self, f: &mut fmt::Formatter) -> fmt::Result {
        f.debug_set().entries(self.iter()).finish()
    }
}
