//! What a party is told before a sitting begins: the ports of the others and of the agreement, and
//! the tokens of its own links and no others.

use std::fs::File;
use std::io::{Read, Result};

use crate::hex;
use crate::wire::Token;

/// A party's link with another: its port, the token to say there, and the token to demand from
/// there.
#[derive(Clone, Debug, PartialEq)]
pub struct Peer {
    pub port: u16,
    pub said: Token,
    pub demanded: Token,
}

#[derive(Clone, Debug, PartialEq)]
pub struct Roster {
    pub agreement: Peer,
    /// By number from 1; the own entry is never used.
    pub peers: Vec<Peer>,
}

/// Tokens that nobody can guess, also where the sitting's seed is known.
pub fn tokens(count: usize) -> Result<Vec<Token>> {
    let mut source = File::open("/dev/urandom")?;
    let mut tokens = vec![[0; 16]; count];
    tokens
        .iter_mut()
        .try_for_each(|token| source.read_exact(token))?;
    Ok(tokens)
}

impl Peer {
    fn words(&self) -> String {
        format!(
            "{} {} {}",
            self.port,
            hex::encode(&self.said),
            hex::encode(&self.demanded)
        )
    }

    fn read<'a>(words: &mut impl Iterator<Item = &'a str>) -> Option<Peer> {
        let token = |word: Option<&str>| hex::decode(word?)?.try_into().ok();
        Some(Peer {
            port: words.next()?.parse().ok()?,
            said: token(words.next())?,
            demanded: token(words.next())?,
        })
    }
}

impl Roster {
    /// The rosters of all parties, by number from 1. The link from party i + 1 to party j + 1 has
    /// token n·i + j; those behind them are the agreement's, which demands and says the same one.
    pub fn all(ports: &[u16], agreement: u16, tokens: &[Token]) -> Vec<Roster> {
        let n = ports.len();
        let peer = |i: usize, j: usize| Peer {
            port: ports[j],
            said: tokens[n * i + j],
            demanded: tokens[n * j + i],
        };
        let roster = |i: usize| Roster {
            agreement: Peer {
                port: agreement,
                said: tokens[n * n + i],
                demanded: tokens[n * n + i],
            },
            peers: (0..n).map(|j| peer(i, j)).collect(),
        };
        (0..n).map(roster).collect()
    }

    pub fn line(&self) -> String {
        let peers = [&self.agreement].into_iter().chain(&self.peers);
        peers.map(Peer::words).collect::<Vec<_>>().join(" ")
    }

    /// The roster in a line for this many parties.
    pub fn read(line: &str, parties: usize) -> Option<Roster> {
        let mut words = line.split_whitespace();
        Some(Roster {
            agreement: Peer::read(&mut words)?,
            peers: (0..parties)
                .map(|_| Peer::read(&mut words))
                .collect::<Option<_>>()?,
        })
    }
}

#[cfg(test)]
mod tests {
    use super::*;

    #[test]
    fn what_one_end_says_the_other_demands() {
        let tokens = tokens(12).unwrap();
        let rosters = Roster::all(&[11, 12, 13], 14, &tokens);
        for i in 0..3 {
            assert_eq!(rosters[i].agreement.said, tokens[9 + i]);
            for j in 0..3 {
                assert_eq!(rosters[i].peers[j].said, rosters[j].peers[i].demanded);
                assert_eq!(rosters[i].peers[j].port, 11 + j as u16);
            }
            assert_eq!(
                Roster::read(&rosters[i].line(), 3),
                Some(rosters[i].clone())
            );
            assert_eq!(Roster::read(&rosters[i].line(), 4), None);
        }
    }
}
