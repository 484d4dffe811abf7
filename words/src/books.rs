//! The books that a plan speaks of, by name, with their shares under the plan's n and t, in its own
//! sitting and in others that it speaks of.

use std::collections::BTreeMap;
use std::fmt;

use foreign::coder::{frame_of, shares_of};
use foreign::limits::{LONGEST_MESSAGE, MOST_PARTIES};
use foreign::packet::{write, HEADER};
use foreign::sha256::Hash;
use foreign::tree;

/// A book and what it is called.
pub type Named = (String, Vec<u8>);

/// What helps to find words for a plan's bytes: books by name, and numbers of other sittings.
#[derive(Clone, Debug, Default, PartialEq, Eq)]
pub struct Hints {
    pub books: Vec<Named>,
    pub sittings: Vec<u32>,
}

/// The book that shares, a path or a root are of, and the sitting, if it is not the plan's own.
#[derive(Clone, Debug, PartialEq, Eq)]
pub struct Source {
    pub book: String,
    pub session: Option<u32>,
}

impl fmt::Display for Source {
    fn fmt(&self, f: &mut fmt::Formatter) -> fmt::Result {
        let book = &self.book;
        match self.session {
            Some(session) => write!(f, "{book} in sitting {session}"),
            None => write!(f, "{book}"),
        }
    }
}

/// The books, each once; the first name that it was given is the one it is called by.
pub struct Books {
    pub n: usize,
    pub t: usize,
    pub known: Vec<Book>,
    names: BTreeMap<String, usize>,
    /// The numbers of the sittings in which books are coded, the plan's own first.
    pub sittings: Vec<u32>,
}

pub struct Book {
    pub name: String,
    pub message: Vec<u8>,
    /// By the sitting's number.
    coded: BTreeMap<u32, Coded>,
}

/// The packets with a book's shares that a good party would send, and the root.
pub struct Coded {
    packets: Vec<Vec<u8>>,
    share_length: usize,
    pub root: Hash,
}

impl Coded {
    fn new(session: u32, n: usize, t: usize, message: &[u8]) -> Coded {
        let shares = shares_of(n, n - t, &frame_of(n - t, message));
        let leaves = tree::leaves(session, &shares);
        let packet = |j| write(j, &shares[j - 1], &tree::path_of(&leaves, j));
        Coded {
            packets: (1..=n).map(packet).collect(),
            share_length: shares[0].len(),
            root: tree::root_of(&leaves),
        }
    }

    /// The header, the share and the path of packet j.
    pub fn fields(&self, j: usize) -> (&[u8; HEADER], &[u8], &[u8]) {
        let header = self.packets[j - 1].split_first_chunk();
        let (header, behind) = header.expect("a packet has a header");
        let (share, path) = behind.split_at(self.share_length);
        (header, share, path)
    }
}

impl Books {
    pub fn new(session: u32, n: usize, t: usize) -> Books {
        Books {
            n,
            t,
            known: Vec::new(),
            names: BTreeMap::new(),
            sittings: vec![session],
        }
    }

    pub fn add(&mut self, name: &str, message: &[u8]) {
        let same = self.known.iter().position(|it| it.message == message);
        let place = same.unwrap_or_else(|| {
            let coded = |session: &u32| Some((*session, self.code(*session, message)?));
            self.known.push(Book {
                name: name.to_string(),
                message: message.to_vec(),
                coded: self.sittings.iter().filter_map(coded).collect(),
            });
            self.known.len() - 1
        });
        self.names.insert(name.to_string(), place);
    }

    /// Books are coded in this sitting as well.
    pub fn sit(&mut self, session: u32) {
        if self.sittings.contains(&session) {
            return;
        }
        self.sittings.push(session);
        for place in 0..self.known.len() {
            let coded = self.code(session, &self.known[place].message);
            let coded = coded.map(|coded| (session, coded));
            self.known[place].coded.extend(coded);
        }
    }

    /// A book in a sitting; none if n and t, or its length, allow no shares.
    fn code(&self, session: u32, message: &[u8]) -> Option<Coded> {
        let (n, t) = (self.n, self.t);
        let lawful = (1..=MOST_PARTIES).contains(&n) && 2 * t < n;
        let codable = lawful && message.len() <= LONGEST_MESSAGE;
        codable.then(|| Coded::new(session, n, t, message))
    }

    /// The book of this name, or that there is none. A good box's book is called by its box
    /// as well.
    pub fn find(&self, name: &str) -> Result<&Book, String> {
        match (self.names.get(name), name.starts_with("box ")) {
            (Some(&place), _) => Ok(&self.known[place]),
            (None, true) => Err(format!("no line above says what {name} has")),
            (None, false) => Err(format!("no line above has a book {name}")),
        }
    }

    /// What the source's book is coded to, if it can be.
    pub fn coded(&self, source: &Source) -> Result<Option<&Coded>, String> {
        let session = source.session.unwrap_or(self.sittings[0]);
        Ok(self.find(&source.book)?.coded.get(&session))
    }

    /// What the book is called.
    pub fn name_of(&self, message: &[u8]) -> Option<&str> {
        let mut known = self.known.iter();
        known
            .find(|it| it.message == message)
            .map(|it| &it.name[..])
    }

    /// All that is coded, what is of the plan's own sitting first.
    pub fn sources(&self) -> impl Iterator<Item = (Source, &Coded)> {
        let own = self.sittings[0];
        let coded = self.sittings.iter().flat_map(|session| {
            let known = self.known.iter();
            known.filter_map(move |it| Some((&it.name, *session, it.coded.get(session)?)))
        });
        coded.map(move |(name, session, coded)| {
            let (book, session) = (name.clone(), Some(session).filter(|it| *it != own));
            (Source { book, session }, coded)
        })
    }

    /// Every share: what it is of, the shares beside it and the number.
    pub fn shares(&self) -> impl Iterator<Item = (Source, &Coded, usize)> {
        let shares =
            |(source, coded): (Source, _)| (1..=self.n).map(move |j| (source.clone(), coded, j));
        self.sources().flat_map(shares)
    }

    /// A name for one more book: the first letter that is free, or Z with a number.
    pub fn free_name(&self) -> String {
        let letters = ('A'..='Z').map(String::from);
        let mut names = letters.chain((1..).map(|number| format!("Z{number}")));
        let free = names.find(|name| !self.names.contains_key(name));
        free.expect("names do not run out")
    }
}
