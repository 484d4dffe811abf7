//! The fuzzer's bytes, read from the front. Where they have run out zeros are read, and a zero
//! always stands for what a lawful host would do.

use cipangohu::{MAX_OUTBOX, MAX_PARTIES};

/// Numbers that no group has.
const ODD: [usize; 8] = [
    0,
    MAX_PARTIES + 1,
    MAX_PARTIES + 2,
    255,
    256,
    1 << 32,
    1 << 63,
    usize::MAX,
];

pub struct Input<'a>(&'a [u8]);

impl<'a> Input<'a> {
    pub fn new(bytes: &'a [u8]) -> Self {
        Input(bytes)
    }

    pub fn is_empty(&self) -> bool {
        self.0.is_empty()
    }

    pub fn byte(&mut self) -> u8 {
        match self.0.split_first() {
            Some((&byte, rest)) => {
                self.0 = rest;
                byte
            }
            None => 0,
        }
    }

    /// A number below `limit`, which is over 0.
    pub fn below(&mut self, limit: usize) -> usize {
        usize::from(self.byte()) % limit
    }

    /// A number below `limit`, from two bytes.
    pub fn wide(&mut self, limit: usize) -> usize {
        (usize::from(self.byte()) * 256 + usize::from(self.byte())) % limit
    }

    /// As many bytes as the first byte says, or as there are.
    pub fn bytes(&mut self) -> Vec<u8> {
        let length = usize::from(self.byte()).min(self.0.len());
        let (bytes, rest) = self.0.split_at(length);
        self.0 = rest;
        bytes.to_vec()
    }

    /// The usual number, one of up to 31, or an odd one.
    pub fn number(&mut self, usual: usize) -> usize {
        match self.byte() {
            0 => usual,
            byte @ 1..=191 => usize::from(byte) % 32,
            byte => ODD[usize::from(byte) % ODD.len()],
        }
    }

    /// A session number: the usual one, that with a bit turned, 0, the greatest, or any.
    pub fn session(&mut self, usual: u32) -> u32 {
        match self.byte() {
            0 => usual,
            byte @ 1..=32 => usual ^ (1 << (byte - 1)),
            33..=63 => 0,
            64..=95 => u32::MAX,
            _ => u32::from_be_bytes([0; 4].map(|_: u8| self.byte())),
        }
    }

    /// A map of parties: of none, of one, or any.
    pub fn map(&mut self) -> u32 {
        match self.byte() {
            0 => 0,
            byte @ 1..=32 => 1 << (byte - 1),
            _ => u32::from_be_bytes([0; 4].map(|_: u8| self.byte())),
        }
    }

    /// A bit: 1 for a zero, 0 for a one, and what is none else, also such as would be a bit if it
    /// were cut.
    pub fn bit(&mut self) -> usize {
        match self.byte() {
            byte @ 0..=191 => usize::from(byte ^ 1),
            byte => ODD[usize::from(byte) % ODD.len()].wrapping_add(usize::from(byte / 8 % 2)),
        }
    }

    /// The length of a buffer that needs so many bytes: exact, a little off, or any.
    pub fn room(&mut self, needed: usize) -> usize {
        match self.byte() {
            0 => needed,
            byte @ 1..=63 => needed + usize::from(byte),
            byte @ 64..=127 => needed.saturating_sub(usize::from(byte) - 63),
            _ => self.wide(2 * MAX_OUTBOX),
        }
    }

    /// Changes bytes in one way, mostly by a single byte.
    pub fn bend(&mut self, bytes: &mut Vec<u8>) {
        let place = self.wide(bytes.len().max(1));
        let byte = self.byte();
        match self.below(5) {
            0 if !bytes.is_empty() => bytes[place] ^= byte.max(1),
            1 if !bytes.is_empty() => bytes[place] = byte,
            2 => bytes.truncate(place),
            3 => bytes.push(byte),
            _ => bytes.extend(vec![byte; place]),
        }
    }
}
