//! A reference for the field, the coder, the hash, the tree, the packets, the party and the
//! rehearsal, written from a description in words and the public standards alone, against which the
//! proved implementation is compared. docs/REFERENCE.md tells the same; its examples are run here.

pub mod coder;
pub mod commitment;
pub mod examples;
pub mod field;
pub mod inbox;
pub mod liars;
pub mod limits;
pub mod message_packet;
pub mod packet;
pub mod party;
pub mod plans;
pub mod random;
pub mod rehearsal;
pub mod sessions;
pub mod sha256;
pub mod tally;
pub mod tree;
pub mod vectors;
