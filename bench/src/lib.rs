//! Measures the proved library: its time against other implementations and as sizes grow, the bytes
//! that a session sends, and the stack that each call and the program `rehearsal` take. Times are
//! given as ratios; columns marked so have the microseconds of the machine at hand.

pub mod contest;
pub mod every_call;
pub mod growth;
pub mod markdown;
pub mod numbered;
pub mod party;
pub mod passes;
pub mod plot;
pub mod program;
pub mod report;
pub mod session;
pub mod steps;
pub mod traffic;
pub mod verdict;

// The modules that speak to the system and to other libraries.
#[allow(unsafe_code)]
mod clock;
#[allow(unsafe_code)]
pub mod library;
#[allow(unsafe_code)]
pub mod stack;
