//! Reads a plan from standard input and prints what its rehearsal gives.

use std::io::{stdin, stdout, Read, Result, Write};

use foreign::rehearsal::rehearse;

fn main() -> Result<()> {
    let mut plan = Vec::new();
    stdin().read_to_end(&mut plan)?;
    stdout().write_all(&rehearse(&plan))
}
