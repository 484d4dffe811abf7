//! An example host: each party is a process of its own, linked with the others by TCP on the
//! loopback. Some parties may lie, and the host may be told to break one of its own duties;
//! docs/HOSTING.md has sittings of each kind. A party is a box and a message a book: people read
//! those words on the screen.

mod agreement;
mod clock;
mod good;
mod hex;
mod liars;
mod links;
mod options;
mod process;
mod roster;
mod session;
mod wire;

use std::process::ExitCode;

use options::{Options, USAGE};

/// Wrong usage, a sitting without a good party, or a failure of the host itself.
const FAILED: u8 = 2;

/// Two good parties differ, or a good party had an error.
const DIFFER: u8 = 1;

fn run(arguments: &[String]) -> Result<ExitCode, String> {
    if arguments.iter().any(|word| word == "--help") {
        println!("{USAGE}");
        return Ok(ExitCode::SUCCESS);
    }
    let options = Options::parse(arguments)?;
    if let Some(own) = options.own {
        process::run(&options, own)?;
        return Ok(ExitCode::SUCCESS);
    }
    Ok(match session::run(&options, arguments)? {
        true => ExitCode::SUCCESS,
        false => ExitCode::from(DIFFER),
    })
}

fn main() -> ExitCode {
    let arguments: Vec<String> = std::env::args().skip(1).collect();
    run(&arguments).unwrap_or_else(|message| {
        eprintln!("host: {message}");
        ExitCode::from(FAILED)
    })
}
