//! Writes the plans that docs/REFERENCE.md has as examples, and what they print, to files.
//!
//!     example_plans FOLDER    # line-L.plan and line-L.out, for the example that begins at line L
//!
//! The exit status is 1 if there is none.

use std::io::{Error, Result};
use std::path::Path;
use std::process::ExitCode;

use foreign::examples::{examples, planned, reference};

fn main() -> Result<ExitCode> {
    let Some(folder) = std::env::args().nth(1) else {
        eprintln!("example_plans FOLDER");
        return Ok(ExitCode::from(2));
    };
    let found = examples(&reference()).map_err(Error::other)?;
    let plans = found.iter().filter(|example| example.kind == "plan");
    let mut count = 0;
    for example in plans {
        let (plan, output) = planned(example).ok_or(Error::other("a plan without its output"))?;
        let file = Path::new(&folder).join(format!("line-{}", example.line));
        std::fs::write(file.with_extension("plan"), plan)?;
        std::fs::write(file.with_extension("out"), output)?;
        count += 1;
    }
    println!("docs/REFERENCE.md: {count} plans");
    Ok(ExitCode::from(u8::from(count == 0)))
}
