//! The stack that the program `rehearsal` takes: the least limit of the system's at which it prints
//! what the foreign implementation does.

use std::io::{Result, Write};
use std::path::Path;
use std::process::{Command, Stdio};
use std::thread;

use foreign::plans::map_of;
use foreign::rehearsal::rehearse;

use crate::session::{Setting, GREATEST};

/// What the program has to fit in, in KiB; scripts/check-plans runs it on as much.
pub const ROOM: usize = 4 * 1024;

/// The system moves the top of a stack by some KiB at random, so that each limit is tried often.
const TRIES: usize = 32;

/// A plan of the greatest session: all are good, t of them hold another message and rebuild.
fn plan() -> Vec<u8> {
    let setting = Setting {
        unhappy: GREATEST.t,
        ..GREATEST
    };
    let parties: Vec<usize> = (1..=setting.n).collect();
    let mut plan = vec![setting.n as u8, setting.t as u8, 0];
    plan.extend(map_of(&parties));
    for own in parties {
        let message = setting.message(own);
        plan.extend((message.len() as u16).to_be_bytes());
        plan.extend(message);
    }
    plan
}

/// What the program prints under a limit in KiB; none if it ends badly.
fn printed(program: &Path, room: usize, plan: &[u8]) -> Result<Option<Vec<u8>>> {
    let mut child = Command::new("/bin/sh")
        .args(["-c", "ulimit -s \"$0\" && exec \"$1\"", &room.to_string()])
        .arg(program)
        .env_clear()
        .stdin(Stdio::piped())
        .stdout(Stdio::piped())
        .spawn()?;
    let mut input = child.stdin.take().expect("a pipe");
    let plan = plan.to_vec();
    // A program that ended has read no more.
    let writing = thread::spawn(move || input.write_all(&plan).ok());
    let output = child.wait_with_output()?;
    writing.join().expect("the writing ends");
    Ok(output.status.success().then_some(output.stdout))
}

/// The least limit in KiB, by halving; none if there is no program.
pub fn least_stack(program: &Path) -> Result<Option<usize>> {
    if !program.is_file() {
        return Ok(None);
    }
    let plan = plan();
    let want = Some(rehearse(&plan));
    let fits = |room| -> Result<bool> {
        for _ in 0..TRIES {
            if printed(program, room, &plan)? != want {
                return Ok(false);
            }
        }
        Ok(true)
    };
    assert!(fits(ROOM)?, "the program prints the plan rightly");
    let (mut less, mut enough) = (0, ROOM);
    while enough - less > 1 {
        let between = (less + enough) / 2;
        match fits(between)? {
            true => enough = between,
            false => less = between,
        }
    }
    Ok(Some(enough))
}
