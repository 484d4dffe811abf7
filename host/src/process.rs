//! One party's process. On standard output it tells its port, then that it is ready, then its
//! report, then its result again; on standard input it is told its roster, then to go, then to show
//! the result.

use std::io::{stdin, BufRead, Write};
use std::net::TcpListener;
use std::sync::Arc;

use cipangohu::{Outcome, Parties, Party};

use crate::agreement::Agreement;
use crate::good::{self, Failure, Report, Unread};
use crate::hex;
use crate::liars::{Liar, Lie};
use crate::links::{connect, listen, receive, Door, Links, Mailbox};
use crate::options::{Duty, Options};
use crate::roster::{Peer, Roster};
use crate::wire::Hello;

/// The words between a party's process and the one that started it.
pub const READY: &str = "ready";
pub const GO: &str = "go";
pub const SHOW: &str = "show";

fn told() -> Result<String, String> {
    let mut line = String::new();
    stdin()
        .lock()
        .read_line(&mut line)
        .map_err(|error| error.to_string())?;
    Ok(line.trim_end().to_string())
}

fn tell(line: &str) -> Result<(), String> {
    let mut out = std::io::stdout().lock();
    writeln!(out, "{line}")
        .and_then(|()| out.flush())
        .map_err(|error| error.to_string())
}

/// A result as a rehearsal prints it.
pub fn shown(result: Outcome) -> String {
    match result {
        Outcome::Nothing => String::from("-"),
        Outcome::Message([]) => String::from("="),
        Outcome::Message(message) => format!("= {}", hex::encode(message)),
    }
}

/// What a person at the party is told where it opened with the empty message since it read none.
fn noted(unread: &Unread) -> String {
    let Unread { sender, came } = unread;
    match came {
        true => format!("cannot read what box {sender} sent, and opens with the empty book"),
        false => format!("hears nothing from box {sender}, and opens with the empty book"),
    }
}

/// Whom a party saw cheat, for a person there.
fn seen(faulty: Parties) -> String {
    let numbers: Vec<String> = faulty.iter().map(|number| number.to_string()).collect();
    match &numbers[..] {
        [] => String::from("saw no box cheat"),
        [one] => format!("saw box {one} cheat"),
        _ => format!("saw boxes {} cheat", numbers.join(" ")),
    }
}

/// The line that reports how a good party ended, its parts between tabs: the bytes it sent, its
/// result, whom it saw cheat, and a note. The last two may be empty.
fn reported(ended: &Result<Report, Failure>) -> String {
    let report = match ended {
        Ok(report) => report,
        Err(Failure::Refused(cause)) => return format!("0\terror: {cause}\t\t"),
        Err(Failure::Link(error)) => return format!("0\terror: {error}\t\t"),
    };
    let result = report.party.result();
    let result = result.map_or(String::from("error: the box has not ended"), shown);
    let seen = seen(report.party.faulty());
    let note = report.unread.as_ref().map_or(String::new(), noted);
    format!("{}\t{result}\t{seen}\t{note}", report.sent)
}

/// Shows the result to whoever asks after the report. The inbox is gone by then; step 5 needs none
/// to give the result again.
fn show(party: &mut Party) -> Result<(), String> {
    while told()? == SHOW {
        let again = party.take_relays(&[]).map_err(|cause| cause.to_string())?;
        tell(&shown(again.outcome))?;
    }
    Ok(())
}

/// The links from and to all others; a silent liar opens none.
fn open_links(options: &Options, own: usize, roster: &Roster, listener: TcpListener) -> Links {
    let mailbox = Arc::new(Mailbox::new(options.parties));
    let door = Door {
        tokens: roster.peers.iter().map(|peer| peer.demanded).collect(),
        open: options.breaks(Duty::Forge),
    };
    receive(listener, door, Arc::clone(&mailbox));
    let silent = options.lies.get(&own) == Some(&Lie::Silent);
    let link = |(number, peer): (usize, &Peer)| {
        let token = peer.said;
        let wanted = number != own && !silent;
        wanted.then(|| connect(peer.port, &Hello { sender: own, token }).ok())?
    };
    Links {
        own,
        mailbox,
        streams: (1..).zip(&roster.peers).map(link).collect(),
    }
}

/// Takes the party's part in the sitting.
pub fn run(options: &Options, own: usize) -> Result<(), String> {
    let text = |error: std::io::Error| error.to_string();
    let (listener, port) = listen().map_err(text)?;
    tell(&port.to_string())?;
    let roster = Roster::read(&told()?, options.parties).ok_or("the roster cannot be read")?;

    let lie = options.lies.get(&own).copied();
    let liar = lie.map(|lie| Liar::new(lie, own, options)).transpose();
    let liar = liar.map_err(|cause| cause.to_string())?;
    let mut links = open_links(options, own, &roster, listener);
    if let Some(liar) = &liar {
        liar.prepare(&roster);
    }
    tell(READY)?;
    if told()? != GO || lie == Some(Lie::Silent) {
        return Ok(());
    }

    let Peer { port, said, .. } = roster.agreement;
    // Who comes first waits for the others, and then for those that are not there.
    let wait = options.limit + options.spread();
    let mut agreement = Agreement::join(port, own, said, wait).map_err(text)?;
    let Some(liar) = liar else {
        let ended = good::run(options, &mut links, &mut agreement);
        tell(&reported(&ended))?;
        return ended.map_or(Ok(()), |mut report| show(&mut report.party));
    };
    liar.run(options, &mut links, &mut agreement);
    Ok(())
}
