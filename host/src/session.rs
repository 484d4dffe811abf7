//! The process that starts the parties of a sitting, brings them together, and holds the good ones'
//! results against each other.

use std::io::{BufRead, BufReader, Write};
use std::process::{Child, ChildStdin, Command, Stdio};
use std::sync::mpsc::{channel, Receiver};
use std::thread;
use std::time::Duration;

use cipangohu::{Outcome, Party};

use crate::agreement::{serve, Terms};
use crate::links::PATIENCE;
use crate::options::{Duty, Options};
use crate::process::{shown, GO, READY, SHOW};
use crate::roster::{tokens, Roster};

/// A party's process; it is ended with this.
struct Process {
    own: usize,
    child: Child,
    input: ChildStdin,
    lines: Receiver<String>,
}

impl Drop for Process {
    fn drop(&mut self) {
        self.child.kill().ok();
        self.child.wait().ok();
    }
}

impl Process {
    fn start(own: usize, arguments: &[String]) -> std::io::Result<Process> {
        let mut child = Command::new(std::env::current_exe()?)
            .args(arguments)
            .args(["--as", &own.to_string()])
            .stdin(Stdio::piped())
            .stdout(Stdio::piped())
            .spawn()?;
        let broken = || std::io::Error::from(std::io::ErrorKind::BrokenPipe);
        let input = child.stdin.take().ok_or_else(broken)?;
        let output = child.stdout.take().ok_or_else(broken)?;
        let (told, lines) = channel();
        thread::spawn(move || {
            BufReader::new(output)
                .lines()
                .map_while(Result::ok)
                .try_for_each(|line| told.send(line))
        });
        Ok(Process {
            own,
            child,
            input,
            lines,
        })
    }

    fn tell(&mut self, line: &str) -> Result<(), String> {
        writeln!(self.input, "{line}").map_err(|error| format!("box {}: {error}", self.own))
    }

    /// The next line of the party, which does not wait for ever.
    fn line(&self, patience: Duration) -> Result<String, String> {
        self.lines
            .recv_timeout(patience)
            .map_err(|_| format!("box {} does not answer", self.own))
    }
}

/// How a good party ended: the bytes it sent, its result as it is printed, whom it saw cheat, and what
/// else it tells.
struct Ended {
    own: usize,
    sent: usize,
    result: String,
    seen: String,
    note: String,
}

/// A party that tells nothing that can be read has an error.
fn ended(process: &Process, patience: Duration) -> Ended {
    let line = process
        .line(patience)
        .unwrap_or_else(|message| format!("0\terror: {message}\t\t"));
    let mut parts = line.splitn(4, '\t');
    let sent = parts.next().and_then(|sent| sent.parse().ok());
    Ended {
        own: process.own,
        sent: sent.unwrap_or(0),
        result: parts.next().unwrap_or("error: no report").to_string(),
        seen: parts.next().unwrap_or_default().to_string(),
        note: parts.next().unwrap_or_default().to_string(),
    }
}

/// The screen in the hall: it shows a party's result, which the desk has read before.
fn screen(process: &mut Process) {
    let again = process.tell(SHOW).and_then(|()| process.line(PATIENCE));
    let shown = again.unwrap_or_else(|message| format!("error: {message}"));
    println!("screen {} {shown}", process.own);
}

/// The limits are the party's: it says whether it would open with this number and message.
fn check_openings(options: &Options) -> Result<(), String> {
    for own in options.holders() {
        Party::open(
            options.session,
            options.parties,
            options.faults,
            own,
            options.message_of(own),
        )
        .map_err(|cause| format!("box {own}: {cause}"))?;
    }
    Ok(())
}

/// Starts all parties and the agreement, and tells each where the others are. All are ready when
/// this returns, and none has gone ahead.
fn gather(options: &Options, arguments: &[String]) -> Result<Vec<Process>, String> {
    let text = |error: std::io::Error| error.to_string();
    let n = options.parties;
    let tokens = tokens(n * n + n).map_err(text)?;
    let agreement = serve(Terms {
        parties: n,
        faults: options.faults,
        limit: options.spread(),
        tokens: tokens[n * n..].to_vec(),
        echo: options.breaks(Duty::Agreement),
    })
    .map_err(text)?;
    let processes: std::io::Result<Vec<Process>> =
        (1..=n).map(|own| Process::start(own, arguments)).collect();
    let mut processes = processes.map_err(text)?;
    let mut ports = Vec::new();
    for process in &processes {
        let port = process.line(PATIENCE)?;
        ports.push(
            port.parse()
                .map_err(|_| format!("box {} has no port", process.own))?,
        );
    }
    for (process, roster) in processes
        .iter_mut()
        .zip(Roster::all(&ports, agreement, &tokens))
    {
        process.tell(&roster.line())?;
    }
    for process in &processes {
        if process.line(PATIENCE)? != READY {
            return Err(format!("box {} is not ready", process.own));
        }
    }
    Ok(processes)
}

/// Runs a sitting and prints it; gives whether all good parties ended, and ended alike.
pub fn run(options: &Options, arguments: &[String]) -> Result<bool, String> {
    check_openings(options)?;
    // No result would be shown, and whoever goes by the status must not take it for a settled one.
    if options.good().next().is_none() {
        return Err(format!("no box is good: all {} lie", options.parties));
    }
    let mut processes = gather(options, arguments)?;
    for process in &mut processes {
        process.tell(GO)?;
    }
    let patience = options.limit * 12 + PATIENCE;
    let good = processes
        .iter()
        .filter(|process| !options.lies.contains_key(&process.own));
    let ended: Vec<Ended> = good.map(|process| ended(process, patience)).collect();
    let alike = print(options, &ended);
    let read = processes
        .iter_mut()
        .find(|process| options.screen == Some(process.own));
    if let Some(process) = read {
        screen(process);
    }
    Ok(alike)
}

/// Why the sitting is broken, if it is: a promise was not kept.
fn broken(options: &Options, ended: &[Ended]) -> Option<String> {
    if ended.iter().any(|ended| ended.result.starts_with("error")) {
        return Some("a good box failed".to_string());
    }
    if ended
        .windows(2)
        .any(|pair| pair[0].result != pair[1].result)
    {
        return Some("good boxes differ".to_string());
    }
    let sender = options.good_sender()?;
    let book = shown(Outcome::Message(options.message_of(sender)));
    let lost = ended.iter().any(|ended| ended.result != book);
    lost.then(|| format!("box {sender} is good, but its book is not the result"))
}

/// What was settled. The empty book is a book.
fn settled(result: &str) -> String {
    match result
        .strip_prefix("=")
        .map(|digits| digits.trim().len() / 2)
    {
        None => "nothing".to_string(),
        Some(0) => "the empty book".to_string(),
        Some(1) => "a book of 1 byte".to_string(),
        Some(length) => format!("a book of {length} bytes"),
    }
}

/// Prints what each party did and what came of it; gives whether that is what is promised.
fn print(options: &Options, ended: &[Ended]) -> bool {
    if options.lies.len() > options.faults {
        println!(
            "{} boxes lie, more than the fault limit {}",
            options.lies.len(),
            options.faults
        );
    }
    for own in 1..=options.parties {
        if let Some(lie) = options.lies.get(&own) {
            println!("{own} lies: {}", lie.name());
        }
        for ended in ended.iter().filter(|ended| ended.own == own) {
            let told = [&ended.note, &ended.result, &ended.seen].into_iter();
            for line in told.filter(|line| !line.is_empty()) {
                println!("{own} {line}");
            }
        }
    }
    let sent: usize = ended.iter().map(|ended| ended.sent).sum();
    println!("sent {sent}");
    let broken = broken(options, ended);
    let verdict = match (&broken, ended.first()) {
        (None, Some(any)) => {
            let what = settled(&any.result);
            format!("settled: all good boxes have one result, {what}")
        }
        (reason, _) => format!("broken: {}", reason.as_deref().unwrap_or_default()),
    };
    println!("{verdict}");
    broken.is_none()
}
