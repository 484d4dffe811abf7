//! The greatest numbers are the same everywhere: in the proved crate `limits`, in this crate, in the
//! crate for hosts in Rust, in the header for those in C and in docs/REFERENCE.md. A compiler for C
//! compares them, in whose words the constants of the proved crates are written as well.

use std::fs;
use std::io;
use std::path::{Path, PathBuf};
use std::process::Command;

use foreign::examples::{limits, reference};
use foreign::limits::*;

// The file itself, since the crate cannot be linked without the proved archive.
#[path = "../../rust/src/limits.rs"]
mod host;

/// The proved crates whose constants are compared. In the others stand those that follow from the
/// limits alone.
const PROVED: [&str; 3] = ["limits", "packet", "commitment"];

/// A constant of the proved crates, that of the header without the name that it begins with, and the
/// numbers in Rust.
const LIMITS: [(&str, &str, &[usize]); 10] = [
    ("MAX_PARTIES", "PARTIES", &[MOST_PARTIES, host::MAX_PARTIES]),
    (
        "MAX_MESSAGE",
        "MESSAGE",
        &[LONGEST_MESSAGE, host::MAX_MESSAGE],
    ),
    ("MAX_SHARE", "SHARE", &[LONGEST_SHARE, host::MAX_SHARE]),
    ("MAX_PATH", "PATH", &[MOST_HASHES, host::MAX_PATH]),
    ("MAX_HASHED", "HASHED", &[LONGEST_STRING, host::MAX_HASHED]),
    ("MAX_ENTRY", "ENTRY", &[LONGEST_ENTRY, host::MAX_ENTRY]),
    ("MAX_SHARES", "SHARES", &[LONGEST_SHARES, host::MAX_SHARES]),
    ("MAX_PACKET", "PACKET", &[LONGEST_PACKET, host::MAX_PACKET]),
    (
        "MAX_MESSAGE_PACKET",
        "MESSAGE_PACKET",
        &[LONGEST_MESSAGE_PACKET, host::MAX_MESSAGE_PACKET],
    ),
    ("MAX_OUTBOX", "OUTBOX", &[LONGEST_OUTBOX, host::MAX_OUTBOX]),
];

fn folder(name: &str) -> PathBuf {
    Path::new(env!("CARGO_MANIFEST_DIR")).join("..").join(name)
}

/// The constants of a proved crate in the words of C, in which their formulas are the same.
fn proved(name: &str) -> String {
    let file = folder("crates").join(name).join("src/lib.rt");
    let text = fs::read_to_string(file).expect("the crate's source");
    let constant = |line: &str| {
        let line = line.strip_prefix("pub ").unwrap_or(line);
        let line = line.strip_prefix("const ")?.strip_suffix(';')?;
        let (name, formula) = line.split_once(": usize = ")?;
        Some(format!("#define {name} ({formula})\n"))
    };
    text.lines().filter_map(constant).collect()
}

/// Lines that stop the compiler where two numbers differ. A name that is not defined would be 0.
fn equal(one: &str, other: &str) -> String {
    format!("#if {one} == 0 || {one} != {other}\n#error {one} is not {other}\n#endif\n")
}

/// A program in C that is compiled exactly if the limits are one another's.
fn program() -> String {
    let mut text = String::from("#include \"cipangohu.h\"\n");
    text.extend(PROVED.map(proved));
    for (proved, header, here) in LIMITS {
        text += &equal(proved, &format!("CIPANGOHU_{header}"));
        text.extend(here.iter().map(|limit| equal(proved, &limit.to_string())));
    }
    text += &equal("MAX_PLAN", &LONGEST_PLAN.to_string());
    let hosts = [
        ("ROOT", host::HASH),
        ("STATE", host::STATE),
        ("INBOX", host::MAX_INBOX),
        ("LAYOUT", host::LAYOUT.into()),
    ];
    for (name, number) in hosts {
        text += &equal(&format!("CIPANGOHU_{name}"), &number.to_string());
    }
    text
}

/// What a limit of docs/REFERENCE.md has to be, in the words of C.
fn due(name: &str) -> String {
    match name {
        "ROOT" => "CIPANGOHU_ROOT".to_string(),
        "STATE" => "(17 + CIPANGOHU_ROOT + MAX_MESSAGE + MAX_SHARE)".to_string(),
        "INBOX" => "(MAX_PARTIES * (2 + MAX_ENTRY))".to_string(),
        _ => format!("MAX_{name}"),
    }
}

/// Whether the compiler takes the file, with what it says printed, or that there is no such compiler.
fn taken(compiler: &str, standard: &str, source: &Path) -> io::Result<bool> {
    let run = Command::new(compiler)
        .arg(standard)
        .args(["-pedantic", "-Wall", "-Wextra", "-Werror", "-fsyntax-only"])
        .arg("-I")
        .arg(folder("c"))
        .arg(source)
        .output()?;
    println!("{}", String::from_utf8_lossy(&run.stderr));
    Ok(run.status.success())
}

/// Proved, in Rust and in the header, which is C99 and C++.
#[test]
fn one_number_for_each_limit() {
    let source = Path::new(env!("CARGO_TARGET_TMPDIR")).join("limits.c");
    fs::write(&source, program()).expect("it is written");
    assert!(taken("gcc", "-std=c99", &source).expect("gcc runs"));
    // A compiler for C++ may be absent.
    match taken("g++", "-std=c++11", &source) {
        Ok(verdict) => assert!(verdict),
        Err(error) => println!("left out, since there is no g++: {error}"),
    }
}

/// A number that differs stops the compiler.
#[test]
fn another_number_is_not_taken() {
    let source = Path::new(env!("CARGO_TARGET_TMPDIR")).join("other.c");
    let other = equal("MAX_SHARE", &(LONGEST_SHARE + 1).to_string());
    fs::write(&source, program() + &other).expect("it is written");
    assert!(!taken("gcc", "-std=c99", &source).expect("gcc runs"));
}

#[test]
fn every_proved_limit_is_compared() {
    let program = program();
    for line in proved("limits").lines() {
        let name = line.split(' ').nth(1).expect("a name");
        assert!(program.contains(&format!("#if {name} ==")), "{name}");
    }
}

/// The limits that docs/REFERENCE.md tells.
#[test]
fn the_reference_has_the_limits() {
    let table = limits(&reference());
    let told = table
        .iter()
        .map(|(name, number)| equal(&number.to_string(), &due(name)));
    let source = Path::new(env!("CARGO_TARGET_TMPDIR")).join("reference.c");
    fs::write(&source, program() + &told.collect::<String>()).expect("it is written");
    assert!(taken("gcc", "-std=c99", &source).expect("gcc runs"));
    for line in proved("limits").lines() {
        let name = line.split(' ').nth(1).expect("a name");
        assert!(table.iter().any(|limit| due(&limit.0) == name), "{name}");
    }
}

/// A number's digits in groups of three.
fn grouped(number: usize) -> String {
    match number {
        0..1_000 => number.to_string(),
        _ => format!("{},{:03}", grouped(number / 1_000), number % 1_000),
    }
}

/// No line tells the number of a limit. Numbers under a thousand have other meanings too.
fn tell_none(lines: &[&str], table: &[(String, usize)]) {
    for (name, number) in table.iter().filter(|limit| limit.1 >= 1_000) {
        let told = |line: &&&str| {
            let [plain, grouped] = [number.to_string(), grouped(*number)];
            line.contains(&plain) || line.contains(&grouped)
        };
        assert_eq!(lines.iter().find(told), None, "{name}");
    }
}

/// Beside the table it says their names.
#[test]
fn the_reference_tells_a_limit_once() {
    let text = reference();
    let table = limits(&text);
    let row = |line: &str, name: &str| line.starts_with(&format!("| `{name}` | "));
    let others = |line: &&str| !table.iter().any(|limit| row(line, &limit.0));
    tell_none(&text.lines().filter(others).collect::<Vec<_>>(), &table);
}

/// And so do these.
#[test]
fn other_documents_tell_no_limit() {
    let table = limits(&reference());
    for name in ["README.md", "docs/HOSTING.md", "docs/FUZZING.md"] {
        let text = fs::read_to_string(folder(name)).expect("a document");
        tell_none(&text.lines().collect::<Vec<_>>(), &table);
    }
}
