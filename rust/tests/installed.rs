//! The library as it is installed for C and C++: into an empty folder, from which programs are built
//! with the flags of pkg-config, against the archive and against the shared object, and run. Every
//! warning is an error. Compilers beside gcc, pkg-config and man are left out where they are absent.

use std::collections::BTreeSet;
use std::env;
use std::fs;
use std::path::{Path, PathBuf};
use std::process::{Command, Output, Stdio};
use std::sync::OnceLock;

use cipangohu::calls::Answer;

/// Compilers, and the language and standard that they are told.
const COMPILERS: [(&str, &[&str]); 6] = [
    ("gcc", &["-std=c99"]),
    ("gcc", &["-std=c2x"]),
    ("clang", &["-std=c99"]),
    ("g++", &["-std=c++11", "-xc++"]),
    ("g++", &["-std=c++17", "-xc++"]),
    ("clang++", &["-std=c++17", "-xc++"]),
];

const WARNINGS: [&str; 4] = ["-pedantic", "-Wall", "-Wextra", "-Werror"];

fn repository() -> PathBuf {
    Path::new(env!("CARGO_MANIFEST_DIR")).join("..")
}

fn temporary(name: &str) -> PathBuf {
    Path::new(env!("CARGO_TARGET_TMPDIR")).join(name)
}

fn is_there(tool: &str) -> bool {
    let quiet = Command::new(tool)
        .arg("--version")
        .stdout(Stdio::null())
        .status();
    if quiet.is_err() {
        println!("left out, since it is absent: {tool}");
    }
    quiet.is_ok()
}

fn compilers() -> impl Iterator<Item = (&'static str, &'static [&'static str])> {
    let there = |(name, _): &(&str, _)| *name == "gcc" || is_there(name);
    COMPILERS.into_iter().filter(there)
}

/// What a command prints, if it ends well.
fn printed(command: &mut Command) -> String {
    let Output {
        status,
        stdout,
        stderr,
    } = command.output().expect("the command runs");
    let said = String::from_utf8_lossy(&stderr);
    assert!(status.success(), "{command:?}: {said}");
    String::from_utf8(stdout).expect("a text")
}

/// The folder with the library, which is installed once. It has links, which the proofs' gate takes
/// nowhere in the repository, so it lies among the machine's temporary files, one for each checkout.
fn prefix() -> &'static Path {
    static PREFIX: OnceLock<PathBuf> = OnceLock::new();
    PREFIX.get_or_init(|| {
        let name = env!("CARGO_MANIFEST_DIR").replace('/', "-");
        let prefix = env::temp_dir().join(format!("cipangohu{name}"));
        fs::remove_dir_all(&prefix).ok();
        let archive = Path::new(env!("CIPANGOHU_ARCHIVE"));
        let mut install = Command::new(repository().join("scripts/install"));
        install
            .arg(&prefix)
            .env("CIPANGOHU_LIB", archive.parent().expect("a folder"));
        let told = printed(&mut install);
        let version = concat!(": cipangohu ", env!("CARGO_PKG_VERSION"), "\n");
        assert!(told.ends_with(version), "{told}");
        prefix
    })
}

fn header() -> String {
    fs::read_to_string(prefix().join("include/cipangohu.h")).expect("the header")
}

/// The function that a line of the header begins to tell of, and whether the header defines it.
fn function(line: &str) -> Option<(&str, bool)> {
    let name = line.split_once('(')?.0.rsplit([' ', '*']).next()?;
    let starts = line.starts_with(|first: char| first.is_ascii_alphabetic());
    let is_one = starts && name.starts_with("cipangohu_") && !name.contains('[');
    is_one.then(|| (name, line.contains("static inline")))
}

/// The flags for whoever uses the library; those with which the header is found stand first.
fn flags() -> Vec<String> {
    let mut ask = Command::new("pkg-config");
    ask.args(["--cflags", "--libs", "cipangohu"])
        .env("PKG_CONFIG_PATH", prefix().join("lib/pkgconfig"));
    printed(&mut ask)
        .split_whitespace()
        .map(String::from)
        .collect()
}

/// The causes in words, as the program prints them and as this crate does.
fn causes() -> String {
    let words = |cause| match (Answer { value: 0, cause }).accepted() {
        Ok(_) => String::from("accepted"),
        Err(cause) => cause.to_string(),
    };
    let lines = (0..=16).map(|cause| {
        let words = words(cause);
        let words = words.trim_start_matches(&format!("cause {cause}: "));
        format!("{cause} {}\n", words.trim_end_matches(" and needs 0 bytes"))
    });
    lines.collect()
}

/// The programs in C, and what they print.
fn programs() -> [(&'static str, String); 4] {
    [
        (
            "first",
            String::from("for party 1: 0 bytes\nto relay: 0 bytes\nsettled on AB\n"),
        ),
        (
            "example",
            String::from(
                "1 happy\n2 happy\n3 unhappy\n\
                 1 = AB\n1 saw 4 cheat\n2 = AB\n2 saw 4 cheat\n3 = AB\n3 saw 4 cheat\n\
                 screen: 1 = AB\nscreen: 1 saw 4 cheat\nscreen: 2 = AB\nscreen: 2 saw 4 cheat\n\
                 screen: 3 = AB\nscreen: 3 saw 4 cheat\n",
            ),
        ),
        (
            "sender",
            String::from(
                "2 sends 5 bytes to each other party\n1 has AB\n\
                 3 cannot read what party 2 sent, and has the empty message\n\
                 1 agrees with 2, 3 differs from 2\n",
            ),
        ),
        ("checks", causes()),
    ]
}

#[test]
fn programs_are_built_and_run() {
    if !is_there("pkg-config") {
        return;
    }
    let (programs, flags, mut built) = (programs(), flags(), 0);
    for (compiler, standard) in compilers() {
        for (name, expected) in &programs {
            for link in [&["-static"][..], &[]] {
                let program = temporary(name);
                let mut compile = Command::new(compiler);
                compile.args(standard).args(WARNINGS).args(link);
                compile.arg(repository().join("c").join(name).with_extension("c"));
                printed(compile.args(&flags).arg("-o").arg(&program));
                let shared = link.is_empty();
                let mut run = Command::new(&program);
                run.env_remove("LD_LIBRARY_PATH");
                assert_eq!(run.output().expect("it starts").status.success(), !shared);
                run.env("LD_LIBRARY_PATH", prefix().join("lib"));
                assert_eq!(printed(&mut run), *expected, "{compile:?}");
                built += 1;
            }
        }
    }
    println!("{built} programs");
}

/// Whether the compiler takes a program of one statement.
fn taken(compiler: &str, standard: &[&str], statement: &str) -> bool {
    let source = temporary("statement.c");
    let text = format!("#include <cipangohu.h>\nint main(void) {{ {statement} return 0; }}\n");
    fs::write(&source, text).expect("it is written");
    let mut compile = Command::new(compiler);
    compile.args(standard).args(WARNINGS).arg("-I");
    compile.arg(prefix().join("include")).arg("-c").arg(source);
    let output = compile.args(["-o", "/dev/null"]).output();
    output.expect("it starts").status.success()
}

#[test]
fn an_answer_that_is_not_used_is_told() {
    for (compiler, standard) in compilers() {
        let taken = |statement: &str| taken(compiler, standard, statement);
        let call = "cipangohu_hash(NULL, 0, NULL, 0)";
        assert!(taken(&format!(
            "if ({call}.cause != CIPANGOHU_CAUSE_ROOM) return 1;"
        )));
        assert!(!taken(&format!("{call};")), "{compiler} {standard:?}");
        assert!(!taken("cipangohu_append(NULL, 0, 0, NULL, 0);"));
        assert!(!taken(&format!("int answer = {call}; return answer;")));
    }
}

#[test]
fn the_man_page_is_rendered_without_a_warning() {
    if !is_there("man") {
        return;
    }
    let mut man = Command::new("man");
    man.args(["--warnings", "-E", "UTF-8", "-Tutf8", "-l"])
        .arg(prefix().join("share/man/man3/cipangohu.3"))
        .envs([
            ("LC_ALL", "C.UTF-8"),
            ("MANWIDTH", "80"),
            ("MANPAGER", "cat"),
        ]);
    let Output { stdout, stderr, .. } = man.output().expect("man runs");
    assert_eq!(String::from_utf8_lossy(&stderr), "");
    let text = String::from_utf8_lossy(&stdout);
    let header = header();
    for (name, _) in header.lines().filter_map(function) {
        assert!(text.contains(&format!("{name}(")), "{name}");
    }
}

#[test]
fn the_shared_object_has_the_names_of_the_header() {
    let mut list = Command::new("nm");
    list.args(["--dynamic", "--defined-only", "--format=just-symbols"])
        .arg(prefix().join("lib/libcipangohu.so"));
    let had: BTreeSet<String> = printed(&mut list).lines().map(String::from).collect();
    let header = header();
    let exported = header
        .lines()
        .filter_map(function)
        .filter(|(_, inline)| !inline);
    let told: BTreeSet<String> = exported.map(|(name, _)| name.to_string()).collect();
    println!("{} functions", told.len());
    assert_eq!(had, told);
}

#[test]
fn the_first_example_is_short() {
    let text = fs::read_to_string(repository().join("c/first.c")).expect("the example");
    assert!(text.lines().count() <= 40);
}
