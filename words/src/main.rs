//! Plans in words.
//!
//!     words to-bytes [FILE]                    a plan's bytes, from its words
//!     words from-bytes [--books FILE] [FILE]   a plan's words, from its bytes
//!     words explain [FILE]                     the sitting of a plan, in text
//!     words picture [FILE]                     the same as an SVG picture
//!
//! Without FILE the plan is read from standard input. Explain and picture take words or bytes.
//! The books of the plan in words behind --books are recognised besides those of the good boxes, in
//! the sittings that it speaks of too.
//! The exit status is 1 if the plan's words are wrong, or its bytes have no words.

use std::io::{stdin, stdout, Read, Write};
use std::process::ExitCode;

use words::books::Hints;
use words::explain::explain;
use words::input::{draft, given, in_words};
use words::picture::picture;

const USAGE: &str = "words to-bytes [FILE]
words from-bytes [--books FILE] [FILE]
words explain [FILE]
words picture [FILE]";

const COMMANDS: [&str; 4] = ["to-bytes", "from-bytes", "explain", "picture"];

/// What stands in a file, or on standard input if there is none.
struct Input {
    name: String,
    bytes: Vec<u8>,
}

impl Input {
    fn new(file: Option<&String>) -> Result<Input, String> {
        let mut bytes = Vec::new();
        let read = match file {
            Some(file) => std::fs::read(file).map(|found| bytes = found),
            None => stdin().read_to_end(&mut bytes).map(|_| ()),
        };
        let name = file.map_or("standard input", |it| it).to_string();
        match read {
            Ok(()) => Ok(Input { name, bytes }),
            Err(error) => Err(format!("{name}: {error}")),
        }
    }

    /// What is made of the bytes; an error is told with the name.
    fn made<T>(&self, make: impl Fn(&[u8]) -> Result<T, String>) -> Result<T, String> {
        make(&self.bytes).map_err(|error| format!("{}: {error}", self.name))
    }
}

/// What the command gives; none if it is called in a wrong way.
fn answer(arguments: &[String]) -> Option<Result<Vec<u8>, String>> {
    let (command, rest) = arguments.split_first()?;
    let (books, rest) = match rest {
        [flag, books, rest @ ..] if command == "from-bytes" && flag == "--books" => {
            (Some(books), rest)
        }
        rest => (None, rest),
    };
    let known = COMMANDS.contains(&&command[..]);
    let called = known && rest.len() <= 1;
    called.then(|| done(command, books, rest.first()))
}

fn done(command: &str, books: Option<&String>, file: Option<&String>) -> Result<Vec<u8>, String> {
    let hints = match books {
        Some(_) => Input::new(books)?.made(draft)?.hints(),
        None => Hints::default(),
    };
    let input = Input::new(file)?;
    let told = |tell: fn(&[u8], &Hints) -> String| {
        let (plan, hints) = input.made(given)?;
        Ok(tell(&plan, &hints).into_bytes())
    };
    match command {
        "to-bytes" => input.made(draft).map(|it| it.bytes()),
        "from-bytes" => {
            let words = input.made(|plan| in_words(plan, &hints));
            words.map(String::into_bytes)
        }
        "explain" => told(explain),
        _ => told(picture),
    }
}

fn main() -> ExitCode {
    let arguments: Vec<String> = std::env::args().skip(1).collect();
    match answer(&arguments) {
        Some(Ok(bytes)) => match stdout().write_all(&bytes) {
            Ok(()) => ExitCode::SUCCESS,
            Err(_) => ExitCode::FAILURE,
        },
        Some(Err(error)) => {
            eprintln!("{error}");
            ExitCode::FAILURE
        }
        None => {
            eprintln!("{USAGE}");
            ExitCode::from(2)
        }
    }
}
