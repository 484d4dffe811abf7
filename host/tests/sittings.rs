//! Sittings as real processes: with liars of every kind, with duties broken, and those of
//! docs/HOSTING.md. None may hang.

use std::collections::{BTreeMap, BTreeSet};
use std::io::Read;
use std::path::Path;
use std::process::{Command, Stdio};
use std::thread;
use std::time::{Duration, Instant};

use cipangohu::{MAX_MESSAGE, MAX_PARTIES};

/// No sitting takes so long, however busy the machine.
const LONGEST: Duration = Duration::from_secs(60);

/// The time limit of an exchange, ample for a busy machine.
const LIMIT: &str = "--limit-ms 1500";

const LIES: [&str; 8] = [
    "silent",
    "noise",
    "split",
    "other-book",
    "other-sitting",
    "too-long",
    "replay",
    "forge",
];

struct Run {
    status: i32,
    lines: Vec<String>,
    error: String,
}

/// Runs the host with these words, and ends it if it hangs.
fn host(words: &str) -> Run {
    let mut process = Command::new(env!("CARGO_BIN_EXE_host"))
        .args(words.split_whitespace())
        .current_dir(env!("CARGO_MANIFEST_DIR"))
        .stdout(Stdio::piped())
        .stderr(Stdio::piped())
        .spawn()
        .expect("the host starts");
    let end = Instant::now() + LONGEST;
    let status = loop {
        if let Some(status) = process.try_wait().expect("the host can be waited for") {
            break status;
        }
        if Instant::now() > end {
            process.kill().ok();
            panic!("hangs: host {words}");
        }
        thread::sleep(Duration::from_millis(10));
    };
    let (mut text, mut error) = (String::new(), String::new());
    let output = process.stdout.as_mut().expect("a pipe");
    output.read_to_string(&mut text).expect("a text");
    let output = process.stderr.as_mut().expect("a pipe");
    output.read_to_string(&mut error).expect("a text");
    Run {
        status: status.code().unwrap_or(-1),
        lines: text.lines().map(String::from).collect(),
        error,
    }
}

impl Run {
    /// The results of good parties.
    fn results(&self) -> Vec<&str> {
        let parts = self.lines.iter().filter_map(|line| line.split_once(' '));
        parts
            .filter(|(_, rest)| rest.starts_with(['=', '-']))
            .map(|(_, rest)| rest)
            .collect()
    }

    /// Whom each good party saw cheat.
    fn seen(&self) -> BTreeMap<usize, BTreeSet<usize>> {
        let parts = self
            .lines
            .iter()
            .filter_map(|line| line.split_once(" saw "));
        parts
            .map(|(own, boxes)| {
                let numbers = boxes.split(' ').filter_map(|word| word.parse().ok());
                (own.parse().expect("a number"), numbers.collect())
            })
            .collect()
    }

    /// What was settled, by the verdict.
    fn settled(&self) -> Option<&str> {
        let verdict = "settled: all good boxes have one result, ";
        self.lines
            .iter()
            .find_map(|line| line.strip_prefix(verdict))
    }
}

/// The parties that the words say lie.
fn lying(words: &str) -> BTreeSet<usize> {
    let said = words.split("--lie ").skip(1);
    said.filter_map(|rest| rest.split('=').next()?.parse().ok())
        .collect()
}

/// All good parties must end with one of these results, and see no good one cheat.
fn settles(words: &str, good: usize, allowed: &[&str]) {
    let run = host(words);
    let (seen, liars) = (run.seen(), lying(words));
    assert_eq!(seen.len(), good, "{words}: {:?}", run.lines);
    assert!(
        seen.values().all(|boxes| boxes.is_subset(&liars)),
        "{words}: {seen:?}"
    );
    let results = run.results();
    assert_eq!(run.status, 0, "{words}: {:?}", run.lines);
    assert_eq!(results.len(), good, "{words}: {:?}", run.lines);
    assert!(
        results.iter().all(|result| *result == results[0]),
        "{words}: {results:?}"
    );
    assert!(allowed.contains(&results[0]), "{words}: {results:?}");
    let what = match results[0].strip_prefix('=').map(str::len) {
        None => "nothing",
        Some(0) => "the empty book",
        Some(_) => "a book of ",
    };
    let told = run.settled().expect("a verdict");
    assert!(told.starts_with(what), "{words}: {told}");
}

/// Runs sittings beside one another: most of their time they wait.
fn beside(sittings: Vec<Box<dyn Fn() + Send + Sync>>) {
    for few in sittings.chunks(6) {
        thread::scope(|scope| few.iter().for_each(|sitting| drop(scope.spawn(sitting))));
    }
}

/// The words for a sitting in which `t` parties, the lowest or the highest, tell the lie.
fn liars(n: usize, t: usize, lie: &str, lowest: bool) -> String {
    let first = if lowest { 1 } else { n - t + 1 };
    let lies: Vec<String> = (first..first + t)
        .map(|own| format!("--lie {own}={lie}"))
        .collect();
    format!("--parties {n} --faults {t} {LIMIT} {}", lies.join(" "))
}

/// One common message is settled on; of two messages one is, or nothing.
#[test]
fn liars_of_every_kind() {
    let mut sittings: Vec<Box<dyn Fn() + Send + Sync>> = Vec::new();
    for lie in LIES {
        let greatest = (MAX_PARTIES, (MAX_PARTIES - 1) / 2);
        for (seed, (n, t)) in [(3, 1), (4, 1), (5, 2), (8, 3), greatest]
            .into_iter()
            .enumerate()
        {
            for lowest in [true, false] {
                let words = format!("{} --seed {seed}", liars(n, t, lie, lowest));
                let middle = n.div_ceil(2) + usize::from(lowest);
                let common = format!("{words} --book 4142");
                let divided = format!("{common} --own-book {middle}=43");
                sittings.push(Box::new(move || settles(&common, n - t, &["= 4142"])));
                sittings.push(Box::new(move || {
                    settles(&divided, n - t, &["= 4142", "= 43", "-"])
                }));
            }
        }
    }
    println!("{} sittings", sittings.len());
    beside(sittings);
}

/// Who says what is no packet of the agreed book is seen by every good box, happy or not; who says
/// nothing is not.
#[test]
fn liars_are_seen() {
    let mut sittings: Vec<Box<dyn Fn() + Send + Sync>> = Vec::new();
    for lie in LIES.into_iter().filter(|lie| *lie != "split") {
        for more in ["", "--own-book 3=43"] {
            let words = format!("{} --book 4142 {more}", liars(5, 2, lie, false));
            let caught = match lie {
                "silent" | "forge" => BTreeSet::new(),
                _ => BTreeSet::from([4, 5]),
            };
            sittings.push(Box::new(move || {
                let seen = host(&words).seen();
                let expected = (1..=3).map(|own| (own, caught.clone())).collect();
                assert_eq!(seen, expected, "{words}");
            }));
        }
    }
    beside(sittings);
}

/// A box that lies to some is seen by these and not by others.
#[test]
fn a_liar_is_seen_by_some() {
    let seen_by = |seed: u64| {
        let words = format!("{} --book 4142 --seed {seed}", liars(4, 1, "split", false));
        let seen = host(&words).seen();
        let by = seen.into_iter().filter(|(_, boxes)| boxes.contains(&4));
        by.count()
    };
    let some: BTreeSet<usize> = (0..4).map(seen_by).collect();
    assert!(some.contains(&1) || some.contains(&2), "{some:?}");
}

/// A good sender's book is settled on, whatever others lie, also in the sender's exchange.
#[test]
fn a_good_sender_among_liars() {
    let mut sittings: Vec<Box<dyn Fn() + Send + Sync>> = Vec::new();
    for lie in LIES {
        for (n, t) in [(3, 1), (5, 2), (8, 3)] {
            for lowest in [true, false] {
                let sender = if lowest { n } else { 1 };
                let words = format!("{} --sender {sender}", liars(n, t, lie, lowest));
                let words = format!("{words} --book 4142 --seed {n}");
                sittings.push(Box::new(move || settles(&words, n - t, &["= 4142"])));
            }
        }
    }
    println!("{} sittings", sittings.len());
    beside(sittings);
}

/// What may come of a sender that lies: of one that says nothing that can be read the empty book, of
/// another one of its books or nothing. A sender's packet tells no sitting number. All good boxes have
/// the same.
fn of_a_bad_sender(lie: &str) -> &'static [&'static str] {
    // SHA-256 of the book 4142.
    const OTHER: &str = "= 38164fbd17603d73f696b8b4d72664d735bb6a7c88577687fd2ae33fd6964153";
    match lie {
        "split" => &["= 4142", "= 4042", "=", "-"],
        "other-book" => &[OTHER],
        "other-sitting" => &["= 4142"],
        _ => &["="],
    }
}

#[test]
fn a_sender_that_lies() {
    let mut sittings: Vec<Box<dyn Fn() + Send + Sync>> = Vec::new();
    for lie in LIES {
        for (seed, (n, t)) in [(3, 1), (4, 1), (5, 2), (7, 3)].into_iter().enumerate() {
            let words = liars(n, t, lie, seed % 2 == 0);
            let sender = if seed % 2 == 0 { t } else { n };
            let words = format!("{words} --sender {sender} --book 4142 --seed {seed}");
            sittings.push(Box::new(move || {
                settles(&words, n - t, of_a_bad_sender(lie))
            }));
        }
    }
    for seed in 10..22 {
        let words = format!("--parties 5 --faults 2 --sender 3 --lie 3=split --seed {seed}");
        let words = format!("{words} --lie 1=other-book --book 4142 {LIMIT}");
        sittings.push(Box::new(move || {
            settles(&words, 3, of_a_bad_sender("split"))
        }));
    }
    println!("{} sittings", sittings.len());
    beside(sittings);
}

/// Boxes say why they open with the empty book, and with the sender's own empty book they say nothing.
#[test]
fn boxes_tell_that_they_read_no_book() {
    let few = format!("--parties 3 --faults 1 --sender 2 {LIMIT}");
    for (lie, told, seen) in [
        ("silent", "hears nothing from box 2", "no box"),
        ("too-long", "cannot read what box 2 sent", "box 2"),
    ] {
        let run = host(&format!("{few} --book 4142 --lie 2={lie}"));
        let told = format!("{told}, and opens with the empty book");
        let expected = [
            &format!("1 {told}"),
            "1 =",
            &format!("1 saw {seen} cheat"),
            &format!("2 lies: {lie}"),
            &format!("3 {told}"),
            "3 =",
            &format!("3 saw {seen} cheat"),
        ];
        assert_eq!(run.lines[..7], expected, "{lie}");
        assert_eq!(run.settled(), Some("the empty book"));
    }
    let run = host(&format!("{few} --book /dev/null"));
    assert_eq!(run.results(), ["=", "=", "="]);
    assert!(!run.lines[0].contains("opens"));
    assert_eq!(run.settled(), Some("the empty book"));
}

/// The host tells where a good sender's book was lost, since its packet came late or not all boxes
/// were told the same sender.
#[test]
fn a_good_senders_book_that_is_lost_is_told() {
    for (sender, words) in [
        (1, "--sender 1 --break clock"),
        (2, "--sender 2 --lie 3=silent --break sender"),
    ] {
        let words = format!("--parties 3 --faults 1 --book 4142 {words} {LIMIT}");
        let run = host(&words);
        let told = format!("broken: box {sender} is good, but its book is not the result");
        assert_eq!((run.status, run.lines.last()), (1, Some(&told)), "{words}");
        assert!(run.results().iter().all(|result| *result == "="));
    }
}

/// All lies but one, which are as many as may be.
#[test]
fn seven_lies_at_once() {
    for seed in 1..=3 {
        let lies: Vec<String> = (2..)
            .zip(LIES.iter().cycle().skip(seed).take(7))
            .map(|(own, lie)| format!("--lie {own}={lie}"))
            .collect();
        let words = format!(
            "--parties 15 --faults 7 --book 00ff --seed {seed} {LIMIT} {}",
            lies.join(" ")
        );
        settles(
            &format!("{words} --own-book 1=41"),
            8,
            &["= 00ff", "= 41", "-"],
        );
        settles(&format!("{words} --sender 1"), 8, &["= 00ff"]);
    }
}

#[test]
fn one_seed_gives_one_sitting() {
    let words = format!(
        "--parties 7 --faults 3 --book 4142 --own-book 5=43 --seed 11 {LIMIT} \
         --lie 1=noise --lie 2=split --lie 6=other-book"
    );
    let first = host(&words).lines;
    for _ in 0..4 {
        assert_eq!(host(&words).lines, first);
    }
}

/// The figures of the worked plans.
#[test]
fn worked_sittings() {
    let silent = format!("--parties 3 --faults 1 --lie 3=silent {LIMIT}");
    for (words, book, sent) in [
        ("--book 4142", "4142", 496),
        ("--book 41 --own-book 2=42", "41", 388),
        ("--book 4142 --sender 1", "4142", 506),
    ] {
        let run = host(&format!("{silent} {words}"));
        let expected = [
            &format!("1 = {book}"),
            "1 saw no box cheat",
            &format!("2 = {book}"),
            "2 saw no box cheat",
            "3 lies: silent",
            &format!("sent {sent}"),
        ];
        assert_eq!(run.lines[..6], expected, "{words}");
    }
    for words in ["", "--sender 1"] {
        let alone = host(&format!("--parties 1 --faults 0 --book 4142 {words}"));
        assert_eq!(
            alone.lines[..3],
            ["1 = 4142", "1 saw no box cheat", "sent 0"]
        );
    }
}

/// The number of a sitting changes neither its results nor how much is sent.
#[test]
fn sittings_of_any_number() {
    let words = "--parties 5 --faults 2 --book 4142 --own-book 3=43 --lie 4=other-sitting \
                 --lie 5=split --seed 3";
    let usual = host(&format!("{words} {LIMIT}"));
    assert_eq!(usual.results(), ["= 4142"; 3]);
    let usual = usual.lines;
    for number in [0, 1, 255, 0x0100_0000, u32::MAX] {
        let run = host(&format!("{words} {LIMIT} --sitting {number}"));
        assert_eq!((run.status, &run.lines), (0, &usual), "{number}");
    }
}

/// The screen shows what the desk has, also where that is nothing or the empty book; a box that
/// rebuilt it is read again like one that had it.
#[test]
fn a_second_reader_gets_the_result() {
    let insists = "--lie 1=other-book --lie 5=other-book";
    for (words, result) in [
        ("--parties 3 --faults 1 --book 4142 --screen 1", "1 = 4142"),
        (
            "--parties 3 --faults 1 --book 41 --own-book 2=42 --lie 3=silent --screen 2",
            "2 = 41",
        ),
        (
            &format!("--parties 5 --faults 2 --book 41 --own-book 3=43 {insists} --screen 2"),
            "2 -",
        ),
        ("--parties 1 --faults 0 --book /dev/null --screen 1", "1 ="),
    ] {
        let run = host(&format!("{words} {LIMIT}"));
        assert_eq!(run.status, 0, "{words}: {}", run.error);
        assert!(run.lines.contains(&result.to_string()), "{:?}", run.lines);
        let last = run.lines.last().expect("a line");
        assert_eq!(*last, format!("screen {result}"));
    }
}

#[test]
fn messages_from_files_and_of_any_length() {
    let file = Path::new(env!("CARGO_TARGET_TMPDIR")).join("message");
    for (length, status) in [(0, 0), (1, 0), (MAX_MESSAGE, 0), (MAX_MESSAGE + 1, 2)] {
        std::fs::write(&file, vec![7; length]).expect("the message is written");
        let words = format!(
            "--parties 4 --faults 1 --own-book 4=41 --book {} {LIMIT}",
            file.display()
        );
        let by_sender = words.replace("--own-book 4=41", "--sender 3");
        for words in [words, by_sender] {
            let run = host(&words);
            assert_eq!(run.status, status, "{words}: length {length}");
            if status == 0 {
                let message = format!("= {}", "07".repeat(length));
                assert_eq!(run.results(), [message.trim_end(); 4]);
            }
        }
    }
}

/// Good boxes differ. Where they have two roots or two sitting numbers, they also take one another's
/// packets for lies.
#[test]
fn a_broken_duty_breaks_the_sitting() {
    let words = format!("--parties 3 --faults 1 --book 41 --own-book 2=42 --lie 3=forge {LIMIT}");
    settles(&words, 2, &["= 41"]);
    for (duty, seen) in [
        ("forge", None),
        ("clock", None),
        ("agreement", Some(1)),
        ("state", Some(1)),
        ("sitting", Some(1)),
    ] {
        let run = host(&format!("{words} --break {duty}"));
        assert_eq!(run.status, 1, "{duty}: {:?}", run.lines);
        let results = run.results();
        assert_ne!(results[0], results[1], "{duty}");
        // Box 1 is good.
        let seen = seen.into_iter().collect();
        assert_eq!(run.seen().get(&2), Some(&seen), "{duty}");
    }
}

/// Where not even t + 1 parties speak, the agreement has no value; the good party says so and ends.
#[test]
fn a_party_left_alone_ends_with_an_error() {
    let words = "--parties 3 --faults 1 --book 41 --lie 2=silent --lie 3=silent --limit-ms 100";
    let run = host(words);
    assert_eq!(run.status, 1);
    assert_eq!(run.lines[1], "1 error: the agreement gives no value");
}

/// Nothing is settled where nobody is good.
#[test]
fn all_parties_lying_are_no_sitting() {
    let run = host("--parties 2 --faults 0 --book 41 --lie 1=noise --lie 2=silent");
    assert_eq!((run.status, run.lines.len()), (2, 0));
    assert_eq!(run.error, "host: no box is good: all 2 lie\n");
}

#[test]
fn help_is_the_usage() {
    let run = host("--parties 3 --help");
    assert_eq!((run.status, &run.error[..]), (0, ""));
    assert!(run.lines[0].starts_with("usage: host --parties N"));
}

#[test]
fn wrong_words_are_refused() {
    let many = format!("--parties {} --faults 1 --book 41", MAX_PARTIES + 1);
    for words in [
        "",
        "--parties 3",
        &many,
        "--parties 4 --faults 2 --book 41",
        "--parties 3 --faults 1 --book 41 --lie 4=noise",
        "--parties 3 --faults 1 --book 41 --lie 3=truth",
        "--parties 3 --faults 1 --book 41 --lie 3=noise --screen 3",
        "--parties 3 --faults 1 --book 41 --sender 4",
        "--parties 3 --faults 1 --book 41 --sender 2 --own-book 2=42",
        "--parties 3 --faults 1 --book 41 --break sender",
        "--parties 3 --faults 1 --book 41 --sitting 4294967296",
    ] {
        let run = host(words);
        assert_eq!((run.status, run.lines.len()), (2, 0), "{words}");
    }
}

/// In the document a line `$ host ...` is followed by what it prints and its exit status.
#[test]
fn the_documents_sittings_print_what_it_says() {
    let text = include_str!("../../docs/HOSTING.md");
    let mut commands = 0;
    let mut lines = text.lines().map(str::trim).peekable();
    while let Some(line) = lines.next() {
        let Some(words) = line.strip_prefix("$ host ") else {
            continue;
        };
        let mut expected = Vec::new();
        while let Some(line) = lines.next_if(|line| !line.is_empty()) {
            expected.push(line);
        }
        let run = host(words);
        let status = format!("[exit status {}]", run.status);
        let printed: Vec<&str> = run
            .lines
            .iter()
            .map(String::as_str)
            .chain([&status[..]])
            .collect();
        assert_eq!(printed, expected, "{words}");
        commands += 1;
    }
    println!("{commands} commands of the document");
    assert!(commands >= 8);
}
