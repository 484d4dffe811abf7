//! The program itself, on the plans that are kept in the repository.

use std::io::Write;
use std::path::PathBuf;
use std::process::{Command, Output, Stdio};
use std::thread;

use foreign::limits::LONGEST_MESSAGE;
use foreign::rehearsal::{read, rehearse};

fn root() -> PathBuf {
    PathBuf::from(env!("CARGO_MANIFEST_DIR")).join("..")
}

fn kept(file: &str) -> Vec<u8> {
    std::fs::read(root().join(file)).expect("a file of the repository")
}

fn text(file: &str) -> String {
    String::from_utf8(kept(file)).expect("a text")
}

/// Runs the program in the repository, with the input beside the reading of its output.
fn run(arguments: &[&str], input: &[u8]) -> Output {
    let mut child = Command::new(env!("CARGO_BIN_EXE_words"))
        .args(arguments)
        .current_dir(root())
        .stdin(Stdio::piped())
        .stdout(Stdio::piped())
        .stderr(Stdio::piped())
        .spawn()
        .expect("the program starts");
    let mut stdin = child.stdin.take().expect("a pipe");
    let input = input.to_vec();
    let writing = thread::spawn(move || stdin.write_all(&input).ok());
    let output = child.wait_with_output().expect("the program ends");
    writing.join().expect("the writing ends");
    output
}

/// What the program prints; it is content.
fn printed(arguments: &[&str], input: &[u8]) -> Vec<u8> {
    let output = run(arguments, input);
    assert!(output.status.success(), "{output:?}");
    assert!(output.stderr.is_empty());
    output.stdout
}

/// The exit status and what is said of the error.
fn said(arguments: &[&str], input: &[u8]) -> (Option<i32>, String) {
    let output = run(arguments, input);
    assert!(output.stdout.is_empty());
    let text = String::from_utf8(output.stderr).expect("a text");
    (output.status.code(), text)
}

/// The plan that is kept in words and in bytes, and comes back from each.
fn both(name: &str) -> Vec<u8> {
    let [words, plan, out] = ["words", "plan", "out"].map(|kind| format!("plans/{name}.{kind}"));
    let bytes = kept(&plan);
    assert_eq!(printed(&["to-bytes", &words], b""), bytes);
    assert_eq!(printed(&["to-bytes"], &kept(&words)), bytes);
    assert_eq!(rehearse(&bytes), kept(&out));
    let words = printed(&["from-bytes"], &bytes);
    assert_eq!(printed(&["from-bytes", &plan], b""), words);
    assert_eq!(printed(&["to-bytes"], &words), bytes);
    bytes
}

/// Its books are as long as books may be, and its words are few.
#[test]
fn the_longest_plan() {
    let plan = read(&both("longest")).expect("a good layout");
    let longest = |book: &Vec<u8>| book.len() == LONGEST_MESSAGE;
    assert!(plan.messages.values().all(longest));
    assert!(kept("plans/longest.words").len() < 1_000);
}

/// Its picture is the one that is kept, and docs/PLANS.md shows it with its words.
fn on_the_page(name: &str) {
    let plan = both(name);
    let (words, svg) = (
        format!("plans/{name}.words"),
        kept(&format!("docs/{name}.svg")),
    );
    assert_eq!(printed(&["picture", &words], b""), svg);
    assert_eq!(printed(&["picture"], &plan), svg);
    assert!(text("docs/PLANS.md").contains(&format!("]({name}.svg)")));
    words_on_the_page(&words);
}

/// docs/PLANS.md shows the words of this file.
fn words_on_the_page(words: &str) {
    let (page, text) = (text("docs/PLANS.md"), text(words));
    let (_, lines) = text.split_once("\n\n").expect("a comment above");
    let shown: Vec<String> = lines.lines().map(|it| format!("    {it}")).collect();
    let shown = shown.join("\n").replace("    \n", "\n");
    assert!(page.contains(&shown), "{shown}");
}

/// What the explanation of a plan says; docs/PLANS.md shows parts of it with dots between them.
fn explained_on_the_page(name: &str) -> String {
    let words = format!("plans/{name}.words");
    let told = printed(&["explain", &words], b"");
    let told = String::from_utf8(told).expect("a text");
    let page = text("docs/PLANS.md");
    let (_, shown) = page
        .split_once(&format!("explain {words}\n"))
        .expect("shown");
    let shown: Vec<&str> = shown
        .lines()
        .map_while(|it| it.strip_prefix("    "))
        .collect();
    assert!(shown.len() > 3);
    for part in shown.split(|line| *line == "...") {
        assert!(told.contains(&part.join("\n")), "{part:?}");
    }
    told
}

#[test]
fn the_liars_plan() {
    on_the_page("liar");
    let told = explained_on_the_page("liar");
    assert!(told.ends_with(&format!("\n\n{}", text("plans/liar.out"))));
}

/// The rehearsal refuses it, and the explanation tells it to its end.
#[test]
fn the_invented_plan() {
    both("invented");
    let told = explained_on_the_page("invented");
    assert!(told.ends_with("\n\nrefused 14\n"));
}

#[test]
fn a_senders_two_books() {
    on_the_page("two-books");
    let told = explained_on_the_page("two-books");
    let out = text("plans/two-books.out");
    assert!(told.ends_with(&format!("\n\n{out}")));
}

/// The sender of the first is good; that of the second says nothing, and the empty book is settled.
#[test]
fn other_senders() {
    let plan = read(&both("sender")).expect("a good layout");
    assert_eq!(plan.messages.keys().collect::<Vec<_>>(), [&2]);
    let plan = read(&both("silent-sender")).expect("a good layout");
    assert!(plan.messages.is_empty());
    assert!(text("plans/silent-sender.out").starts_with("1 =\n2 =\n"));
    let told = printed(&["explain", "plans/silent-sender.plan"], b"");
    let told = String::from_utf8(told).expect("a text");
    assert!(told.contains("  box 2 gets nothing and opens with the empty book, A\n"));
    assert!(told.contains("  the empty book is a book and not nothing: "));
}

/// The bad box's packets are of another sitting, which bytes do not tell.
#[test]
fn a_plan_with_a_sitting_number() {
    let plan = both("sitting");
    let words = "plans/sitting.words";
    words_on_the_page(words);
    let told = explained_on_the_page("sitting");
    assert!(told.ends_with(&format!("\n\n{}", text("plans/sitting.out"))));
    let of_another = |text: Vec<u8>| {
        let text = String::from_utf8(text).expect("a text");
        text.matches(" of A in sitting 6\n").count()
    };
    let told = printed(&["from-bytes", "--books", words, "plans/sitting.plan"], b"");
    assert_eq!(of_another(told), 2);
    assert_eq!(of_another(printed(&["from-bytes"], &plan)), 0);
}

#[test]
fn words_and_bytes_are_told_apart() {
    let told = printed(&["explain", "plans/liar.words"], b"");
    assert_eq!(printed(&["explain"], &kept("plans/liar.plan")), told);
    assert!(told.ends_with(&kept("plans/liar.out")));
    // Ten boxes: the first byte of the plan is a line's end.
    let ten: String = (1..=10)
        .map(|number| format!("box {number} has \"\"\n"))
        .collect();
    let ten = format!("boxes 10\nlimit 4\n{ten}");
    let plan = printed(&["to-bytes"], ten.as_bytes());
    assert_eq!(plan[0], b'\n');
    let told = printed(&["explain"], &plan);
    assert!(told.starts_with(b"Sitting of 10 boxes, "));
    assert_eq!(printed(&["explain"], ten.as_bytes()), told);
    for blank in [&b""[..], b"\n"] {
        let told = printed(&["explain"], blank);
        assert!(told.ends_with(b"\n\nrefused 13\n"));
    }
    let marked = ["\u{feff}", &ten].concat();
    assert_eq!(printed(&["to-bytes"], marked.as_bytes()), plan);
    let (status, text) = said(&["explain"], b"# caf\xE9\nboxes 1\n");
    assert_eq!(status, Some(1));
    assert_eq!(text, "standard input: line 1: expected text in UTF-8\n");
}

#[test]
fn errors() {
    let wrong = b"boxes 3\nlimit one\n";
    let expected =
        "standard input: line 2: expected the greatest number of bad boxes from 0 to 255, \
         found 'one'\n";
    for command in ["to-bytes", "explain", "picture"] {
        assert_eq!(said(&[command], wrong), (Some(1), expected.to_string()));
    }
    let plan = kept("plans/worked-1.plan");
    let expected = "standard input: Refused with cause 13: the plan is badly laid out, or longer \
        than 60,000 bytes.\nAt byte 11, in box 2's book or its length: the plan runs out, 1 byte short. It \
        has 12 bytes, counted from 0.\n";
    let found = said(&["from-bytes"], &plan[..12]);
    assert_eq!(found, (Some(1), expected.to_string()));
    let (status, text) = said(&["explain", "plans/absent"], b"");
    assert_eq!(status, Some(1));
    assert!(text.starts_with("plans/absent: "));
}

#[test]
fn usage() {
    let wrong: [&[&str]; 5] = [
        &[],
        &["draw"],
        &["explain", "a", "b"],
        &["explain", "--books", "plans/liar.words"],
        &["from-bytes", "--books", "a", "b", "c"],
    ];
    for arguments in wrong {
        let (status, text) = said(arguments, b"");
        assert_eq!(status, Some(2), "{arguments:?}");
        assert!(text.starts_with("words to-bytes [FILE]\n"));
    }
    let words = printed(
        &[
            "from-bytes",
            "--books",
            "plans/liar.words",
            "plans/liar.plan",
        ],
        b"",
    );
    assert!(words.starts_with(b"boxes 5\nlimit 2\n"));
}
