//! Wrong words: the line and what was expected there.

use foreign::limits::{LONGEST_ENTRY, LONGEST_MESSAGE, MOST_PARTIES};
use foreign::message_packet::HEADER;
use words::input::draft;
use words::parse::parse;

/// Five sound lines that end above the exchanges.
const SOUND: &str = "boxes 3\nlimit 1\nbook A \"AB\"\nbox 1 has A\nbox 3 is bad\n";

/// The error of these words.
fn error(words: &str) -> String {
    match parse(words) {
        Ok(_) => panic!("no error in\n{words}"),
        Err(error) => error.to_string(),
    }
}

/// Words and what is said of them.
type Cases = [(&'static str, &'static str)];

/// Each case's words stand behind others; what is said begins with the place.
fn check(above: &str, place: &str, cases: &Cases) {
    for (words, expected) in cases {
        let found = error(&format!("{above}{words}"));
        assert_eq!(found, format!("{place}{expected}"), "{words}");
    }
}

const FIRST_LINES: &Cases = &[
    ("", "line 1: expected 'boxes', found the end of the plan"),
    (
        "# none\n\n",
        "line 2: expected 'boxes', found the end of the plan",
    ),
    ("limit 1", "line 1: expected 'boxes', found 'limit'"),
    (
        "boxes",
        "line 1: expected the number of boxes from 0 to 255, found the end of the line",
    ),
    (
        "boxes three",
        "line 1: expected the number of boxes from 0 to 255, found 'three'",
    ),
    (
        "boxes 256",
        "line 1: expected the number of boxes from 0 to 255, found '256'",
    ),
    (
        "boxes +3",
        "line 1: expected the number of boxes from 0 to 255, found '+3'",
    ),
    (
        "boxes 3 4",
        "line 1: expected the end of the line, found '4'",
    ),
    (
        "boxes 3",
        "line 1: expected 'limit', found the end of the plan",
    ),
    (
        "\nboxes 3\nbook A \"\"",
        "line 3: expected 'limit', found 'book'",
    ),
    (
        "boxes 3\nlimit 1.5",
        "line 2: expected the greatest number of bad boxes from 0 to 255, found '1.5'",
    ),
];

#[test]
fn the_first_lines() {
    check("", "", FIRST_LINES);
}

const STATEMENTS: &Cases = &[
    (
        "boxes 3",
        "expected 'sitting', 'sender', 'root', 'bit', 'book', 'box', \"sender's exchange\", \
             'first exchange', 'second exchange', 'options', 'behind', 'cut by' or a sender's number, found 'boxes'",
    ),
    (
        ": 3",
        "expected 'sitting', 'sender', 'root', 'bit', 'book', 'box', \"sender's exchange\", \
             'first exchange', 'second exchange', 'options', 'behind', 'cut by' or a sender's number, found ':'",
    ),
    ("first round", "expected 'exchange', found 'round'"),
    (
        "bit",
        "expected a bit from 0 to 255, found the end of the line",
    ),
    ("bit 256", "expected a bit from 0 to 255, found '256'"),
];

const TWICE: &Cases = &[
    ("bit 1\nbit 0", "line 7: 'bit' stands in line 6 already"),
    (
        "root of A\nroot of A",
        "line 7: 'root' stands in line 6 already",
    ),
    ("book A \"\"", "line 6: book A stands in line 3 already"),
    ("box 1 has A", "line 6: box 1 stands in line 4 already"),
    ("box 3 has A", "line 6: box 3 stands in line 5 already"),
    (
        "second exchange\nsecond exchange",
        "line 7: 'second exchange' stands in line 6 already",
    ),
    (
        "cut by 1\ncut by 1",
        "line 7: 'cut' stands in line 6 already",
    ),
];

#[test]
fn statements() {
    check(SOUND, "line 6: ", STATEMENTS);
    check(SOUND, "", TWICE);
}

const MEMBERS: &Cases = &[
        (
            "root",
            "expected 'of' and a book, or 64 hexadecimal digits, found the end of the line",
        ),
        (
            "root 00ff",
            "expected 'of' and a book, or 64 hexadecimal digits, found '00ff'",
        ),
        ("root of C", "no line above has a book C"),
        ("root of box 2", "no line above says what box 2 has"),
        ("root of box 17", "expected a box number from 1 to 16, found '17'"),
        ("root of 2", "expected a book's name, or 'box' and a number, found '2'"),
        (
            "book hex 41",
            "expected a name for the book, letters and digits beginning with a letter, found 'hex'",
        ),
        (
            "book 1 \"\"",
            "expected a name for the book, letters and digits beginning with a letter, found '1'",
        ),
        ("book B", "expected a text in quotes, or 'hex' and digits, found the end of the line"),
        ("book B A", "expected a text in quotes, or 'hex' and digits, found 'A'"),
        (
            "book B \"open",
            "expected a closing \" in this line; in a text, \\\" stands for \" and \\\\ for \\",
        ),
        (
            "book B \"ends in \\",
            "expected a closing \" in this line; in a text, \\\" stands for \" and \\\\ for \\",
        ),
        (
            "book B \"\\q\"",
            "expected '\\\"' for a quote or '\\\\' for a backslash, found '\\q'",
        ),
        (
            "book B \"\\é",
            "expected '\\\"' for a quote or '\\\\' for a backslash, found '\\é'",
        ),
        ("book B \"\" \"\"", "expected the end of the line, found a text in quotes"),
        ("book B hex", "expected pairs of hexadecimal digits, found the end of the line"),
        ("book B hex 4", "expected pairs of hexadecimal digits, found '4'"),
        ("book B hex 41 0x42", "expected pairs of hexadecimal digits, found '0x42'"),
        ("book B 0 times \"B\"", "expected how often from 1 to 65535, found '0'"),
        ("book B 2 \"B\"", "expected 'times', found a text in quotes"),
        ("book B 2 times", "expected a text in quotes, or 'hex' and digits, found the end of the line"),
        ("book B 2 times 2 times \"B\"", "expected a text in quotes, or 'hex' and digits, found '2'"),
        ("box 2", "expected 'has' and a book, or 'is bad', found the end of the line"),
        ("box 2 is fine", "expected 'bad', found 'fine'"),
        (
            "box 2 is good",
            "if box 2 is good, its book stands behind 'has', as no line above names a sender",
        ),
        ("box 2 has", "expected a book: its name, a text in quotes, or 'hex' and digits, found the end of the line"),
        ("box 2 has C", "no line above has a book C"),
        ("box 0 is bad", "expected a box number from 1 to 255, found '0'"),
        ("box 4 is bad", "box 4 is none of the 3 boxes"),
        ("box 17 has A", "box 17 cannot be good: a plan's maps end at 16"),
];

#[test]
fn roots_books_and_boxes() {
    check(SOUND, "line 6: ", MEMBERS);
}

const SENDINGS: &Cases = &[
    ("1 to 1: empty", "no line above says that box 1 is bad"),
    ("3 for 1: empty", "expected 'to', found 'for'"),
    (
        "3 to : empty",
        "expected a receiver from 1 to 16, found ':'",
    ),
    (
        "3 to 17: empty",
        "expected a receiver from 1 to 16, found '17'",
    ),
    (
        "3 to 1, 2: empty",
        "expected ':' or a receiver from 1 to 16, found ','",
    ),
    (
        "3 to 1 empty",
        "expected ':' or a receiver from 1 to 16, found 'empty'",
    ),
    (
        "3 to 1: silence",
        "expected 'share', 'book', 'hex', 'empty' or 'nothing', found 'silence'",
    ),
    (
        "3 to 1: hex 7",
        "expected pairs of hexadecimal digits, found '7'",
    ),
    (
        "3 to 1: share 0 of A",
        "expected a share number from 1 to 16, found '0'",
    ),
    (
        "3 to 1: share 4 of A",
        "shares have numbers from 1 to 3, not 4",
    ),
    ("3 to 1: share 1 from A", "expected 'of', found 'from'"),
    ("3 to 1: share 1 of C", "no line above has a book C"),
    (
        "3 to 1: share 1 of box 3",
        "no line above says what box 3 has",
    ),
    (
        "3 to 1: share 1 of A number 2",
        "expected the end of the line, found 'number'",
    ),
    (
        "3 to 1: share 1 of A, damaged",
        "expected 'map', 'number', 'length', 'path', 'share byte', 'book byte', 'followed by' \
             or 'cut by', found 'damaged'",
    ),
    (
        "3 to 1: share 1 of A, number 256",
        "expected a number from 0 to 255, found '256'",
    ),
    (
        "3 to 1: share 1 of A, map 07h",
        "expected a map from 0 to 255, found '07h'",
    ),
    (
        "3 to 1: share 1 of A, length 65536",
        "expected a length from 0 to 65535, found '65536'",
    ),
    (
        "3 to 1: share 1 of A, path of A",
        "expected 'byte' or a share number from 1 to 16, found 'of'",
    ),
    (
        "3 to 1: share 1 of A, path 9 of A",
        "shares have numbers from 1 to 3, not 9",
    ),
    (
        "3 to 1: share 1 of A, path byte 64 damaged",
        "the path has 64 bytes, counted from 0",
    ),
    (
        "3 to 1: share 1 of A, share byte 2 damaged",
        "the share has 2 bytes, counted from 0",
    ),
    (
        "3 to 1: share 1 of A, share byte 0 changed",
        "expected 'damaged', found 'changed'",
    ),
    (
        "3 to 1: share 1 of A, share byte 0 damaged by 256",
        "expected two hexadecimal digits other than 00, found '256'",
    ),
    (
        "3 to 1: share 1 of A, path byte 0 damaged by 00",
        "expected two hexadecimal digits other than 00, found '00'",
    ),
    (
        "3 to 1: share 1 of A, book byte 0 damaged",
        "a share's packet has no book",
    ),
    (
        "3 to 1: share 1 of A, cut by 71",
        "the packet has 70 bytes to cut",
    ),
    (
        "3 to 1: share 1 of A, followed 41",
        "expected 'by', found '41'",
    ),
    (
        "3 to 1: empty, cut by 1",
        "expected the end of the line, found ','",
    ),
    (
        "3 to 1 1: empty",
        "3 to 1 in the first exchange stands in line 7 already",
    ),
];

#[test]
fn sendings() {
    check(
        SOUND,
        "line 6: ",
        &[(
            "3 to 1: empty",
            "\"sender's exchange\", 'first exchange' or 'second exchange' must stand above",
        )],
    );
    check(&format!("{SOUND}first exchange\n"), "line 7: ", SENDINGS);
    let twice = format!("{SOUND}first exchange\n3 to 1: nothing\n3 to 2 1: empty\n");
    let expected = "line 8: 3 to 1 in the first exchange stands in line 7 already";
    assert_eq!(error(&twice), expected);
}

const BOOKS: &Cases = &[
    (
        "3 to 1: book",
        "expected a book's name, found the end of the line",
    ),
    ("3 to 1: book of A", "no line above has a book of"),
    ("3 to 1: book box 1", "expected a book's name, found 'box'"),
    (
        "3 to 1: book \"AB\"",
        "expected a book's name, found a text in quotes",
    ),
    ("3 to 1: book C", "no line above has a book C"),
    (
        "3 to 1: book A number 2",
        "expected the end of the line, found 'number'",
    ),
    (
        "3 to 1: book A, number 2",
        "a book's packet has no number and no path",
    ),
    (
        "3 to 1: book A, path 1 of A",
        "a book's packet has no number and no path",
    ),
    (
        "3 to 1: book A, path byte 0 damaged",
        "a book's packet has no path",
    ),
    (
        "3 to 1: book A, share byte 0 damaged",
        "a book's packet has no share",
    ),
    (
        "3 to 1: book A, book 0 damaged",
        "expected 'byte', found '0'",
    ),
    (
        "3 to 1: book A, book byte 2 damaged",
        "the book has 2 bytes, counted from 0",
    ),
    ("3 to 1: book A, cut by 6", "the packet has 5 bytes to cut"),
];

/// Whole books are sent in any exchange.
#[test]
fn whole_books() {
    check(&format!("{SOUND}first exchange\n"), "line 7: ", BOOKS);
    check(
        &format!("{BAD_SENDER}sender's exchange\n"),
        "line 8: ",
        BOOKS,
    );
    let most = LONGEST_ENTRY - HEADER;
    let of_length = |length: usize| {
        format!("{BAD_SENDER}book B {length} times \"x\"\nsender's exchange\n3 to 1: book B\n")
    };
    let (length, over) = (LONGEST_ENTRY + 1, error(&of_length(most + 1)));
    let expected = format!("line 9: the packet has {length} bytes, over {LONGEST_ENTRY}");
    assert_eq!(over, expected);
    assert!(parse(&(of_length(most) + "box 2 is good\n")).is_ok());
}

/// Two lines that are sound, and what is said of the third.
const SENDER: &Cases = &[
    (
        "sender",
        "expected the sender's number from 0 to 255, found the end of the line",
    ),
    (
        "sender box 3",
        "expected the sender's number from 0 to 255, found 'box'",
    ),
    (
        "sender 256",
        "expected the sender's number from 0 to 255, found '256'",
    ),
    (
        "sender 4",
        "sender 4 is none of the 3 boxes; a plan that is refused for it has 'sender 4 outside'",
    ),
    (
        "sender 0",
        "sender 0 is none of the 3 boxes; a plan that is refused for it has 'sender 0 outside'",
    ),
    ("sender 3 outside", "sender 3 is one of the 3 boxes"),
    (
        "sender 3 inside",
        "expected the end of the line, found 'inside'",
    ),
    ("sender's exchange", "no line above names a sender"),
    ("sender's round", "expected 'exchange', found 'round'"),
];

/// Five sound lines whose sender is good.
const GOOD_SENDER: &str = "boxes 3\nlimit 1\nsender 3\nbook A \"AB\"\nbox 3 has A\n";

const BY_GOOD: &Cases = &[
    ("sender 3", "'sender' stands in line 3 already"),
    (
        "box 2 has A",
        "expected 'is good' or 'is bad', as only a good sender has a book, found 'has'",
    ),
    (
        "box 2",
        "expected 'is good' or 'is bad', as only a good sender has a book, found the end of the \
         line",
    ),
    ("box 2 is fine", "expected 'good' or 'bad', found 'fine'"),
    (
        "box 17 is good",
        "box 17 cannot be good: a plan's maps end at 16",
    ),
    ("root of box 2", "no line above says what box 2 has"),
    (
        "sender's exchange",
        "box 3 is good and gives its book to all; \"sender's exchange\" is for a bad sender",
    ),
];

/// Six sound lines whose sender is bad.
const BAD_SENDER: &str = "boxes 3\nlimit 1\nsender 3\nbook A \"AB\"\nbox 3 is bad\nbox 1 is good\n";

const BY_BAD: &Cases = &[
    (
        "sender's exchange\nsender's exchange",
        "line 8: \"sender's exchange\" stands in line 7 already",
    ),
    (
        "sender's exchange\n1 to 2: empty",
        "line 8: only the sender sends in this exchange",
    ),
    (
        "sender's exchange\n3 to 2: empty\n3 to 1 2: empty",
        "line 9: 3 to 2 in the sender's exchange stands in line 8 already",
    ),
    (
        "sender's exchange\n3 to 17: empty",
        "line 8: expected a receiver from 1 to 16, found '17'",
    ),
    ("box 1 has A", "line 7: box 1 stands in line 6 already"),
    (
        "first exchange",
        "line 7: expected 'box 2 is good' or 'box 2 is bad', found the end of the plan",
    ),
];

#[test]
fn senders() {
    check("boxes 3\nlimit 1\n", "line 3: ", SENDER);
    check(
        SOUND,
        "line 6: ",
        &[("sender 3", "'sender' must stand above the boxes")],
    );
    check(GOOD_SENDER, "line 6: ", BY_GOOD);
    check(BAD_SENDER, "", BY_BAD);
    check(
        "boxes 3\nlimit 1\nsender 3\n",
        "line 4: ",
        &[
            (
                "box 3 is good",
                "if box 3 is good, its book stands behind 'has', as it is the sender",
            ),
            ("sender's exchange", "no line above says that box 3 is bad"),
        ],
    );
}

/// Two lines that are sound, and what is said of the third.
const SITTING: &Cases = &[
    (
        "sitting",
        "expected a sitting number from 0 to 4294967295, found the end of the line",
    ),
    (
        "sitting 4294967296",
        "expected a sitting number from 0 to 4294967295, found '4294967296'",
    ),
    (
        "sitting 99999999999999999999",
        "expected a sitting number from 0 to 4294967295, found '99999999999999999999'",
    ),
    (
        "sitting seven",
        "expected a sitting number from 0 to 4294967295, found 'seven'",
    ),
    (
        "sitting -1",
        "expected a sitting number from 0 to 4294967295, found '-1'",
    ),
    ("sitting 7 8", "expected the end of the line, found '8'"),
];

const SITTING_BELOW: &Cases = &[
    (
        "sitting 7\nsitting 8",
        "line 4: 'sitting' stands in line 3 already",
    ),
    (
        "book A \"\"\nsitting 7",
        "line 4: 'sitting' must stand above the books and the boxes",
    ),
    (
        "box 1 is bad\nsitting 7",
        "line 4: 'sitting' must stand above the books and the boxes",
    ),
    (
        "sender 2\nbox 1 is good\nsitting 7",
        "line 5: 'sitting' must stand above the books and the boxes",
    ),
];

const IN_SITTINGS: &Cases = &[
    (
        "3 to 1: share 1 of A in",
        "expected 'sitting', found the end of the line",
    ),
    ("3 to 1: share 1 of A in 7", "expected 'sitting', found '7'"),
    (
        "3 to 1: share 1 of A in sitting 4294967296",
        "expected a sitting number from 0 to 4294967295, found '4294967296'",
    ),
    (
        "3 to 1: share 4 of A in sitting 7",
        "shares have numbers from 1 to 3, not 4",
    ),
    (
        "3 to 1: share 1 of A, path 1 of A in sitting",
        "expected a sitting number from 0 to 4294967295, found the end of the line",
    ),
    (
        "3 to 1: share 1 of box 2 in sitting 7",
        "no line above says what box 2 has",
    ),
    (
        "3 to 1: book A in sitting 7",
        "expected the end of the line, found 'in'",
    ),
    (
        "root of A in sitting x",
        "expected a sitting number from 0 to 4294967295, found 'x'",
    ),
];

#[test]
fn sittings() {
    check("boxes 3\nlimit 1\n", "line 3: ", SITTING);
    check("boxes 3\nlimit 1\n", "", SITTING_BELOW);
    check(&format!("{SOUND}first exchange\n"), "line 7: ", IN_SITTINGS);
    let rooted = "boxes 2\nlimit 1\nbook A \"\"\nroot of A in sitting 7";
    let expected = "line 4: 'A in sitting 7' has no root under n and t";
    assert_eq!(error(rooted), expected);
}

/// A sender that is none of the boxes sends in its exchange alone, and has no book.
#[test]
fn senders_outside() {
    let head = "boxes 3\nlimit 1\nsender 9 outside\nbox 1 is good\nbox 2 is bad\n";
    check(
        head,
        "",
        &[
            (
                "box 9 has \"A\"",
                "line 6: expected 'is good' or 'is bad', as only a good sender has a book, found 'has'",
            ),
            (
                "sender's exchange\n2 to 1: empty",
                "line 7: only the sender sends in this exchange",
            ),
            (
                "first exchange\n9 to 1: empty",
                "line 7: no line above says that box 9 is bad",
            ),
        ],
    );
}

#[test]
fn whole_plans() {
    let unnamed = "expected 'box 2 has' and a book, or 'box 2 is bad', found the end of the plan";
    assert_eq!(error(SOUND), format!("line 5: {unnamed}"));
    let later = format!("{SOUND}first exchange\n3 to 1: empty\n\n");
    assert_eq!(error(&later), format!("line 8: {unnamed}"));
    let bad: String = (1..17).map(|it| format!("box {it} is bad\n")).collect();
    let unnamed = "line 18: expected 'box 17 is bad', found the end of the plan";
    assert_eq!(error(&format!("boxes 17\nlimit 1\n{bad}")), unnamed);
    let cut = format!("{SOUND}box 2 has A\ncut by 18\n");
    assert_eq!(error(&cut), "line 7: the plan has 17 bytes to cut");
    let no_shares = format!(
        "there are no shares: n is 1 to {MOST_PARTIES}, 2·t < n, and a book has at most \
         {LONGEST_MESSAGE} bytes"
    );
    for head in ["boxes 2\nlimit 1", "boxes 17\nlimit 1"] {
        let words = format!("{head}\nbox 1 has \"\"\nbox 2 is bad\nfirst exchange\n");
        let words = words + "2 to 1: share 1 of box 1\n";
        assert_eq!(error(&words), format!("line 6: {no_shares}"));
        let rooted = format!("{head}\nbook A \"\"\nroot of A");
        assert_eq!(error(&rooted), "line 4: 'A' has no root under n and t");
    }
    let over = format!("has {} bytes, over {LONGEST_ENTRY}", LONGEST_ENTRY + 1);
    let long = " 41".repeat(LONGEST_ENTRY + 1);
    for book in [format!("hex{long}"), "32768 times \"AB\"".to_string()] {
        let words = format!("boxes 1\nlimit 0\nbox 1 has {book}");
        assert_eq!(error(&words), format!("line 3: the book {over}"));
    }
    let packet = format!("{SOUND}first exchange\n3 to 1: hex{long}");
    assert_eq!(error(&packet), format!("line 7: the packet {over}"));
}

/// A line that goes on is called by its first line.
#[test]
fn lines_that_go_on() {
    let words = format!("{SOUND}box 2 has hex \\\n 41 \\\n 4\n");
    let expected = "line 6: expected pairs of hexadecimal digits, found '4'";
    assert_eq!(error(&words), expected);
}

#[test]
fn not_a_text() {
    let found = draft(b"boxes 3\nlimit \xFF").err();
    assert_eq!(found.as_deref(), Some("line 2: expected text in UTF-8"));
}
