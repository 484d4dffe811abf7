//! Every plan that is well laid out comes back from its words unchanged.

use std::collections::BTreeMap;

use foreign::liars::senders::{Offer, SenderLie};
use foreign::liars::{Lie, Scene, Sharing, Way};
use foreign::limits::LONGEST_MESSAGE;
use foreign::message_packet;
use foreign::plans::plan;
use foreign::random::Random;
use foreign::rehearsal::{read, Plan};
use foreign::sessions::EDGES;
use foreign::sha256::hex;
use words::books::{Books, Hints};
use words::input::in_words;
use words::parse::parse;
use words::recognise::recognise;

const COUNT: u64 = 5_000;

/// The plan's words are read back, and lead to the plan again.
fn comes_back(bytes: &[u8]) -> String {
    let words = in_words(bytes, &Hints::default()).expect("a good layout");
    let draft = parse(&words).unwrap_or_else(|error| panic!("{error} in\n{words}"));
    assert!(draft.bytes() == bytes, "{words}");
    words
}

#[test]
fn random_plans() {
    let (mut well_laid_out, mut badly) = (0, 0);
    let mut senders = BTreeMap::new();
    for k in 1..=COUNT {
        let bytes = plan(k).bytes;
        match read(&bytes) {
            Ok(plan) => {
                comes_back(&bytes);
                well_laid_out += 1;
                *senders.entry(kind(&plan)).or_insert(0) += 1;
            }
            Err(_) => {
                let told = in_words(&bytes, &Hints::default()).expect_err("no words");
                assert!(told.starts_with("Refused with cause "), "{told}");
                assert!(told.contains("\nAt byte "), "{told}");
                badly += 1;
            }
        }
    }
    println!("{well_laid_out} came back, {badly} are badly laid out; {senders:?}");
    assert!(well_laid_out > 4_000 && badly > 400);
    assert!(senders.len() == 4 && senders.values().all(|count| *count > 20));
}

/// Who sends before the first exchange.
fn kind(plan: &Plan) -> &'static str {
    match &plan.sender {
        None => "nobody",
        Some(sender) if plan.good.contains(&sender.number) => "a good box",
        Some(sender) if (1..=plan.n).contains(&sender.number) => "a bad box",
        Some(_) => "none of the boxes",
    }
}

#[test]
fn worked_plans() {
    let first = comes_back(include_bytes!("../../plans/worked-1.plan"));
    let expected = "boxes 3
limit 1

book A \"AB\"

box 1 has A
box 2 has A
box 3 is bad

first exchange

second exchange
";
    assert_eq!(first, expected);
    comes_back(include_bytes!("../../plans/worked-2.plan"));
    let third = comes_back(include_bytes!("../../plans/worked-3.plan"));
    assert!(third.contains("\nbit 0\n") && third.contains("book A \"A\"\nbook B \"B\"\n"));
}

/// Words, which the plan's bytes give back as they stand.
const UNUSUAL: &str =
    "# Refused with cause 14: the plan has more than t bad boxes, a bit above 1, or \
a root or a bit against the rule of the short agreement.
# The bit that is given is neither 0 nor 1.
boxes 4
limit 1

book A \"a # \\\" \\\\ b\"
book B \"\"
book C hex 00 0a
root of B
bit 9

box 1 has A
box 2 is bad
box 3 has B
box 4 has C

first exchange
2 to 1: share 1 of A
2 to 3: share 3 of A, number 4
2 to 4: hex 00

second exchange
2 to 1: share 2 of B, share byte 0 damaged
2 to 3 4: empty
";

#[test]
fn unusual_words() {
    let bytes = parse(UNUSUAL).expect("good words").bytes();
    assert_eq!(comes_back(&bytes), UNUSUAL);
}

/// A bad sender's exchange, which the plan's bytes give back as it stands. Whole books of the second
/// exchange cannot be read, and have words all the same.
const BY_SENDER: &str = "boxes 5
limit 2
sender 4

book A \"Listening\"
book B \"Reading\"
book C 3073 times \"x\"
book D \"Speaking\"
book E \"\"
root of E
bit 0

box 1 is good
box 2 is good
box 3 is good
box 4 is bad
box 5 is good

sender's exchange
4 to 1 3: book A
4 to 2: book B
4 to 5: book C

first exchange
4 to 1: share 1 of E

second exchange
4 to 1: book A
4 to 2: share 4 of D
4 to 3: book D
4 to 5: book A, map 9
";

#[test]
fn a_bad_sender() {
    let bytes = parse(BY_SENDER).expect("good words").bytes();
    assert_eq!(comes_back(&bytes), BY_SENDER);
    let header = [5, 2, 7];
    assert!(bytes.starts_with(&header));
    // Bit, sender, the map of good boxes and that of the receivers, behind the root.
    assert_eq!(bytes[35..41], [0, 4, 0, 0x17, 0, 0x17]);
    assert_eq!(bytes[41..46], [0, 12, 8, 0, 9]);
}

/// Only the sender's book is listed, and nothing of what it sends.
#[test]
fn a_good_sender() {
    let words = "boxes 3
limit 1
sender 2

book A \"AB\"

box 1 is good
box 2 has A
box 3 is bad

first exchange

second exchange
3 to 1: hex 09
";
    let bytes = parse(words).expect("good words").bytes();
    assert_eq!(comes_back(&bytes), words);
    let expected = [3, 1, 4, 2, 0, 3, 0, 2, 65, 66, 0, 0, 0, 1, 0, 1, 9];
    assert_eq!(bytes, expected);
}

/// A silent sender, and senders that are none of the boxes.
#[test]
fn senders_without_a_book() {
    let laid_out = |words: &str| parse(words).expect("good words").bytes();
    let silent = "boxes 3\nlimit 1\nsender 3\n\nbox 1 is good\nbox 2 is good\nbox 3 is bad\n";
    let bytes = laid_out(silent);
    assert_eq!(bytes, [3, 1, 4, 3, 0, 3, 0, 0, 0, 0, 0, 0]);
    let words = comes_back(&bytes);
    let sections = "\nsender's exchange\n\nfirst exchange\n\nsecond exchange\n";
    assert_eq!(words, format!("{silent}{sections}"));
    for number in [0, 4, 16, 17, 255] {
        let sender = format!("sender {number} outside");
        let words = silent.replace("sender 3", &sender);
        let named = format!("{words}sender's exchange\n{number} to 2: hex 08\n");
        let bytes = laid_out(&named);
        assert_eq!(bytes[3..11], [number, 0, 3, 0, 2, 0, 1, 8]);
        let told = comes_back(&bytes);
        assert!(told.contains(&format!("\n{sender}\n")), "{told}");
        assert!(
            told.contains(&format!("\n{number} to 2: hex 08\n")),
            "{told}"
        );
        assert!(told.starts_with("# Refused with cause 3: "), "{told}");
    }
    let none = comes_back(&laid_out("boxes 0\nlimit 0\nsender 1 outside"));
    assert!(none.contains("\nsender 1 outside\n"), "{none}");
    // Box 16 is beyond n, so the sender is none of the boxes though it is good.
    let beyond = laid_out(&format!(
        "{}box 16 is good\n",
        silent.replace("sender 3", "sender 16 outside")
    ));
    assert_eq!(beyond, [3, 1, 4, 16, 0x80, 3, 0, 0, 0, 0, 0, 0]);
}

/// Long books and packets go on in further lines.
#[test]
fn long_lines() {
    let book: String = (0..LONGEST_MESSAGE)
        .map(|place| format!(" {:02x}", place % 251))
        .collect();
    let words = format!(
        "boxes 3\nlimit 1\nbox 1 has hex{book}\nbox 2 has \"B\"\nbox 3 is bad\n\
         first exchange\n3 to 1 2: hex{}\n",
        " f0".repeat(5_000)
    );
    let bytes = parse(&words).expect("good words").bytes();
    let words = comes_back(&bytes);
    assert!(words.lines().count() > LONGEST_MESSAGE / 50);
    assert!(words.lines().all(|line| line.len() <= 104));
}

/// A long book that repeats a part is told by it.
#[test]
fn repeated_parts() {
    let laid_out = |book: &str| {
        let words = format!("boxes 1\nlimit 0\nbox 1 has {book}");
        parse(&words).expect("good words").bytes()
    };
    let digits = "0".repeat(200);
    let cases = [
        (format!("\"{}\"", "ab ".repeat(50)), "50 times \"ab \""),
        (format!("hex {digits}"), "hex 00 00 00"),
        (format!("hex {digits} 00"), "101 times hex 00"),
        (format!("hex {digits} 01"), "hex 00 00 00"),
        ("40 times hex ff 00 ff".to_string(), "40 times hex ff 00 ff"),
        ("6 times \"é\"".to_string(), "\"éééééé\"\n"),
    ];
    for (book, expected) in cases {
        let words = comes_back(&laid_out(&book));
        assert!(words.contains(&format!("\nbook A {expected}")), "{words}");
    }
    assert_eq!(laid_out("2 times \"\""), laid_out("\"\""));
}

/// Plans that no words of from-bytes give: causes 1, 2 and 13.
#[test]
fn unlawful_plans() {
    let laid_out = |words: &str| parse(words).expect("good words").bytes();
    let sound = "boxes 3\nlimit 1\nbox 1 has hex 41 42\nbox 2 has \"AB\"\nbox 3 is bad\n";
    let plan = laid_out(sound);
    assert_eq!(plan, include_bytes!("../../plans/worked-1.plan"));
    let longer = laid_out(&format!("{sound}behind hex 01 02"));
    assert_eq!(longer, [&plan[..], &[1, 2]].concat());
    assert_eq!(laid_out(&format!("{sound}cut by 3")), plan[..14]);
    assert_eq!(laid_out(&format!("{sound}cut by 17")), []);
    assert_eq!(laid_out(&format!("{sound}options 132"))[2], 132);
    let beyond = laid_out(&format!("{sound}box 16 has \"\""));
    assert_eq!(beyond[3..5], [0x80, 0x03]);
    let to_bad = laid_out(&format!("{sound}first exchange\n3 to 3: hex 09"));
    assert_eq!(to_bad[13..], [0, 4, 0, 1, 9, 0, 0]);
    assert_eq!(laid_out("boxes 0\nlimit 255"), [0, 255, 0, 0, 0]);
}

const A: &[u8] = b"Listening";
const B: &[u8] = b"Speaking";

/// The words for a packet where A and B are known.
fn found(packet: &[u8]) -> String {
    let mut books = Books::new(0, 4, 1);
    books.add("A", A);
    books.add("B", B);
    recognise(&books, packet).to_string()
}

/// The words for a lie from box 4 to box 2.
fn lie(lie: Lie, exchange: usize, random: &mut Random) -> String {
    let scene = Scene {
        agreed: Sharing::of(0, 4, 1, A),
        other: Sharing::of(0, 4, 1, B),
    };
    let packet = scene.told(lie, Way::new(exchange, 4, 2), random);
    found(&packet.expect("a packet"))
}

#[test]
fn lies_have_words() {
    let mut random = Random::new(5);
    let expected = [
        (Lie::Honest, "share 2 of A"),
        (Lie::Empty, "empty"),
        (Lie::MapZero, "hex 00"),
        (Lie::OtherMessage, "share 2 of B"),
        (Lie::Crossed, "share 4 of A"),
        (Lie::Renumbered, "share 2 of A, number "),
        (Lie::OthersShare, " of A, number 2, path 2 of A"),
        (Lie::ShareBit, "share 2 of A, share byte "),
        (Lie::PathBit, "share 2 of A, path byte "),
        (Lie::OthersPath, "share 2 of A, path 2 of B"),
        (Lie::PathLong, "share 2 of A, followed by hex 00"),
        (Lie::ByteOver, "share 2 of A, followed by hex "),
        (Lie::ByteMissing, "share 2 of A, cut by 1"),
        (Lie::LengthField, "share 2 of A, length "),
        (Lie::FieldMap, "share 2 of A, map "),
        (Lie::NumberOutside, "share 2 of A, number "),
    ];
    for (kind, words) in expected {
        for _ in 0..20 {
            let found = lie(kind, 0, &mut random);
            assert!(found.contains(words), "{kind:?}: {found}");
        }
    }
    assert_eq!(lie(Lie::Honest, 1, &mut random), "share 4 of A");
}

/// The words for what a bad sender hands to box 2.
#[test]
fn lies_of_senders_have_words() {
    let mut random = Random::new(6);
    let offer = Offer {
        one: A.to_vec(),
        other: B.to_vec(),
        shares: Sharing::of(0, 4, 1, A),
    };
    let expected = [
        (SenderLie::Honest, "book A"),
        (SenderLie::OtherMessage, "book B"),
        (SenderLie::Empty, "empty"),
        (SenderLie::MapZero, "hex 00"),
        (SenderLie::Noise, "hex "),
        (SenderLie::Cut, "hex 08"),
        (SenderLie::ByteOver, "book A, followed by hex "),
        (SenderLie::ByteMissing, "book A, cut by 1"),
        (SenderLie::LengthField, "book A, length "),
        (SenderLie::FieldMap, "book A, map "),
        (SenderLie::Share, "share 2 of A"),
    ];
    for (lie, words) in expected {
        for _ in 0..20 {
            let packet = offer.told(lie, 2, &mut random).expect("a packet");
            let found = found(&packet);
            assert!(found.starts_with(words), "{lie:?}: {found}");
        }
    }
}

/// Bytes that have only little in common with a share are told as they are.
#[test]
fn little_in_common() {
    let packet = Sharing::of(0, 4, 1, A).packet(1);
    let header_and_share = &packet[..8];
    assert_eq!(found(header_and_share), "share 1 of A, cut by 64");
    let renumbered = [&[7, 3], &header_and_share[2..]].concat();
    assert_eq!(found(&renumbered), "hex 07 03 00 04 1a 13 4e 07");
    assert_eq!(found(&packet[..7]), "hex 07 01 00 04 1a 13 4e");
    let mut twice = packet.clone();
    twice[8] ^= 1;
    twice[9] ^= 1;
    assert!(found(&twice).starts_with("hex 07 01 "));
}

/// A whole book is known by one change at most.
#[test]
fn whole_books() {
    let packet = message_packet::write(B);
    let changed = |change: fn(&mut Vec<u8>)| {
        let mut bytes = packet.clone();
        change(&mut bytes);
        found(&bytes)
    };
    assert_eq!(found(&packet), "book B");
    assert_eq!(changed(|it| it[0] = 7), "book B, map 7");
    assert_eq!(changed(|it| it[1] = 1), "book B, length 264");
    assert_eq!(changed(|it| it[3] ^= 1), "book B, book byte 0 damaged");
    assert_eq!(
        changed(|it| it[10] ^= 8),
        "book B, book byte 7 damaged by 08"
    );
    assert_eq!(changed(|it| it.push(9)), "book B, followed by hex 09");
    assert_eq!(changed(|it| it.truncate(9)), "book B, cut by 2");
    assert_eq!(changed(|it| it.truncate(3)), "book B, cut by 8");
    assert_eq!(changed(|it| it.truncate(2)), "hex 08 00");
    let twice = changed(|it| {
        it[0] = 7;
        it[2] = 9;
    });
    assert!(twice.starts_with("hex 07 00 09 53 "), "{twice}");
}

/// A book that no good box has is found if it is named.
#[test]
fn named_books() {
    let words = "boxes 3\nlimit 1\nbook Old \"2019\"\nbox 1 has \"2020\"\nbox 2 has \"2020\"\n\
        box 3 is bad\nfirst exchange\n3 to 1: share 1 of Old\n";
    let draft = parse(words).expect("good words");
    let told = |hints: &Hints| in_words(&draft.bytes(), hints).expect("a good layout");
    assert!(told(&Hints::default()).contains("\n3 to 1: hex 07 01 "));
    let mut hints = draft.hints();
    assert_eq!(hints.books, [("Old".to_string(), b"2019".to_vec())]);
    assert!(told(&hints).contains("book Old \"2019\"\nbook A \"2020\"\n"));
    assert!(told(&hints).contains("\n3 to 1: share 1 of Old\n"));
    hints.books.push(("Other".to_string(), vec![9]));
    assert!(!told(&hints).contains("Other"));
}

/// A plan with a number, which its bytes give back as it stands.
const NUMBERED: &str = "boxes 4
limit 1
sitting 7
sender 2

book A \"Listening\"
book B \"Reading\"
root of A
bit 1

box 1 is good
box 2 is bad
box 3 is good
box 4 is good

sender's exchange
2 to 1 3: book A
2 to 4: book B

first exchange
2 to 4: share 4 of A

second exchange
2 to 4: share 2 of A, path 2 of B
";

/// 0 comes back where it is written out, and nowhere else.
#[test]
fn sitting_numbers() {
    for number in EDGES {
        let line = format!("sitting {number}\n");
        let words = NUMBERED.replace("sitting 7\n", &line);
        let bytes = parse(&words).expect("good words").bytes();
        assert_eq!(comes_back(&bytes), words);
        let root = Sharing::of(number, 4, 1, b"Listening").root;
        let head = [&[4, 1, 15], &root[..], &[1, 2], &number.to_be_bytes()].concat();
        assert!(bytes.starts_with(&head));
    }
    let words = NUMBERED.replace("sitting 7\n", "");
    let bytes = parse(&words).expect("good words").bytes();
    assert_eq!(comes_back(&bytes), words);
    let written = NUMBERED.replace("sitting 7\n", "sitting 0\n");
    let written = parse(&written).expect("good words").bytes();
    assert_eq!(bytes[2..37], [&[7], &written[3..37]].concat());
    assert_eq!(bytes[37..], written[41..]);
}

/// What is of other sittings comes back in words if these are spoken of, and in bytes if not.
#[test]
fn other_sittings() {
    let words = NUMBERED
        .replace("root of A\nbit 1", "root of A in sitting 0\nbit 0")
        .replace("share 4 of A", "share 4 of A in sitting 4294967295")
        .replace("path 2 of B", "path 2 of B in sitting 8");
    let draft = parse(&words).expect("good words");
    let hints = draft.hints();
    assert_eq!(hints.sittings, [7, 0, u32::MAX, 8]);
    let told = in_words(&draft.bytes(), &hints).expect("a good layout");
    assert_eq!(told, words);
    let told = comes_back(&draft.bytes());
    let root = hex(&Sharing::of(0, 4, 1, b"Listening").root);
    assert!(told.contains(&format!("\nroot {root}\n")), "{told}");
    assert!(told.contains("\n2 to 4: hex 07 04 "), "{told}");
    let named = words.replace(" in sitting 8", " in sitting 7");
    let named = parse(&named).expect("good words");
    let plain = parse(&words.replace(" in sitting 8", "")).expect("good words");
    assert_eq!(named.bytes(), plain.bytes());
}
