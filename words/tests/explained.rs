//! Explanations and pictures of random plans, held against what the rehearsal prints and what
//! the boxes did.

use foreign::limits::LONGEST_MESSAGE;
use foreign::plans::plan;
use foreign::rehearsal::{play, rehearse, Round};
use words::books::Hints;
use words::explain::explain;
use words::input::given;
use words::phrases::grouped;
use words::picture::picture;
use words::view::{Parcel, View, Worth};

const COUNT: u64 = 2_000;

/// A small sitting in which the bit is given, and a book has two names.
const WORDS: &str = "boxes 3
limit 1
book A \"A\"
book Same \"A\"
bit 1
box 1 is bad
box 2 has \"A\"
box 3 has \"B\"
first exchange
1 to 2: hex 00
1 to 3: share 2 of box 2
second exchange
1 to 3: share 1 of A, number 9
";

const TOLD: &str = "Sitting of 3 boxes, of which 1 may be bad; 2 of the shares give a book back.

Books
  A, 1 byte: \"A\"
  B, 1 byte: \"B\"

Openings
  box 2 has A, root 975f8bd5…
  box 3 has B, root 037e6bb8…
  bad: 1

Agreed root 975f8bd5… of A (box 2's, as the plan gives none)
  box 2 is happy, bit 1
  box 3 is unhappy, bit 0
Agreed bit 1 (as the plan gives it)

The first exchange
  1 to 2        1 byte   is silence         hex 00
  1 to 3      70 bytes   bears number 2     share 2 of A
  2 to 1      70 bytes   goes to a bad box  share 1 of A
  2 to 3      38 bytes   passes             share 3 of A
  box 2 is happy and relays its own share 2
  box 3 takes share 3 from box 2 and relays it
  box 3 sees box 1 cheat: its packet bears number 2, and 3 is due

The second exchange
  1 to 3      70 bytes   cannot be read     share 1 of A, number 9
  2 to 1      70 bytes   goes to a bad box  share 2 of A
  2 to 3      70 bytes   passes             share 2 of A
  3 to 1      38 bytes   goes to a bad box  share 3 of A
  3 to 2      38 bytes   passes             share 3 of A
  box 2 is happy and keeps its book
  box 3 gathers shares 2 3 and rebuilds the book from 2 3
  box 3 sees box 1 cheat: its packet cannot be read

Results
  box 2 ends with A
  box 3 ends with A
  box 2 saw no box cheat
  box 3 saw box 1 cheat
  bytes sent by good boxes: 108 in the first exchange, 216 in the second

2 = 41
3 = 41
sent 324
";

#[test]
fn a_sitting_word_by_word() {
    let (plan, hints) = given(WORDS.as_bytes()).expect("good words");
    assert_eq!(explain(&plan, &hints), TOLD);
}

/// Box 3 gets its share as of another sitting, and then as of this one.
const NUMBERED: &str = "boxes 4
limit 1
sitting 7
book A \"A\"
book B \"B\"
box 1 is bad
box 2 has A
box 3 has \"B\"
box 4 has A
first exchange
1 to 3: share 3 of A in sitting 6
second exchange
1 to 3: share 1 of B, path 1 of A in sitting 0
1 to 4: share 1 of A
";

const NUMBERED_FIRST: &str = "
The first exchange
  1 to 3      69 bytes   fails the check    share 3 of A in sitting 6
  2 to 1      69 bytes   goes to a bad box  share 1 of A
  2 to 3      69 bytes   passes             share 3 of A
";

const NUMBERED_SECOND: &str = "
The second exchange
  1 to 3      69 bytes   fails the check    share 1 of B, path 1 of A in sitting 0
  1 to 4      69 bytes   passes             share 1 of A
";

/// The number stands in the title of a plan that has one, also if it is 0.
#[test]
fn a_sitting_number_word_by_word() {
    let (plan, hints) = given(NUMBERED.as_bytes()).expect("good words");
    let told = explain(&plan, &hints);
    assert!(told.starts_with("Sitting 7, of 4 boxes, of which 1 may be bad; 3 of the shares "));
    assert!(told.contains(NUMBERED_FIRST), "{told}");
    assert!(told.contains(NUMBERED_SECOND), "{told}");
    assert!(picture(&plan, &hints).contains(">Sitting 7, of 4 boxes, of which 1 may be bad<"));
    for (line, title) in [("sitting 0\n", "Sitting 0, of 4 "), ("", "Sitting of 4 ")] {
        let words = NUMBERED.replace("sitting 7\n", line);
        let (plan, hints) = given(words.as_bytes()).expect("good words");
        let told = explain(&plan, &hints);
        assert!(told.starts_with(title), "{told}");
        assert!(told.contains("passes             share 1 of A\n"), "{told}");
        assert!(picture(&plan, &hints).contains(&format!(">{title}boxes, ")));
    }
}

/// Boxes 1 and 2 are bad. To box 3 the one lies in both exchanges and the other in the second; box 4 is
/// happy, and sees what box 1 sends it all the same.
const LIARS: &str = "boxes 5
limit 2
book A \"A\"
book B \"B\"
root of A
bit 1
box 1 is bad
box 2 is bad
box 3 has B
box 4 has A
box 5 has A
first exchange
1 to 3: share 1 of A
1 to 4: hex 08 00 00
2 to 5: hex 00
second exchange
1 to 3: share 1 of A, share byte 0 damaged
2 to 3: share 3 of A
2 to 4: share 2 of A
";

/// Who saw whom stands below what the boxes did, by receiver, and in all at the end.
#[test]
fn liars_word_by_word() {
    let (plan, hints) = given(LIARS.as_bytes()).expect("good words");
    let told = explain(&plan, &hints);
    for part in [
        "  box 5 is happy and relays its own share 5
  box 3 sees box 1 cheat: its packet bears number 1, and 3 is due
  box 4 sees box 1 cheat: its packet cannot be read

",
        "  box 5 is happy and keeps its book
  box 3 sees box 1 cheat: its packet does not lead to the agreed root
  box 3 sees box 2 cheat: its packet bears number 3, and 2 is due

",
        "  box 5 ends with A
  box 3 saw boxes 1 2 cheat
  box 4 saw box 1 cheat
  box 5 saw no box cheat
",
    ] {
        assert!(told.contains(part), "{told}");
    }
    let svg = picture(&plan, &hints);
    assert_eq!(svg.matches("class=\"mark\"").count(), 4 + 1);
    for (line, count) in [
        ("sees box 1 cheat", 2),
        ("sees boxes 1 2 cheat", 1),
        ("saw box 1 cheat", 1),
        ("saw boxes 1 2 cheat", 1),
        ("saw no box cheat", 1),
        ("seen to cheat by", 2),
    ] {
        assert_eq!(told_in(&svg, line), count, "{line}");
    }
}

/// How often a card of a picture says so, in whatever lines.
fn told_in(svg: &str, words: &str) -> usize {
    let texts = svg.split("</text>").filter_map(|it| it.rsplit('>').next());
    let whole: Vec<&str> = texts.collect();
    whole.join(" ").matches(words).count()
}

/// On bit 0 no inbox is taken.
#[test]
fn on_bit_zero_nobody_is_seen() {
    let (plan, hints) = given(LIARS.replace("bit 1", "bit 0").as_bytes()).expect("good words");
    let told = explain(&plan, &hints);
    let expected = "\nOn bit 0 every good box ends with nothing and sees no box cheat; ";
    assert!(told.contains(expected), "{told}");
    let svg = picture(&plan, &hints);
    assert_eq!(svg.matches("class=\"mark\"").count(), 0);
    assert_eq!(told_in(&svg, "saw no box cheat"), 3);
}

/// A root is told by the sitting that it is of.
#[test]
fn a_root_of_another_sitting() {
    let words = NUMBERED.replace("box 1", "root of A in sitting 4294967295\nbox 1");
    let told = told_under("Agreed root ", &words);
    let title = "of A in sitting 4294967295 (as the plan gives it)\n  box 2 is unhappy, bit 0\n";
    assert!(told.contains(title), "{told}");
}

/// Box 2 is bad and the sender. It gives box 1 a book, box 3 one of which a byte is missing, and
/// box 4 nothing; both open with the empty book, and box 3 would not rebuild A.
const BY_SENDER: &str = "boxes 4
limit 1
sender 2
book A \"A\"
root of A
bit 1
box 1 is good
box 2 is bad
box 3 is good
box 4 is good
sender's exchange
2 to 1: book A
2 to 3: book A, cut by 1
first exchange
2 to 3: book A
";

const BY_SENDER_TOLD: &str =
    "Sitting of 4 boxes, of which 1 may be bad; 3 of the shares give a book back.

Books
  A, 1 byte: \"A\"
  B, 0 bytes: \"\"

The sender's exchange: bad box 2 sends what it likes
  2 to 1       4 bytes   is read            book A
  2 to 3       3 bytes   cannot be read     book A, cut by 1
  box 1 reads A and opens with it
  box 3 cannot read its packet and opens with the empty book, B
  box 4 gets nothing and opens with the empty book, B
";

const BY_SENDER_FIRST: &str = "
The first exchange
  1 to 2      69 bytes   goes to a bad box  share 2 of A
  1 to 3      69 bytes   passes             share 3 of A
  1 to 4      69 bytes   passes             share 4 of A
  2 to 3       4 bytes   cannot be read     book A
";

const BY_SENDER_END: &str = "
Results
  box 1 ends with A
  box 3 ends with A
  box 4 ends with A
  box 1 saw no box cheat
  box 3 saw box 2 cheat
  box 4 saw no box cheat
  bytes sent by good boxes: 0 in the sender's exchange, 207 in the first, 621 in the second; \
'sent' has all of them

1 = 41
3 = 41
4 = 41
sent 828
";

#[test]
fn a_bad_sender_word_by_word() {
    let (plan, hints) = given(BY_SENDER.as_bytes()).expect("good words");
    let told = explain(&plan, &hints);
    assert!(told.starts_with(BY_SENDER_TOLD), "{told}");
    assert!(told.contains(BY_SENDER_FIRST), "{told}");
    assert!(told.ends_with(BY_SENDER_END), "{told}");
}

/// What is told of these words, from one heading up to the next.
fn told_under(heading: &str, words: &str) -> String {
    let (plan, hints) = given(words.as_bytes()).expect("good words");
    let told = explain(&plan, &hints);
    let (_, told) = told.split_once(&format!("\n{heading}")).expect("a heading");
    let (told, _) = told.split_once("\n\n").expect("more");
    told.to_string()
}

#[test]
fn a_good_sender() {
    let words = "boxes 3\nlimit 1\nsender 2\nbox 1 is bad\nbox 2 has \"AB\"\nbox 3 is good\n";
    let expected = ": good box 2 gives its book to the others, 10 bytes in all
  2 to 1       5 bytes   goes to a bad box  book A
  2 to 3       5 bytes   is read            book A
  box 2 is the sender and opens with its own book A
  box 3 reads A and opens with it";
    assert_eq!(told_under("The sender's exchange", words), expected);
    let results = told_under("Results", words);
    let sent = "  bytes sent by good boxes: 10 in the sender's exchange, ";
    assert!(
        results.lines().any(|line| line.starts_with(sent)),
        "{results}"
    );
    let alone = "boxes 1\nlimit 0\nsender 1\nbox 1 has \"AB\"\n";
    let expected =
        ": box 1 is alone and sends nothing\n  box 1 is the sender and opens with its own book A";
    assert_eq!(told_under("The sender's exchange", alone), expected);
}

/// The empty book settled is told apart from nothing, and so is one that a sender gave.
#[test]
fn the_empty_book() {
    let silent = "boxes 3\nlimit 1\nsender 3\nbox 1 is good\nbox 2 is good\nbox 3 is bad\n";
    let expected = "
  box 1 ends with A, the empty book
  box 2 ends with A, the empty book
  the empty book is a book and not nothing: below, '=' stands for it and '-' for nothing";
    let told = told_under("Results", silent);
    assert!(told.starts_with(expected), "{told}");
    let sent = silent.replace("sender 3\n", "sender 3\nbook None \"\"\n");
    let sent = format!("{sent}sender's exchange\n3 to 1: book None\n3 to 2: hex 00\n");
    let expected = ": bad box 3 sends what it likes
  3 to 1       3 bytes   is read            book None
  3 to 2        1 byte   is silence         hex 00
  box 1 reads None and opens with it
  box 2 gets nothing and opens with the empty book, None";
    assert_eq!(told_under("The sender's exchange", &sent), expected);
    let nothing = silent.replace("sender 3\n", "sender 3\nbit 0\n");
    let nothing = format!("{nothing}sender's exchange\n3 to 1: hex 08 00 01 41\n");
    let (plan, _) = given(nothing.as_bytes()).expect("good words");
    let told = explain(&plan, &Hints::default());
    assert!(!told.contains("is a book and not nothing"), "{told}");
    assert!(told.ends_with("\n\n1 -\n2 -\nsent 0\n"), "{told}");
}

/// Why a plan in these words is refused.
fn refusal(words: &str) -> String {
    let (plan, hints) = given(words.as_bytes()).expect("good words");
    let told = explain(&plan, &hints);
    assert!(told.contains("\n\nrefused "), "{told}");
    let (before, _) = told.split_once("\n\n").expect("more than that");
    before.to_string()
}

#[test]
fn refused_plans() {
    let rule =
        "Refused with cause 14: the plan has more than t bad boxes, a bit above 1, or a root \
        or a bit against the rule of the short agreement.\n";
    let layout =
        "Refused with cause 13: the plan is badly laid out, or longer than 60,000 bytes.\n";
    let sound = "boxes 2\nlimit 0\nbook A \"\"\nbox 1 has A\nbox 2 has A\n";
    let two = |words: &str| refusal(&format!("{sound}{words}"));
    let expected = "Refused with cause 1: n is not 1 to 16.\nThe plan has n 0.";
    assert_eq!(refusal("boxes 0\nlimit 0"), expected);
    let expected = "Refused with cause 2: 2·t is n or more.\nThe plan has n 2 and t 1.";
    assert_eq!(refusal(&sound.replace("limit 0", "limit 1")), expected);
    let over = LONGEST_MESSAGE + 1;
    let long = format!("boxes 1\nlimit 0\nbox 1 has {over} times \"x\"");
    let longest = grouped(LONGEST_MESSAGE);
    let expected = format!(
        "Refused with cause 4: a book is longer than {longest} bytes.\nBox 1's book is too long."
    );
    assert_eq!(refusal(&long), expected);
    let bad = refusal("boxes 2\nlimit 0\nbox 1 has \"\"\nbox 2 is bad");
    assert_eq!(
        bad,
        format!("{rule}More boxes are bad than the limit allows.")
    );
    let bit = format!("{rule}The bit that is given is neither 0 nor 1.");
    assert_eq!(two("bit 2"), bit);
    let against = |what| {
        format!(
            "{rule}All good boxes put one {what} into the short agreement, and the plan gives \
             another."
        )
    };
    assert_eq!(two("bit 0"), against("bit"));
    assert_eq!(two("book B \"B\"\nroot of B"), against("root"));
    let left_over = "At byte 9: the plan is at its end, and bytes are left over. It has 10 bytes, \
        counted from 0.";
    assert_eq!(two("behind hex 00"), format!("{layout}{left_over}"));
    let option = "At byte 2: the option map has an unknown option. It has 9 bytes, counted from 0.";
    assert_eq!(two("options 16"), format!("{layout}{option}"));
    let numbered = sound.replace("limit 0", "limit 0\nsitting 7");
    let short =
        "At byte 3, in the sitting number: the plan runs out, 2 bytes short. It has 5 bytes, \
        counted from 0.";
    let cut = refusal(&format!("{numbered}cut by 8"));
    assert_eq!(cut, format!("{layout}{short}"));
}

/// A sender that no box is: what it sends is looked for all the same.
#[test]
fn refused_senders() {
    let outside =
        "boxes 3\nlimit 1\nsender 4 outside\nbox 1 is good\nbox 2 is good\nbox 3 is bad\n";
    let expected = "Refused with cause 3: the sender's number is not 1 to n.\n\
        The plan has n 3 and sender 4.";
    assert_eq!(refusal(outside), expected);
    let misplaced = |words: &str, place: &str| {
        let layout =
            "Refused with cause 13: the plan is badly laid out, or longer than 60,000 bytes.\n";
        let expected = format!("{layout}At byte {place}, counted from 0.");
        assert_eq!(refusal(&format!("{outside}{words}")), expected);
    };
    let short = "the plan runs out, 1 byte short. It has";
    let receivers =
        |sender, exchange| format!("box {sender}'s map of receivers in the {exchange} exchange");
    let second = receivers(3, "second");
    misplaced("cut by 1", &format!("10, in {second}: {short} 11 bytes"));
    let own = receivers(4, "sender's");
    misplaced("cut by 5", &format!("6, in {own}: {short} 7 bytes"));
    misplaced(
        "cut by 9",
        &format!("3, in the sender's number: {short} 3 bytes"),
    );
    let not_good = format!("6: {own} has one that is not good. It has 14 bytes");
    misplaced("sender's exchange\n4 to 3: empty", &not_good);
}

/// Causes 4 and 14 where the sender is good.
#[test]
fn refused_books_of_senders() {
    let good = "boxes 2\nlimit 0\nsender 2\nbook A \"\"\nbox 1 is good\nbox 2 has A\n";
    let over = LONGEST_MESSAGE + 1;
    let long = good.replace("A \"\"", &format!("A {over} times \"x\""));
    assert!(refusal(&long).ends_with("\nBox 2's book is too long."));
    let against =
        "\nAll good boxes put one bit into the short agreement, and the plan gives another.";
    assert!(refusal(&format!("{good}bit 0\n")).ends_with(against));
}

#[test]
fn the_last_lines_are_the_rehearsals() {
    for bytes in (1..=COUNT).map(|k| plan(k).bytes) {
        let printed = String::from_utf8(rehearse(&bytes)).expect("a text");
        let told = explain(&bytes, &Hints::default());
        let before = told.strip_suffix(&format!("\n\n{printed}"));
        let before = before.expect("a blank line and the rehearsal's lines");
        let refused = before.starts_with("Refused with cause ");
        assert_eq!(refused, printed.starts_with("refused "));
        if let Some(number) = printed.strip_prefix("refused ") {
            let cause = format!("Refused with cause {}: ", number.trim_end());
            assert!(before.starts_with(&cause), "{before}");
        }
    }
}

/// Plans that break what is supposed are told to their end, others are not.
#[test]
fn refused_plans_are_told_regardless() {
    let (mut regardless, mut others) = (0, 0);
    for bytes in (1..=COUNT).map(|k| plan(k).bytes) {
        let Err(fault) = play(&bytes) else {
            continue;
        };
        let told = explain(&bytes, &Hints::default());
        let to_the_end = told.contains("\nSitting ") && told.contains("\n  box ");
        assert_eq!(
            to_the_end,
            View::new(&bytes, &Hints::default()).is_ok(),
            "{told}"
        );
        assert!(fault.cause() == 14 || !to_the_end, "{told}");
        match to_the_end {
            true => regardless += 1,
            false => others += 1,
        }
    }
    println!("{regardless} refused plans told to their end, {others} not");
    assert!(regardless > 50 && others > 50);
}

/// What boxes 3 and 4 of four say of step 5, where boxes 1 and 2 are bad and send this in the second
/// exchange, under the root of A.
fn with_two_liars(second: &str) -> String {
    let words = format!(
        "boxes 4\nlimit 1\nbook A \"A\"\nroot of A\nbit 1\nbox 1 is bad\nbox 2 is bad\n\
         box 3 has \"C\"\nbox 4 has \"D\"\nsecond exchange\n{second}\n"
    );
    let (plan, hints) = given(words.as_bytes()).expect("good words");
    let told = explain(&plan, &hints);
    let (_, told) = told.split_once("The second exchange\n").expect("bit 1");
    let steps = told.lines().filter(|line| line.contains(" gathers "));
    steps.collect::<Vec<_>>().join("\n")
}

#[test]
fn boxes_without_a_book() {
    let told = with_two_liars("1 to 3: share 1 of A\n2 to 3: share 2 of A\n1 to 4: hex 00");
    let expected = "  box 3 gathers shares 1 2, too few for a book\n  box 4 gathers no share";
    assert_eq!(told, expected);
}

/// The senders whose packets pass for a receiver.
fn passing(parcels: &[Parcel], receiver: usize) -> Vec<usize> {
    let own = parcels.iter().filter(|it| it.receiver == receiver);
    let passing = own.filter(|it| it.worth == Worth::Passes);
    passing.map(|it| it.sender).collect()
}

/// An unhappy box takes its share from the first packet said to pass, and gathers from all.
#[test]
fn what_passes_is_what_was_taken() {
    let mut unhappy = 0;
    for bytes in (1..=COUNT).map(|k| plan(k).bytes) {
        let Ok(view) = View::new(&bytes, &Hints::default()) else {
            continue;
        };
        let Some(takings) = &view.session.takings else {
            continue;
        };
        let exchanges = [Round::First, Round::Second].map(|round| view.parcels(round));
        for (place, &own) in view.session.plan.good.iter().enumerate() {
            let Some(gathered) = &takings.gathered[place] else {
                assert!(view.happy(place));
                continue;
            };
            unhappy += 1;
            let first = passing(&exchanges[0], own);
            assert_eq!(takings.sources[place], first.first().copied());
            let present = (1..).zip(gathered).filter(|(_, share)| !share.is_empty());
            let others = present.map(|(number, _)| number).filter(|it| *it != own);
            assert!(others.eq(passing(&exchanges[1], own)));
        }
    }
    assert!(unhappy > 500, "{unhappy}");
}

/// The senders whose packets show a receiver that they cheat, as a map.
fn cheating(parcels: &[Parcel], receiver: usize) -> u32 {
    let own = parcels.iter().filter(|it| it.receiver == receiver);
    let cheats = own.filter(|it| it.fault.is_some());
    cheats.map(|it| 1 << (it.sender - 1)).sum()
}

/// Whoever is said to be seen is in the box's map, and nobody else; nobody good is.
#[test]
fn who_is_said_to_cheat_is_in_the_map() {
    let mut liars = 0;
    for bytes in (1..=COUNT).map(|k| plan(k).bytes) {
        let Ok(view) = View::new(&bytes, &Hints::default()) else {
            continue;
        };
        let sender = view.parcels(Round::Sender);
        assert!(sender.iter().all(|it| it.fault.is_none()));
        let Some(takings) = &view.session.takings else {
            assert!((1..=view.n()).all(|number| view.seen_by(number).is_empty()));
            continue;
        };
        let [first, second] = [Round::First, Round::Second].map(|round| view.parcels(round));
        for (place, &own) in view.session.plan.good.iter().enumerate() {
            let map = cheating(&first, own);
            assert_eq!(map, takings.faulty_first[place]);
            assert_eq!(map | cheating(&second, own), takings.faulty[place]);
            assert!(view.seen_by(own).is_empty());
            let seen = view.seen(place);
            assert!(seen.iter().all(|it| view.seen_by(*it).contains(&own)));
            liars += seen.len();
        }
    }
    assert!(liars > 500, "{liars}");
}

/// A good box other than the sender opens with the book that is said to be read, or with the empty
/// one.
#[test]
fn what_is_read_is_opened_with() {
    let mut read = [0, 0];
    for bytes in (1..=COUNT).map(|k| plan(k).bytes) {
        let Ok(view) = View::new(&bytes, &Hints::default()) else {
            continue;
        };
        let Some(sender) = &view.session.plan.sender else {
            assert!(view.parcels(Round::Sender).is_empty());
            continue;
        };
        let parcels = view.parcels(Round::Sender);
        assert!(parcels.iter().all(|it| it.sender == sender.number));
        for (place, &own) in view.session.plan.good.iter().enumerate() {
            if own == sender.number {
                continue;
            }
            let came = parcels.iter().find(|it| it.receiver == own);
            let is_read = came.is_some_and(|it| it.worth == Worth::Book);
            let packet = sender.row[own - 1].as_deref().filter(|_| is_read);
            let book = packet.map_or(&[][..], |packet| &packet[3..]);
            assert_eq!(view.session.messages[place], book);
            let told = view.opening(sender, place);
            assert_eq!(told.contains(" the empty book, "), !is_read, "{told}");
            read[usize::from(is_read)] += 1;
        }
    }
    assert!(read.iter().all(|count| *count > 500), "{read:?}");
}

/// The name in a tag.
fn name(tag: &str) -> &str {
    let end = tag.find([' ', '/', '>']).unwrap_or(tag.len());
    &tag[..end]
}

/// Every element is closed in its turn, and nothing is taken from elsewhere.
fn is_sound(svg: &str) {
    let mut open = Vec::new();
    for part in svg.split('<').skip(1) {
        let (tag, text) = part.split_once('>').expect("a tag is closed");
        assert!(!text.contains('>'), "{text}");
        match tag.strip_prefix('/') {
            Some(closed) => assert_eq!(open.pop(), Some(closed)),
            None if tag.ends_with('/') => {}
            None => open.push(name(tag)),
        }
        assert!(!["script", "image", "use"].contains(&name(tag)));
    }
    assert!(open.is_empty());
    assert!(!svg.contains("href") && !svg.contains("@import") && !svg.contains("nan"));
}

#[test]
fn pictures_are_sound() {
    for bytes in (1..=COUNT).step_by(4).map(|k| plan(k).bytes) {
        let svg = picture(&bytes, &Hints::default());
        is_sound(&svg);
        let arrows = svg.matches("class=\"arrow ").count();
        let view = View::new(&bytes, &Hints::default());
        assert_eq!(arrows, view.map_or(0, |view| expected_arrows(&view)));
    }
}

/// The packets of each exchange that is held, and the legend.
fn expected_arrows(view: &View) -> usize {
    let packets = |round| view.parcels(round).len();
    let (sender, shares) = (view.session.plan.sender.is_some(), view.session.bit == 1);
    let mut arrows = 0;
    if sender {
        arrows += packets(Round::Sender) + OF_BOOKS;
    }
    if shares {
        arrows += packets(Round::First) + packets(Round::Second) + OF_SHARES;
    }
    match sender || shares {
        true => arrows + OF_BOTH,
        false => arrows,
    }
}

/// The arrows of the legend: for a sender's exchange, for the other two, and for all of them.
const OF_BOOKS: usize = 1;
const OF_SHARES: usize = 3;
const OF_BOTH: usize = 3;

/// The sender's exchange stands above what the boxes open with.
#[test]
fn a_senders_picture() {
    let (plan, hints) = given(BY_SENDER.as_bytes()).expect("good words");
    let svg = picture(&plan, &hints);
    is_sound(&svg);
    let view = View::new(&plan, &hints).expect("a sound plan");
    let arrows = svg.matches("class=\"arrow ").count();
    assert_eq!(arrows, expected_arrows(&view));
    assert_eq!(svg.matches("class=\"arrow book ").count(), 1 + OF_BOOKS);
    let place = |text: &str| svg.find(&format!(">{text}<")).expect(text);
    let parts = [
        "the sender",
        "The sender's exchange: bad box 2 sends what it likes",
        "box 2 sends",
        "reads A and opens",
        "has A",
        "The first exchange: the good boxes send 207 bytes",
    ];
    assert!(parts.map(place).is_sorted());
    let undecided = BY_SENDER.replace("bit 1", "bit 0");
    let (plan, hints) = given(undecided.as_bytes()).expect("good words");
    let svg = picture(&plan, &hints);
    is_sound(&svg);
    let arrows = svg.matches("class=\"arrow ").count();
    assert_eq!(arrows, 2 + OF_BOOKS + OF_BOTH);
}

/// A book's text may hold signs that SVG uses.
#[test]
fn signs_are_escaped() {
    let words = "boxes 1\nlimit 0\nbox 1 has \"a < b & c > d\"\n";
    let plan = words::parse::parse(words).expect("good words").bytes();
    let svg = picture(&plan, &Hints::default());
    is_sound(&svg);
    assert!(svg.contains("Book A: \"a &lt; b &amp; c &gt; d\""));
}
