//! Tests of plans with a sender.

use super::tests::{cause, plan, printed, regardless, SILENT};
use super::*;
use crate::limits::INSIDE;
use crate::message_packet::write;
use crate::plans::map_of;

/// A bad party's block: what it sends to which receivers.
fn block(sent: &[(usize, &[u8])]) -> Vec<u8> {
    let map = map_of(sent.iter().map(|it| &it.0));
    let packets: Vec<&[u8]> = sent.iter().map(|it| it.1).collect();
    [&map[..], &lay_out(&packets)].concat()
}

/// A plan of three whose options and fields these are; party 3 is bad and silent, and party 1, which
/// is good, is the sender.
fn by_good(options: &[u8], message: &[u8]) -> Vec<u8> {
    plan(&[&[3, 1], options].concat(), 3, &[message], SILENT)
}

/// As before; but party 3 is the sender, with this block.
fn by_bad(options: &[u8], block: &[u8]) -> Vec<u8> {
    let head = [&[3, 1], options].concat();
    plan(&head, 3, &[], &[block, SILENT].concat())
}

/// The plans with a sender that a person can run, with what they are to show.
#[test]
fn worked_plans() {
    let sender = include_bytes!("../../../plans/sender.plan");
    let kept = include_bytes!("../../../plans/sender.out");
    assert_eq!(rehearse(sender), kept);
    let session = play(sender).expect("a sound plan");
    // Three others get the packet of 20 bytes; then each of three sends three of 75, twice.
    assert_eq!(session.bytes_sent(), [60, 675, 675]);
    assert_eq!(session.bits, [1; 3]);

    let two_books = include_bytes!("../../../plans/two-books.plan");
    let kept = include_bytes!("../../../plans/two-books.out");
    assert_eq!(rehearse(two_books), kept);
    let session = play(two_books).expect("a sound plan");
    assert_eq!(session.bits, [1, 0]);

    let silent = include_bytes!("../../../plans/silent-sender.plan");
    let kept = include_bytes!("../../../plans/silent-sender.out");
    assert_eq!(rehearse(silent), kept);
    assert_eq!(kept, b"1 =\n2 =\nsent 488\n");
}

#[test]
fn a_good_senders_message_is_the_result() {
    assert_eq!(
        printed(&by_good(&[4, 1], b"AB")),
        "1 = 4142\n2 = 4142\nsent 506\n"
    );
    assert_eq!(printed(&by_good(&[4, 1], b"")), "1 =\n2 =\nsent 494\n");
    let second = plan(&[3, 1, 4, 2], 3, &[b"AB"], SILENT);
    assert_eq!(printed(&second), "1 = 4142\n2 = 4142\nsent 506\n");
    let longest = vec![7; LONGEST_MESSAGE];
    for length in INSIDE.into_iter().chain([LONGEST_MESSAGE]) {
        let session = play(&by_good(&[4, 1], &longest[..length])).expect("a sound plan");
        assert_eq!(session.bytes_sent()[0], 2 * (3 + length));
        let expected = longest[..length].to_vec();
        assert_eq!(session.messages, vec![expected.clone(); 2]);
        assert_eq!(session.results, vec![Some(expected); 2]);
    }
}

/// Twice, where three sit; in the two exchanges they send what those send who all had the message.
#[test]
fn its_packet_counts_for_each_other_party() {
    for (message, others) in [(&b"AB"[..], 496), (b"A", 496), (b"", 488)] {
        let session = play(&by_good(&[4, 1], message)).expect("a sound plan");
        let [sender, first, second] = session.bytes_sent();
        assert_eq!((sender, first + second), (2 * (3 + message.len()), others));
        let ordinary = plan(&[3, 1, 0], 3, &[message; 2], SILENT);
        let ordinary = play(&ordinary).expect("a sound plan");
        assert_eq!(ordinary.bytes_sent(), [0, first, second]);
        let row = session.plan.sender.expect("a sender").row;
        assert_eq!(row, [None, Some(write(message)), Some(write(message))]);
    }
}

#[test]
fn a_sender_alone_sends_nothing() {
    for message in [&b""[..], b"AB"] {
        let with = plan(&[1, 0, 4, 1], 1, &[message], &[]);
        let without = plan(&[1, 0, 0], 1, &[message], &[]);
        assert_eq!(printed(&with), printed(&without));
    }
}

/// The second party's message has another length, so that a reader who mixes them up is seen.
#[test]
fn a_bad_sender_gives_two_messages() {
    let block = block(&[(1, &write(b"A")), (2, &write(b"BC"))]);
    let session = play(&by_bad(&[4, 3], &block)).expect("a sound plan");
    assert_eq!(session.messages, [b"A".to_vec(), b"BC".to_vec()]);
    assert_eq!(session.report(), "1 = 41\n2 = 41\nsent 388\n");
    assert_eq!(printed(&by_bad(&[6, 0, 3], &block)), "1 -\n2 -\nsent 0\n");
    let other = State::open(0, 3, 1, 2, b"BC").1.expect("opened");
    let given = [&[7][..], &other, &[1, 3]].concat();
    assert!(printed(&by_bad(&given, &block)).starts_with("1 = 4243\n2 = 4243\nsent "));
}

/// Whatever is not read is the empty message, and so is silence.
#[test]
fn a_bad_sender_is_not_read() {
    let empty = printed(&plan(&[3, 1, 0], 3, &[b"", b""], SILENT));
    assert!(empty.starts_with("1 =\n2 =\nsent "));
    let long = write(&vec![7; LONGEST_MESSAGE + 1]);
    let sent: [&[u8]; 10] = [
        &[],
        &[0],
        &[0, 0],
        &[8],
        &[8, 0, 0],
        &[8, 0, 0, 0],
        &[8, 0, 2, 65],
        &[8, 0xFF, 0xFF, 65],
        &[7, 1, 0, 1, 65],
        &long,
    ];
    for packet in sent {
        for other in sent {
            let both = block(&[(1, packet), (2, other)]);
            assert_eq!(printed(&by_bad(&[4, 3], &both)), empty);
        }
        assert_eq!(printed(&by_bad(&[4, 3], &block(&[(2, packet)]))), empty);
    }
    assert_eq!(printed(&by_bad(&[4, 3], &[0, 0])), empty);
}

/// One is handed a message and the other none, which is the empty one: they differ.
#[test]
fn silence_to_one_alone() {
    let block = block(&[(2, &write(b"BC"))]);
    let session = play(&by_bad(&[4, 3], &block)).expect("a sound plan");
    assert_eq!(session.bits, [1, 0]);
    assert!(session.report().starts_with("1 =\n2 =\nsent "));
}

/// The rule of the short agreement is over the roots of what the parties opened with.
#[test]
fn the_rule_is_over_what_was_opened_with() {
    let root_of = |message| State::open(0, 3, 1, 1, message).1.expect("opened");
    let (ours, empty) = (root_of(b"A"), root_of(b""));
    let rooted = |root: Hash, sender: u8| [&[5][..], &root, &[sender]].concat();
    assert_eq!(cause(&by_good(&rooted(ours, 1), b"A")), 0);
    assert_eq!(cause(&by_good(&rooted(empty, 1), b"A")), 14);
    assert_eq!(cause(&by_good(&[6, 0, 1], b"A")), 14);
    assert_eq!(cause(&by_good(&[6, 1, 1], b"A")), 0);
    assert_eq!(cause(&by_bad(&rooted(empty, 3), &[0, 0])), 0);
    assert_eq!(cause(&by_bad(&rooted(ours, 3), &[0, 0])), 14);
    let two = block(&[(1, &write(b"A"))]);
    assert_eq!(cause(&by_bad(&rooted(ours, 3), &two)), 0);
    assert_eq!(cause(&by_bad(&rooted(empty, 3), &two)), 0);
}

/// Every truncation is badly laid out, and so is a byte more.
#[test]
fn bad_layout() {
    let bad = by_bad(&[4, 3], &block(&[(1, &write(b"A")), (2, &[])]));
    for sound in [by_good(&[4, 1], b"AB"), by_good(&[6, 1, 2], b"AB"), bad] {
        assert_eq!(cause(&sound), 0);
        for length in 2..sound.len() {
            assert_eq!(cause(&sound[..length]), 13, "{length} bytes");
        }
        for more in [&[0][..], &[0, 0], SILENT] {
            assert_eq!(cause(&[&sound, more].concat()), 13);
        }
    }
    // Messages of both good parties, or of one that is not the sender; a block of a good sender, and
    // none of a bad one.
    assert_eq!(cause(&plan(&[3, 1, 4, 1], 3, &[b"A", b"A"], SILENT)), 13);
    assert_eq!(cause(&plan(&[3, 1, 4, 3], 3, &[b"A"], SILENT)), 13);
    assert_eq!(
        cause(&plan(
            &[3, 1, 4, 1],
            3,
            &[b"A"],
            &[SILENT, &[0, 0]].concat()
        )),
        13
    );
    assert_eq!(cause(&plan(&[3, 1, 4, 3], 3, &[], SILENT)), 13);
    for option in [16, 32, 64, 128] {
        assert_eq!(cause(&by_good(&[4 | option, 1], b"A")), 13);
    }
}

/// A bad sender's receivers are good, as those of any block.
#[test]
fn receivers_are_good() {
    for receiver in 1..=MOST_NAMED {
        let named = by_bad(&[4, 3], &block(&[(receiver, b"any")]));
        assert_eq!(cause(&named), if receiver < 3 { 0 } else { 13 });
        let map_alone = by_bad(&[4, 3], &map_of(&[receiver]));
        assert_eq!(cause(&map_alone), 13);
    }
}

/// A number that no party has: its block is read, and then it is cause 3, before 14.
#[test]
fn a_sender_that_is_none() {
    for n in 1..=MOST_PARTIES as u8 {
        let good = (1u32 << n) as u16 - 1;
        for sender in [0, n + 1, n + 2, 17, 32, 33, 255] {
            let of = |options: &[u8], behind: &[u8]| {
                cause(&plan(&[&[n, 0], options].concat(), good, &[], behind))
            };
            if (1..=n).contains(&sender) {
                continue;
            }
            assert_eq!(of(&[4, sender], &[0, 0]), 3);
            assert_eq!(of(&[4, sender], &block(&[(1, &write(b"A"))])), 3);
            assert_eq!(of(&[4, sender], &[]), 13);
            assert_eq!(of(&[4, sender], &[0, 0, 0]), 13);
            assert_eq!(of(&[4, sender], &[0, 1]), 13);
            assert_eq!(of(&[6, 2, sender], &[0, 0]), 3);
            let root = [&[5][..], &[9; 32], &[sender]].concat();
            assert_eq!(of(&root, &[0, 0]), 3);
        }
    }
    // With too many bad parties, and with no good one.
    let silent = SILENT.repeat(3);
    let behind = [&[0, 0], &silent[4..]].concat();
    assert_eq!(cause(&plan(&[3, 1, 4, 0], 1, &[], &behind)), 3);
    let behind = [&[0, 0], &silent[..]].concat();
    assert_eq!(cause(&plan(&[3, 1, 4, 4], 0, &[], &behind)), 3);
    assert_eq!(cause(&plan(&[3, 1, 4, 3], 0, &[], &behind)), 14);
    assert_eq!(cause(&plan(&[3, 1, 4, 3], 0, &[], &behind[1..])), 13);
}

#[test]
fn long_messages() {
    for length in [LONGEST_MESSAGE + 1, LONGEST_PLAN / 3] {
        let long = vec![7; length];
        let refused = by_good(&[4, 1], &long);
        assert_eq!(cause(&refused), 4);
        assert_eq!(cause(&refused[..refused.len() - 1]), 13);
        assert_eq!(cause(&[&refused[..], &[0]].concat()), 13);
        assert_eq!(cause(&by_good(&[6, 2, 1], &long)), 4);
        let root = [&[5][..], &[9; 32], &[1]].concat();
        assert_eq!(cause(&by_good(&root, &long)), 4);
        let two_bad = [SILENT, SILENT].concat();
        assert_eq!(cause(&plan(&[3, 1, 4, 1], 1, &[&long], &two_bad)), 4);
        assert_eq!(cause(&plan(&[3, 1, 4, 1], 1, &[b"A"], &two_bad)), 14);
    }
}

/// Plans that are only against what is supposed are played to their end; others are not.
#[test]
fn what_is_played_regardless() {
    let two_bad = [SILENT, SILENT].concat();
    let found = regardless(&plan(&[3, 1, 4, 1], 1, &[b"A"], &two_bad));
    let text = "1 = 41\nsent 256\n".to_string();
    assert_eq!(found, (Some(Fault::TooManyBad), Some(text)));
    let found = regardless(&plan(
        &[3, 1, 4, 2],
        1,
        &[],
        &[&[0, 0], &two_bad[..]].concat(),
    ));
    assert_eq!(found.0, Some(Fault::TooManyBad));
    assert!(found.1.is_some_and(|it| it.starts_with("1 =\nsent ")));
    let found = regardless(&by_bad(&[4, 0], &[0, 0]));
    assert_eq!(found, (Some(Fault::NoSender(0)), None));
    let found = regardless(&by_good(&[4, 1], &[7; LONGEST_MESSAGE + 1]));
    assert_eq!(found, (Some(Fault::LongMessage(1)), None));
}

#[test]
fn a_misfit_tells_its_offset() {
    let sound = by_bad(&[4, 3], &block(&[(2, &write(b"A"))]));
    let misfit = |bytes: &[u8]| read(bytes).err().map(|it| (it.offset, it.part, it.missing));
    let receivers = |round| Part::Receivers { round, sender: 3 };
    let packet = Part::Packet {
        round: Round::Sender,
        sender: 3,
        receiver: 2,
    };
    assert_eq!(misfit(&sound), None);
    assert_eq!(misfit(&sound[..3]), Some((3, Part::Sender, 1)));
    assert_eq!(misfit(&sound[..5]), Some((4, Part::Good, 1)));
    assert_eq!(misfit(&sound[..6]), Some((6, receivers(Round::Sender), 2)));
    assert_eq!(misfit(&sound[..9]), Some((8, packet, 1)));
    assert_eq!(misfit(&sound[..13]), Some((10, packet, 1)));
    assert_eq!(misfit(&sound[..14]), Some((14, receivers(Round::First), 2)));
    let mut changed = sound.clone();
    changed[7] = 4;
    assert_eq!(misfit(&changed), Some((6, receivers(Round::Sender), 0)));
}
