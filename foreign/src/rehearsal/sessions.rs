//! Tests of plans with a session's number.

use super::tests::{cause, plan, printed, SILENT};
use super::*;
use crate::liars::Sharing;
use crate::message_packet::write;
use crate::sessions::{pairs, EDGES};

/// Of three parties the first two are good and have these messages; what the third sends is told
/// behind them.
fn of_three(options: &[u8], session: u32, messages: &[&[u8]], behind: &[u8]) -> Vec<u8> {
    let head = [&[3, 1], options, &session.to_be_bytes()].concat();
    plan(&head, 3, messages, behind)
}

fn root_of(session: u32, message: &[u8]) -> Hash {
    Sharing::of(session, 3, 1, message).root
}

/// Whatever the number, a session whose bad party is silent goes as without one.
#[test]
fn a_number_changes_no_line() {
    for messages in [[b"AB", b"AB"], [b"AB", b"CD"]] {
        let messages = messages.map(|it| &it[..]);
        let without = printed(&plan(&[3, 1, 0], 3, &messages, SILENT));
        for session in EDGES {
            let with = of_three(&[8], session, &messages, SILENT);
            assert_eq!(printed(&with), without);
            assert_eq!(
                play(&with).expect("a sound plan").root,
                root_of(session, b"AB")
            );
        }
    }
}

/// The root that is given counts in the session of the plan alone.
#[test]
fn a_given_root_is_the_sessions_own() {
    for (session, other) in pairs() {
        let root = root_of(other, b"A");
        let fields = [&[9], &root[..]].concat();
        let found = cause(&of_three(&fields, session, &[b"A", b"A"], SILENT));
        assert_eq!(found, if other == session { 0 } else { 14 });
    }
}

/// The third party hands the second its share, which passes if it was made for this session.
#[test]
fn packets_of_another_session_are_not_taken() {
    for (session, other) in pairs() {
        let packets = Sharing::of(other, 3, 1, b"A");
        let first = [&[0, 2], &lay_out(&[packets.packet(2)])[..]].concat();
        let second = [&[0, 2], &lay_out(&[packets.packet(3)])[..]].concat();
        let sent = [first, second].concat();
        let bytes = of_three(&[8], session, &[b"A", b"B"], &sent);
        let played = play(&bytes).expect("a sound plan");
        assert_eq!(played.report(), "1 = 41\n2 = 41\nsent 388\n");
        let takings = played.takings.expect("bit 1");
        let gathered = takings.gathered[1].as_ref().expect("unhappy");
        assert_eq!(!gathered[2].is_empty(), other == session);
    }
}

/// Fields stand lowest option first, the number behind the sender's.
#[test]
fn beside_a_sender() {
    for session in EDGES {
        let good = of_three(&[12, 1], session, &[b"AB"], SILENT);
        assert_eq!(printed(&good), "1 = 4142\n2 = 4142\nsent 506\n");
        let two = [&[0, 3][..], &lay_out(&[write(b"A"), write(b"BC")])].concat();
        let bad = of_three(&[12, 3], session, &[], &[&two, SILENT].concat());
        assert_eq!(printed(&bad), "1 = 41\n2 = 41\nsent 388\n");
        let all = [&[15], &root_of(session, b"BC")[..], &[1, 3]].concat();
        let all = of_three(&all, session, &[], &[&two, SILENT].concat());
        assert!(printed(&all).starts_with("1 = 4243\n2 = 4243\nsent "));
    }
}

#[test]
fn bad_layout() {
    let sound = of_three(&[14, 1, 1], 0x0102_0304, &[b"AB"], SILENT);
    assert_eq!(cause(&sound), 0);
    let session = |bytes: &[u8]| read(bytes).map(|plan| plan.session);
    assert_eq!(session(&sound), Ok(Some(0x0102_0304)));
    let absent = plan(&[3, 1, 0], 3, &[b"A", b"A"], SILENT);
    assert_eq!(session(&absent), Ok(None));
    for length in 2..sound.len() {
        assert_eq!(cause(&sound[..length]), 13, "{length} bytes");
    }
    assert_eq!(cause(&[&sound[..], &[0]].concat()), 13);
    let misfit = |bytes: &[u8]| read(bytes).err().map(|it| (it.offset, it.part, it.missing));
    for missing in 1..=4 {
        let cut = misfit(&sound[..9 - missing]);
        assert_eq!(cut, Some((5, Part::Session, missing)));
    }
}
