//! Tests of whom the good parties of a session saw cheat.

use super::tests::plan;
use super::*;
use crate::liars::Sharing;
use crate::packet::{classify, Standing};
use crate::plans;

/// The map of these parties.
fn map_of(parties: impl IntoIterator<Item = usize>) -> u32 {
    parties.into_iter().map(|party| 1 << (party - 1)).sum()
}

/// Those whose packet in an exchange is faulty to a party that demands a number of each.
fn faulty(
    session: &Session,
    exchange: &Exchange,
    own: usize,
    demanded: impl Fn(usize) -> usize,
) -> u32 {
    let plan = &session.plan;
    let number = plan.session_number();
    let cheats = (1..=plan.n).filter(|&sender| {
        let packet = exchange[sender - 1][own - 1].as_deref().unwrap_or_default();
        let standing = classify(number, plan.n, demanded(sender), session.root, packet);
        sender != own && standing == Ok(Standing::Faulty)
    });
    map_of(cheats)
}

/// Over random plans, also where more than t are bad or the rule is broken: a sender stands in a map
/// exactly if one of its two packets was faulty, and so no good one does.
#[test]
fn exactly_who_cheated_is_in_the_map() {
    let (mut happy, mut unhappy, mut both, mut by_some) = (0, 0, 0, 0);
    for session in (1..=3_000).filter_map(|k| play_regardless(&plans::plan(k).bytes)) {
        let Some(takings) = &session.takings else {
            continue;
        };
        let good = map_of(session.plan.good.iter().copied());
        for (place, &own) in session.plan.good.iter().enumerate() {
            let first = faulty(&session, &session.plan.first, own, |_| own);
            let second = faulty(&session, &session.plan.second, own, |sender| sender);
            assert_eq!(takings.faulty_first[place], first);
            assert_eq!(takings.faulty[place], first | second);
            assert_eq!(good & (first | second), 0);
            both += u32::from(first & second > 0);
            match session.bits[place] {
                1 => happy += u32::from(first | second > 0),
                _ => unhappy += u32::from(first | second > 0),
            }
        }
        by_some += u32::from(takings.faulty.iter().any(|it| *it != takings.faulty[0]));
    }
    println!("{happy} happy and {unhappy} unhappy maps, {both} of both, {by_some} not alike");
    assert!([happy, unhappy, both, by_some].iter().all(|&it| it > 100));
}

/// Party 4 is bad. Party 1, who is happy, gets its own good packet; party 2 gets bytes in both exchanges
/// that cannot be read; party 3 gets the relay of another.
#[test]
fn each_has_a_map_of_its_own() {
    let agreed = Sharing::of(0, 4, 1, b"A");
    let first = [&[0, 3], &lay_out(&[&agreed.packet(1)[..], &[9]])[..]].concat();
    let second = [&[0, 6], &lay_out(&[&[0, 0], &agreed.packet(1)[..]])[..]].concat();
    let sent = [first, second].concat();
    for messages in [[b"A", b"A", b"A"], [b"A", b"B", b"B"]] {
        let bytes = plan(&[4, 1, 2, 1], 7, &messages.map(|it| &it[..]), &sent);
        let session = play(&bytes).expect("a sound plan");
        let takings = session.takings.as_ref().expect("bit 1");
        assert_eq!(takings.faulty_first, [0, 8, 0]);
        assert_eq!(takings.faulty, [0, 8, 8]);
    }
}
