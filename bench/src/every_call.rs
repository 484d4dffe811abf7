//! Every function of the archive along each of its ways, for whoever wants to run them all.

use cipangohu::calls::{self, Answer};
use cipangohu::{
    entries, lay_out, read_packet, HASH, MAX_HASHED, MAX_MESSAGE, MAX_MESSAGE_PACKET, MAX_OUTBOX,
    MAX_PATH, STATE,
};

use crate::numbered::NUMBERS;
use crate::party::{Party, Proved};
use crate::session::{moments, most_faults, Moments, Setting, GREATEST, SHORTER};

/// What is done with a call: its name is given, then the call itself.
pub type Visit<'a> = &'a mut dyn FnMut(&'static str, &mut dyn FnMut());

/// The lengths of the messages.
pub const LENGTHS: [usize; 5] = [0, 1, 100, SHORTER, MAX_MESSAGE];

/// All calls, with the least and the greatest numbers of parties, faults and bytes and those between,
/// and with and without a session number.
pub fn every_call(visit: Visit) {
    for setting in settings() {
        session(setting, visit);
    }
    for session in NUMBERS {
        strings(session, visit);
    }
}

/// The sessions, the greatest first.
fn settings() -> impl Iterator<Item = Setting> {
    let groups = (1..=GREATEST.n).rev();
    let groups = groups.flat_map(|n| [(n, 0), (n, most_faults(n))]);
    groups.flat_map(|(n, t)| {
        let kinds = NUMBERS.into_iter();
        let kinds = kinds.flat_map(|session| LENGTHS.map(|length| (session, length)));
        kinds.map(move |(session, length)| Setting {
            session,
            n,
            t,
            length,
            unhappy: usize::from(n > 1),
        })
    })
}

/// The calls of one session, and the tools on what is sent in it.
fn session(setting: Setting, visit: Visit) {
    let at = moments::<Proved>(setting);
    let message = setting.message(1);
    visit("open", &mut || {
        Proved::open(setting.session, (setting.n, setting.t), 1, &message);
    });
    by_sender(setting, &message, visit);
    happy_steps(&at, visit);
    if setting.unhappy > 0 {
        unhappy_steps(setting.n, &at, visit);
    }
    no_state(&at, visit);
    told(setting.session, &at, visit);
    code(setting, &at, visit);
    read(setting, &at, visit);
}

/// The openings by a sender, and its packet.
fn by_sender(setting: Setting, message: &[u8], visit: Visit) {
    let (session, group) = (setting.session, (setting.n, setting.t));
    let mut packet = vec![0; MAX_MESSAGE_PACKET];
    let mut length = 0;
    visit("open_by_sender, the sender", &mut || {
        (_, length) = Proved::open_by_sender(session, group, 1, message, &mut packet);
    });
    visit("read_message", &mut || {
        accepted(calls::read_message(&packet[..length]));
    });
    if setting.n > 1 {
        visit("open_by_sender, its packet", &mut || {
            Proved::open_by_sender(session, group, 2, &packet[..length], &mut []);
        });
    }
}

/// The value of a call that has to be accepted.
fn accepted(answer: Answer) -> u32 {
    answer.accepted().expect("the call is accepted")
}

/// Makes a call on a copy of a state.
fn on(state: &Proved, name: &'static str, visit: Visit, mut step: impl FnMut(&mut Proved)) {
    let mut party = state.clone();
    visit(name, &mut || step(&mut party));
}

fn happy_steps(at: &Moments<Proved>, visit: Visit) {
    let mut out = vec![0; MAX_OUTBOX];
    on(&at.opened[0], "agree_root, happy", visit, |party| {
        assert!(party.agree_root(&at.root));
    });
    on(&at.voted[0], "agree_bit, 0", visit, |party| {
        party.agree_bit(0, &mut out);
    });
    on(&at.voted[0], "agree_bit, happy", visit, |party| {
        party.agree_bit(1, &mut out);
    });
    on(&at.sent[0], "take_shares, happy", visit, |party| {
        party.take_shares(&at.first[0], &mut out);
    });
    on(&at.relayed[0], "take_relays, happy", visit, |party| {
        assert!(party.take_relays(&at.second, &mut out).is_some());
    });
    on(&at.ended[0], "take_relays, again", visit, |party| {
        assert!(party.take_relays(&[], &mut out).is_some());
    });
}

fn unhappy_steps(n: usize, at: &Moments<Proved>, visit: Visit) {
    let mut out = vec![0; MAX_OUTBOX];
    let silence = lay_out(&vec![[]; n]);
    let last = n - 1;
    on(&at.opened[last], "agree_root, unhappy", visit, |party| {
        assert!(!party.agree_root(&at.root));
    });
    on(&at.voted[last], "agree_bit, unhappy", visit, |party| {
        party.agree_bit(1, &mut out);
    });
    on(
        &at.sent[last],
        "take_shares, a share sent",
        visit,
        |party| {
            assert!(party.take_shares(&at.first[last], &mut out) > 0);
        },
    );
    on(&at.sent[last], "take_shares, silence", visit, |party| {
        assert_eq!(party.take_shares(&silence, &mut out), 0);
    });
    on(&at.relayed[last], "take_relays, rebuilt", visit, |party| {
        assert!(party.take_relays(&at.second, &mut out).is_some());
    });
    on(&at.relayed[last], "take_relays, nothing", visit, |party| {
        assert!(party.take_relays(&silence, &mut out).is_none());
    });
}

/// Each step on bytes that are no state. All bear one name, so that its figure is the greatest.
fn no_state(at: &Moments<Proved>, visit: Visit) {
    let name = "any step, no state";
    let refused = |answer: Answer| assert_eq!(answer.cause, 5);
    let (mut none, mut out) = ([0xFF; STATE], vec![0; MAX_OUTBOX]);
    visit(name, &mut || {
        refused(calls::agree_root(&mut none, &at.root))
    });
    visit(name, &mut || {
        refused(calls::agree_bit(&mut none, 1, &mut out))
    });
    visit(name, &mut || {
        refused(calls::take_shares(&mut none, &at.first[0], &mut out))
    });
    visit(name, &mut || {
        refused(calls::take_relays(&mut none, &at.second, &mut out))
    });
}

/// What a state tells.
fn told(session: u32, at: &Moments<Proved>, visit: Visit) {
    visit("result_length, stage, own, session, faulty", &mut || {
        let state = at.relayed[0].state();
        assert_eq!(calls::result_length(state).cause, 6);
        assert_eq!(accepted(calls::stage(state)), 3);
        assert_eq!(accepted(calls::own(state)), 1);
        assert_eq!(accepted(calls::session(state)), session);
        assert_eq!(accepted(calls::faulty(state)), 0);
    });
}

/// The coder.
fn code(setting: Setting, at: &Moments<Proved>, visit: Visit) {
    let group = (setting.n, setting.t);
    let message = setting.message(1);
    let mut out = vec![0; MAX_OUTBOX];
    visit("shares", &mut || {
        accepted(calls::shares(group, &message, &mut out));
    });
    let shares = cipangohu::shares(setting.n, setting.t, &message).expect("shares");
    let shares = lay_out(&shares);
    visit("rebuild", &mut || {
        accepted(calls::rebuild(group, &shares, &mut out));
    });
    visit("rebuild_with_root", &mut || {
        let (session, root) = (setting.session, &at.root);
        let rebuilt = calls::rebuild_with_root(session, group, root, &shares, &mut out);
        accepted(rebuilt);
    });
}

/// What is done with a packet.
fn read(setting: Setting, at: &Moments<Proved>, visit: Visit) {
    let Setting { session, n, .. } = setting;
    let mut relays = entries(&at.second).expect("entries");
    let relay = relays.next().expect("a relay");
    visit("read_packet", &mut || {
        accepted(calls::read_packet(n, relay));
    });
    let Ok(Some(packet)) = read_packet(n, relay) else {
        return;
    };
    visit("check_path, a share", &mut || {
        let passes = calls::check_path(session, (n, 1), packet.share, packet.path, &at.root);
        assert_eq!(accepted(passes), 1);
    });
}

/// The functions that take long strings.
fn strings(session: u32, visit: Visit) {
    let string = vec![7; MAX_HASHED];
    let mut digest = [0; HASH];
    visit("hash", &mut || {
        accepted(calls::hash(&string, &mut digest));
    });
    let path = [0; MAX_PATH * HASH];
    visit("check_path, the longest string", &mut || {
        let front = if session == 0 { 2 } else { 6 };
        let share = &string[front..];
        let passes = calls::check_path(session, (GREATEST.n, 1), share, &path, &digest);
        assert_eq!(accepted(passes), 0);
    });
}
