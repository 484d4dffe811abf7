//! The steps of one party as pieces of work to be timed. Each begins from a copy of the state that the
//! session had come to.

use std::hint::black_box;

use cipangohu::{MAX_MESSAGE_PACKET, MAX_OUTBOX};

use crate::party::Party;
use crate::session::{Moments, Setting};

#[derive(Clone, Copy, PartialEq, Eq)]
pub enum Step {
    Open,
    Send,
    Receive,
    Root,
    Bit,
    OwnShare,
    ShareSent,
    OwnMessage,
    Rebuild,
    Again,
}

impl Step {
    pub const ALL: [Step; 10] = [
        Step::Open,
        Step::Send,
        Step::Receive,
        Step::Root,
        Step::Bit,
        Step::OwnShare,
        Step::ShareSent,
        Step::OwnMessage,
        Step::Rebuild,
        Step::Again,
    ];

    pub fn name(self) -> &'static str {
        match self {
            Step::Open => "opening",
            Step::Send => "opening, as the sender",
            Step::Receive => "opening, from its packet",
            Step::Root => "step 2",
            Step::Bit => "step 3",
            Step::OwnShare => "step 4, own share",
            Step::ShareSent => "step 4, a share sent",
            Step::OwnMessage => "step 5, own book",
            Step::Rebuild => "step 5, by rebuild",
            Step::Again => "step 5, read again",
        }
    }
}

pub type Work<'a> = Box<dyn FnMut() + 'a>;

/// An opening: the ordinary one, the sender's, or another party's from its packet.
fn opening<'a, P: Party + 'a>(step: Step, setting: Setting) -> Work<'a> {
    let (session, group) = (setting.session, (setting.n, setting.t));
    let message = setting.message(1);
    let mut out = vec![0; MAX_MESSAGE_PACKET];
    match step {
        Step::Send => Box::new(move || {
            let opened = P::open_by_sender(session, group, 1, black_box(&message), &mut out);
            black_box(opened);
        }),
        Step::Receive => {
            let (_, length) = P::open_by_sender(session, group, 1, &message, &mut out);
            out.truncate(length);
            Box::new(move || {
                let opened = P::open_by_sender(session, group, 2, black_box(&out), &mut []);
                black_box(opened);
            })
        }
        _ => Box::new(move || {
            black_box(P::open(session, group, 1, black_box(&message)));
        }),
    }
}

/// The step as the first party does it, or as the last does, which is unhappy.
pub fn work<'a, P: Party>(step: Step, setting: Setting, at: &'a Moments<P>) -> Work<'a> {
    let mut out = vec![0; MAX_OUTBOX];
    let last = setting.n - 1;
    match step {
        Step::Open | Step::Send | Step::Receive => opening::<P>(step, setting),
        Step::Root => again(&at.opened[0], |party| {
            usize::from(party.agree_root(&at.root))
        }),
        Step::Bit => again(&at.voted[0], move |party| party.agree_bit(1, &mut out)),
        Step::OwnShare => again(&at.sent[0], move |party| {
            party.take_shares(&at.first[0], &mut out)
        }),
        Step::ShareSent => again(&at.sent[last], move |party| {
            party.take_shares(&at.first[last], &mut out)
        }),
        Step::OwnMessage => again(&at.relayed[0], move |party| {
            party.take_relays(&at.second, &mut out).expect("a message")
        }),
        Step::Rebuild => again(&at.relayed[last], move |party| {
            party.take_relays(&at.second, &mut out).expect("a message")
        }),
        Step::Again => again(&at.ended[0], move |party| {
            party.take_relays(&[], &mut out).expect("a message")
        }),
    }
}

fn again<'a, P: Party>(state: &'a P, mut step: impl FnMut(&mut P) -> usize + 'a) -> Work<'a> {
    Box::new(move || {
        let mut party = state.clone();
        black_box(step(black_box(&mut party)));
        black_box(&party);
    })
}
