//! One call of the library with its arguments, made on lent buffers by the library and by the
//! foreign implementation.

use cipangohu::calls;
pub use cipangohu::calls::Answer;

use crate::reference;

#[derive(Clone, Debug, PartialEq)]
pub enum Call {
    Open(u32, (usize, usize, usize), Vec<u8>),
    OpenBySender(u32, (usize, usize, usize), usize, Vec<u8>),
    AgreeRoot(Vec<u8>),
    AgreeBit(usize),
    TakeShares(Vec<u8>),
    TakeRelays(Vec<u8>),
    ResultLength,
    Stage,
    Own,
    Session,
    Faulty,
    ReadPacket(usize, Vec<u8>),
    ReadMessage(Vec<u8>),
    CheckPath(u32, (usize, usize), Vec<u8>, Vec<u8>, Vec<u8>),
    Shares((usize, usize), Vec<u8>),
    Rebuild((usize, usize), Vec<u8>),
    RebuildWithRoot(u32, (usize, usize), Vec<u8>, Vec<u8>),
    Hash(Vec<u8>),
}

/// What a call may write; a call without a state, a root or a buffer leaves it alone. The root is
/// written by openings alone.
#[derive(Clone, Debug, Default, PartialEq)]
pub struct Lent {
    pub state: Vec<u8>,
    pub root: Vec<u8>,
    pub out: Vec<u8>,
}

impl Call {
    pub fn name(&self) -> &'static str {
        match self {
            Call::Open(..) => "open",
            Call::OpenBySender(..) => "open_by_sender",
            Call::AgreeRoot(_) => "agree_root",
            Call::AgreeBit(_) => "agree_bit",
            Call::TakeShares(_) => "take_shares",
            Call::TakeRelays(_) => "take_relays",
            Call::ResultLength => "result_length",
            Call::Stage => "stage",
            Call::Own => "own",
            Call::Session => "session",
            Call::Faulty => "faulty",
            Call::ReadPacket(..) => "read_packet",
            Call::ReadMessage(_) => "read_message",
            Call::CheckPath(..) => "check_path",
            Call::Shares(..) => "shares",
            Call::Rebuild(..) => "rebuild",
            Call::RebuildWithRoot(..) => "rebuild_with_root",
            Call::Hash(_) => "hash",
        }
    }
}

/// The library's answer.
pub fn answered(call: &Call, state: &mut [u8], root: &mut [u8], out: &mut [u8]) -> Answer {
    match call {
        Call::Open(session, group, message) => calls::open(*session, *group, message, state, root),
        Call::OpenBySender(session, group, sender, bytes) => {
            calls::open_by_sender(*session, *group, *sender, bytes, state, root, out)
        }
        Call::AgreeRoot(root) => calls::agree_root(state, root),
        Call::AgreeBit(bit) => calls::agree_bit(state, *bit, out),
        Call::TakeShares(inbox) => calls::take_shares(state, inbox, out),
        Call::TakeRelays(inbox) => calls::take_relays(state, inbox, out),
        Call::ResultLength => calls::result_length(state),
        Call::Stage => calls::stage(state),
        Call::Own => calls::own(state),
        Call::Session => calls::session(state),
        Call::Faulty => calls::faulty(state),
        Call::ReadPacket(n, packet) => calls::read_packet(*n, packet),
        Call::ReadMessage(packet) => calls::read_message(packet),
        Call::CheckPath(session, place, share, path, root) => {
            calls::check_path(*session, *place, share, path, root)
        }
        Call::Shares(group, message) => calls::shares(*group, message, out),
        Call::Rebuild(group, entries) => calls::rebuild(*group, entries, out),
        Call::RebuildWithRoot(session, group, root, entries) => {
            calls::rebuild_with_root(*session, *group, root, entries, out)
        }
        Call::Hash(message) => calls::hash(message, out),
    }
}

/// Makes the call on both sides and compares the answers and every lent byte. `library` is how the
/// library's buffers are lent.
pub fn beside(
    call: &Call,
    lent: &mut Lent,
    library: impl FnOnce(&Call, &mut Lent) -> Answer,
) -> Answer {
    let before = lent.clone();
    let mut expected = lent.clone();
    let told = reference::answer(call, &mut expected);
    let answer = library(call, lent);
    assert_eq!(answer, told, "{call:?} on {before:?}");
    assert!(
        *lent == expected,
        "{call:?} on {before:?} left {lent:?}, not {expected:?}"
    );
    assert!(
        answer.cause == 0 || *lent == before,
        "{call:?} refused with bytes changed"
    );
    answer
}
