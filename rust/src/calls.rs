//! The functions of the archive, one for one, on borrowed bytes. All that is `unsafe` stands here.
//!
//! Lengths are the caller's to choose: what does not fit is refused with a cause and changes
//! nothing. An accepted call gives the value that the header `cipangohu.h` names, which also tells
//! what each function does.

use crate::cause::Cause;

/// What a call answers, as it comes: the archive gives both numbers in one register.
#[derive(Clone, Copy, Debug, PartialEq, Eq)]
#[must_use]
#[repr(C)]
pub struct Answer {
    pub value: u32,
    pub cause: u32,
}

impl Answer {
    /// The value of an accepted call, or why it was refused.
    pub fn accepted(self) -> Result<u32, Cause> {
        match self.cause {
            0 => Ok(self.value),
            number => Err(Cause::of(number, self.value as usize)),
        }
    }
}

mod archive {
    use super::Answer;

    extern "C" {
        pub fn cipangohu_open(
            session: u32,
            n: usize,
            t: usize,
            own: usize,
            message: *const u8,
            message_len: usize,
            state: *mut u8,
            state_len: usize,
            root: *mut u8,
            root_len: usize,
        ) -> Answer;
        pub fn cipangohu_open_by_sender(
            session: u32,
            n: usize,
            t: usize,
            own: usize,
            sender: usize,
            bytes: *const u8,
            bytes_len: usize,
            state: *mut u8,
            state_len: usize,
            root: *mut u8,
            root_len: usize,
            out: *mut u8,
            out_len: usize,
        ) -> Answer;
        pub fn cipangohu_agree_root(
            state: *mut u8,
            state_len: usize,
            root: *const u8,
            root_len: usize,
        ) -> Answer;
        pub fn cipangohu_agree_bit(
            state: *mut u8,
            state_len: usize,
            bit: usize,
            out: *mut u8,
            out_len: usize,
        ) -> Answer;
        pub fn cipangohu_take_shares(
            state: *mut u8,
            state_len: usize,
            inbox: *const u8,
            inbox_len: usize,
            out: *mut u8,
            out_len: usize,
        ) -> Answer;
        pub fn cipangohu_take_relays(
            state: *mut u8,
            state_len: usize,
            inbox: *const u8,
            inbox_len: usize,
            out: *mut u8,
            out_len: usize,
        ) -> Answer;
        pub fn cipangohu_result_length(state: *const u8, state_len: usize) -> Answer;
        pub fn cipangohu_stage(state: *const u8, state_len: usize) -> Answer;
        pub fn cipangohu_own(state: *const u8, state_len: usize) -> Answer;
        pub fn cipangohu_session(state: *const u8, state_len: usize) -> Answer;
        pub fn cipangohu_faulty(state: *const u8, state_len: usize) -> Answer;
        pub fn cipangohu_read_packet(n: usize, packet: *const u8, packet_len: usize) -> Answer;
        pub fn cipangohu_read_message(packet: *const u8, packet_len: usize) -> Answer;
        pub fn cipangohu_check_path(
            session: u32,
            n: usize,
            j: usize,
            share: *const u8,
            share_len: usize,
            path: *const u8,
            path_len: usize,
            root: *const u8,
            root_len: usize,
        ) -> Answer;
        pub fn cipangohu_shares(
            n: usize,
            t: usize,
            message: *const u8,
            message_len: usize,
            out: *mut u8,
            out_len: usize,
        ) -> Answer;
        pub fn cipangohu_rebuild(
            n: usize,
            t: usize,
            entries: *const u8,
            entries_len: usize,
            out: *mut u8,
            out_len: usize,
        ) -> Answer;
        pub fn cipangohu_rebuild_with_root(
            session: u32,
            n: usize,
            t: usize,
            root: *const u8,
            root_len: usize,
            entries: *const u8,
            entries_len: usize,
            out: *mut u8,
            out_len: usize,
        ) -> Answer;
        pub fn cipangohu_hash(
            message: *const u8,
            message_len: usize,
            out: *mut u8,
            out_len: usize,
        ) -> Answer;
        pub fn cipangohu_version() -> u32;
        pub fn cipangohu_state_size() -> usize;
    }
}

pub fn open(
    session: u32,
    (n, t, own): (usize, usize, usize),
    message: &[u8],
    state: &mut [u8],
    root: &mut [u8],
) -> Answer {
    // SAFETY: each pointer comes with its slice's length; slices that are written overlap no other.
    unsafe {
        archive::cipangohu_open(
            session,
            n,
            t,
            own,
            message.as_ptr(),
            message.len(),
            state.as_mut_ptr(),
            state.len(),
            root.as_mut_ptr(),
            root.len(),
        )
    }
}

pub fn open_by_sender(
    session: u32,
    (n, t, own): (usize, usize, usize),
    sender: usize,
    bytes: &[u8],
    state: &mut [u8],
    root: &mut [u8],
    out: &mut [u8],
) -> Answer {
    // SAFETY: each pointer comes with its slice's length; slices that are written overlap no other.
    unsafe {
        archive::cipangohu_open_by_sender(
            session,
            n,
            t,
            own,
            sender,
            bytes.as_ptr(),
            bytes.len(),
            state.as_mut_ptr(),
            state.len(),
            root.as_mut_ptr(),
            root.len(),
            out.as_mut_ptr(),
            out.len(),
        )
    }
}

pub fn agree_root(state: &mut [u8], root: &[u8]) -> Answer {
    // SAFETY: each pointer comes with its slice's length; the state overlaps no other slice.
    unsafe {
        archive::cipangohu_agree_root(state.as_mut_ptr(), state.len(), root.as_ptr(), root.len())
    }
}

pub fn agree_bit(state: &mut [u8], bit: usize, out: &mut [u8]) -> Answer {
    // SAFETY: each pointer comes with its slice's length; the two slices do not overlap.
    unsafe {
        archive::cipangohu_agree_bit(
            state.as_mut_ptr(),
            state.len(),
            bit,
            out.as_mut_ptr(),
            out.len(),
        )
    }
}

/// A step that takes an inbox and writes.
type Take = unsafe extern "C" fn(*mut u8, usize, *const u8, usize, *mut u8, usize) -> Answer;

fn take(step: Take, state: &mut [u8], inbox: &[u8], out: &mut [u8]) -> Answer {
    let (from, length) = (inbox.as_ptr(), inbox.len());
    let (to, room) = (out.as_mut_ptr(), out.len());
    // SAFETY: `step` is the archive's, each pointer comes with its slice's length, and slices that
    // are written overlap no other.
    unsafe { step(state.as_mut_ptr(), state.len(), from, length, to, room) }
}

pub fn take_shares(state: &mut [u8], inbox: &[u8], out: &mut [u8]) -> Answer {
    take(archive::cipangohu_take_shares, state, inbox, out)
}

pub fn take_relays(state: &mut [u8], inbox: &[u8], out: &mut [u8]) -> Answer {
    take(archive::cipangohu_take_relays, state, inbox, out)
}

/// What a state tells of its party, or a sender's packet of its message.
type Tell = unsafe extern "C" fn(*const u8, usize) -> Answer;

fn tell(of: Tell, bytes: &[u8]) -> Answer {
    // SAFETY: `of` is the archive's, the pointer comes with its slice's length, and nothing is
    // written.
    unsafe { of(bytes.as_ptr(), bytes.len()) }
}

pub fn result_length(state: &[u8]) -> Answer {
    tell(archive::cipangohu_result_length, state)
}

pub fn stage(state: &[u8]) -> Answer {
    tell(archive::cipangohu_stage, state)
}

pub fn own(state: &[u8]) -> Answer {
    tell(archive::cipangohu_own, state)
}

pub fn session(state: &[u8]) -> Answer {
    tell(archive::cipangohu_session, state)
}

pub fn faulty(state: &[u8]) -> Answer {
    tell(archive::cipangohu_faulty, state)
}

pub fn read_packet(n: usize, packet: &[u8]) -> Answer {
    // SAFETY: the pointer comes with its slice's length, and nothing is written.
    unsafe { archive::cipangohu_read_packet(n, packet.as_ptr(), packet.len()) }
}

pub fn read_message(packet: &[u8]) -> Answer {
    tell(archive::cipangohu_read_message, packet)
}

pub fn check_path(
    session: u32,
    (n, j): (usize, usize),
    share: &[u8],
    path: &[u8],
    root: &[u8],
) -> Answer {
    // SAFETY: each pointer comes with its slice's length, and nothing is written.
    unsafe {
        archive::cipangohu_check_path(
            session,
            n,
            j,
            share.as_ptr(),
            share.len(),
            path.as_ptr(),
            path.len(),
            root.as_ptr(),
            root.len(),
        )
    }
}

/// A function of n and t that reads bytes and writes.
type Code = unsafe extern "C" fn(usize, usize, *const u8, usize, *mut u8, usize) -> Answer;

fn code(by: Code, group: (usize, usize), bytes: &[u8], out: &mut [u8]) -> Answer {
    let (n, t) = group;
    let (to, room) = (out.as_mut_ptr(), out.len());
    // SAFETY: `by` is the archive's, each pointer comes with its slice's length, and the buffer
    // overlaps no other slice.
    unsafe { by(n, t, bytes.as_ptr(), bytes.len(), to, room) }
}

pub fn shares(group: (usize, usize), message: &[u8], out: &mut [u8]) -> Answer {
    code(archive::cipangohu_shares, group, message, out)
}

pub fn rebuild(group: (usize, usize), entries: &[u8], out: &mut [u8]) -> Answer {
    code(archive::cipangohu_rebuild, group, entries, out)
}

pub fn rebuild_with_root(
    session: u32,
    (n, t): (usize, usize),
    root: &[u8],
    entries: &[u8],
    out: &mut [u8],
) -> Answer {
    // SAFETY: each pointer comes with its slice's length; the buffer overlaps no other slice.
    unsafe {
        archive::cipangohu_rebuild_with_root(
            session,
            n,
            t,
            root.as_ptr(),
            root.len(),
            entries.as_ptr(),
            entries.len(),
            out.as_mut_ptr(),
            out.len(),
        )
    }
}

pub fn hash(message: &[u8], out: &mut [u8]) -> Answer {
    // SAFETY: each pointer comes with its slice's length; the buffer overlaps no other slice.
    unsafe { archive::cipangohu_hash(message.as_ptr(), message.len(), out.as_mut_ptr(), out.len()) }
}

pub fn version() -> u32 {
    // SAFETY: the function takes nothing and reads nothing.
    unsafe { archive::cipangohu_version() }
}

pub fn state_size() -> usize {
    // SAFETY: the function takes nothing and reads nothing.
    unsafe { archive::cipangohu_state_size() }
}
