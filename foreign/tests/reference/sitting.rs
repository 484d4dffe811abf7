//! Openings, and boxes that are taken through their steps, with the bytes of their states.

use foreign::examples::{number, written_over, Example, Field};
use foreign::limits::{LONGEST_MESSAGE_PACKET, LONGEST_OUTBOX};
use foreign::party::{Begun, Ending, Given, Outcome, Refusal, Stage, State};

use crate::{digits, length, Told};

/// The version of the layout of a state's bytes.
const VERSION: u8 = 4;

/// Where the stage stands in them.
const AT_STAGE: usize = 4;

/// A limit by its name in the text.
fn limit(name: &str) -> usize {
    number(name).unwrap_or_else(|| panic!("no limit {name}"))
}

/// What an opening gives, unless one of its buffers, in this order, has less room than is needed; the
/// call tells their rooms where they are not ample.
fn in_rooms<T>(call: &Field, given: Given<T>, needed: &[usize]) -> Given<T> {
    let (Ok(_), Some(told)) = (&given.1, call.argument("room")) else {
        return given;
    };
    let rooms = told
        .split(" and ")
        .map(|room| number(room).expect("a length"));
    let rooms: Vec<usize> = rooms.collect();
    assert_eq!(rooms.len(), needed.len(), "{told}");
    match rooms
        .iter()
        .zip(needed)
        .find(|(room, needed)| room < needed)
    {
        Some((_, &needed)) => (State::blank(), Err(Refusal { cause: 9, needed })),
        None => given,
    }
}

/// An opening by the arguments of a call. Its room is that for the state and that for the root.
fn opened(call: &Field) -> Given<[u8; 32]> {
    let argument = |name| call.number(name).expect("a number") as u64;
    let book = call.bytes("book").expect("a book");
    let [n, t, own] = ["n", "t", "own"].map(argument);
    let given = State::open(call.sitting(), n, t, own, &book);
    in_rooms(call, given, &[limit("STATE"), limit("ROOT")])
}

/// An opening by a named sender, with the packet that it writes. It is handed a book, or a packet that
/// came; its third room is that for the packet.
fn opened_by_sender(call: &Field) -> (Given<[u8; 32]>, Vec<u8>) {
    let argument = |name| call.number(name).expect("a number") as u64;
    let [n, t, own, sender] = ["n", "t", "own", "sender"].map(argument);
    let is_sender = own == sender;
    let bytes = call.bytes(if is_sender { "book" } else { "packet" });
    let mut out = vec![0; LONGEST_MESSAGE_PACKET];
    let bytes = bytes.expect("a sender's book, or another's packet");
    let given = State::open_by_sender(call.sitting(), (n, t), own, sender, &bytes, &mut out);
    let written = given.1.map_or(0, |begun| begun.written);
    let needed = [limit("STATE"), limit("ROOT"), written];
    let (state, begun) = in_rooms(call, given, &needed);
    out.truncate(written);
    ((state, begun.map(|Begun { root, .. }| root)), out)
}

/// The lines under an opening, and its state.
fn told_of_opening(call: &Field, told: &mut Told) -> State {
    let ((state, root), packet) = match call.name.as_str() {
        "open" => (opened(call), None),
        _ => {
            let (given, packet) = opened_by_sender(call);
            (given, Some(packet))
        }
    };
    told.add(&call.name, &call.value);
    match root {
        Ok(root) => {
            told.bytes("root", &root);
            packet
                .iter()
                .for_each(|packet| told.bytes("packet", packet));
        }
        Err(refusal) => refused(refusal, told),
    }
    state
}

/// The refusal as it stands in an example.
fn refused(refusal: Refusal, told: &mut Told) {
    let cause = told.cause(refusal.cause);
    match refusal.needed {
        0 => told.add("cause", cause),
        needed => told.add("cause", format!("{cause}, needs {}", length(needed))),
    }
}

/// Openings that have nothing to do with one another.
pub fn openings(example: &Example) -> Told {
    let mut told = Told::default();
    let calls = example.fields.iter();
    for call in calls.filter(|field| field.name.starts_with("open")) {
        told_of_opening(call, &mut told);
    }
    told
}

/// A call with a buffer: its state and answer, and what it wrote.
fn lent<T>(
    call: &Field,
    step: impl FnOnce(&mut [u8]) -> Given<T>,
    written: impl FnOnce(T, &[u8]) -> String,
) -> (State, Result<String, Refusal>) {
    let room = call.number("room").unwrap_or(LONGEST_OUTBOX);
    let mut out = vec![0; room];
    let (state, answer) = step(&mut out);
    (state, answer.map(|it| written(it, &out)))
}

/// What a call is told that asks something of the state.
fn asked(state: &State, call: &str) -> Result<u64, Refusal> {
    match (call, state.stage) {
        ("stage", _) => Ok(encoded(state)[AT_STAGE].into()),
        ("own", _) => Ok(state.own),
        ("session", _) => Ok(state.session.into()),
        ("faulty", _) => Ok(state.faulty.into()),
        ("result_length", Stage::Ended(Outcome::Message(length))) => Ok(length),
        ("result_length", _) => Err(6.into()),
        (other, _) => panic!("{other}: no call of a box"),
    }
}

/// The result of step 5, with the boxes in its map, if there are any.
fn ended(ending: Ending, out: &[u8]) -> String {
    let result = match ending.length {
        Some(length) => format!("book {}", digits(&out[..length])),
        None => "nothing".to_string(),
    };
    let in_map = |number: &u32| ending.faulty >> (number - 1) & 1 == 1;
    let seen: Vec<String> = (1..=u32::BITS)
        .filter(in_map)
        .map(|it| it.to_string())
        .collect();
    match seen.is_empty() {
        true => result,
        false => format!("{result}, saw {}", seen.join(" and ")),
    }
}

/// Does a step, or asks something of the state; the name of what it gives stands with its answer.
fn step(state: State, call: &Field) -> (State, Result<String, Refusal>, &'static str) {
    let bytes = |name| call.bytes(name).expect("an argument in bytes");
    let all = |length: usize, out: &[u8]| digits(&out[..length]);
    match call.name.as_str() {
        "agree_root" => {
            let (state, happy) = state.agree_root(&bytes("root"));
            (state, happy.map(|it| u8::from(it).to_string()), "bit")
        }
        "agree_bit" => {
            let bit = call.number("bit").expect("a bit");
            let bit = bit.try_into().unwrap_or(u8::MAX);
            let (state, answer) = lent(call, |out| state.agree_bit(bit, out), all);
            (state, answer, "outbox")
        }
        "take_shares" => {
            let inbox = bytes("inbox");
            let (state, answer) = lent(call, |out| state.take_shares(&inbox, out), all);
            (state, answer, "relay")
        }
        "take_relays" => {
            let inbox = bytes("inbox");
            let (state, answer) = lent(call, |out| state.take_relays(&inbox, out), ended);
            (state, answer, "result")
        }
        _ => {
            let answer = asked(&state, &call.name).map(|it| it.to_string());
            (state, answer, "value")
        }
    }
}

/// The bytes of a state.
fn encoded(state: &State) -> Vec<u8> {
    let (stage, length) = match state.stage {
        Stage::Root => (0, state.len),
        Stage::Bit => (1, state.len),
        Stage::First => (2, state.len),
        Stage::Second => (3, state.len),
        Stage::Ended(Outcome::Nothing) => (4, 0),
        Stage::Ended(Outcome::Message(length)) => (5, length),
    };
    let numbers = [state.n, state.t, state.own].map(|number| number as u8);
    let [length, held] = [length, state.held].map(|it| (it as u16).to_be_bytes());
    let mut bytes = vec![VERSION];
    for part in [
        &numbers[..],
        &[stage],
        &length,
        &held,
        &state.session.to_be_bytes(),
        &state.faulty.to_be_bytes(),
        &state.root,
        &state.message,
        &state.share,
    ] {
        bytes.extend(part);
    }
    bytes
}

/// One box: its opening, then its steps, each on the state that the last one gave; where the example
/// tells the state, or writes over it, as well.
pub fn sitting(example: &Example) -> Told {
    let mut told = Told::default();
    let mut box_state = State::blank();
    for field in &example.fields {
        let name = field.name.as_str();
        let (next, answer, given) = match name {
            "open" | "open_by_sender" => {
                box_state = told_of_opening(field, &mut told);
                continue;
            }
            "state" => {
                let zeros = vec![0; limit("STATE")];
                let shown = written_over(&zeros, &field.value).expect("a state");
                let right = shown == encoded(&box_state);
                told.add("state", if right { &field.value } else { "another" });
                continue;
            }
            "written over" => {
                let bytes = written_over(&encoded(&box_state), &field.value);
                box_state = decoded(&bytes.expect("bytes to write")).expect("a state");
                told.add(name, &field.value);
                continue;
            }
            "root" | "packet" | "bit" | "outbox" | "relay" | "result" | "value" | "cause" => {
                continue
            }
            _ => step(box_state, field),
        };
        told.add(name, &field.value);
        match answer {
            Ok(answer) => told.add(given, answer),
            Err(refusal) => refused(refusal, &mut told),
        }
        box_state = next;
    }
    assert_eq!(encoded(&box_state).len(), limit("STATE"));
    told
}

/// The number in two bytes.
fn two(bytes: &[u8]) -> u64 {
    u64::from(u16::from_be_bytes([bytes[0], bytes[1]]))
}

/// The state of bytes; none where no state has this version, this stage or so few bytes.
fn decoded(bytes: &[u8]) -> Option<State> {
    let whole = bytes.get(..limit("STATE"))?;
    let (&[version, n, t, own, stage], rest) = whole.split_first_chunk::<5>()?;
    let (length, held) = (two(rest), two(&rest[2..]));
    let (session, rest) = rest[4..].split_first_chunk()?;
    let (faulty, rest) = rest.split_first_chunk()?;
    let (root, rooms) = rest.split_first_chunk()?;
    let (message, share) = rooms.split_first_chunk()?;
    let stages = [Stage::Root, Stage::Bit, Stage::First, Stage::Second];
    let ends = [Outcome::Nothing, Outcome::Message(length)].map(Stage::Ended);
    let stage = *stages.iter().chain(&ends).nth(stage.into())?;
    (version == VERSION).then_some(State {
        session: u32::from_be_bytes(*session),
        n: n.into(),
        t: t.into(),
        own: own.into(),
        stage,
        len: if stage == ends[1] { 0 } else { length },
        held,
        root: *root,
        message: *message,
        share: share.try_into().ok()?,
        faulty: u32::from_be_bytes(*faulty),
    })
}

/// The cause that step 2 gives on a state of these bytes.
fn judged(bytes: &[u8]) -> Option<u32> {
    let Some(state) = decoded(bytes) else {
        return Some(5);
    };
    let answer = state.agree_root(&[0; 32]).1;
    answer.err().map(|refusal| refusal.cause)
}

/// A state with some bytes written over it or with another length, and what step 2 says of it; a
/// reason may follow.
pub fn broken(example: &Example) -> Told {
    let mut told = Told::default();
    let (open, changes) = example.fields.split_first().expect("an opening");
    told.add("open", &open.value);
    let sound = encoded(&opened(open).0);
    for change in changes {
        let cause = judged(&written_over(&sound, &change.name).expect("bytes to write"));
        let what = match cause {
            Some(cause) => format!("cause {}", told.cause(cause)),
            None => "taken".to_string(),
        };
        let reason = change.value.split_once(", ").map_or("", |it| it.1);
        told.add(&change.name, format!("{what}, {reason}"));
    }
    told
}
