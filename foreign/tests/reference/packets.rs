//! Packets, and the outbox.

use foreign::examples::{bytes, Example, Field};
use foreign::limits::LONGEST_OUTBOX;
use foreign::packet::{read, Reading};
use foreign::party::State;
use foreign::{inbox, message_packet};

use crate::{length, sitting, Told};

/// One packet, field by field.
pub fn packet(example: &Example) -> Told {
    let mut told = Told::default();
    let (n, packet) = (example.number("n"), example.bytes("packet"));
    told.add("n", n);
    told.bytes("packet", &packet);
    told.add("bytes", packet.len());
    let Reading::Share {
        number,
        share,
        path,
    } = read(n, &packet)
    else {
        panic!("line {}: no share", example.line);
    };
    told.bytes("map", &packet[..1]);
    told.add("number", number);
    told.add("share length", share.len());
    told.bytes("share", &share);
    for (k, hash) in (1..).zip(&path) {
        told.bytes(format!("hash {k} of the path"), hash);
    }
    let [high, low] = (share.len() as u16).to_be_bytes();
    told.bytes("value in C", &[path.len() as u8, number as u8, high, low]);
    told
}

/// A list of packets, and what each is; a comma and a reason may follow.
fn list(told: &mut Told, fields: &[Field], what: impl Fn(&mut Told, &[u8]) -> String) {
    for field in fields {
        let packet = bytes(&field.name).expect("a packet's bytes");
        let what = what(told, &packet);
        let reason = field.value.split_once(", ").map(|it| it.1);
        let reason = reason.map_or(String::new(), |it| format!(", {it}"));
        told.add(&field.name, what + &reason);
    }
}

/// Packets with shares.
pub fn packets(example: &Example) -> Told {
    let mut told = Told::default();
    let n = example.number("n");
    told.add("n", n);
    list(&mut told, &example.fields[1..], |told, packet| {
        match read(n, packet) {
            Reading::Silence => "silence".to_string(),
            Reading::Share { number, .. } => format!("share {number}"),
            Reading::Refused(cause) => format!("cause {}", told.cause(cause)),
        }
    });
    told
}

/// Packets of a named sender.
pub fn books(example: &Example) -> Told {
    use message_packet::Reading;
    let mut told = Told::default();
    list(
        &mut told,
        &example.fields,
        |told, packet| match message_packet::read(packet) {
            Reading::Silence => "silence".to_string(),
            Reading::Message(book) => format!("a book of {} bytes", length(book.len())),
            Reading::Refused(cause) => format!("cause {}", told.cause(cause)),
        },
    );
    told
}

/// What a happy box writes on bit 1.
pub fn outbox(example: &Example) -> Told {
    let mut told = Told::default();
    let session = sitting(example, &mut told);
    let group = ["n", "t", "own"].map(|name| example.number(name));
    let book = example.bytes("book");
    for (name, number) in ["n", "t", "own"].iter().zip(group) {
        told.add(name, number);
    }
    told.bytes("book", &book);
    let [n, t, own] = group.map(|number| number as u64);
    let (state, root) = State::open(session, n, t, own, &book);
    let (state, bit) = state.agree_root(&root.expect("opened"));
    assert_eq!(bit, Ok(true));
    let mut out = vec![0; LONGEST_OUTBOX];
    let length = state.agree_bit(1, &mut out).1.expect("accepted");
    told.add("bytes", length);
    let packets = inbox::entries(group[0], &out[..length]).expect("an outbox");
    for (j, packet) in (1..).zip(packets) {
        told.bytes(format!("entry {j}"), &inbox::lay_out(&[packet]));
    }
    told
}
