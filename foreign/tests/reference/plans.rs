//! Plans, and what their rehearsal prints.

use foreign::examples::{planned, Example};
use foreign::inbox::lay_out;
use foreign::rehearsal::{read, rehearse, Plan, Row};
use foreign::rehearsal::{BIT_GIVEN, ROOT_GIVEN, SENDER_GIVEN, SESSION_GIVEN};

use crate::Told;

const EXCHANGES: [&str; 2] = ["first", "second"];

/// The map of boxes in two bytes.
fn map(boxes: impl Iterator<Item = usize>) -> [u8; 2] {
    let map: u16 = boxes.map(|number| 1 << (number - 1)).sum();
    map.to_be_bytes()
}

/// What a bad box sends in an exchange.
fn sent(told: &mut Told, name: &str, sender: usize, row: &Row) {
    let row = (1..).zip(row);
    let packets = row.filter_map(|(receiver, packet)| Some((receiver, packet.as_ref()?)));
    let packets: Vec<(usize, &Vec<u8>)> = packets.collect();
    let receivers = map(packets.iter().map(|it| it.0));
    told.bytes(format!("{name} exchange, box {sender}"), &receivers);
    for (receiver, packet) in packets {
        told.bytes(format!("to box {receiver}"), &lay_out(&[packet]));
    }
}

/// The head of a plan, as far as the map of good boxes.
fn head(plan: &Plan, told: &mut Told) {
    let sender = plan.sender.as_ref().map(|it| it.number as u8);
    told.bytes("n", &[plan.n as u8]);
    told.bytes("t", &[plan.t as u8]);
    let given = [
        (plan.root.is_some(), ROOT_GIVEN),
        (plan.bit.is_some(), BIT_GIVEN),
        (sender.is_some(), SENDER_GIVEN),
        (plan.session.is_some(), SESSION_GIVEN),
    ];
    let options = given.iter().filter(|it| it.0).map(|it| it.1).sum();
    told.bytes("options", &[options]);
    if let Some(root) = &plan.root {
        told.bytes("root", root);
    }
    if let Some(bit) = plan.bit {
        told.bytes("bit", &[bit]);
    }
    if let Some(number) = sender {
        told.bytes("sender", &[number]);
    }
    if let Some(session) = plan.session {
        told.bytes("sitting", &session.to_be_bytes());
    }
    told.bytes("good boxes", &map(plan.good.iter().copied()));
}

/// The parts of a plan.
fn parts(plan: &Plan, told: &mut Told) {
    head(plan, told);
    for (own, book) in &plan.messages {
        told.bytes(format!("book of box {own}"), &lay_out(&[book]));
    }
    let bad = |number: &usize| !plan.good.contains(number);
    if let Some(sender) = plan.sender.iter().find(|it| bad(&it.number)) {
        sent(told, "sender's", sender.number, &sender.row);
    }
    for (name, exchange) in EXCHANGES.iter().zip([&plan.first, &plan.second]) {
        for sender in (1..=plan.n).filter(bad) {
            sent(told, name, sender, &exchange[sender - 1]);
        }
    }
}

/// Part by part, or whole where it is badly laid out.
pub fn plan(example: &Example) -> Told {
    let mut told = Told::default();
    let (plan, output) = planned(example).expect("a plan and its output");
    match read(&plan) {
        Ok(plan) => parts(&plan, &mut told),
        Err(_) => told.bytes("plan", &plan),
    }
    let printed = String::from_utf8(rehearse(&plan)).expect("a text");
    if let Some(cause) = printed.strip_prefix("refused ") {
        told.cause(cause.trim().parse().expect("a cause"));
    }
    // Spaces count in what is printed.
    told.add(
        "prints",
        if printed == output {
            &output
        } else {
            "another"
        },
    );
    told
}
