//! Why a plan is refused, in the words of docs/REFERENCE.md and for the plan at hand.

use foreign::limits::{LONGEST_MESSAGE, LONGEST_PLAN, MOST_PARTIES};
use foreign::rehearsal::{Fault, Misfit, Part};

use crate::phrases::{bytes, grouped, name};

/// The words of the table of causes, for those that a plan can have.
pub fn words(cause: u32) -> String {
    match cause {
        1 => format!("n is not 1 to {MOST_PARTIES}"),
        2 => "2·t is n or more".to_string(),
        3 => "the sender's number is not 1 to n".to_string(),
        4 => format!("a book is longer than {} bytes", grouped(LONGEST_MESSAGE)),
        13 => format!(
            "the plan is badly laid out, or longer than {} bytes",
            grouped(LONGEST_PLAN)
        ),
        _ => "the plan has more than t bad boxes, a bit above 1, or a root or a bit against the rule \
              of the short agreement"
            .to_string(),
    }
}

/// What is wrong with these bytes.
pub fn detail(fault: Fault, plan: &[u8]) -> String {
    match fault {
        Fault::Parties => format!("The plan has n {}.", plan[0]),
        Fault::Limit => format!("The plan has n {} and t {}.", plan[0], plan[1]),
        Fault::TooLong => format!("The plan has {} bytes.", plan.len()),
        Fault::Layout(misfit) => place(misfit, plan.len()),
        Fault::NoSender(number) => format!("The plan has n {} and sender {number}.", plan[0]),
        Fault::LongMessage(number) => format!("Box {number}'s book is too long."),
        Fault::TooManyBad => "More boxes are bad than the limit allows.".to_string(),
        Fault::BitAbove => "The bit that is given is neither 0 nor 1.".to_string(),
        Fault::RootAgainst => against("root"),
        Fault::BitAgainst => against("bit"),
    }
}

/// The rule of the short agreement is broken.
fn against(what: &str) -> String {
    format!("All good boxes put one {what} into the short agreement, and the plan gives another.")
}

/// Where the layout went wrong, or ran out.
pub fn place(misfit: Misfit, length: usize) -> String {
    let Misfit {
        offset,
        part,
        missing,
    } = misfit;
    let part = named(part);
    let place = match missing {
        0 => format!("At byte {offset}: {}.", wrong(misfit.part)),
        _ => format!(
            "At byte {offset}, in {part}: the plan runs out, {} short.",
            bytes(missing)
        ),
    };
    format!("{place} It has {}, counted from 0.", bytes(length))
}

fn named(part: Part) -> String {
    match part {
        Part::Head => "n and t".to_string(),
        Part::Options => "the option map".to_string(),
        Part::Root => "the root".to_string(),
        Part::Bit => "the bit".to_string(),
        Part::Sender => "the sender's number".to_string(),
        Part::Session => "the sitting number".to_string(),
        Part::Good => "the map of good boxes".to_string(),
        Part::Message(number) => format!("box {number}'s book or its length"),
        Part::Receivers { round, sender } => {
            let exchange = name(round);
            format!("box {sender}'s map of receivers in the {exchange} exchange")
        }
        Part::Packet {
            round,
            sender,
            receiver,
        } => {
            let exchange = name(round);
            format!("the packet from {sender} to {receiver} in the {exchange} exchange")
        }
        Part::End => "the end".to_string(),
    }
}

/// What is wrong where no byte is missing.
fn wrong(part: Part) -> String {
    match part {
        Part::Options => "the option map has an unknown option".to_string(),
        Part::Good => "the map of good boxes has one beyond n".to_string(),
        Part::End => "the plan is at its end, and bytes are left over".to_string(),
        other => format!("{} has one that is not good", named(other)),
    }
}
