//! Calls as the fuzzer makes them: on buffers that are allocations of just their length, so that an
//! access beside one is seen, and held to the header and to the foreign implementation.

use std::sync::atomic::{AtomicU64, Ordering::Relaxed};

use crate::call::{answered, beside, Answer, Call, Lent};

/// Each function with the causes that the header lists for it, 0 for accepted.
const LISTED: [(&str, &[u32]); 18] = [
    ("open", &[0, 1, 2, 3, 4, 9]),
    ("open_by_sender", &[0, 1, 2, 3, 4, 9]),
    ("agree_root", &[0, 5, 6, 7]),
    ("agree_bit", &[0, 5, 6, 7, 9]),
    ("take_shares", &[0, 5, 6, 8, 9]),
    ("take_relays", &[0, 5, 6, 8, 9]),
    ("result_length", &[0, 5, 6]),
    ("stage", &[0, 5]),
    ("own", &[0, 5]),
    ("session", &[0, 5]),
    ("faulty", &[0, 5]),
    ("read_packet", &[0, 1, 10]),
    ("read_message", &[0, 10]),
    ("check_path", &[0, 1, 3, 4, 7]),
    ("shares", &[0, 1, 2, 4, 9]),
    ("rebuild", &[0, 1, 2, 8, 9, 11, 12]),
    ("rebuild_with_root", &[0, 1, 2, 7, 8, 9, 11, 12, 15]),
    ("hash", &[0, 4, 9]),
];

/// The causes that there are, with 0.
const CAUSES: usize = 16;

/// How often each function had each cause.
static TIMES: [[AtomicU64; CAUSES]; LISTED.len()] =
    [const { [const { AtomicU64::new(0) }; CAUSES] }; LISTED.len()];

/// The library's answer. A clone's allocations have no room to spare, and an empty one has none.
fn library(call: &Call, lent: &mut Lent) -> Answer {
    let given = call.clone();
    let mut exact = lent.clone();
    let Lent { state, root, out } = &mut exact;
    let answer = answered(&given, state, root, out);
    assert!(given == *call, "{call:?} changed what it was to read");
    *lent = exact;
    answer
}

/// Makes a call, held to all that is known of it.
pub fn checked(call: &Call, lent: &mut Lent) -> Answer {
    let answer = beside(call, lent, library);
    let Answer { value, cause } = answer;
    let place = LISTED.iter().position(|(name, _)| *name == call.name());
    let place = place.expect("a listed function");
    assert!(LISTED[place].1.contains(&cause), "{call:?}: cause {cause}");
    assert!(
        matches!(cause, 0 | 9) || value == 0,
        "{call:?}: value {value}"
    );
    TIMES[place][cause as usize].fetch_add(1, Relaxed);
    answer
}

/// Prints for each function how often it was accepted and how often it had each cause.
pub extern "C" fn print_times() {
    for ((name, causes), times) in LISTED.iter().zip(&TIMES) {
        let told = causes.iter().map(|cause| {
            let times = times[*cause as usize].load(Relaxed);
            match cause {
                0 => format!("accepted {times}"),
                _ => format!("cause {cause} {times}"),
            }
        });
        eprintln!("calls: {name}: {}", told.collect::<Vec<_>>().join(", "));
    }
}
