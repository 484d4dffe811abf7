//! Every call of the archive fits a small stack: it runs on a thread that has no more, where one that
//! takes more ends the test with a fault.

use std::thread;

use figures::every_call::every_call;
use figures::stack::{taken, ROOM};

/// Runs work on a thread of that stack.
fn on_small_stack(work: impl FnOnce() + Send) {
    thread::scope(|scope| {
        let thread = thread::Builder::new()
            .stack_size(ROOM)
            .spawn_scoped(scope, work);
        thread.expect("a thread").join().expect("it ends well");
    });
}

#[test]
fn every_call_fits() {
    on_small_stack(|| every_call(&mut |_, call| call()));
}

const FRAME: usize = ROOM / 2;

/// The measure sees a frame of known size.
#[test]
fn a_known_frame_is_seen() {
    let frame = || {
        let mut bytes = [0u8; FRAME];
        std::hint::black_box(&mut bytes);
    };
    let bytes = taken(&mut || frame());
    assert!((FRAME..FRAME + 2_000).contains(&bytes), "{bytes}");
}
