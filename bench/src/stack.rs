//! The stack that a call takes: it runs on a thread whose stack was painted before, and what is no
//! longer painted afterwards was used.

use std::ffi::{c_int, c_ulong, c_void};
use std::ptr;

use crate::every_call::every_call;

/// What every call has to fit in.
pub const ROOM: usize = 96 * 1024;

/// More than any call takes, so that nothing is written outside it.
const SIZE: usize = 4 * ROOM;
const PAINT: u8 = 0xA5;

/// More than the 56 bytes of a pthread_attr_t.
type Attributes = [u64; 16];
type Start = extern "C" fn(*mut c_void) -> *mut c_void;

extern "C" {
    fn pthread_attr_init(attributes: *mut Attributes) -> c_int;
    fn pthread_attr_setstack(attributes: *mut Attributes, stack: *mut c_void, size: usize)
        -> c_int;
    fn pthread_attr_destroy(attributes: *mut Attributes) -> c_int;
    fn pthread_create(
        thread: *mut c_ulong,
        attributes: *const Attributes,
        start: Start,
        argument: *mut c_void,
    ) -> c_int;
    fn pthread_join(thread: c_ulong, result: *mut *mut c_void) -> c_int;
}

struct Measured<'a> {
    call: &'a mut dyn FnMut(),
    lowest: *const u8,
    taken: usize,
}

/// Makes the call, then looks for the first byte from below that is not painted any more.
extern "C" fn measure(argument: *mut c_void) -> *mut c_void {
    // SAFETY: `taken` hands over its `Measured` and waits; nobody else uses it meanwhile.
    let measured = unsafe { &mut *argument.cast::<Measured>() };
    let here = ptr::from_ref(&argument).cast::<u8>();
    (measured.call)();
    let mut place = measured.lowest;
    // SAFETY: from the lowest byte up to the frame of this function all belongs to the stack.
    while place < here && unsafe { place.read_volatile() } == PAINT {
        place = place.wrapping_add(1);
    }
    measured.taken = here as usize - place as usize;
    ptr::null_mut()
}

/// The greatest stack of each call over all numbers and lengths.
pub fn greatest() -> Vec<(&'static str, usize)> {
    let mut greatest: Vec<(&'static str, usize)> = Vec::new();
    every_call(&mut |name, call| {
        let bytes = taken(call);
        match greatest.iter_mut().find(|(known, _)| *known == name) {
            Some((_, most)) => *most = bytes.max(*most),
            None => greatest.push((name, bytes)),
        }
    });
    greatest
}

/// The bytes of stack that a call takes, from its caller's frame down.
pub fn taken(call: &mut dyn FnMut()) -> usize {
    let mut stack = vec![PAINT; SIZE];
    let lowest = stack.as_mut_ptr();
    let mut measured = Measured {
        call,
        lowest,
        taken: 0,
    };
    let mut attributes: Attributes = [0; 16];
    let mut thread = 0;
    let argument = ptr::from_mut(&mut measured).cast();
    // SAFETY: the attributes have room, the stack outlives the thread, which is joined below, and the
    // argument is what `measure` expects.
    let failures = unsafe {
        pthread_attr_init(&mut attributes)
            | pthread_attr_setstack(&mut attributes, lowest.cast(), SIZE)
            | pthread_create(&mut thread, &attributes, measure, argument)
    };
    assert_eq!(failures, 0, "a thread on a stack of its own");
    // SAFETY: the thread was made, and the attributes are not used again.
    let failures =
        unsafe { pthread_join(thread, ptr::null_mut()) | pthread_attr_destroy(&mut attributes) };
    assert_eq!(failures, 0, "the thread ends");
    measured.taken
}
