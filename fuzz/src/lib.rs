//! What the fuzzer runs: its bytes become a list of calls, each made on the library and on the
//! foreign implementation and compared.

mod input;
mod lend;
mod session;

#[path = "../../rust/tests/compare/call.rs"]
mod call;
#[path = "../../rust/tests/compare/reference.rs"]
mod reference;

use std::ffi::c_int;

// What libFuzzer calls, by its names.
#[allow(unsafe_code, non_snake_case)]
mod fuzzer {
    use super::{c_int, lend, session};

    extern "C" {
        fn atexit(call: extern "C" fn()) -> c_int;
    }

    #[no_mangle]
    extern "C" fn LLVMFuzzerInitialize(_: *mut c_int, _: *mut *mut *mut u8) -> c_int {
        // SAFETY: the function may be called at any time.
        unsafe { atexit(lend::print_times) }
    }

    /// # Safety
    ///
    /// `size` bytes stand at `data`.
    #[no_mangle]
    unsafe extern "C" fn LLVMFuzzerTestOneInput(data: *const u8, size: usize) -> c_int {
        // SAFETY: as promised by the caller; for no bytes libFuzzer may give no address.
        let bytes = match size {
            0 => &[],
            _ => unsafe { std::slice::from_raw_parts(data, size) },
        };
        session::play(bytes);
        0
    }
}
