//! Established libraries, loaded while the program runs, so that an absent one is left out and not
//! missed by the linker. All that is `unsafe` about their functions stands in the modules below.

use std::env;
use std::ffi::{c_char, c_int, c_void, CString};
use std::fs;
use std::path::{Path, PathBuf};
use std::ptr;

use cipangohu::MAX_PARTIES;

mod isal;
mod openssl;
mod zfec;

pub use isal::{Encoder, Isal};
pub use openssl::Openssl;
pub use zfec::Zfec;

const RTLD_NOW: c_int = 2;

extern "C" {
    fn dlopen(file: *const c_char, flags: c_int) -> *mut c_void;
    fn dlsym(handle: *mut c_void, name: *const c_char) -> *mut c_void;
}

/// A loaded library. It stays loaded to the end of the program.
struct Library(*mut c_void);

impl Library {
    fn open(file: &str) -> Option<Library> {
        let file = CString::new(file).ok()?;
        // SAFETY: the name ends with a zero; the libraries named here may run their start-up code.
        let handle = unsafe { dlopen(file.as_ptr(), RTLD_NOW) };
        (!handle.is_null()).then_some(Library(handle))
    }

    /// A function of the library.
    ///
    /// # Safety
    /// `F` must be the type of a pointer to the function that has this name.
    unsafe fn function<F: Copy>(&self, name: &str) -> Option<F> {
        let name = CString::new(name).ok()?;
        // SAFETY: the handle is open and the name ends with a zero.
        let address = unsafe { dlsym(self.0, name.as_ptr()) };
        // SAFETY: `F` is a pointer to a function, as the caller promises.
        (!address.is_null()).then(|| unsafe { std::mem::transmute_copy(&address) })
    }
}

/// The file from which a library was loaded.
fn loaded_from(name: &str) -> Option<PathBuf> {
    let maps = fs::read_to_string("/proc/self/maps").ok()?;
    let path = maps.lines().find(|line| line.contains(name))?;
    Some(Path::new(&path[path.find('/')?..]).to_path_buf())
}

/// Loads a second copy of a library with an environment variable set while it starts.
fn open_again(name: &str, (variable, value): (&str, &str)) -> Option<Library> {
    let copy = env::temp_dir().join(format!("{}-{name}", std::process::id()));
    fs::copy(loaded_from(name)?, &copy).ok()?;
    env::set_var(variable, value);
    let library = Library::open(copy.to_str()?);
    env::remove_var(variable);
    fs::remove_file(copy).ok()?;
    library
}

/// Where the blocks of s bytes begin.
fn starts(blocks: &mut [u8], s: usize) -> [*mut u8; MAX_PARTIES] {
    let mut starts = [ptr::null_mut(); MAX_PARTIES];
    for (start, block) in starts.iter_mut().zip(blocks.chunks_exact_mut(s)) {
        *start = block.as_mut_ptr();
    }
    starts
}
