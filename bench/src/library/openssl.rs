//! SHA-256 of OpenSSL's libcrypto, by the three functions that hash without looking an algorithm up.

use std::ffi::{c_int, c_void};

use super::{open_again, Library};
use cipangohu::Hash;

const FILE: &str = "libcrypto.so.3";

/// What tells OpenSSL that the processor has no feature at all: then its code for any x86-64 runs.
const PLAIN: (&str, &str) = ("OPENSSL_ia32cap", "0:0");

/// More than the 112 bytes of a SHA256_CTX.
type Context = [u64; 32];

type Init = unsafe extern "C" fn(*mut Context) -> c_int;
type Update = unsafe extern "C" fn(*mut Context, *const c_void, usize) -> c_int;
type Final = unsafe extern "C" fn(*mut u8, *mut Context) -> c_int;

#[derive(Clone, Copy)]
pub struct Openssl {
    init: Init,
    update: Update,
    finish: Final,
}

impl Openssl {
    /// As it is: with all that it knows of this processor.
    pub fn native() -> Option<Openssl> {
        Openssl::of(&Library::open(FILE)?)
    }

    /// A second copy, without code for special processors. The first must be loaded.
    pub fn plain() -> Option<Openssl> {
        Openssl::of(&open_again(FILE, PLAIN)?)
    }

    fn of(library: &Library) -> Option<Openssl> {
        // SAFETY: the types are those of openssl/sha.h.
        unsafe {
            Some(Openssl {
                init: library.function("SHA256_Init")?,
                update: library.function("SHA256_Update")?,
                finish: library.function("SHA256_Final")?,
            })
        }
    }

    pub fn hash(&self, message: &[u8]) -> Hash {
        let mut context: Context = [0; 32];
        let mut digest = [0; 32];
        // SAFETY: the context has room, the message comes with its length, a digest has 32 bytes.
        unsafe {
            (self.init)(&mut context);
            (self.update)(&mut context, message.as_ptr().cast(), message.len());
            (self.finish)(digest.as_mut_ptr(), &mut context);
        }
        digest
    }
}
