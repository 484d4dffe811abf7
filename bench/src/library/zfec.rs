//! The erasure coder of zfec. Its code is systematic: the first b blocks are the message itself. So that
//! the work is the same, n blocks beyond those are made, and from b of those all are rebuilt.

use cipangohu::MAX_PARTIES;
use std::ffi::{c_uint, c_ushort, c_void};

use super::{starts, Library};

type New = unsafe extern "C" fn(c_ushort, c_ushort) -> *mut c_void;
type Encode = unsafe extern "C" fn(
    *const c_void,
    *const *mut u8,
    *const *mut u8,
    *const c_uint,
    usize,
    usize,
);
type Decode =
    unsafe extern "C" fn(*const c_void, *const *mut u8, *const *mut u8, *const c_uint, usize);

#[derive(Clone, Copy)]
pub struct Zfec {
    code: *mut c_void,
    b: usize,
    n: usize,
    encode: Encode,
    decode: Decode,
}

impl Zfec {
    /// A code of b blocks and n blocks beyond them. It is kept to the end of the program.
    pub fn load(file: &str, b: usize, n: usize) -> Option<Zfec> {
        let library = Library::open(file)?;
        // SAFETY: the types are those of zfec's fec.h, and its limits on the numbers hold.
        unsafe {
            let new: New = library.function("fec_new")?;
            Some(Zfec {
                code: new(b as c_ushort, (b + n) as c_ushort),
                b,
                n,
                encode: library.function("fec_encode")?,
                decode: library.function("fec_decode")?,
            })
        }
    }

    /// The n blocks beyond the b blocks of s bytes.
    pub fn encode(&self, blocks: &mut [u8], s: usize, out: &mut [u8]) {
        assert_eq!((blocks.len(), out.len()), (self.b * s, self.n * s));
        let (from, to) = (starts(blocks, s), starts(out, s));
        let (code, numbers) = (self.code, self.numbers());
        // SAFETY: every pointer leads to s bytes, and the numbers are the code's.
        unsafe {
            (self.encode)(
                code,
                from.as_ptr(),
                to.as_ptr(),
                numbers.as_ptr(),
                self.n,
                s,
            )
        }
    }

    /// The b blocks again from the first b beyond them.
    pub fn decode(&self, shares: &mut [u8], s: usize, out: &mut [u8]) {
        assert_eq!((shares.len(), out.len()), (self.b * s, self.b * s));
        let (from, to) = (starts(shares, s), starts(out, s));
        let numbers = self.numbers();
        // SAFETY: every pointer leads to s bytes, and the numbers are the code's.
        unsafe { (self.decode)(self.code, from.as_ptr(), to.as_ptr(), numbers.as_ptr(), s) }
    }

    /// The numbers of the blocks beyond the first b.
    fn numbers(&self) -> [c_uint; MAX_PARTIES] {
        std::array::from_fn(|place| (self.b + place) as c_uint)
    }
}
