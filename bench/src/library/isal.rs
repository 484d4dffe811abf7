//! The erasure coder of ISA-L. Its field has the polynomial 0x11D, not 0x11B, so its shares are other
//! bytes; the matrix, powers of the party numbers, and so the work are the same.

use std::arch::x86_64::_mm256_zeroupper;
use std::ffi::c_int;

use super::{starts, Library};

const FILE: &str = "libisal.so.2";

/// The bytes of a table for one coefficient.
const TABLE: usize = 32;

type InitTables = unsafe extern "C" fn(c_int, c_int, *mut u8, *mut u8);
type Encode = unsafe extern "C" fn(c_int, c_int, c_int, *mut u8, *mut *mut u8, *mut *mut u8);
type Invert = unsafe extern "C" fn(*mut u8, *mut u8, c_int) -> c_int;
type Multiply = unsafe extern "C" fn(u8, u8) -> u8;

#[derive(Clone, Copy)]
pub struct Isal {
    init_tables: InitTables,
    invert: Invert,
    multiply: Multiply,
    native: Encode,
    portable: Encode,
}

/// Which of the coder's functions: the one that it picks for this processor, or the one in plain C.
#[derive(Clone, Copy, PartialEq)]
pub enum Encoder {
    Native,
    Portable,
}

impl Isal {
    pub fn load() -> Option<Isal> {
        let library = Library::open(FILE)?;
        // SAFETY: the types are those of isa-l/erasure_code.h.
        unsafe {
            Some(Isal {
                init_tables: library.function("ec_init_tables")?,
                invert: library.function("gf_invert_matrix")?,
                multiply: library.function("gf_mul")?,
                native: library.function("ec_encode_data")?,
                portable: library.function("ec_encode_data_base")?,
            })
        }
    }

    /// For each number in its order the powers 0 to b - 1 of it.
    pub fn powers(&self, numbers: &[u8], b: usize) -> Vec<u8> {
        // SAFETY: the function takes and gives bytes.
        let times = |x: &u8, y: u8| unsafe { (self.multiply)(*x, y) };
        let row = |x| std::iter::successors(Some(1), move |&power| Some(times(x, power))).take(b);
        numbers.iter().flat_map(row).collect()
    }

    /// The tables for a matrix of b columns.
    pub fn tables(&self, matrix: &mut [u8], b: usize) -> Vec<u8> {
        let mut tables = vec![0; TABLE * matrix.len()];
        let rows = matrix.len() / b;
        // SAFETY: the matrix has rows times b bytes, and the tables 32 for each.
        unsafe {
            (self.init_tables)(
                b as c_int,
                rows as c_int,
                matrix.as_mut_ptr(),
                tables.as_mut_ptr(),
            )
        }
        tables
    }

    /// The inverse of a matrix of b rows and columns, which is used up.
    pub fn inverse(&self, matrix: &mut [u8], b: usize) -> Vec<u8> {
        assert_eq!(matrix.len(), b * b);
        let mut inverse = vec![0; b * b];
        // SAFETY: both matrices have b times b bytes.
        let singular =
            unsafe { (self.invert)(matrix.as_mut_ptr(), inverse.as_mut_ptr(), b as c_int) };
        assert_eq!(singular, 0);
        inverse
    }

    /// Multiplies a matrix, given by its tables, with b blocks of s bytes, concatenated.
    pub fn encode(
        &self,
        by: Encoder,
        tables: &mut [u8],
        blocks: &mut [u8],
        s: usize,
        out: &mut [u8],
    ) {
        let (b, rows) = (blocks.len() / s, out.len() / s);
        assert_eq!(tables.len(), TABLE * b * rows);
        let (mut from, mut to) = (starts(blocks, s), starts(out, s));
        let encode = match by {
            Encoder::Native => self.native,
            Encoder::Portable => self.portable,
        };
        let (length, b, rows) = (s as c_int, b as c_int, rows as c_int);
        // SAFETY: every pointer leads to s bytes, and there is a table for each pair of them.
        unsafe {
            encode(
                length,
                b,
                rows,
                tables.as_mut_ptr(),
                from.as_mut_ptr(),
                to.as_mut_ptr(),
            )
        }
        if is_x86_feature_detected!("avx") {
            // SAFETY: the processor has AVX.
            unsafe { clear_upper_halves() }
        }
    }
}

/// ISA-L leaves bytes in the upper halves of the vector registers, which would slow down whatever
/// uses the lower halves alone afterwards, and so the proved code.
#[target_feature(enable = "avx")]
fn clear_upper_halves() {
    _mm256_zeroupper();
}
