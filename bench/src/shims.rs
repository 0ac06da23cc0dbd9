//! it++ and M4RI, where their packages are installed (`libitpp-dev`, `libm4ri-dev`): `build.rs` compiles `shims` over their headers, and what it made is opened when the program runs.

use crate::peers::{function, library};
use crate::Case;
use std::ffi::{c_int, c_void};

/// The shim of this file; without a file the package's headers were not there when the program was built.
fn shim(file: &str, package: &str) -> Result<*mut c_void, String> {
    if file.is_empty() {
        return Err(format!("{package} was not there when the program was built"));
    }
    library(file)
}

// it++

type NewDecoder = unsafe extern "C" fn(*const u64, usize, usize, usize, bool, bool) -> *mut c_void;
type DeleteDecoder = unsafe extern "C" fn(*mut c_void);
type Decode = unsafe extern "C" fn(*mut c_void, *const f32, *mut u8);

/// Which of its ways a decoder goes.
#[derive(Clone, Copy)]
pub struct Way {
    pub stops: bool,
    pub sum_product: bool,
}

pub struct Itpp {
    decoder: *mut c_void,
    decode: Decode,
    delete: DeleteDecoder,
    n: usize,
}

impl Itpp {
    pub fn new(case: &Case, rounds: usize, way: Way) -> Result<Itpp, String> {
        let library = shim(env!("SHIM_ITPP"), "libitpp-dev")?;
        // SAFETY: the types are those of shims/itpp.cpp, and the words are those of m checks.
        unsafe {
            let new: NewDecoder = std::mem::transmute(function(library, "shim_itpp_new")?);
            let decode: Decode = std::mem::transmute(function(library, "shim_itpp_decode")?);
            let delete: DeleteDecoder = std::mem::transmute(function(library, "shim_itpp_delete")?);
            let decoder = new(case.words.as_ptr(), case.n, case.m, rounds, way.stops, way.sum_product);
            Ok(Itpp { decoder, decode, delete, n: case.n })
        }
    }

    /// Writes a bit for each result.
    pub fn decode(&mut self, received: &[f32], bits: &mut [u8]) {
        assert!(received.len() == self.n && bits.len() == self.n, "a word of the code");
        // SAFETY: the decoder is a live one, for words of n bits.
        unsafe { (self.decode)(self.decoder, received.as_ptr(), bits.as_mut_ptr()) }
    }
}

impl Drop for Itpp {
    fn drop(&mut self) {
        // SAFETY: nobody has it but this.
        unsafe { (self.delete)(self.decoder) }
    }
}

// M4RI

type NewMatrices = unsafe extern "C" fn(usize, usize, c_int) -> *mut c_void;
type Rank = unsafe extern "C" fn(*mut c_void, *const u64) -> usize;
type Encode = unsafe extern "C" fn(*mut c_void, *const u64, *const u8, *mut u8);
type Determine = unsafe extern "C" fn(*mut c_void, *const u64, *mut u8) -> u32;

pub struct M4ri {
    matrices: *mut c_void,
    rank: Rank,
    encode: Encode,
    determine: Determine,
}

impl M4ri {
    /// It eliminates in the way that it chooses (0), by the Four Russians (1) or by Gauss (2). Its matrices stay until the program ends.
    pub fn new(case: &Case, way: usize) -> Result<M4ri, String> {
        let library = shim(env!("SHIM_M4RI"), "libm4ri-dev")?;
        // SAFETY: the types are those of shims/m4ri.c.
        unsafe {
            let new: NewMatrices = std::mem::transmute(function(library, "shim_m4ri_new")?);
            Ok(M4ri {
                matrices: new(case.n, case.m, way as c_int),
                rank: std::mem::transmute::<*mut c_void, Rank>(function(library, "shim_m4ri_rank")?),
                encode: std::mem::transmute::<*mut c_void, Encode>(function(library, "shim_m4ri_encode")?),
                determine: std::mem::transmute::<*mut c_void, Determine>(function(library, "shim_m4ri_determine")?),
            })
        }
    }

    pub fn rank(&mut self, words: &[u64]) -> usize {
        // SAFETY: the words are those of the matrix that this was made for.
        unsafe { (self.rank)(self.matrices, words.as_ptr()) }
    }

    /// The message has a byte for each bit that is no pivot, the word one for each bit.
    pub fn encode(&mut self, words: &[u64], message: &[u8], word: &mut [u8]) {
        // SAFETY: as above, and the lengths are those of a message and a word of the code.
        unsafe { (self.encode)(self.matrices, words.as_ptr(), message.as_ptr(), word.as_mut_ptr()) }
    }

    pub fn determine(&mut self, words: &[u64], word: &mut [u8]) -> u32 {
        // SAFETY: as above.
        unsafe { (self.determine)(self.matrices, words.as_ptr(), word.as_mut_ptr()) }
    }
}
