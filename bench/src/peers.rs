//! Reed-Solomon decoders of others, where their packages are installed (`libisal-dev`; `python3-zfec` with libpython): looked for when the program runs
//! and called through declarations written here. A block has the message in its first packets; every lost packet is recovered, parity packets too.

use std::ffi::{c_char, c_int, c_uint, c_ushort, c_void, CString};
use std::fs;

extern "C" {
    fn dlopen(name: *const c_char, flags: c_int) -> *mut c_void;
    fn dlsym(library: *mut c_void, name: *const c_char) -> *mut c_void;
}

/// Names resolved when they are used, and lent to the libraries that come after.
const LAZY_GLOBAL: c_int = 0x101;

pub fn library(name: &str) -> Result<*mut c_void, String> {
    let text = CString::new(name).unwrap();
    // SAFETY: the name ends in a zero.
    let handle = unsafe { dlopen(text.as_ptr(), LAZY_GLOBAL) };
    if handle.is_null() {
        return Err(format!("{name} is not there"));
    }
    Ok(handle)
}

/// The function of this name; the caller gives it its type.
pub fn function(library: *mut c_void, name: &str) -> Result<*mut c_void, String> {
    let text = CString::new(name).unwrap();
    // SAFETY: the library is open, and stays so.
    let found = unsafe { dlsym(library, text.as_ptr()) };
    if found.is_null() {
        return Err(format!("{name} is not in it"));
    }
    Ok(found)
}

/// A code of so many packets, of which the first hold the message.
#[derive(Clone, Copy)]
pub struct Code {
    pub packets: usize,
    pub message: usize,
}

/// A block of packets of so many bytes, and which are lost.
pub struct Received<'a> {
    pub bytes: &'a mut [u8],
    pub length: usize,
    pub lost: &'a [bool],
}

impl Received<'_> {
    fn packet(&mut self, b: usize) -> *mut u8 {
        self.bytes[b * self.length..(b + 1) * self.length].as_mut_ptr()
    }

    fn numbers(&self, lost: bool) -> Vec<usize> {
        (0..self.lost.len()).filter(|&b| self.lost[b] == lost).collect()
    }

    fn pointers(&mut self, numbers: &[usize]) -> Vec<*mut u8> {
        numbers.iter().map(|&b| self.packet(b)).collect()
    }
}

pub trait Peer {
    fn name(&self) -> &'static str;
    /// Writes the lost packets.
    fn mend(&mut self, block: &mut Received);
}

// ISA-L

type Cauchy = unsafe extern "C" fn(*mut u8, c_int, c_int);
type Invert = unsafe extern "C" fn(*mut u8, *mut u8, c_int) -> c_int;
type Multiply = unsafe extern "C" fn(u8, u8) -> u8;
type Tables = unsafe extern "C" fn(c_int, c_int, *mut u8, *mut u8);
type Apply = unsafe extern "C" fn(c_int, c_int, c_int, *mut u8, *const *mut u8, *const *mut u8);

pub struct IsaL {
    code: Code,
    /// A row for each packet: its coefficients over the message.
    matrix: Vec<u8>,
    invert: Invert,
    multiply: Multiply,
    tables: Tables,
    apply: Apply,
}

/// What depends on the losses alone.
pub struct Prepared {
    taken: Vec<usize>,
    lost: Vec<usize>,
    tables: Vec<u8>,
}

impl IsaL {
    pub fn new(code: Code) -> Result<IsaL, String> {
        let library = library("libisal.so.2")?;
        let mut matrix = vec![0; code.packets * code.message];
        // SAFETY: the types are those of isa-l/erasure_code.h, and the matrix has a byte for each packet and message packet.
        unsafe {
            let cauchy: Cauchy = std::mem::transmute(function(library, "gf_gen_cauchy1_matrix")?);
            cauchy(matrix.as_mut_ptr(), code.packets as c_int, code.message as c_int);
            Ok(IsaL {
                code,
                matrix,
                invert: std::mem::transmute::<*mut c_void, Invert>(function(library, "gf_invert_matrix")?),
                multiply: std::mem::transmute::<*mut c_void, Multiply>(function(library, "gf_mul")?),
                tables: std::mem::transmute::<*mut c_void, Tables>(function(library, "ec_init_tables")?),
                apply: std::mem::transmute::<*mut c_void, Apply>(function(library, "ec_encode_data")?),
            })
        }
    }

    /// A row's coefficients of these packets.
    fn coefficients(&self, row: usize, packets: &[usize]) -> Vec<u8> {
        packets.iter().map(|&b| self.matrix[row * self.code.message + b]).collect()
    }

    /// The sum of rows, each multiplied by its factor.
    fn sum(&self, factors: &[u8], rows: &[Vec<u8>], mut all: Vec<u8>) -> Vec<u8> {
        for (factor, row) in factors.iter().zip(rows) {
            for (place, x) in all.iter_mut().zip(row) {
                // SAFETY: a product of two bytes.
                *place ^= unsafe { (self.multiply)(*factor, *x) };
            }
        }
        all
    }

    /// The rows of the lost packets over the packets taken, as tables. As many parity packets are taken as message packets are lost, and only what these two have in
    /// common is inverted.
    pub fn prepare(&self, block: &Received) -> Prepared {
        let k = self.code.message;
        let (there, spare): (Vec<usize>, Vec<usize>) = block.numbers(false).into_iter().partition(|&b| b < k);
        let (message, parity): (Vec<usize>, Vec<usize>) = block.numbers(true).into_iter().partition(|&b| b < k);
        let e = message.len();
        let spare = &spare[..e];
        let mut square: Vec<u8> = spare.iter().flat_map(|&p| self.coefficients(p, &message)).collect();
        let mut inverse = vec![0; e * e];
        // SAFETY: both have e rows of e bytes.
        let status = unsafe { (self.invert)(square.as_mut_ptr(), inverse.as_mut_ptr(), e as c_int) };
        assert_eq!(status, 0, "every square of a Cauchy matrix has an inverse");
        // What a spare packet and the message packets that are there tell of the lost ones.
        let known: Vec<Vec<u8>> = (0..e)
            .map(|i| [self.coefficients(spare[i], &there), (0..e).map(|j| (i == j) as u8).collect()].concat())
            .collect();
        let mut rows: Vec<Vec<u8>> =
            (0..e).map(|j| self.sum(&inverse[j * e..(j + 1) * e], &known, vec![0; k])).collect();
        for &b in &parity {
            let own = [self.coefficients(b, &there), vec![0; e]].concat();
            rows.push(self.sum(&self.coefficients(b, &message), &rows[..e], own));
        }
        let mut rows = rows.concat();
        let mut tables = vec![0; 32 * rows.len()];
        // SAFETY: 32 bytes for each coefficient.
        unsafe { (self.tables)(k as c_int, (rows.len() / k) as c_int, rows.as_mut_ptr(), tables.as_mut_ptr()) };
        Prepared { taken: [&there[..], spare].concat(), lost: [message, parity].concat(), tables }
    }

    pub fn apply(&self, prepared: &mut Prepared, block: &mut Received) {
        let (from, to) = (block.pointers(&prepared.taken), block.pointers(&prepared.lost));
        let (length, k, rows) = (block.length as c_int, self.code.message as c_int, to.len() as c_int);
        // SAFETY: every pointer is that of a packet of the block, none of them twice.
        unsafe { (self.apply)(length, k, rows, prepared.tables.as_mut_ptr(), from.as_ptr(), to.as_ptr()) }
    }
}

impl Peer for IsaL {
    fn name(&self) -> &'static str {
        "ISA-L"
    }

    fn mend(&mut self, block: &mut Received) {
        let mut prepared = self.prepare(block);
        self.apply(&mut prepared, block);
    }
}

/// The same with what depends on the losses alone at hand, for losses that were met before: the blocks come in turn.
pub struct IsaLPrepared {
    code: IsaL,
    prepared: Vec<Prepared>,
    next: usize,
}

impl IsaLPrepared {
    pub fn new(code: IsaL, prepared: Vec<Prepared>) -> IsaLPrepared {
        IsaLPrepared { code, prepared, next: 0 }
    }
}

impl Peer for IsaLPrepared {
    fn name(&self) -> &'static str {
        "ISA-L, tables at hand"
    }

    fn mend(&mut self, block: &mut Received) {
        self.code.apply(&mut self.prepared[self.next], block);
        self.next = (self.next + 1) % self.prepared.len();
    }
}

// zfec

type New = unsafe extern "C" fn(c_ushort, c_ushort) -> *mut c_void;
type Encode = unsafe extern "C" fn(*const c_void, *const *mut u8, *const *mut u8, *const c_uint, usize, usize);
type Decode = unsafe extern "C" fn(*const c_void, *const *mut u8, *const *mut u8, *const c_uint, usize);

pub struct Zfec {
    code: Code,
    fec: *mut c_void,
    encode: Encode,
    decode: Decode,
}

/// The file of zfec's functions: a module of Python, which names libpython's symbols.
fn module() -> Result<String, String> {
    let folder = "/usr/lib/python3/dist-packages/zfec";
    let files = fs::read_dir(folder).map_err(|_| format!("{folder} is not there"))?;
    let names = files.flatten().map(|file| file.file_name().to_string_lossy().into_owned());
    let name = names.into_iter().find(|name| name.starts_with("_fec.")).ok_or(format!("no module in {folder}"))?;
    let version =
        name.split('-').nth(1).and_then(|digits| digits.strip_prefix('3')).ok_or(format!("{name}: no version"))?;
    library(&format!("libpython3.{version}.so.1.0"))?;
    Ok(format!("{folder}/{name}"))
}

impl Zfec {
    pub fn new(code: Code) -> Result<Zfec, String> {
        let library = library(&module()?)?;
        // SAFETY: the types are those of zfec/fec.h.
        unsafe {
            let new: New = std::mem::transmute(function(library, "fec_new")?);
            Ok(Zfec {
                code,
                fec: new(code.message as c_ushort, code.packets as c_ushort),
                encode: std::mem::transmute::<*mut c_void, Encode>(function(library, "fec_encode")?),
                decode: std::mem::transmute::<*mut c_void, Decode>(function(library, "fec_decode")?),
            })
        }
    }
}

impl Peer for Zfec {
    fn name(&self) -> &'static str {
        "zfec"
    }

    /// Decodes the message packets that are lost, and then encodes the parity packets that are.
    fn mend(&mut self, block: &mut Received) {
        let k = self.code.message;
        // A message packet that is there stands at its own place.
        let mut spare = (k..self.code.packets).filter(|&b| !block.lost[b]).collect::<Vec<usize>>().into_iter();
        let taken: Vec<usize> = (0..k).map(|b| if block.lost[b] { spare.next().unwrap() } else { b }).collect();
        let index: Vec<c_uint> = taken.iter().map(|&b| b as c_uint).collect();
        let (message, parity): (Vec<usize>, Vec<usize>) = block.numbers(true).into_iter().partition(|&b| b < k);
        let (from, to) = (block.pointers(&taken), block.pointers(&message));
        if !message.is_empty() {
            // SAFETY: every pointer is that of a packet of the block, none of them twice.
            unsafe { (self.decode)(self.fec, from.as_ptr(), to.as_ptr(), index.as_ptr(), block.length) };
        }
        if !parity.is_empty() {
            let all: Vec<usize> = (0..k).collect();
            let (from, to) = (block.pointers(&all), block.pointers(&parity));
            let numbers: Vec<c_uint> = parity.iter().map(|&b| b as c_uint).collect();
            // SAFETY: as above.
            unsafe {
                (self.encode)(self.fec, from.as_ptr(), to.as_ptr(), numbers.as_ptr(), numbers.len(), block.length)
            };
        }
    }
}
