//! The program `mend`, linked in by `build.rs`: its `main` on input in memory.

use std::cell::{Cell, RefCell};
use std::ptr;
use std::slice;

extern "C" {
    fn mend_main(count: i32, words: *const *const u8) -> i32;
}

thread_local! {
    static INPUT: Cell<&'static [u8]> = const { Cell::new(&[]) };
    static OUTPUT: RefCell<Vec<u8>> = const { RefCell::new(Vec::new()) };
}

/// What the program reads from: the input that is left.
///
/// # Safety
/// `place` has room for `size` bytes.
#[no_mangle]
unsafe extern "C" fn mend_read(_file: i32, place: *mut u8, size: usize) -> isize {
    let input = INPUT.get();
    let (read, left) = input.split_at(size.min(input.len()));
    ptr::copy_nonoverlapping(read.as_ptr(), place, read.len());
    INPUT.set(left);
    read.len() as isize
}

/// What the program writes to.
///
/// # Safety
/// `place` holds `size` bytes.
#[no_mangle]
unsafe extern "C" fn mend_write(_file: i32, place: *const u8, size: usize) -> isize {
    OUTPUT.with_borrow_mut(|output| output.extend_from_slice(slice::from_raw_parts(place, size)));
    size as isize
}

/// Why a call failed: none does.
#[no_mangle]
extern "C" fn mend_errno() -> i32 {
    0
}

/// Runs the program.
pub fn run(input: &'static [u8]) {
    INPUT.set(input);
    OUTPUT.with_borrow_mut(Vec::clear);
    // SAFETY: it reads and writes by the two functions above alone, and takes no words of a command line.
    unsafe { mend_main(0, ptr::null()) };
}

/// What the last run wrote.
pub fn output() -> String {
    OUTPUT.with_borrow(|output| String::from_utf8_lossy(output).into_owned())
}

/// An input: a record, and then the sent bytes of a word.
pub fn input(record: &[u32], sent: &[u8]) -> &'static [u8] {
    let mut bytes = (record.len() as u32).to_be_bytes().to_vec();
    bytes.extend(record.iter().flat_map(|word| word.to_be_bytes()));
    bytes.extend(sent);
    bytes.leak()
}
