//! A stack of our own, painted before each call: what the call used of it is seen afterwards, and held to the header's
//! figure.

use crate::calls;
use crate::model::{Kind, KINDS};
use std::arch::asm;
use std::cell::RefCell;
use std::hint::black_box;
use std::sync::atomic::{AtomicUsize, Ordering};
use std::sync::OnceLock;

#[cfg(not(target_arch = "x86_64"))]
compile_error!("the change of stacks is written for x86-64, as the archive is");

/// The bytes of the stack, far more than a call may use.
const SIZE: usize = 1 << 18;
const PAINT: u64 = 0x5EED_C0DE_FACE_B00C;

const PAINTED: [u64; 512] = [PAINT; 512];

thread_local! {
    static STACK: RefCell<Vec<u64>> = RefCell::new(PAINTED.repeat(SIZE / 4096));
}

extern "C" fn enter<F: FnMut()>(call: *mut F) {
    // The pointer is that of `used`'s own argument.
    unsafe { (*call)() }
}

/// Runs `call` on the painted stack and answers how many bytes of it were used.
pub fn used<F: FnMut()>(mut call: F) -> usize {
    STACK.with_borrow_mut(|stack| {
        // A call asks for a stack aligned to 16 bytes.
        let end = stack.as_mut_ptr_range().end as usize / 16 * 16;
        // r12 keeps the stack that we come back to: every function leaves it as it was.
        unsafe {
            asm!(
                "xchg rsp, r12",
                "call {enter}",
                "mov rsp, r12",
                enter = in(reg) enter::<F> as extern "C" fn(*mut F),
                in("rdi") &mut call as *mut F,
                inout("r12") end => _,
                clobber_abi("C"),
            );
        }
        let chunk = stack.chunks(PAINTED.len()).position(|chunk| *chunk != PAINTED).expect("a call uses the stack");
        assert!(chunk > 0, "a call used nearly all of {SIZE} bytes of stack");
        let start = chunk * PAINTED.len();
        let first = start + stack[start..].iter().take_while(|word| **word == PAINT).count();
        stack[first..].fill(PAINT);
        8 * (stack.len() - first)
    })
}

/// The figure of the header, PARITY_STACK_MOST.
pub fn figure() -> usize {
    static FIGURE: OnceLock<usize> = OnceLock::new();
    *FIGURE.get_or_init(|| {
        let header = include_str!("../../../include/parity.h");
        let (_, rest) = header.split_once("#define PARITY_STACK_MOST ").expect("the figure in the header");
        rest.split_whitespace().next().unwrap().parse().expect("a number of bytes")
    })
}

static MOST: [AtomicUsize; KINDS.len()] = [const { AtomicUsize::new(0) }; KINDS.len()];

/// Runs a call of the library, and fails if it used more stack than the header says. Answers how many bytes it used.
pub fn bounded<F: FnMut()>(call: F) -> Result<usize, String> {
    let bytes = used(call);
    if bytes > figure() {
        return Err(format!("the call used {bytes} bytes of stack, and the header says {} at most", figure()));
    }
    Ok(bytes)
}

/// The same for a call of a kind, whose most bytes are kept.
pub fn held<F: FnMut()>(kind: Kind, call: F) -> Result<(), String> {
    let bytes = bounded(call)?;
    MOST[kind as usize].fetch_max(bytes, Ordering::Relaxed);
    Ok(())
}

/// The most bytes that a call of this kind has used so far.
pub fn most(kind: Kind) -> usize {
    MOST[kind as usize].load(Ordering::Relaxed)
}

/// That the painting shows what is used, within a few hundred bytes.
fn painting() -> Result<usize, String> {
    fn fill<const N: usize>() -> Result<(), String> {
        let bytes = used(|| {
            black_box(&mut [1u8; N]);
        });
        if bytes < N || bytes > N + 500 {
            return Err(format!("an array of {N} bytes is seen as {bytes} bytes of stack: a fault of this program"));
        }
        Ok(())
    }
    fill::<0>()?;
    fill::<1_000>()?;
    fill::<10_000>()?;
    fill::<100_000>()?;
    // What was used before is no longer seen.
    fill::<0>()?;
    Ok(5)
}

/// The painting by itself, then calls of every kind from several threads at once. Gives the number of comparisons and a
/// note on the most bytes used.
pub fn run() -> Result<(usize, String), String> {
    let number = painting()? + calls::at_once()?;
    let (deepest, bytes) = KINDS.map(|kind| (kind, most(kind))).into_iter().max_by_key(|(_, bytes)| *bytes).unwrap();
    let note = format!("{} uses {bytes} bytes of stack, the header says {} at most", deepest.name(), figure());
    Ok((number, note))
}
