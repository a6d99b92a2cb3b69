//! A painted stack with a page below it that nobody may touch.

use std::arch::asm;
use std::ffi::c_void;
use std::ptr::{null_mut, slice_from_raw_parts_mut};

/// Far more than a call takes, and still a whole number of pages.
const SIZE: usize = 1 << 20;
const PAGE: usize = 4_096;
const PAINT: u8 = 0xA5;

// From <sys/mman.h> of Linux.
const PROT_NONE: i32 = 0;
const PROT_READ_WRITE: i32 = 3;
const MAP_PRIVATE_ANONYMOUS: i32 = 0x22;

unsafe extern "C" {
    fn mmap(at: *mut c_void, size: usize, access: i32, kind: i32, file: i32, from: i64) -> *mut u8;
    fn mprotect(at: *mut u8, size: usize, access: i32) -> i32;
    fn munmap(at: *mut u8, size: usize) -> i32;
}

/// Runs a call on a stack of its own. Gives the bytes from the stack pointer before it to the lowest byte that changed;
/// what lends the slices to the call is counted, too.
pub fn bytes_taken<F: FnMut()>(mut call: F) -> usize {
    let stack = Stack::painted();
    let data: *mut F = &mut call;
    // SAFETY: the top is 16-aligned and SIZE bytes below it are ours; `run::<F>` is given an F that nobody else uses.
    unsafe { run_at(stack.top(), run::<F>, data.cast()) };
    stack.bytes_changed()
}

/// A panic cannot leave a function of this kind: it ends the process.
extern "C" fn run<F: FnMut()>(data: *mut c_void) {
    // SAFETY: `bytes_taken` hands over a pointer to its own F.
    let call = unsafe { &mut *data.cast::<F>() };
    call();
}

/// Calls `function` with the stack pointer at `top`, and puts it back.
///
/// # Safety
/// `top` is 16-aligned, with enough of a stack below it, and `data` is what `function` takes.
unsafe fn run_at(top: *mut u8, function: extern "C" fn(*mut c_void), data: *mut c_void) {
    // SAFETY: r12 is one that a function gives back as it was; all others may change, and are said to.
    unsafe {
        asm!(
            "mov r12, rsp",
            "mov rsp, {top}",
            "call {function}",
            "mov rsp, r12",
            top = in(reg) top,
            function = in(reg) function,
            in("rdi") data,
            out("r12") _,
            clobber_abi("C"),
        );
    }
}

struct Stack {
    lowest: *mut u8,
}

impl Stack {
    fn painted() -> Stack {
        // SAFETY: a fresh region, of which the lowest page is shut.
        unsafe {
            let lowest = mmap(
                null_mut(),
                PAGE + SIZE,
                PROT_READ_WRITE,
                MAP_PRIVATE_ANONYMOUS,
                -1,
                0,
            );
            assert!(lowest as isize != -1, "memory for a stack");
            assert_eq!(mprotect(lowest, PAGE, PROT_NONE), 0, "a page to guard it");
            let stack = Stack { lowest };
            (*stack.bytes()).fill(PAINT);
            stack
        }
    }

    fn bytes(&self) -> *mut [u8] {
        slice_from_raw_parts_mut(self.lowest.wrapping_add(PAGE), SIZE)
    }

    fn top(&self) -> *mut u8 {
        self.lowest.wrapping_add(PAGE + SIZE)
    }

    fn bytes_changed(&self) -> usize {
        // SAFETY: the region is ours, and nothing runs on it.
        let bytes = unsafe { &*self.bytes() };
        let unchanged = bytes.iter().take_while(|&&byte| byte == PAINT).count();
        bytes.len() - unchanged
    }
}

impl Drop for Stack {
    fn drop(&mut self) {
        // SAFETY: the region that `painted` made.
        unsafe { munmap(self.lowest, PAGE + SIZE) };
    }
}
