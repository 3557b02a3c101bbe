//! A library that is loaded before the C library (`LD_PRELOAD`), and refuses one of the program's
//! allocations: the one whose number, from 1, is in the environment as `REFUSE`. What a program
//! allocates are its calls of `malloc` and `realloc`. It writes a byte to descriptor 3 when it
//! refuses.
#![no_std]

use core::ffi::{c_char, c_int, c_void};
use core::sync::atomic::{AtomicU64, Ordering::Relaxed};

unsafe extern "C" {
    fn __libc_malloc(size: usize) -> *mut c_void;
    fn __libc_realloc(old: *mut c_void, size: usize) -> *mut c_void;
    fn getenv(name: *const c_char) -> *const c_char;
    fn strtoull(text: *const c_char, end: *mut *mut c_char, base: c_int) -> u64;
    fn write(descriptor: c_int, from: *const c_void, length: usize) -> isize;
    fn abort() -> !;
}

/// How many calls there were.
static CALLS: AtomicU64 = AtomicU64::new(0);

/// Counts a call, and says whether it is the one to be refused.
fn refuses() -> bool {
    let call = CALLS.fetch_add(1, Relaxed) + 1;
    // SAFETY: the texts end in a zero byte, and descriptor 3 is the one that the harness opened.
    unsafe {
        let number = getenv(c"REFUSE".as_ptr());
        let refused = !number.is_null() && call == strtoull(number, core::ptr::null_mut(), 10);
        if refused {
            write(3, c"x".as_ptr().cast(), 1);
        }
        refused
    }
}

/// # Safety
/// As the C library's.
#[unsafe(no_mangle)]
pub unsafe extern "C" fn malloc(size: usize) -> *mut c_void {
    // SAFETY: the arguments are the caller's.
    if refuses() { core::ptr::null_mut() } else { unsafe { __libc_malloc(size) } }
}

/// # Safety
/// As the C library's.
#[unsafe(no_mangle)]
pub unsafe extern "C" fn realloc(old: *mut c_void, size: usize) -> *mut c_void {
    // SAFETY: the arguments are the caller's.
    if refuses() { core::ptr::null_mut() } else { unsafe { __libc_realloc(old, size) } }
}

#[panic_handler]
fn panics(_: &core::panic::PanicInfo) -> ! {
    // SAFETY: it may always be called.
    unsafe { abort() }
}
