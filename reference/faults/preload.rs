//! Loaded before the C library (LD_PRELOAD) to try a program against failures: its reads of standard input and writes of standard output
//! are made smaller, and one of them fails once, as the environment says. After that all work again.
//!
//! `READ_MOST`, `WRITE_MOST`: a call moves at most so many bytes; `READ_FAILS`, `WRITE_FAILS`: the call with this number, from 1, moves none
//! and answers -1; `ERRNO`: the reason that it gives.

use std::ffi::{c_char, c_int, c_void};
use std::sync::atomic::{AtomicU64, Ordering};

extern "C" {
    fn dlsym(handle: *mut c_void, name: *const c_char) -> *mut c_void;
    fn __errno_location() -> *mut c_int;
}

/// The next library's function of this name.
unsafe fn next(name: &'static [u8]) -> *mut c_void {
    dlsym(-1isize as *mut c_void, name.as_ptr().cast())
}

fn setting(name: &str) -> Option<u64> {
    std::env::var(name).ok()?.parse().ok()
}

/// How many bytes a call may move, or that it fails.
fn granted(calls: &AtomicU64, fails: &str, most: &str, size: usize) -> Option<usize> {
    let call = calls.fetch_add(1, Ordering::Relaxed) + 1;
    if setting(fails) == Some(call) {
        unsafe { *__errno_location() = setting("ERRNO").unwrap_or(5) as c_int };
        return None;
    }
    Some(setting(most).map_or(size, |most| size.min(most as usize)))
}

static READS: AtomicU64 = AtomicU64::new(0);
static WRITES: AtomicU64 = AtomicU64::new(0);

/// # Safety
/// As for the C library's.
#[no_mangle]
pub unsafe extern "C" fn read(fd: c_int, buffer: *mut c_void, size: usize) -> isize {
    let real: extern "C" fn(c_int, *mut c_void, usize) -> isize = std::mem::transmute(next(b"read\0"));
    match if fd == 0 { granted(&READS, "READ_FAILS", "READ_MOST", size) } else { Some(size) } {
        Some(size) => real(fd, buffer, size),
        None => -1,
    }
}

/// # Safety
/// As for the C library's.
#[no_mangle]
pub unsafe extern "C" fn write(fd: c_int, buffer: *const c_void, size: usize) -> isize {
    let real: extern "C" fn(c_int, *const c_void, usize) -> isize = std::mem::transmute(next(b"write\0"));
    match if fd == 1 { granted(&WRITES, "WRITE_FAILS", "WRITE_MOST", size) } else { Some(size) } {
        Some(size) => real(fd, buffer, size),
        None => -1,
    }
}
