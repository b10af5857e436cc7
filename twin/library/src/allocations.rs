//! Counts the calls of malloc, calloc and realloc, whoever makes them: the
//! linker leads them here (build.rs).

use std::ffi::c_void;
use std::sync::atomic::{AtomicU64, Ordering::Relaxed};

static CALLS: AtomicU64 = AtomicU64::new(0);
static BYTES: AtomicU64 = AtomicU64::new(0);

extern "C" {
    fn __real_malloc(size: usize) -> *mut c_void;
    fn __real_calloc(count: usize, size: usize) -> *mut c_void;
    fn __real_realloc(block: *mut c_void, size: usize) -> *mut c_void;
    fn __real_free(block: *mut c_void);
}

fn count(bytes: usize) {
    CALLS.fetch_add(1, Relaxed);
    BYTES.fetch_add(bytes as u64, Relaxed);
}

#[no_mangle]
unsafe extern "C" fn __wrap_malloc(size: usize) -> *mut c_void {
    count(size);
    __real_malloc(size)
}

#[no_mangle]
unsafe extern "C" fn __wrap_calloc(number: usize, size: usize) -> *mut c_void {
    count(number * size);
    __real_calloc(number, size)
}

#[no_mangle]
unsafe extern "C" fn __wrap_realloc(block: *mut c_void, size: usize) -> *mut c_void {
    count(size);
    __real_realloc(block, size)
}

#[no_mangle]
unsafe extern "C" fn __wrap_free(block: *mut c_void) {
    __real_free(block)
}

/// How many calls a run makes, and for how many bytes in all.
pub fn of(run: impl FnOnce()) -> (u64, u64) {
    let before = (CALLS.load(Relaxed), BYTES.load(Relaxed));
    run();
    (CALLS.load(Relaxed) - before.0, BYTES.load(Relaxed) - before.1)
}
