//! Counts the blocks that a program has of the C library's `malloc`: those of Rust, and those of `libcongee.a`.

use std::ffi::{c_int, c_void};
use std::ptr;
use std::sync::atomic::{AtomicIsize, Ordering::SeqCst};
use std::sync::OnceLock;

static BLOCKS: AtomicIsize = AtomicIsize::new(0);
static ASKED: OnceLock<fn() -> bool> = OnceLock::new();

/// From now on each request for memory is refused where this returns true. It takes none itself.
#[allow(dead_code)]
pub fn refuse_where(is_refused: fn() -> bool) {
    ASKED.set(is_refused).expect("once");
}

fn is_refused() -> bool {
    ASKED.get().is_some_and(|asked| asked())
}

/// How many there are.
pub fn blocks() -> isize {
    BLOCKS.load(SeqCst)
}

// (glibc's own, which these take the places of)
extern "C" {
    fn __libc_malloc(size: usize) -> *mut c_void;
    fn __libc_calloc(count: usize, size: usize) -> *mut c_void;
    fn __libc_realloc(block: *mut c_void, size: usize) -> *mut c_void;
    fn __libc_memalign(alignment: usize, size: usize) -> *mut c_void;
    fn __libc_free(block: *mut c_void);
}

fn counted(block: *mut c_void) -> *mut c_void {
    if !block.is_null() {
        BLOCKS.fetch_add(1, SeqCst);
    }
    block
}

/// # Safety
///
/// As in C.
#[no_mangle]
pub unsafe extern "C" fn malloc(size: usize) -> *mut c_void {
    if is_refused() {
        return ptr::null_mut();
    }
    counted(__libc_malloc(size))
}

/// # Safety
///
/// As in C.
#[no_mangle]
pub unsafe extern "C" fn calloc(count: usize, size: usize) -> *mut c_void {
    if is_refused() {
        return ptr::null_mut();
    }
    counted(__libc_calloc(count, size))
}

/// # Safety
///
/// As in C. (The size isn't 0.)
#[no_mangle]
pub unsafe extern "C" fn realloc(block: *mut c_void, size: usize) -> *mut c_void {
    if block.is_null() {
        return malloc(size);
    }
    if is_refused() {
        return ptr::null_mut();
    }
    __libc_realloc(block, size)
}

/// # Safety
///
/// As in C.
#[no_mangle]
pub unsafe extern "C" fn aligned_alloc(alignment: usize, size: usize) -> *mut c_void {
    counted(__libc_memalign(alignment, size))
}

/// # Safety
///
/// As in C.
#[no_mangle]
pub unsafe extern "C" fn posix_memalign(
    to: *mut *mut c_void,
    alignment: usize,
    size: usize,
) -> c_int {
    const ENOMEM: c_int = 12;
    let block = aligned_alloc(alignment, size);
    if block.is_null() {
        return ENOMEM;
    }
    *to = block;
    0
}

/// # Safety
///
/// As in C.
#[no_mangle]
pub unsafe extern "C" fn free(block: *mut c_void) {
    if !block.is_null() {
        BLOCKS.fetch_sub(1, SeqCst);
        __libc_free(block);
    }
}

/// What is run, and its name.
pub type Run<R> = (&'static str, fn() -> R);

/// Runs each of these a few times, and panics where blocks are left. A run may end where it is refused memory. `least` returns the
/// least count that can be waited for.
pub fn leave_no_block<R>(runs: &[Run<R>], least: fn() -> isize) {
    // (what a thread or the process has once, it has from the first runs on)
    for _ in 0..3 {
        runs.iter().for_each(|(_, run)| drop(run()));
    }
    for (name, run) in runs {
        drop(run());
        let before = least();
        for _ in 0..3 {
            drop(run());
        }
        let left = least() - before;
        assert_eq!(left, 0, "{name}: blocks are left");
    }
}
