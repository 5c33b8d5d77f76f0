//! A library that stands before the C library's `malloc`, `realloc`, `read` and `write` (LD_PRELOAD) and refuses one call: of the
//! growths of memory the one whose number REFUSED_GROWTH has, of the reads that of REFUSED_READ, of the writes that of REFUSED_WRITE,
//! counted from 1. Where COUNTS_TO has the number of an open file, it writes there at the end of the program how many of each there were.
#![no_std]

use core::ffi::{c_char, c_int, c_void, CStr};
use core::sync::atomic::{AtomicU64, Ordering};

extern "C" {
    fn __libc_malloc(size: usize) -> *mut c_void;
    fn __libc_realloc(block: *mut c_void, size: usize) -> *mut c_void;
    fn __read(file: c_int, into: *mut c_void, size: usize) -> isize;
    fn __write(file: c_int, from: *const c_void, size: usize) -> isize;
    fn __errno_location() -> *mut c_int;
    fn getenv(name: *const c_char) -> *const c_char;
    fn dprintf(file: c_int, format: *const c_char, ...) -> c_int;
    fn strtoull(text: *const c_char, end: *mut *mut c_char, base: c_int) -> u64;
    fn abort() -> !;
}

/// The error of a device that fails.
const EIO: c_int = 5;
const UNREAD: u64 = u64::MAX;

/// The number in a variable; 0 where it isn't set.
fn number_in(name: &CStr) -> u64 {
    // SAFETY: the name ends in a zero byte, and so does what getenv gives; neither call takes memory.
    unsafe {
        let text = getenv(name.as_ptr());
        if text.is_null() { 0 } else { strtoull(text, core::ptr::null_mut(), 10) }
    }
}

/// The calls of one kind.
struct Calls {
    made: AtomicU64,
    refused: AtomicU64,
    variable: &'static CStr,
}

impl Calls {
    const fn new(variable: &'static CStr) -> Calls {
        Calls { made: AtomicU64::new(0), refused: AtomicU64::new(UNREAD), variable }
    }

    /// Whether the call that is made now is to be refused.
    fn is_refused(&self) -> bool {
        if self.refused.load(Ordering::Relaxed) == UNREAD {
            self.refused.store(number_in(self.variable), Ordering::Relaxed);
        }
        self.made.fetch_add(1, Ordering::Relaxed) + 1 == self.refused.load(Ordering::Relaxed)
    }
}

static GROWTHS: Calls = Calls::new(c"REFUSED_GROWTH");
static READS: Calls = Calls::new(c"REFUSED_READ");
static WRITES: Calls = Calls::new(c"REFUSED_WRITE");

/// Stands before the C library's.
///
/// # Safety
/// As `malloc`.
#[no_mangle]
pub unsafe extern "C" fn malloc(size: usize) -> *mut c_void {
    if GROWTHS.is_refused() {
        return core::ptr::null_mut();
    }
    __libc_malloc(size)
}

/// Stands before the C library's.
///
/// # Safety
/// As `realloc`.
#[no_mangle]
pub unsafe extern "C" fn realloc(block: *mut c_void, size: usize) -> *mut c_void {
    if GROWTHS.is_refused() {
        return core::ptr::null_mut();
    }
    __libc_realloc(block, size)
}

/// Stands before the C library's.
///
/// # Safety
/// As `read`.
#[no_mangle]
pub unsafe extern "C" fn read(file: c_int, into: *mut c_void, size: usize) -> isize {
    if READS.is_refused() {
        *__errno_location() = EIO;
        return -1;
    }
    __read(file, into, size)
}

/// Stands before the C library's.
///
/// # Safety
/// As `write`.
#[no_mangle]
pub unsafe extern "C" fn write(file: c_int, from: *const c_void, size: usize) -> isize {
    if WRITES.is_refused() {
        *__errno_location() = EIO;
        return -1;
    }
    __write(file, from, size)
}

extern "C" fn tell() {
    let file = number_in(c"COUNTS_TO");
    if file > 0 {
        let made = |calls: &Calls| calls.made.load(Ordering::Relaxed);
        // SAFETY: the format takes the three numbers that stand behind it.
        unsafe { dprintf(file as c_int, c"%llu %llu %llu\n".as_ptr(), made(&GROWTHS), made(&READS), made(&WRITES)) };
    }
}

#[used]
#[link_section = ".fini_array"]
static TELL: extern "C" fn() = tell;

#[panic_handler]
fn panic(_: &core::panic::PanicInfo) -> ! {
    // SAFETY: it takes nothing.
    unsafe { abort() }
}
