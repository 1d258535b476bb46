//! Stands in for C's read and write in a program that is started with this library in LD_PRELOAD.
//! Calls on standard input and standard output meet the faults that the variable BAD_LUCK lists;
//! all other calls go through.

mod fault;

use std::os::raw::{c_int, c_long, c_void};
use std::sync::atomic::{AtomicUsize, Ordering};

use fault::Fault;

/// The numbers of the calls on x86-64 Linux, for which the programs are compiled.
const READ: c_long = 0;
const WRITE: c_long = 1;

/// How many calls were made on standard input and on standard output.
static READS: AtomicUsize = AtomicUsize::new(0);
static WRITES: AtomicUsize = AtomicUsize::new(0);

extern "C" {
    fn syscall(number: c_long, ...) -> c_long;
    fn __errno_location() -> *mut c_int;
}

/// # Safety
/// As for C's read.
#[no_mangle]
pub unsafe extern "C" fn read(descriptor: c_int, bytes: *mut c_void, count: usize) -> isize {
    let most = if descriptor == 0 { allowed("read", &READS, count) } else { Some(count) };
    most.map_or(-1, |most| syscall(READ, descriptor, bytes, most) as isize)
}

/// # Safety
/// As for C's write.
#[no_mangle]
pub unsafe extern "C" fn write(descriptor: c_int, bytes: *const c_void, count: usize) -> isize {
    let most = if descriptor == 1 { allowed("write", &WRITES, count) } else { Some(count) };
    most.map_or(-1, |most| syscall(WRITE, descriptor, bytes, most) as isize)
}

/// How many of so many bytes the next call of a name may take; none if it fails, and errno says why.
fn allowed(name: &str, made: &AtomicUsize, count: usize) -> Option<usize> {
    let nth = made.fetch_add(1, Ordering::Relaxed) + 1;
    match fault::met(name, nth) {
        None => Some(count),
        Some(Fault::Takes(most)) => Some(most.min(count)),
        Some(Fault::Fails(error)) => {
            // SAFETY: C's errno of this thread, which is always there.
            unsafe { *__errno_location() = error };
            None
        }
    }
}
