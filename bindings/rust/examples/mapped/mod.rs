//! A file in memory, as words that outlive the process that stored them. It is Linux's `mmap`, which the standard library does not have.

use std::ffi::{c_int, c_void};
use std::fs::OpenOptions;
use std::io;
use std::os::fd::AsRawFd;
use std::path::Path;
use std::ptr;
use std::slice;
use std::sync::atomic::AtomicU64;

const READ_AND_WRITE: c_int = 3; // PROT_READ | PROT_WRITE
const SHARED: c_int = 1; // MAP_SHARED

unsafe extern "C" {
    fn mmap(address: *mut c_void, bytes: usize, protection: c_int, flags: c_int, file: c_int, offset: i64) -> *mut c_void;
    fn posix_fallocate(file: c_int, offset: i64, bytes: i64) -> c_int;
}

/// Makes a file of this many words, all 0, and maps it for the rest of the process. No program may shorten it
/// meanwhile.
///
/// # Errors
/// If the file exists, and errors of the system.
pub fn new_file(name: &Path, words: usize) -> io::Result<&'static [AtomicU64]> {
    let bytes = words * 8;
    let file = OpenOptions::new().read(true).write(true).create_new(true).open(name)?;
    // SAFETY: the file is open. (Its blocks are taken now: a full disk is found here, and not by a signal later.)
    let code = unsafe { posix_fallocate(file.as_raw_fd(), 0, bytes as i64) };
    if code != 0 {
        return Err(io::Error::from_raw_os_error(code));
    }
    // SAFETY: a new mapping, which overlaps nothing.
    let place = unsafe { mmap(ptr::null_mut(), bytes, READ_AND_WRITE, SHARED, file.as_raw_fd(), 0) };
    if place as isize == -1 {
        return Err(io::Error::last_os_error());
    }
    // SAFETY: this many bytes are mapped there, aligned to a page, until the process ends; others access them as
    // these words only.
    Ok(unsafe { slice::from_raw_parts(place.cast::<AtomicU64>(), words) })
}
