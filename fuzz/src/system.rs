//! Memory maps, as the system's C library declares them on x86-64.

use std::ffi::c_void;

extern "C" {
    fn mmap(
        address: *mut c_void,
        length: usize,
        protection: i32,
        flags: i32,
        file: i32,
        offset: i64,
    ) -> *mut c_void;
    fn mprotect(address: *mut c_void, length: usize, protection: i32) -> i32;
}

pub const PAGE: usize = 4096;

const NONE: i32 = 0;
const READ_AND_WRITE: i32 = 3;
const SHARED: i32 = 1;
const PRIVATE: i32 = 2;
const ANONYMOUS: i32 = 0x20;

fn mapped(address: *mut c_void) -> *mut u8 {
    assert!(address as isize != -1, "memory can be mapped");
    address.cast()
}

/// Memory of so many bytes, a multiple of a page, with a page before and a page after it that fault when touched. It stays for the whole run.
pub fn between_pages(length: usize) -> *mut u8 {
    let whole = length + 2 * PAGE;
    let flags = PRIVATE | ANONYMOUS;
    unsafe {
        let first = mapped(mmap(std::ptr::null_mut(), whole, NONE, flags, -1, 0));
        let inside = first.add(PAGE);
        let opened = mprotect(inside.cast(), length, READ_AND_WRITE);
        assert!(opened == 0, "memory can be opened");
        inside
    }
}

/// A file's first bytes as memory that all its readers share.
pub fn shared_file(file: &std::fs::File, length: usize) -> *mut u8 {
    use std::os::fd::AsRawFd;
    let null = std::ptr::null_mut();
    unsafe {
        mapped(mmap(
            null,
            length,
            READ_AND_WRITE,
            SHARED,
            file.as_raw_fd(),
            0,
        ))
    }
}
