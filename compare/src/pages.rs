//! Pages of memory between two pages that must not be touched: a byte read or written there ends the program.

use std::ffi::{c_int, c_void};
use std::ptr::null_mut;

extern "C" {
    fn mmap(address: *mut c_void, length: usize, protection: c_int, flags: c_int, file: c_int, at: i64) -> *mut c_void;
    fn mprotect(address: *mut c_void, length: usize, protection: c_int) -> c_int;
    fn munmap(address: *mut c_void, length: usize) -> c_int;
}

/// Of Linux on x86-64.
const PAGE: usize = 4096;
const PROT_NONE: c_int = 0;
const PROT_READ_WRITE: c_int = 1 | 2;
const MAP_PRIVATE_ANONYMOUS: c_int = 0x02 | 0x20;

/// The bytes between the two guard pages.
const ROOM: usize = 2 * PAGE;
const WHOLE: usize = PAGE + ROOM + PAGE;

pub struct Pages {
    first: *mut u8,
}

impl Pages {
    pub fn new() -> Pages {
        // Fresh memory of this program alone, of which the middle is made usable.
        let first = unsafe { mmap(null_mut(), WHOLE, PROT_NONE, MAP_PRIVATE_ANONYMOUS, -1, 0) };
        assert_ne!(first as isize, -1, "there is memory for {WHOLE} bytes");
        let refused = unsafe { mprotect(first.byte_add(PAGE), ROOM, PROT_READ_WRITE) };
        assert_eq!(refused, 0, "pages can be made usable");
        Pages { first: first.cast() }
    }

    pub fn bytes(&mut self) -> &mut [u8] {
        // The middle pages belong to this value, are usable and were zeros at first.
        unsafe { std::slice::from_raw_parts_mut(self.first.add(PAGE), ROOM) }
    }
}

impl Drop for Pages {
    fn drop(&mut self) {
        unsafe { munmap(self.first.cast(), WHOLE) };
    }
}

#[cfg(test)]
mod tests {
    use super::*;
    use std::os::unix::process::ExitStatusExt;
    use std::process::Command;

    const SEGMENTATION_FAULT: i32 = 11;

    /// Reads a byte at a place counted from the first usable one.
    fn touch(at: isize) {
        let mut pages = Pages::new();
        let byte = unsafe { pages.bytes().as_ptr().offset(at).read_volatile() };
        println!("read {byte}");
    }

    #[test]
    #[ignore = "run by the test below, in a program of its own"]
    fn touch_before() {
        touch(-1);
    }

    #[test]
    #[ignore = "run by the test below, in a program of its own"]
    fn touch_after() {
        touch(ROOM as isize);
    }

    #[test]
    fn a_byte_read_outside_ends_the_program() {
        for name in ["pages::tests::touch_before", "pages::tests::touch_after"] {
            let program = std::env::current_exe().expect("this program has a path");
            let output = Command::new(program).args(["--ignored", "--exact", name]).output().expect("it runs");
            assert_eq!(output.status.signal(), Some(SEGMENTATION_FAULT));
        }
    }
}
