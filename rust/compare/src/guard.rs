//! Buffers that end, or begin, at a page that may not be touched: a call that reads or writes outside
//! what it was lent ends the process with a fault. (Linux on x86-64, as the static library.)

use std::ffi::c_void;
use std::mem::{align_of, size_of};
use std::slice;

const PAGE: usize = 4096;
const NONE: i32 = 0;
const READ_WRITE: i32 = 3;
const PRIVATE_ANONYMOUS: i32 = 0x22;

extern "C" {
    fn mmap(at: *mut c_void, len: usize, may: i32, flags: i32, file: i32, offset: i64) -> *mut c_void;
    fn mprotect(at: *mut c_void, len: usize, may: i32) -> i32;
}

/// Room for one lent buffer, between two such pages. It is kept until the process ends.
pub struct Guarded {
    start: *mut u8,
    room: usize,
}

impl Guarded {
    pub fn new(bytes: usize) -> Guarded {
        let room = bytes.div_ceil(PAGE) * PAGE;
        // SAFETY: a new mapping, of which the middle is made usable.
        unsafe {
            let all = mmap(std::ptr::null_mut(), room + 2 * PAGE, NONE, PRIVATE_ANONYMOUS, -1, 0);
            assert!(all as isize != -1, "no memory");
            let start = (all as *mut u8).add(PAGE);
            assert_eq!(mprotect(start as *mut c_void, room, READ_WRITE), 0);
            Guarded { start, room }
        }
    }

    /// A copy of these values that ends where the room ends, or begins where it begins.
    pub fn lend<T: Copy>(&mut self, values: &[T], at_end: bool) -> &mut [T] {
        let bytes = size_of::<T>() * values.len();
        assert!(bytes <= self.room && PAGE % align_of::<T>() == 0);
        let offset = if at_end { self.room - bytes } else { 0 };
        // SAFETY: the bytes lie in the room, which is aligned to a page, and a size is a multiple of its alignment.
        unsafe {
            let to = self.start.add(offset) as *mut T;
            to.copy_from_nonoverlapping(values.as_ptr(), values.len());
            slice::from_raw_parts_mut(to, values.len())
        }
    }
}
