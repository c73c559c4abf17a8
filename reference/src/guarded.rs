//! Memory beside which nothing may be touched, for what the library is lent.

use std::ffi::c_void;

extern "C" {
    fn mmap(at: *mut c_void, length: usize, protection: i32, flags: i32, file: i32, offset: i64) -> *mut c_void;
}

const PAGE: usize = 4096;
const NONE: i32 = 0;
const READ_WRITE: i32 = 3;
const PRIVATE_ANONYMOUS: i32 = 0x22;
const FIXED: i32 = 0x10;

/// Pages between two that may not be touched.
pub struct Guarded {
    at: *mut u8,
    length: usize,
}

impl Guarded {
    /// Room for this many bytes.
    pub fn new(room: usize) -> Self {
        let length = (room.max(1) + PAGE - 1) / PAGE * PAGE;
        unsafe {
            let all = mmap(std::ptr::null_mut(), length + 2 * PAGE, NONE, PRIVATE_ANONYMOUS, -1, 0);
            assert_ne!(all as isize, -1, "mmap");
            let middle = mmap((all as *mut u8).add(PAGE) as *mut _, length, READ_WRITE, PRIVATE_ANONYMOUS | FIXED, -1, 0);
            assert_ne!(middle as isize, -1, "mmap");
            Guarded { at: middle as *mut u8, length }
        }
    }

    /// The bytes, at the end of the room or at its start; the others of the room are as they were left.
    pub fn lend(&mut self, bytes: &[u8], at_end: bool) -> &mut [u8] {
        assert!(bytes.len() <= self.length);
        let room = unsafe { std::slice::from_raw_parts_mut(self.at, self.length) };
        let from = if at_end { self.length - bytes.len() } else { 0 };
        let lent = &mut room[from..from + bytes.len()];
        lent.copy_from_slice(bytes);
        lent
    }

    /// The same with numbers of four bytes.
    pub fn lend_numbers(&mut self, numbers: &[f32], at_end: bool) -> &[f32] {
        let bytes: Vec<u8> = numbers.iter().flat_map(|x| x.to_le_bytes()).collect();
        let lent = self.lend(&bytes, at_end);
        unsafe { std::slice::from_raw_parts(lent.as_ptr() as *const f32, numbers.len()) }
    }

    /// The same with numbers of eight bytes, which may be written.
    pub fn lend_counts(&mut self, counts: &[u64], at_end: bool) -> &mut [u64] {
        let bytes: Vec<u8> = counts.iter().flat_map(|x| x.to_le_bytes()).collect();
        let lent = self.lend(&bytes, at_end);
        unsafe { std::slice::from_raw_parts_mut(lent.as_mut_ptr() as *mut u64, counts.len()) }
    }
}
