//! Buffers against pages that end the process when touched.

use std::ffi::c_void;
use std::mem::size_of_val;
use std::ptr;
use std::slice;

const PAGE: usize = 4_096;
/// Room for the longest row, and a slot more.
const PAGES: usize = 17;

const READ: i32 = 1;
const READ_WRITE: i32 = 3;
const PRIVATE_ANONYMOUS: i32 = 0x22;

extern "C" {
    fn mmap(
        at: *mut c_void,
        bytes: usize,
        access: i32,
        kind: i32,
        file: i32,
        from: i64,
    ) -> *mut c_void;
    fn mprotect(at: *mut c_void, bytes: usize, access: i32) -> i32;
}

/// Pages between two that nobody may touch. Kept until the process ends.
pub struct Fenced {
    first: *mut u8,
}

impl Fenced {
    pub fn new() -> Self {
        // SAFETY: new pages, of which only those between the fences are used.
        unsafe {
            let all = mmap(
                ptr::null_mut(),
                (PAGES + 2) * PAGE,
                0,
                PRIVATE_ANONYMOUS,
                -1,
                0,
            );
            let first = all.cast::<u8>().wrapping_add(PAGE);
            let fenced = Self { first };
            fenced.allow(READ_WRITE);
            fenced
        }
    }

    /// What may be done with the pages.
    fn allow(&self, access: i32) {
        // SAFETY: the pages between the fences, which nobody else has.
        let answer = unsafe { mprotect(self.first.cast(), PAGES * PAGE, access) };
        assert_eq!(answer, 0);
    }

    /// A copy of the contents right behind the first fence or right before the
    /// second. The elements are any bits, as those of words, records and bytes.
    pub fn lend<E: Copy>(&mut self, contents: &[E], at_the_end: bool) -> &mut [E] {
        let start = match at_the_end {
            true => PAGES * PAGE - size_of_val(contents),
            false => 0,
        };
        self.allow(READ_WRITE);
        // SAFETY: inside the pages, which are borrowed with `self`, and aligned as
        // they are, since a size is a multiple of its alignment.
        unsafe {
            let start = self.first.add(start).cast::<E>();
            ptr::copy_nonoverlapping(contents.as_ptr(), start, contents.len());
            slice::from_raw_parts_mut(start, contents.len())
        }
    }

    /// The same, in pages that can only be read until the next lending.
    pub fn lend_to_read<E: Copy>(&mut self, contents: &[E], at_the_end: bool) -> &[E] {
        let lent = self.lend(contents, at_the_end) as *const [E];
        self.allow(READ);
        // SAFETY: it is borrowed with `self`.
        unsafe { &*lent }
    }
}
