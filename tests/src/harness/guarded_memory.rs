//! Memory between two guard pages, to be lent to the library as a desk's shell lends its own: what is read or written
//! outside of the slice lent ends the test at once or is found afterwards, and what is written inside shows.

use std::ffi::c_void;

extern "C" {
    fn mmap(at: *mut c_void, bytes: usize, protection: i32, flags: i32, file: i32, offset: i64) -> *mut c_void;
    fn mprotect(at: *mut c_void, bytes: usize, protection: i32) -> i32;
    fn munmap(at: *mut c_void, bytes: usize) -> i32;
}

const PAGE: usize = 4096;
const READ_WRITE: i32 = 3;
const PRIVATE_ANONYMOUS: i32 = 0x22;
/// What stands on both sides of a slice, as far as there is room between the two pages.
const BESIDE: usize = 64;
const GUARD: u8 = 0xA5;

pub struct GuardedMemory {
    pages: *mut u8,
    /// Between the two pages.
    room: usize,
    calls: usize,
}

impl GuardedMemory {
    pub fn new(most: usize) -> GuardedMemory {
        let room = most.div_ceil(PAGE) * PAGE;
        // SAFETY: new pages of this process, of which the first and the last are closed.
        let pages = unsafe {
            let pages = mmap(std::ptr::null_mut(), room + 2 * PAGE, 0, PRIVATE_ANONYMOUS, -1, 0) as *mut u8;
            assert_ne!(pages as isize, -1, "no memory");
            assert_eq!(mprotect(pages.add(PAGE).cast(), room, READ_WRITE), 0);
            pages
        };
        GuardedMemory { pages, room, calls: 0 }
    }

    /// Lends these bytes to be read.
    pub fn lend<T>(&mut self, bytes: &[u8], work: impl FnOnce(&[u8]) -> T) -> T {
        let (answer, left) = self.lend_to_write(bytes, |lent| work(lent));
        assert_eq!(left, bytes, "lent bytes stay");
        answer
    }

    /// Lends these bytes to be read and written, in turn up to the last page, from the first page on, and at every other alignment. What
    /// they are then.
    pub fn lend_to_write<T>(&mut self, bytes: &[u8], work: impl FnOnce(&mut [u8]) -> T) -> (T, &[u8]) {
        let free = self.room - bytes.len();
        self.calls += 1;
        let from = match self.calls % 9 {
            0 => 0,
            gap => free.saturating_sub(gap - 1),
        };
        let (before, behind) = (from.min(BESIDE), (free - from).min(BESIDE));
        // SAFETY: the slice and what stands beside it lie between the two pages; nothing else refers to them.
        let all = unsafe { std::slice::from_raw_parts_mut(self.pages.add(PAGE + from - before), before + bytes.len() + behind) };
        all.fill(GUARD);
        let place = before..before + bytes.len();
        all[place.clone()].copy_from_slice(bytes);
        let answer = work(std::hint::black_box(&mut all[place.clone()]));
        let all = std::hint::black_box(&*all);
        let beside = [&all[..before], &all[place.end..]].concat();
        assert!(beside.iter().all(|byte| *byte == GUARD), "nothing is written beside what was lent");
        (answer, &all[place])
    }
}

impl Drop for GuardedMemory {
    fn drop(&mut self) {
        // SAFETY: the pages of new, which no slice outlives.
        unsafe { munmap(self.pages.cast(), self.room + 2 * PAGE) };
    }
}
