//! Lent buffers between guard pages. A party is asked over a file that cannot be written, and over buffers that end where a page
//! begins that nobody may touch: a touch behind a buffer, or a write to the file, ends the process by a signal. A canary in front
//! of each buffer shows what is written there.
//!
//! For Linux; the three calls that it takes are declared here, so that no crate is needed for them.

use crate::services::{ListAnswer, LivenessAnswer, Part, RewriteAnswer, Services};
use std::ffi::{c_int, c_long, c_void};
use std::{ptr, slice};

const PAGE: usize = 4096;

/// What stands in front of each buffer, and how far.
const CANARY: u8 = 0xC5;
const CANARIES: usize = 256;

const NOTHING: c_int = 0;
const READ: c_int = 1;
const READ_AND_WRITE: c_int = 3;
const PRIVATE_AND_ANONYMOUS: c_int = 0x22;

unsafe extern "C" {
    fn mmap(at: *mut c_void, bytes: usize, protection: c_int, flags: c_int, file: c_int, offset: c_long)
    -> *mut c_void;
    fn mprotect(at: *mut c_void, bytes: usize, protection: c_int) -> c_int;
    fn munmap(at: *mut c_void, bytes: usize) -> c_int;
}

/// Pages between two guard pages; one buffer at a time stands at their end.
struct Pages {
    /// The lower guard page.
    mapped: *mut u8,
    /// How many bytes lie between the guard pages.
    room: usize,
}

impl Pages {
    /// Pages with room for so many bytes behind their canary.
    fn new(bytes: usize) -> Pages {
        let room = (bytes + CANARIES).next_multiple_of(PAGE);
        // SAFETY: new memory at an address of the system's choice touches nothing that is there.
        let mapped = unsafe { mmap(ptr::null_mut(), room + 2 * PAGE, NOTHING, PRIVATE_AND_ANONYMOUS, -1, 0) };
        assert_ne!(mapped as isize, -1, "the system gives no memory");
        let pages = Pages { mapped: mapped.cast(), room };
        pages.protect(bytes, READ_AND_WRITE);
        pages
    }

    /// Says what may be done with the pages that hold the last so many bytes and their canary.
    fn protect(&self, bytes: usize, protection: c_int) {
        let part = (bytes + CANARIES).next_multiple_of(PAGE);
        // SAFETY: these pages are this value's own, and no reference to them lives here.
        let said = unsafe { mprotect(self.mapped.add(PAGE + self.room - part).cast(), part, protection) };
        assert_eq!(said, 0, "the system does not protect the pages");
    }

    /// A copy of `held` that ends at the guard page, and the canary in front of it.
    fn copy<'a, T: Copy>(&'a mut self, held: &[T]) -> (&'a mut [u8], &'a mut [T]) {
        let bytes = size_of_val(held);
        if bytes + CANARIES > self.room {
            *self = Pages::new(2 * bytes);
        }
        // SAFETY: both parts lie between the guard pages, behind one another, and may be written; the second ends where a
        // page begins, so it is aligned for any number, and it is set before it is read.
        unsafe {
            let start = self.mapped.add(PAGE + self.room - bytes);
            let front = slice::from_raw_parts_mut(start.sub(CANARIES), CANARIES);
            front.fill(CANARY);
            ptr::copy_nonoverlapping(held.as_ptr(), start.cast(), held.len());
            (front, slice::from_raw_parts_mut(start.cast(), held.len()))
        }
    }

    /// Lends a copy of `held` to a call that may write it, and takes over what the call leaves.
    fn lend<T: Copy, R>(&mut self, held: &mut [T], call: impl FnOnce(&mut [T]) -> R) -> R {
        let (front, part) = self.copy(held);
        let answer = call(part);
        assert!(front.iter().all(|&byte| byte == CANARY), "written in front of a lent buffer");
        held.copy_from_slice(part);
        answer
    }

    /// Shows a copy of `held` to a call that cannot write it.
    fn show<R>(&mut self, held: &[u8], call: impl FnOnce(&[u8]) -> R) -> R {
        let (_, part) = self.copy(held);
        let part = ptr::from_ref(part);
        self.protect(held.len(), READ);
        // SAFETY: the copy is set, may be read, and is not touched before it may be written again.
        let answer = call(unsafe { &*part });
        self.protect(held.len(), READ_AND_WRITE);
        answer
    }
}

impl Drop for Pages {
    fn drop(&mut self) {
        // SAFETY: the pages are this value's own and are not used again.
        unsafe { munmap(self.mapped.cast(), self.room + 2 * PAGE) };
    }
}

/// A party whose every buffer stands between guard pages while it is asked.
pub struct Guarded<S> {
    party: S,
    file: Pages,
    first: Pages,
    second: Pages,
}

impl<S: Services> Guarded<S> {
    pub fn new(party: S) -> Guarded<S> {
        Guarded { party, file: Pages::new(PAGE), first: Pages::new(PAGE), second: Pages::new(PAGE) }
    }
}

impl<S: Services> Services for Guarded<S> {
    fn liveness(&mut self, file: &[u8], live_in: &mut [u64], live_out: &mut [u64]) -> LivenessAnswer {
        let Guarded { party, file: pages, first, second } = self;
        pages.show(file, |file| {
            first.lend(live_in, |live_in| second.lend(live_out, |live_out| party.liveness(file, live_in, live_out)))
        })
    }

    fn list(&mut self, file: &[u8], instruction: u32, list: &mut [u32]) -> ListAnswer {
        let Guarded { party, file: pages, first, .. } = self;
        pages.show(file, |file| first.lend(list, |list| party.list(file, instruction, list)))
    }

    fn rewrite(&mut self, file: &[u8], pointer_size: u32, output: &mut [u8]) -> RewriteAnswer {
        let Guarded { party, file: pages, first, .. } = self;
        pages.show(file, |file| first.lend(output, |output| party.rewrite(file, pointer_size, output)))
    }

    fn final_records(&mut self, answer: &RewriteAnswer, input: &[u8], output: &[u8]) -> Part {
        let Guarded { party, file: pages, first, .. } = self;
        pages.show(input, |input| first.show(output, |output| party.final_records(answer, input, output)))
    }
}

/// Asks a question about a file that stands between guard pages.
pub fn shown<R>(file: &[u8], ask: impl FnOnce(&[u8]) -> R) -> R {
    Pages::new(file.len()).show(file, ask)
}
