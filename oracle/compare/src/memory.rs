//! The memory that readers are lent: a pack that ends where the process may not read, and a tape between guard words.

use crate::calls::Lent;
use std::ffi::c_void;

extern "C" {
    fn mmap(address: *mut c_void, length: usize, protection: i32, flags: i32, file: i32, offset: i64) -> *mut c_void;
    fn munmap(address: *mut c_void, length: usize) -> i32;
    fn mprotect(address: *mut c_void, length: usize, protection: i32) -> i32;
}

const NONE: i32 = 0;
const READ_WRITE: i32 = 1 | 2;
const PRIVATE_ANONYMOUS: i32 = 2 | 0x20;
const PAGE: usize = 4096;

/// The pack stands at the end of its pages, and the page after them is closed: a read past the pack's end stops the
/// process.
pub struct Pack {
    pages: *mut u8,
    room: usize,
    length: usize,
}

impl Pack {
    pub fn new() -> Self {
        let mut pack = Pack { pages: std::ptr::null_mut(), room: 0, length: 0 };
        pack.grow(1 << 20);
        pack
    }

    fn grow(&mut self, room: usize) {
        self.free();
        self.room = room.next_multiple_of(PAGE);
        // SAFETY: fresh pages; the last one is closed before anything else sees them.
        unsafe {
            let pages = mmap(std::ptr::null_mut(), self.room + PAGE, READ_WRITE, PRIVATE_ANONYMOUS, -1, 0);
            assert_ne!(pages as isize, -1, "no memory for the pack");
            self.pages = pages.cast();
            assert_eq!(mprotect(self.pages.add(self.room).cast(), PAGE, NONE), 0);
        }
    }

    fn free(&mut self) {
        if self.room > 0 {
            // SAFETY: the pages are this struct's own, and no part of them is lent between calls.
            unsafe { munmap(self.pages.cast(), self.room + PAGE) };
        }
    }

    pub fn fill(&mut self, bytes: &[u8]) {
        if bytes.len() > self.room {
            self.grow(bytes.len());
        }
        self.length = bytes.len();
        let lent = self.lend();
        // SAFETY: `lend` is inside the open pages.
        unsafe { std::ptr::copy_nonoverlapping(bytes.as_ptr(), lent.start, bytes.len()) };
    }

    pub fn lend(&self) -> Lent<u8> {
        // SAFETY: the length is at most the room.
        Lent { start: unsafe { self.pages.add(self.room - self.length) }, length: self.length }
    }

    pub fn bytes(&self) -> &[u8] {
        // SAFETY: the pages are open and nothing writes to them while they are borrowed.
        unsafe { self.lend().slice() }
    }
}

impl Drop for Pack {
    fn drop(&mut self) {
        self.free();
    }
}

/// Words on either side of the lent tape.
const GUARD: usize = 8;

/// A tape whose words, and those around it, are all known before each call.
#[derive(Default)]
pub struct Tape {
    words: Vec<u32>,
    clean: Vec<u32>,
}

impl Tape {
    /// A tape of this length, clean since the last call of `judge`.
    pub fn lend(&mut self, length: usize) -> Lent<u32> {
        let all = length + 2 * GUARD;
        while self.clean.len() < all {
            // No small number, place or count: none that a reader writes by chance.
            let word = (self.clean.len() as u32).wrapping_mul(0x9E37_79B1) | 0x8000_0001;
            self.clean.push(word);
            self.words.push(word);
        }
        // SAFETY: the vector has so many words.
        Lent { start: unsafe { self.words.as_mut_ptr().add(GUARD) }, length }
    }

    /// What is wrong with the tape lent last, of `length` words, which should begin with `counted` and be as it was
    /// elsewhere. Afterwards it is clean.
    pub fn judge(&mut self, length: usize, counted: &[u32]) -> Option<String> {
        let all = length + 2 * GUARD;
        let end = GUARD + counted.len();
        let kept = |from: usize, to: usize| self.words[from..to] == self.clean[from..to];
        let good = self.words[GUARD..end] == *counted && kept(0, GUARD) && kept(end, all);
        let wrong = (!good).then(|| self.wrong(all, counted));
        let dirty = if good { end } else { all };
        self.words[..dirty].copy_from_slice(&self.clean[..dirty]);
        wrong
    }

    fn wrong(&self, all: usize, counted: &[u32]) -> String {
        let wanted = |at: usize| at.checked_sub(GUARD).and_then(|i| counted.get(i)).unwrap_or(&self.clean[at]);
        let at = (0..all).find(|at| self.words[*at] != *wanted(*at)).expect("a word differs");
        format!(
            "word {} of the tape is {}, expected {} ({} are counted)",
            at as i64 - GUARD as i64,
            self.words[at],
            wanted(at),
            counted.len()
        )
    }
}
