//! Memory between two guard pages, so that an access past a buffer's end ends the run.

use crate::random::Random;
use std::ffi::{c_int, c_void};
use std::ops::Range;
use std::{ptr, slice};

const PAGE: usize = 4096;
/// So many bytes beside a buffer are looked at.
const BESIDE: usize = 256;

// Those of Linux.
const PROT_NONE: c_int = 0;
const PROT_READ: c_int = 1;
const PROT_WRITE: c_int = 2;
const MAP_PRIVATE: c_int = 2;
const MAP_ANONYMOUS: c_int = 0x20;

unsafe extern "C" {
    fn mmap(
        address: *mut c_void,
        length: usize,
        protection: c_int,
        flags: c_int,
        file: c_int,
        offset: i64,
    ) -> *mut c_void;
    fn mprotect(address: *mut c_void, length: usize, protection: c_int) -> c_int;
}

/// A buffer's place: right after the first guard page, or right before the second.
#[derive(Clone, Copy)]
pub enum Side {
    First,
    Second,
}

/// A buffer, and what it and the bytes beside it held before they were lent.
pub struct Guarded {
    memory: &'static mut [u8],
    place: Range<usize>,
    old: Vec<u8>,
}

impl Guarded {
    /// For buffers of at most this length. The memory is never given back.
    pub fn new(most: usize) -> Self {
        let length = most.next_multiple_of(PAGE);
        // SAFETY: the memory is new, and what is made readable and writable of it lies between its first and its last page.
        let memory = unsafe {
            let flags = MAP_PRIVATE | MAP_ANONYMOUS;
            let start = mmap(ptr::null_mut(), length + 2 * PAGE, PROT_NONE, flags, -1, 0);
            assert_ne!(start as isize, -1, "there is no memory");
            let inner = start.add(PAGE);
            let set = mprotect(inner, length, PROT_READ | PROT_WRITE);
            assert_eq!(set, 0, "the guard pages can't be set");
            slice::from_raw_parts_mut(inner.cast(), length)
        };
        Guarded {
            memory,
            place: 0..0,
            old: Vec::new(),
        }
    }

    /// Moves the buffer, and fills it and the bytes beside it at random.
    pub fn fill(&mut self, length: usize, side: Side, random: &mut Random) {
        self.place = match side {
            Side::First => 0..length,
            Side::Second => self.memory.len() - length..self.memory.len(),
        };
        let filled = self.filled();
        self.old.clear();
        while self.old.len() < filled.len() {
            self.old.extend(random.next_u64().to_le_bytes());
        }
        self.old.truncate(filled.len());
        self.memory[filled].copy_from_slice(&self.old);
    }

    pub fn buffer(&mut self) -> &mut [u8] {
        &mut self.memory[self.place.clone()]
    }

    /// The buffer's address and length. One without bytes is at the first side given as null.
    pub fn lent(&mut self) -> (*mut u8, usize) {
        if self.place.end == 0 {
            return (ptr::null_mut(), 0);
        }
        let buffer = self.buffer();
        (buffer.as_mut_ptr(), buffer.len())
    }

    /// Whether the bytes before and after the buffer, and its own from this place on, are still the old ones.
    pub fn is_kept_from(&self, place: usize) -> bool {
        let filled = self.filled();
        let (memory, at) = (
            &self.memory[filled.clone()],
            self.place.start - filled.start,
        );
        memory[..at] == self.old[..at] && memory[at + place..] == self.old[at + place..]
    }

    /// How many bytes at the start of all that was filled are still the old ones.
    pub fn kept_at_start(&self) -> usize {
        let filled = self.memory[self.filled()].iter();
        let kept = filled.zip(&self.old).take_while(|(a, b)| a == b);
        kept.count()
    }

    fn filled(&self) -> Range<usize> {
        let end = (self.place.end + BESIDE).min(self.memory.len());
        self.place.start.saturating_sub(BESIDE)..end
    }
}
