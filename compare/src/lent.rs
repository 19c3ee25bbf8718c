//! Memory that is lent to the library: it lies between two pages that may not
//! be touched, so that a read or a write past its end ends the program, and
//! has marked bytes on the sides where no such page follows.

use crate::rng::Rng;
use std::ffi::c_void;
use std::ops::Range;

extern "C" {
    fn mmap(at: *mut c_void, length: usize, protection: i32, flags: i32, file: i32, from: i64) -> *mut c_void;
    fn mprotect(at: *mut c_void, length: usize, protection: i32) -> i32;
}

/// A multiple of the size of a page on every machine meant here.
const GUARD: usize = 1 << 16;
const NONE: i32 = 0;
const READ_WRITE: i32 = 3;
const PRIVATE_ANONYMOUS: i32 = 0x22;

const MARKED: usize = 64;
const MARK: u8 = 0xA5;

/// Where in the memory a part lies.
#[derive(Clone, Copy)]
pub enum Place {
    /// Ends where the memory ends.
    End,
    /// Starts where the memory starts.
    Start,
    /// Starts some bytes later.
    Within(usize),
}

/// Numbers that are seen to stay, or not.
pub fn canary(rng: &mut Rng, room: usize) -> Vec<u64> {
    let (first, step) = (rng.next(), rng.next() | 1);
    (0..room as u64).map(|at| first.wrapping_add(at.wrapping_mul(step))).collect()
}

pub struct Lent {
    start: *mut u8,
    size: usize,
}

impl Lent {
    /// Room for a part of `most` bytes.
    pub fn new(most: usize) -> Self {
        let size = (most + 2 * MARKED + GUARD - 1) / GUARD * GUARD;
        // SAFETY: a new mapping, whose first and last part are then shut.
        unsafe {
            let whole = size + 2 * GUARD;
            let at = mmap(std::ptr::null_mut(), whole, READ_WRITE, PRIVATE_ANONYMOUS, -1, 0);
            assert!(at as isize != -1, "no memory");
            let at = at as *mut u8;
            assert!(mprotect(at as *mut c_void, GUARD, NONE) == 0);
            assert!(mprotect(at.add(GUARD + size) as *mut c_void, GUARD, NONE) == 0);
            Lent { start: at.add(GUARD), size }
        }
    }

    fn all(&mut self) -> &mut [u8] {
        // SAFETY: the mapping is `size` bytes long, readable, writable and
        // borrowed through this value alone.
        unsafe { std::slice::from_raw_parts_mut(self.start, self.size) }
    }

    /// Chooses a part of this length and marks the bytes beside it.
    pub fn part(&mut self, length: usize, place: Place) -> Range<usize> {
        let start = match place {
            Place::End => self.size - length,
            Place::Start => 0,
            Place::Within(bytes) => bytes,
        };
        let part = start..start + length;
        for beside in self.beside(&part) {
            self.all()[beside].fill(MARK);
        }
        part
    }

    pub fn bytes(&mut self, part: &Range<usize>) -> &mut [u8] {
        &mut self.all()[part.clone()]
    }

    /// The part as numbers; it starts and ends at multiples of eight.
    pub fn numbers(&mut self, part: &Range<usize>) -> &mut [u64] {
        assert!(part.start % 8 == 0 && part.len() % 8 == 0);
        let bytes = self.bytes(part);
        // SAFETY: the start is aligned, since the mapping's is, and any eight
        // bytes are a number.
        unsafe { std::slice::from_raw_parts_mut(bytes.as_mut_ptr() as *mut u64, bytes.len() / 8) }
    }

    /// Whether the marked bytes beside the part are as they were.
    pub fn kept(&mut self, part: &Range<usize>) -> bool {
        let beside = self.beside(part);
        beside.into_iter().all(|range| self.all()[range].iter().all(|&byte| byte == MARK))
    }

    fn beside(&self, part: &Range<usize>) -> [Range<usize>; 2] {
        [part.start.saturating_sub(MARKED)..part.start, part.end..(part.end + MARKED).min(self.size)]
    }
}
