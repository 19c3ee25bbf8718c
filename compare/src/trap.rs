//! Says which case was under way when the program is ended by the machine: a
//! library that reads outside the memory lent to it.

use std::sync::atomic::{AtomicU64, Ordering::Relaxed};

pub const FLOW: u64 = 1;
pub const CORRECTION: u64 = 2;
pub const SHEET: u64 = 3;
pub const DATE: u64 = 4;
pub const LINE: u64 = 5;
pub const ROOM: u64 = 6;
pub const SERIES: u64 = 7;
pub const REBALANCING: u64 = 8;
pub const DROPPING: u64 = 9;
pub const KEPT: u64 = 10;
pub const PAIR: u64 = 11;
pub const EP: u64 = 12;

static KIND: AtomicU64 = AtomicU64::new(0);
static SEED: AtomicU64 = AtomicU64::new(0);
static INDEX: AtomicU64 = AtomicU64::new(0);

extern "C" {
    fn signal(number: i32, handler: usize) -> usize;
    fn write(file: i32, bytes: *const u8, length: usize) -> isize;
    fn _exit(status: i32) -> !;
}

/// SIGILL, SIGBUS, SIGFPE and SIGSEGV.
const SIGNALS: [i32; 4] = [4, 7, 8, 11];

pub fn set() {
    for number in SIGNALS {
        // SAFETY: the handler calls nothing but write and _exit.
        unsafe { signal(number, trapped as extern "C" fn(i32) as usize) };
    }
}

/// Notes the case that is compared now.
pub fn at(kind: u64, seed: u64, index: u64) {
    KIND.store(kind, Relaxed);
    SEED.store(seed, Relaxed);
    INDEX.store(index, Relaxed);
}

extern "C" fn trapped(number: i32) {
    say(b"\nTRAPPED by signal ");
    say_number(number as u64);
    say(match KIND.load(Relaxed) {
        FLOW => b": flow ",
        SHEET => b": sheet ",
        SERIES => b": series ",
        REBALANCING => b": rebalancing ",
        DROPPING => b": dropping ",
        KEPT => b": kept ",
        PAIR => b": pair ",
        EP => b": ep ",
        DATE => b": date ",
        LINE => b": line ",
        ROOM => b": rooms of every length, call ",
        _ => b": correction ",
    });
    say_number(INDEX.load(Relaxed));
    if !matches!(KIND.load(Relaxed), DATE | LINE | ROOM) {
        say(b" of seed ");
        say_number(SEED.load(Relaxed));
        say(b" (once more: again SEED flow|correction|sheet|series|rebalancing|dropping|kept|pair|ep INDEX)");
    }
    say(b"\n");
    // SAFETY: ends the program.
    unsafe { _exit(1) }
}

fn say(text: &[u8]) {
    // SAFETY: the slice's own pointer and length.
    unsafe { write(2, text.as_ptr(), text.len()) };
}

/// Digit by digit, with no memory of its own: the stack of a handler is not
/// aligned as usual under every emulator.
fn say_number(number: u64) {
    if number > 9 {
        say_number(number / 10);
    }
    let digit = (number % 10) as usize;
    say(&b"0123456789"[digit..digit + 1]);
}
