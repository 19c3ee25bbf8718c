//! The memory that one call takes beside the flow and the room.
//!
//! The stack: the call is made in a signal handler, which the system runs on a
//! block of memory that was marked all over. The lowest byte that is not as it
//! was marked shows how far down the stack went, and what a function that does
//! nothing took on the same way is taken off. So the frame of the caller, the
//! handler's and the system's do not count. Bytes below the lowest one that was
//! written do not count either: room that was set aside and never used.
//!
//! The heap: what is asked of the allocator during the call. The library
//! cannot ask, since it is linked to no allocator.

use crate::calls::MOST_NUMBERS;
use crate::Work;
use std::alloc::{GlobalAlloc, Layout, System};
use std::ffi::c_void;
use std::ptr::null_mut;
use std::sync::atomic::{AtomicPtr, AtomicU64, Ordering::SeqCst};

/// As the C library declares them on 64-bit Linux.
#[repr(C)]
struct Stack {
    start: *mut c_void,
    flags: i32,
    size: usize,
}

#[repr(C)]
struct Action {
    handler: usize,
    mask: [u64; 16],
    flags: i32,
    restorer: usize,
}

extern "C" {
    fn sigaltstack(new: *const Stack, old: *mut Stack) -> i32;
    fn sigaction(number: i32, new: *const Action, old: *mut Action) -> i32;
    fn raise(number: i32) -> i32;
}

const SIGUSR1: i32 = 10;
const ON_STACK: i32 = 0x0800_0000;
/// Far more than any of the calls takes.
const SIZE: usize = 1 << 20;

struct Task<'a> {
    work: Work,
    flow: &'a mut [u8],
    room: [u64; MOST_NUMBERS],
}

static TASK: AtomicPtr<c_void> = AtomicPtr::new(null_mut());

extern "C" fn on_signal(_: i32) {
    let task = TASK.load(SeqCst) as *mut Task;
    // SAFETY: `deepest` set it to a task that waits for this signal.
    let task = unsafe { &mut *task };
    (task.work)(task.flow, &mut task.room);
}

/// Bytes of stack that the work takes, its return address left aside.
pub fn stack(work: Work, flow: &mut [u8]) -> usize {
    // A byte that is written with the very mark is seen under the other.
    [0xA5, 0x5A].iter().map(|&mark| deepest(work, flow, mark) - deepest(nothing, flow, mark)).max().unwrap_or(0)
}

#[inline(never)]
fn nothing(_: &mut [u8], _: &mut [u64]) -> u64 {
    0
}

/// Bytes from the block's end down to the lowest that was written.
fn deepest(work: Work, flow: &mut [u8], mark: u8) -> usize {
    let mut block = vec![mark; SIZE];
    let mut task = Task { work, flow, room: [0; MOST_NUMBERS] };
    let ours = Stack { start: block.as_mut_ptr() as *mut c_void, flags: 0, size: SIZE };
    let mut before = Stack { start: null_mut(), flags: 0, size: 0 };
    let action =
        Action { handler: on_signal as extern "C" fn(i32) as usize, mask: [0; 16], flags: ON_STACK, restorer: 0 };
    TASK.store(&mut task as *mut Task as *mut c_void, SeqCst);
    // SAFETY: the handler runs within `raise`, on the block, which nobody else
    // uses meanwhile; the stack for signals is then what it was.
    unsafe {
        assert!(sigaltstack(&ours, &mut before) == 0 && sigaction(SIGUSR1, &action, null_mut()) == 0);
        assert!(raise(SIGUSR1) == 0);
        assert!(sigaltstack(&before, null_mut()) == 0);
    }
    let untouched = block.iter().take_while(|&&byte| byte == mark).count();
    assert!(untouched > 0 && untouched < SIZE, "the block was not used as a stack");
    SIZE - untouched
}

/// Counts the bytes that are asked of it.
struct Counting;

static ASKED: AtomicU64 = AtomicU64::new(0);

// SAFETY: hands everything on to the system's allocator.
unsafe impl GlobalAlloc for Counting {
    unsafe fn alloc(&self, layout: Layout) -> *mut u8 {
        ASKED.fetch_add(layout.size() as u64, SeqCst);
        System.alloc(layout)
    }

    unsafe fn dealloc(&self, at: *mut u8, layout: Layout) {
        System.dealloc(at, layout)
    }
}

#[global_allocator]
static ALLOCATOR: Counting = Counting;

/// Bytes of heap that the work asks for.
pub fn heap(work: Work, flow: &mut [u8]) -> u64 {
    let mut room = [0; MOST_NUMBERS];
    let before = ASKED.load(SeqCst);
    work(flow, &mut room);
    ASKED.load(SeqCst) - before
}
