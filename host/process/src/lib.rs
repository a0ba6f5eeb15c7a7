//! Out of memory, files over a limit and closed streams as ordinary failures of a command: one line and a status, no
//! abort, no signal, and no false success.

use std::alloc::{GlobalAlloc, Layout, System};
use std::cell::Cell;
use std::io::Write;
use std::sync::atomic::{AtomicBool, Ordering};

/// The exit status where memory runs out.
const STATUS: i32 = 3;

/// `SIGXFSZ` and `SIG_IGN` of Linux.
const OVER_LIMIT: i32 = 25;
const IGNORED: usize = 1;

extern "C" {
    fn _exit(status: i32) -> !;
    fn fcntl(descriptor: i32, command: i32, ...) -> i32;
    fn signal(number: i32, handler: usize) -> usize;
}

/// `F_GETFD` of Linux, which fails where a descriptor is closed.
const GET_FLAGS: i32 = 1;

/// Which of standard input, output and error were closed. What starts a Rust program opens the null device in their place.
static CLOSED: [AtomicBool; 3] = [const { AtomicBool::new(false) }; 3];

/// Called before what starts a Rust program.
#[used]
#[link_section = ".init_array"]
static BEFORE_START: extern "C" fn() = note_closed;

extern "C" fn note_closed() {
    for (descriptor, closed) in (0..).zip(&CLOSED) {
        // SAFETY: it only asks.
        let flags = unsafe { fcntl(descriptor, GET_FLAGS) };
        closed.store(flags < 0, Ordering::Relaxed);
    }
}

/// Tells whether standard input (0), output (1) or error (2) was closed when the program began.
pub fn was_closed(descriptor: usize) -> bool {
    CLOSED[descriptor].load(Ordering::Relaxed)
}

thread_local! {
    static TRIED: Cell<bool> = const { Cell::new(false) };
}

/// Runs what only tries to reserve memory, and is told where there is none.
pub fn tried<T>(reserve: impl FnOnce() -> T) -> T {
    TRIED.set(true);
    let reserved = reserve();
    TRIED.set(false);
    reserved
}

/// Makes a write over the limit of a file's size an error in place of a signal.
pub fn refuse_over_limit() {
    // SAFETY: no handler is installed, so that none can run.
    unsafe { signal(OVER_LIMIT, IGNORED) };
}

/// The system's allocator. Where it has no memory, unless that is only tried for, the process ends.
pub struct Ending;

// SAFETY: every call is handed on to the system's allocator as it is, and so is what it gives.
unsafe impl GlobalAlloc for Ending {
    unsafe fn alloc(&self, layout: Layout) -> *mut u8 {
        had(System.alloc(layout))
    }

    unsafe fn dealloc(&self, memory: *mut u8, layout: Layout) {
        System.dealloc(memory, layout);
    }

    unsafe fn alloc_zeroed(&self, layout: Layout) -> *mut u8 {
        had(System.alloc_zeroed(layout))
    }

    unsafe fn realloc(&self, memory: *mut u8, layout: Layout, size: usize) -> *mut u8 {
        had(System.realloc(memory, layout, size))
    }
}

/// Memory that was asked for. Ends the process where there is none, without asking for any: what a command has begun
/// is removed by the next one.
fn had(memory: *mut u8) -> *mut u8 {
    if memory.is_null() && !TRIED.get() {
        let _ = std::io::stderr().write_all(b"tfs: out of memory\n");
        // SAFETY: nothing runs after it.
        unsafe { _exit(STATUS) };
    }
    memory
}
