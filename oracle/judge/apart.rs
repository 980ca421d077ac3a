//! The Rust reads in a copy of the process, so that want of memory or stack ends the copy only. A copy works through many inputs; where it ends
//! before its time, a page that it shares with the first process says how far it had come and why it ended, and the next copy goes on from there.
use std::alloc::{GlobalAlloc, Layout, System};
use std::panic::{AssertUnwindSafe, catch_unwind};
use std::ptr;
use std::sync::atomic::{AtomicBool, AtomicU64, Ordering::Relaxed};

unsafe extern "C" {
    fn fork() -> i32;
    fn waitpid(pid: i32, status: *mut i32, options: i32) -> i32;
    fn _exit(status: i32) -> !;
    fn mmap(at: *mut u8, bytes: usize, protection: i32, flags: i32, file: i32, offset: i64) -> *mut u8;
    fn munmap(at: *mut u8, bytes: usize) -> i32;
    fn open(path: *const u8, flags: i32) -> i32;
    fn dup2(from: i32, to: i32) -> i32;
}

/// A request of the Rust for more than this is want of memory: what a machine has beyond it is not to decide what is compared.
const MOST_MEMORY: usize = 256 << 20;

/// Why a copy ended, as far as it could still tell.
const NOTHING: u64 = 0;
const NO_MEMORY: u64 = 1;
const PANICKED: u64 = 2;

/// Where the reason goes: an address in the shared page; 0 in the first process.
static REASON_AT: AtomicU64 = AtomicU64::new(0);

/// Whether memory is limited: while the Rust reads.
static IS_LIMITED: AtomicBool = AtomicBool::new(false);

/// Notes a reason; want of memory stays one, whatever follows from it.
fn tell(reason: u64) {
    let at = REASON_AT.load(Relaxed) as *const AtomicU64;
    // SAFETY: it is null, or the address of a word of the shared page
    if let Some(word) = unsafe { at.as_ref() }
        && (word.load(Relaxed) != NO_MEMORY || reason == NOTHING)
    {
        word.store(reason, Relaxed);
    }
}

/// Whether so much memory is refused, which is then the reason if the copy ends.
fn is_refused(bytes: usize) -> bool {
    let refused = bytes > MOST_MEMORY && IS_LIMITED.load(Relaxed);
    if refused {
        tell(NO_MEMORY);
    }
    refused
}

/// The system's allocator, with a limit for the Rust.
pub struct Limited;

// SAFETY: it hands on to the system's allocator, or answers that there is no memory
unsafe impl GlobalAlloc for Limited {
    unsafe fn alloc(&self, layout: Layout) -> *mut u8 {
        if is_refused(layout.size()) { ptr::null_mut() } else { unsafe { System.alloc(layout) } }
    }

    unsafe fn dealloc(&self, at: *mut u8, layout: Layout) {
        unsafe { System.dealloc(at, layout) }
    }

    unsafe fn realloc(&self, at: *mut u8, layout: Layout, size: usize) -> *mut u8 {
        if is_refused(size) { ptr::null_mut() } else { unsafe { System.realloc(at, layout, size) } }
    }
}

/// How a copy, or a part of its work, ended.
#[derive(Clone, Copy, Debug, PartialEq)]
pub enum End {
    Done,
    Memory,
    Stack,
    Fault,
}

/// Lets the Rust read, with its memory limited. It may panic: a capacity that no memory has is want of memory too.
pub fn guarded<T>(work: impl FnOnce() -> T) -> Result<T, End> {
    tell(NOTHING);
    IS_LIMITED.store(true, Relaxed);
    let done = catch_unwind(AssertUnwindSafe(work));
    IS_LIMITED.store(false, Relaxed);
    done.map_err(|panic| {
        let text = panic.downcast_ref::<String>().map(String::as_str).or(panic.downcast_ref::<&str>().copied());
        if text == Some("capacity overflow") { End::Memory } else { End::Fault }
    })
}

/// Words that a copy shares with the first process.
pub struct Page {
    at: *mut AtomicU64,
    words: usize,
}

impl Page {
    pub fn new(words: usize) -> Self {
        const READ_WRITE: i32 = 3;
        const SHARED_ANONYMOUS: i32 = 0x21;
        // SAFETY: a new mapping of zero bytes
        let at = unsafe { mmap(ptr::null_mut(), 8 * (words + 1), READ_WRITE, SHARED_ANONYMOUS, -1, 0) };
        assert!(at as isize != -1, "no memory for a shared page");
        Self { at: at.cast(), words }
    }

    pub fn word(&self, i: usize) -> &AtomicU64 {
        assert!(i < self.words);
        // SAFETY: the mapping has so many words and one more, for the reason
        unsafe { &*self.at.add(i) }
    }

    fn reason(&self) -> &AtomicU64 {
        // SAFETY: as above
        unsafe { &*self.at.add(self.words) }
    }
}

impl Drop for Page {
    fn drop(&mut self) {
        // SAFETY: it was mapped by `new`
        unsafe { munmap(self.at.cast(), 8 * (self.words + 1)) };
    }
}

/// Starts a copy that does this work and ends, and tells its process number. What it says on its error output is left out.
pub fn copy(page: &Page, work: impl FnOnce()) -> i32 {
    page.reason().store(NOTHING, Relaxed);
    // SAFETY: the process has one thread here
    let pid = unsafe { fork() };
    assert!(pid >= 0, "no more processes");
    if pid == 0 {
        // SAFETY: the copy has one thread; where there is no memory, no time is to go into telling from where
        unsafe { std::env::set_var("RUST_BACKTRACE", "0") };
        // SAFETY: file 2 is the error output, and the path ends with a zero
        unsafe { dup2(open(c"/dev/null".as_ptr().cast(), 1), 2) };
        REASON_AT.store(ptr::from_ref(page.reason()) as u64, Relaxed);
        std::panic::set_hook(Box::new(|panic| {
            tell(if panic.payload_as_str() == Some("capacity overflow") { NO_MEMORY } else { PANICKED });
        }));
        let done = catch_unwind(AssertUnwindSafe(work)).is_ok();
        // SAFETY: it ends the copy, and nothing of the first process
        unsafe { _exit(if done { 0 } else { 3 }) };
    }
    pid
}

/// Waits for a copy, for any where the number is -1: its process number, and its status.
pub fn wait(pid: i32) -> (i32, i32) {
    let mut status = 0;
    // SAFETY: `status` is there to be written
    let found = unsafe { waitpid(pid, &mut status, 0) };
    assert!(found > 0, "a copy of the process is lost");
    (found, status)
}

/// How a copy ended, by its status and the reason that it left.
pub fn end_of(page: &Page, status: i32) -> End {
    let by_signal = status & 0x7f;
    match (status, page.reason().load(Relaxed)) {
        (0, _) => End::Done,
        (_, NO_MEMORY) => End::Memory,
        (_, NOTHING) if by_signal == 6 || by_signal == 11 => End::Stack,
        _ => End::Fault,
    }
}
