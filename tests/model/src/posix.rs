//! The few system calls of the test driver: arrays between guard pages,
//! memory shared with a child, and children that may die.

use std::ffi::{c_int, c_uint, c_void};
use std::sync::atomic::{AtomicU64, AtomicUsize, Ordering};

extern "C" {
    fn mmap(at: *mut c_void, length: usize, access: c_int, flags: c_int, file: c_int, offset: i64) -> *mut c_void;
    fn mprotect(at: *mut c_void, length: usize, access: c_int) -> c_int;
    fn munmap(at: *mut c_void, length: usize) -> c_int;
    fn fork() -> c_int;
    fn waitpid(child: c_int, status: *mut c_int, options: c_int) -> c_int;
    fn _exit(status: c_int) -> !;
    fn alarm(seconds: c_uint) -> c_uint;
}

const NO_ACCESS: c_int = 0;
const READ_WRITE: c_int = 1 | 2;
const SHARED: c_int = 1;
const PRIVATE: c_int = 2;
#[cfg(target_os = "linux")]
const ANONYMOUS: c_int = 0x20;
#[cfg(not(target_os = "linux"))]
const ANONYMOUS: c_int = 0x1000;

/// Guards and middles are multiples of this, whatever the page size is.
const GRAIN: usize = 65_536;

fn map(length: usize, access: c_int, sharing: c_int) -> *mut u8 {
    // SAFETY: a fresh anonymous mapping at a place of the system's choice.
    let at = unsafe { mmap(std::ptr::null_mut(), length, access, sharing | ANONYMOUS, -1, 0) };
    assert!(at as isize != -1, "no memory for a mapping of {length} bytes");
    at.cast()
}

// ---------------------------------------------------- arrays that are lent

/// Where a lent array stands.
#[derive(Clone, Copy, Debug, PartialEq, Eq)]
pub enum Placement {
    /// On the heap.
    Plain,
    /// Its first byte right after a guard page.
    AfterGuard,
    /// Its last byte right before a guard page.
    BeforeGuard,
}

/// Room for arrays of up to a fixed length, lent one at a time.
pub struct Lender {
    room: Room,
    placement: Placement,
}

enum Room {
    Heap(Vec<u8>),
    /// The open middle of a mapping with a guard on each side.
    Guarded {
        middle: *mut u8,
        size: usize,
    },
}

impl Lender {
    pub fn new(capacity: usize, placement: Placement) -> Lender {
        let room = match placement {
            Placement::Plain => Room::Heap(vec![0; capacity]),
            _ => guarded_room(capacity),
        };
        Lender { room, placement }
    }

    /// The array of `length` bytes. Arrays of different lengths may stand at
    /// different places in the room.
    pub fn array(&mut self, length: usize) -> &mut [u8] {
        let start = self.start_of(length);
        let room = match &mut self.room {
            Room::Heap(bytes) => bytes.as_mut_slice(),
            // SAFETY: the middle of the mapping, readable and writable, owned
            // by this value and borrowed through it.
            Room::Guarded { middle, size } => unsafe { std::slice::from_raw_parts_mut(*middle, *size) },
        };
        &mut room[start..start + length]
    }

    /// The same array, to be read only.
    pub fn bytes(&self, length: usize) -> &[u8] {
        let start = self.start_of(length);
        let room = match &self.room {
            Room::Heap(bytes) => bytes.as_slice(),
            // SAFETY: as in `array`.
            Room::Guarded { middle, size } => unsafe { std::slice::from_raw_parts(*middle, *size) },
        };
        &room[start..start + length]
    }

    fn start_of(&self, length: usize) -> usize {
        match (&self.room, self.placement) {
            (Room::Guarded { size, .. }, Placement::BeforeGuard) => size - length,
            _ => 0,
        }
    }
}

fn guarded_room(capacity: usize) -> Room {
    let size = capacity.div_ceil(GRAIN) * GRAIN;
    let start = map(size + 2 * GRAIN, NO_ACCESS, PRIVATE);
    // SAFETY: the middle lies inside the mapping just made.
    let middle = unsafe { start.add(GRAIN) };
    // SAFETY: as above.
    let result = unsafe { mprotect(middle.cast(), size, READ_WRITE) };
    assert!(result == 0, "the middle between the guards can't be opened");
    Room::Guarded { middle, size }
}

impl Drop for Lender {
    fn drop(&mut self) {
        if let Room::Guarded { middle, size } = self.room {
            // SAFETY: the mapping made by `guarded_room`, no longer lent.
            unsafe { munmap(middle.sub(GRAIN).cast(), size + 2 * GRAIN) };
        }
    }
}

// ------------------------------------------------------------ shared memory

/// Numbers and a text that a child leaves for its parent.
#[repr(C)]
pub struct Shared {
    /// The run in progress.
    pub run: AtomicU64,
    pub tally: [AtomicU64; TALLIES],
    text_length: AtomicUsize,
    text: [std::cell::UnsafeCell<u8>; TEXT_SIZE],
}

pub const TALLIES: usize = 64;
const TEXT_SIZE: usize = 4 << 20;

// SAFETY: only one process at a time touches the text: a child while it runs,
// the parent after it has ended. All else is atomic.
unsafe impl Sync for Shared {}

impl Shared {
    /// Maps zeroed memory that stays for the life of the process.
    pub fn new() -> &'static Shared {
        let at = map(size_of::<Shared>(), READ_WRITE, SHARED);
        // SAFETY: fresh, aligned to a page, zeroed, never unmapped; all bytes
        // zero are a value of the type.
        unsafe { &*at.cast::<Shared>() }
    }

    pub fn count(&self, tally: usize) {
        self.tally[tally].fetch_add(1, Ordering::Relaxed);
    }

    pub fn text_length(&self) -> usize {
        self.text_length.load(Ordering::Relaxed)
    }

    /// Shortens the text to an earlier length.
    pub fn cut_text(&self, length: usize) {
        self.text_length.store(length, Ordering::Relaxed);
    }

    pub fn add_text(&self, text: &str) {
        let start = self.text_length();
        let end = start + text.len();
        assert!(end <= TEXT_SIZE, "the shared text is full");
        for (place, &byte) in self.text[start..end].iter().zip(text.as_bytes()) {
            // SAFETY: see `Sync` above.
            unsafe { *place.get() = byte };
        }
        self.text_length.store(end, Ordering::Relaxed);
    }

    pub fn text(&self) -> String {
        // SAFETY: see `Sync` above.
        let bytes = self.text[..self.text_length()].iter().map(|place| unsafe { *place.get() });
        String::from_utf8_lossy(&bytes.collect::<Vec<u8>>()).into_owned()
    }
}

// ----------------------------------------------------------------- children

/// How a child ended.
#[derive(Clone, Copy, Debug, PartialEq, Eq)]
pub enum End {
    Exit(i32),
    Signal(i32),
}

/// Runs `work` in a child process and waits for its end. The child exits with
/// the number that `work` answers; a panic exits with 101.
pub fn in_child(work: impl FnOnce() -> i32) -> End {
    // SAFETY: the process has one thread, so the child may go on freely.
    match unsafe { fork() } {
        -1 => panic!("no child process"),
        0 => {
            let answer = std::panic::catch_unwind(std::panic::AssertUnwindSafe(work)).unwrap_or(101);
            // SAFETY: ends the child without the parent's clean-up.
            unsafe { _exit(answer) }
        }
        child => wait_for(child),
    }
}

fn wait_for(child: c_int) -> End {
    let mut status = 0;
    // SAFETY: waits for the child just made.
    let ended = unsafe { waitpid(child, &mut status, 0) };
    assert!(ended == child, "the child is lost");
    match status & 0x7F {
        0 => End::Exit(status >> 8 & 0xFF),
        signal => End::Signal(signal),
    }
}

/// Ends this process by a signal unless called again within so many seconds.
pub fn watchdog(seconds: u32) {
    // SAFETY: sets a timer only.
    unsafe { alarm(seconds) };
}
