//! The instructions of one call. The trap flag stops the processor after each
//! of them, and a signal handler counts. This needs no counters of the
//! processor and no privileges, and every run gives the same number.

use std::ffi::{c_int, c_void};
use std::ptr;
use std::sync::atomic::{AtomicU64, AtomicUsize, Ordering::Relaxed};

use crate::call::Ready;
use crate::reply::Reply;
use crate::trampoline::Stack;

/// The structure of the C library on x86-64.
#[repr(C)]
struct Action {
    handler: extern "C" fn(c_int, *const c_void, *const usize),
    mask: [u64; 16],
    flags: c_int,
    restorer: usize,
}

extern "C" {
    fn sigaction(signal: c_int, action: *const Action, old: *mut Action) -> c_int;
}

const TRAP: c_int = 5;
/// The handler is given the registers.
const WITH_CONTEXT: c_int = 4;
/// Their places in what it is given, in words.
const RSP: usize = 5 + 15;
const RIP: usize = 5 + 16;

/// Where the call begins; its stack and where it goes back to, once it has
/// begun; the instruction that was stopped at last.
static ENTRY: AtomicUsize = AtomicUsize::new(0);
static STACK: AtomicUsize = AtomicUsize::new(0);
static BACK: AtomicUsize = AtomicUsize::new(0);
static LAST: AtomicUsize = AtomicUsize::new(0);
static COUNT: AtomicU64 = AtomicU64::new(0);

const NOT_BEGUN: usize = 0;
const ENDED: usize = 1;

/// The reply, and the number of instructions from the first one of the
/// function to its return, with all that it calls.
///
/// # Safety
///
/// As for [`Ready::make`].
pub unsafe fn count(ready: &Ready) -> (Reply, u64) {
    let action = Action { handler: on_trap, mask: [0; 16], flags: WITH_CONTEXT, restorer: 0 };
    let result = sigaction(TRAP, &action, ptr::null_mut());
    assert!(result == 0, "the trap can't be handled");
    ENTRY.store(ready.entry, Relaxed);
    BACK.store(NOT_BEGUN, Relaxed);
    COUNT.store(0, Relaxed);
    let reply = Stack::new().call(ready, true);
    assert!(BACK.load(Relaxed) == ENDED, "the call was not seen to end");
    (reply, COUNT.load(Relaxed))
}

extern "C" fn on_trap(_signal: c_int, _about: *const c_void, context: *const usize) {
    // SAFETY: the system gives the registers of the moment of the trap.
    let (here, stack) = unsafe { (*context.add(RIP), *context.add(RSP)) };
    match BACK.load(Relaxed) {
        ENDED => {}
        NOT_BEGUN => {
            if here == ENTRY.load(Relaxed) {
                // SAFETY: at its first instruction, a function's stack has the address to go back to.
                BACK.store(unsafe { *(stack as *const usize) }, Relaxed);
                STACK.store(stack, Relaxed);
                LAST.store(here, Relaxed);
            }
        }
        back => {
            // A repeated instruction is stopped in each round; it counts once.
            if here != LAST.swap(here, Relaxed) || !is_repeated(here) {
                COUNT.fetch_add(1, Relaxed);
            }
            if here == back && stack > STACK.load(Relaxed) {
                BACK.store(ENDED, Relaxed);
            }
        }
    }
}

/// Whether the instruction is `rep movs` or `rep stos`.
fn is_repeated(at: usize) -> bool {
    // SAFETY: the processor is about to run these bytes.
    let bytes = unsafe { [*(at as *const u8), *((at + 1) as *const u8), *((at + 2) as *const u8)] };
    matches!(bytes, [0xF3, 0xA4 | 0xA5 | 0xAA | 0xAB, _] | [0xF3, 0x48, 0xA4 | 0xA5 | 0xAA | 0xAB])
}

#[cfg(test)]
mod tests {
    use super::*;
    use crate::call::WORDS;
    use crate::reply::Form;
    use std::arch::global_asm;

    global_asm!(
        ".globl bench_test_rounds",
        "bench_test_rounds:",
        "mov eax, 3",
        "2: dec eax",
        "jnz 2b",
        "ret",
        ".globl bench_test_repeated",
        "bench_test_repeated:",
        "mov rcx, rsi",
        "xor eax, eax",
        "rep stosb",
        "call bench_test_rounds",
        "ret",
    );

    extern "C" {
        fn bench_test_rounds();
        fn bench_test_repeated();
    }

    fn counted(entry: unsafe extern "C" fn(), room: &mut [u8]) -> (u64, u64) {
        let mut words = [0; WORDS];
        words[0] = room.as_mut_ptr() as u64;
        words[1] = room.len() as u64;
        let ready = Ready { entry: entry as *const () as usize, words, count: 2, form: Form::Number };
        // SAFETY: the functions above touch the room only.
        let (reply, count) = unsafe { count(&ready) };
        (reply.number(), count)
    }

    /// One test for both, since the count is kept in one place.
    #[test]
    fn instructions_are_counted() {
        assert_eq!(counted(bench_test_rounds, &mut []), (0, 8));
        let mut room = [1; 100];
        assert_eq!(counted(bench_test_repeated, &mut room), (0, 13));
        assert_eq!(room, [0; 100]);
        assert_eq!(counted(bench_test_repeated, &mut []), (0, 13));
    }
}
