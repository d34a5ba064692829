//! The peak stack of one call: the stack is painted, the call runs on it, and
//! the paint that is gone is counted, the return address and the arguments on
//! the stack with it.

use crate::call::Ready;
use crate::reply::Reply;
use crate::trampoline::{Stack, ABOVE};

/// Two paints, so that a byte equal to one shows in the other.
const PAINTS: [u8; 2] = [0xA5, 0x5A];
/// The words that go in registers.
const IN_REGISTERS: usize = 6;

/// The bytes of stack. `ready` brings the arrays into their state and makes
/// the call ready; `seen` is given the reply.
pub fn peak(mut ready: impl FnMut() -> Ready, mut seen: impl FnMut(Reply)) -> usize {
    let mut stack = Stack::new();
    let mut highest = 0;
    for paint in PAINTS {
        let ready = ready();
        stack.0.fill(paint);
        // SAFETY: the caller's arrays stand, and nothing else uses them.
        seen(unsafe { stack.call(&ready, false) });
        let left = stack.0.iter().take_while(|&&byte| byte == paint).count();
        let arguments = 8 * ready.count.saturating_sub(IN_REGISTERS);
        highest = highest.max(stack.0.len() - ABOVE - left + arguments);
    }
    highest
}

#[cfg(test)]
mod tests {
    use super::*;
    use crate::call::WORDS;
    use crate::reply::Form;
    use std::arch::global_asm;

    global_asm!(
        ".globl bench_test_deep",
        "bench_test_deep:",
        "sub rsp, 200",
        "mov byte ptr [rsp], 0xA5",
        "mov rax, rdi",
        "add rsp, 200",
        "ret",
    );

    extern "C" {
        fn bench_test_deep();
    }

    /// The function's only byte at the bottom is equal to the first paint.
    #[test]
    fn the_deepest_byte_is_found() {
        let entry = bench_test_deep as *const () as usize;
        let ready = |count| move || Ready { entry, words: [7; WORDS], count, form: Form::Number };
        let seen = |reply: Reply| assert_eq!(reply.number(), 7);
        assert_eq!(peak(ready(2), seen), 208);
        assert_eq!(peak(ready(7), seen), 208 + 8);
        assert_eq!(peak(ready(10), seen), 208 + 32);
    }
}
