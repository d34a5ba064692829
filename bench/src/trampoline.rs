//! Makes a call on a stack of its own, at will with the trap flag set, which
//! stops the processor after each instruction.

use std::arch::global_asm;

use crate::call::Ready;
use crate::reply::{Registers, Reply};

global_asm!(
    ".globl bench_call_on",
    "bench_call_on:",
    "push rbp",
    "mov rbp, rsp",
    "mov rax, rdi",
    "mov r10, rsi",
    "mov r11, rcx",
    "lea rsp, [rdx - 32]",
    "mov rdi, [r10 + 48]",
    "mov [rsp], rdi",
    "mov rdi, [r10 + 56]",
    "mov [rsp + 8], rdi",
    "mov rdi, [r10 + 64]",
    "mov [rsp + 16], rdi",
    "mov rdi, [r10 + 72]",
    "mov [rsp + 24], rdi",
    "mov rdi, [r10]",
    "mov rsi, [r10 + 8]",
    "mov rdx, [r10 + 16]",
    "mov rcx, [r10 + 24]",
    "mov r8, [r10 + 32]",
    "mov r9, [r10 + 40]",
    "pushfq",
    "or [rsp], r11",
    "popfq",
    "call rax",
    "pushfq",
    "and qword ptr [rsp], -257",
    "popfq",
    "mov rsp, rbp",
    "pop rbp",
    "ret",
);

extern "C" {
    fn bench_call_on(entry: usize, words: *const u64, top: *mut u8, flag: usize) -> Registers;
}

const TRAP_FLAG: usize = 0x100;

/// Room above the call's frame, for the words that don't go in registers.
pub const ABOVE: usize = 32;

/// Bytes of a stack. They are aligned as calls ask for.
#[repr(align(64))]
pub struct Stack(pub [u8; 65_536]);

impl Stack {
    pub fn new() -> Box<Stack> {
        Box::new(Stack([0; 65_536]))
    }

    /// # Safety
    ///
    /// As for [`Ready::make`]; and the stack is deep enough.
    pub unsafe fn call(&mut self, ready: &Ready, trapped: bool) -> Reply {
        let flag = if trapped { TRAP_FLAG } else { 0 };
        let registers = bench_call_on(ready.entry, ready.words.as_ptr(), self.0.as_mut_ptr_range().end, flag);
        Reply::new(ready.form, registers)
    }
}
