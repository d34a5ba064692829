# on_stack(fn, top, arg): calls fn with one argument on the stack that ends at top.
    .globl on_stack
on_stack:
    push %rbp
    mov %rsp, %rbp
    mov %rsi, %rsp
    mov %rdi, %rax
    mov %rdx, %rdi
    call *%rax
    mov %rbp, %rsp
    pop %rbp
    ret
    .section .note.GNU-stack,"",@progbits
