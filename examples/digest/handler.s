# Where clients enter: RDX is the address of the words and R8 their number. The reply goes home in RDX.
.intel_syntax noprefix

    .globl handler
handler:
    mov rdi, rdx
    mov rsi, r8
    call digest                 # in server.c
    mov rdx, rax
    ret                         # to the trampoline, which gives the stack back
