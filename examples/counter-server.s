# A server that counts: each call adds 1 to the counter, and the reply is the count before.

start:
    mov edi, offset count       # the handler
    mov esi, 2                  # server stacks: calls that can be served at one time
    mov eax, SYS_REGISTER
    syscall
    xor edi, edi
    xor eax, eax                # SYS_EXIT
    syscall                     # the thread ends, the server stays

count:
    mov edx, 1
    lock xadd [counter], rdx    # RDX goes home with the reply
    ret                         # to the trampoline, which gives the stack back

    .data
counter:
    .quad 0
