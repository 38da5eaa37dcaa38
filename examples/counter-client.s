# A client of the process `server`: binds to it, calls it twice, and prints each reply. A call that is not served ends the
# thread with the call's status.

start:
    mov edi, PROCESS_SERVER
    mov eax, SYS_BIND
    syscall                     # RDX: the index of the binding; R8: its key
    test eax, eax
    jne start                   # the server has not registered yet
    mov r12, rdx
    mov r13, r8
    mov ebx, 2                  # calls to make

next:
    mov edi, r12d
    mov rsi, r13
    call SKYBRIDGE_CALL         # RDX: the reply; EAX: the status
    test eax, eax
    jne exit
    mov rdi, rdx
    mov eax, SYS_PRINT
    syscall
    dec ebx
    jne next
    xor eax, eax

exit:
    mov edi, eax
    xor eax, eax                # SYS_EXIT
    syscall
