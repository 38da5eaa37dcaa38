/* What a guest in C needs: system calls and calls of servers. docs/FORMATS.md; tools/skybridge.inc has the same for assembler.
   tools/README.md says with which flags a compiler stays inside of the instructions that the machine knows. */
#ifndef SKYBRIDGE_H
#define SKYBRIDGE_H

typedef unsigned long word;

enum { SYS_EXIT, SYS_PRINT, SYS_REGISTER, SYS_BIND, SYS_PROTECT }; /* numbers of system calls */
enum { CALL_DONE, CALL_WRONG_KEY, CALL_POOL_EMPTY, CALL_UNBOUND, CALL_SERVER_FAULT, CALL_BAD_LEAF }; /* statuses of a call */

/* A view of a server, as `sky_bind` gives it. The server sees the four buffer pages at the same address. */
struct binding {
  word index, key;
  word *buffer;
};

/* A system call, which answers 0 or the number of its refusal. */
static inline word sky_system_call(word number, word first, word second) {
  __asm__ volatile("syscall" : "+a"(number), "+D"(first), "+S"(second) : : "rcx", "rdx", "r8", "r10", "r11", "memory", "cc");
  return number;
}

/* Ends the thread with this status. */
static inline void sky_exit(word status) { sky_system_call(SYS_EXIT, status, 0); }

static inline void sky_print(word value) { sky_system_call(SYS_PRINT, value, 0); }

/* Makes the process a server with this handler, a label of its text, and so many stacks. */
static inline word sky_register(void (*handler)(void), word stacks) {
  return sky_system_call(SYS_REGISTER, (word)handler, stacks);
}

/* Binds to the server of this process. What is bound is written where the answer is 0. */
static inline word sky_bind(word process, struct binding *bound) {
  word answer = SYS_BIND, index;
  register word key __asm__("r8");
  register word *buffer __asm__("r10");
  __asm__ volatile("syscall" : "+a"(answer), "=d"(index), "=r"(key), "=r"(buffer) : "D"(process) : "rcx", "r11", "memory", "cc");
  bound->index = index;
  bound->key = key;
  bound->buffer = buffer;
  return answer;
}

/* Calls the server with two arguments, in RDX and R8, and gives the status. The reply is what its handler leaves in RDX.
   The home page keeps RBX, RBP, RSP and R12 to R15; all other registers are lost. */
static inline word sky_call(const struct binding *bound, word first, word second, word *reply) {
  word status, index = bound->index, key = bound->key;
  register word other __asm__("r8") = second;
  __asm__ volatile("call 0x70000000"
                   : "=a"(status), "+d"(first), "+D"(index), "+S"(key), "+r"(other)
                   :
                   : "rcx", "r9", "r10", "r11", "memory", "cc");
  *reply = first;
  return status;
}

#endif
