/*
 * Runs bundles (docs/FORMATS.md) on this machine's own x86-64 processor, a step for each entry of the schedule.
 *
 * Standard input holds bundles one after another. For each core of each, in order, the `thread` and `regs` lines of the
 * report are written, as the processor ends. A process has one page of text, one of data and no heap, and one core; the
 * texts make no system calls. An access to an address that is not canonical is shown as `faulted canon`, without the
 * address, which the processor does not tell.
 *
 * The status is 2 where this system has no room for the guest's pages, or lets no child be traced.
 *
 * The guest's pages are shared between this process, which writes them, and its children, one for each core, which are
 * stepped by ptrace. A child has the pages of its own thread only.
 */
#define _GNU_SOURCE
#include <errno.h>
#include <inttypes.h>
#include <signal.h>
#include <stdint.h>
#include <stdio.h>
#include <stdlib.h>
#include <string.h>
#include <sys/mman.h>
#include <sys/prctl.h>
#include <sys/ptrace.h>
#include <sys/user.h>
#include <sys/wait.h>
#include <unistd.h>

enum {
    PAGE = 4096,
    CORES = 8,
    PROCESSES = 16,
    STACK_PAGES = 4,
    FAILED = 1,      /* the status where something went wrong */
    UNAVAILABLE = 2, /* the status where this system does not let guests be run so */
};

#define TEXT 0x400000ul
#define DATA 0x800000ul
#define SAVE_PAGE 0x3000000ul /* of thread 0 */
#define STACK 0x3004000ul     /* of thread 0 */
#define STRIDE 0x8000ul       /* from one thread's pages to the next one's */
#define ARITHMETIC_FLAGS 0x8C5ul /* OF SF ZF PF CF: SDM volume 1, section 3.4.3.1 */
#define FLAGS_AT_START 0x202ul   /* IF, and bit 1, which is always set */

struct bytes {
    const uint8_t *start;
    uint32_t length;
};

struct process {
    struct bytes text, data;
};

static pid_t children[CORES];
static struct user_regs_struct clear; /* a child's segment registers; its general registers are set for each thread */

static void stop_with(const char *what, int status)
{
    perror(what);
    exit(status);
}

static uint64_t number(const uint8_t **at, int size)
{
    uint64_t found = 0;
    memcpy(&found, *at, size);
    *at += size;
    return found;
}

static struct bytes taken(const uint8_t **at, uint32_t length)
{
    struct bytes found = {*at, length};
    *at += length;
    return found;
}

/* A page at this address, which no other page may have. */
static void map(uintptr_t address, size_t size)
{
    void *want = (void *)address;
    void *got = mmap(want, size, PROT_READ | PROT_WRITE, MAP_SHARED | MAP_ANONYMOUS | MAP_FIXED_NOREPLACE, -1, 0);
    if (got != want)
        stop_with("the guest's pages cannot be mapped", UNAVAILABLE);
}

static void fill(uintptr_t address, int rest, struct bytes bytes)
{
    if (bytes.length > PAGE) {
        errno = EFBIG;
        stop_with("a process", FAILED);
    }
    memset((void *)address, rest, PAGE);
    memcpy((void *)address, bytes.start, bytes.length);
}

static void ask(enum __ptrace_request request, pid_t child, void *data)
{
    if (ptrace(request, child, NULL, data) != 0)
        stop_with("ptrace", FAILED);
}

/* The signal that stops the child. */
static int stopped_by(pid_t child)
{
    int status;
    if (waitpid(child, &status, 0) != child || !WIFSTOPPED(status))
        stop_with("the child ended", FAILED);
    return WSTOPSIG(status);
}

/* What the child of a thread begins with: of the guest's pages it keeps those that the thread has. */
static void become_thread(unsigned thread)
{
    prctl(PR_SET_PDEATHSIG, SIGKILL); /* it ends with its parent */
    for (unsigned i = 0; i < CORES; i++) {
        if (i != thread) {
            munmap((void *)(SAVE_PAGE + i * STRIDE), PAGE);
            munmap((void *)(STACK + i * STRIDE), STACK_PAGES * PAGE);
        }
    }
    if (mprotect((void *)TEXT, PAGE, PROT_READ | PROT_EXEC) == 0 && ptrace(PTRACE_TRACEME, 0, NULL, NULL) == 0)
        raise(SIGSTOP);
    _exit(1);
}

/* A child that runs nothing but the guest. */
static pid_t forked_child(unsigned thread)
{
    pid_t child = fork();
    if (child < 0)
        stop_with("fork", FAILED);
    if (child == 0)
        become_thread(thread);
    int status;
    if (waitpid(child, &status, 0) != child || !WIFSTOPPED(status))
        stop_with("the child cannot be traced", UNAVAILABLE);
    ask(PTRACE_GETREGS, child, &clear);
    return child;
}

/* What the report says of a thread that was stopped by the signal. */
static void print_state(pid_t child, int signal, uint64_t rip)
{
    siginfo_t cause;
    ask(PTRACE_GETSIGINFO, child, &cause);
    if (signal == SIGILL)
        printf("faulted undefined %" PRIx64 "\n", rip);
    else if (signal == SIGSEGV && (cause.si_code == SEGV_MAPERR || cause.si_code == SEGV_ACCERR))
        printf("faulted memory %lx\n", (unsigned long)cause.si_addr);
    else if (signal == SIGSEGV || signal == SIGBUS) /* #GP, or #SS where the base is RSP or RBP */
        printf("faulted canon\n");
    else
        printf("stopped by signal %d\n", signal);
}

static void run_thread(unsigned thread, uint32_t process, uint64_t entry, uint32_t steps)
{
    struct user_regs_struct registers = clear;
    pid_t child = children[thread];
    int signal = SIGTRAP;

    registers.rax = registers.rcx = registers.rdx = registers.rbx = registers.rbp = registers.rsi = 0;
    registers.r8 = registers.r9 = registers.r10 = registers.r11 = 0;
    registers.r12 = registers.r13 = registers.r14 = registers.r15 = 0;
    registers.rdi = thread;
    registers.rsp = STACK + STACK_PAGES * PAGE + thread * STRIDE;
    registers.rip = entry;
    registers.eflags = FLAGS_AT_START;
    registers.orig_rax = -1; /* no system call is to be resumed */
    ask(PTRACE_SETREGS, child, &registers);
    while (steps-- > 0 && signal == SIGTRAP) {
        ask(PTRACE_SINGLESTEP, child, NULL);
        signal = stopped_by(child);
    }
    ask(PTRACE_GETREGS, child, &registers);

    printf("thread %u home %u view 0 at %u ", thread, process, process);
    if (signal == SIGTRAP)
        printf("running\n");
    else
        print_state(child, signal, registers.rip);
    printf("regs %u rip %llx flags %llx", thread, registers.rip, registers.eflags & ARITHMETIC_FLAGS);
    printf(" %llx %llx %llx %llx", registers.rax, registers.rcx, registers.rdx, registers.rbx);
    printf(" %llx %llx %llx %llx", registers.rsp, registers.rbp, registers.rsi, registers.rdi);
    printf(" %llx %llx %llx %llx", registers.r8, registers.r9, registers.r10, registers.r11);
    printf(" %llx %llx %llx %llx\n", registers.r12, registers.r13, registers.r14, registers.r15);
}

/* Runs the bundle that begins here, and gives what follows it. */
static const uint8_t *run_bundle(const uint8_t *at)
{
    struct process processes[PROCESSES];
    uint32_t homes[CORES], steps[CORES] = {0};
    uint64_t entries[CORES];

    at += 6; /* the mark and the version */
    unsigned cores = number(&at, 1), count = number(&at, 1);
    at += 4; /* the frames */
    uint32_t keys = number(&at, 4), schedule = number(&at, 4);
    at += 8 * (size_t)keys;
    for (unsigned i = 0; i < count; i++) {
        uint32_t text = number(&at, 4), data = number(&at, 4);
        at += 4; /* the heap */
        processes[i].text = taken(&at, text);
        processes[i].data = taken(&at, data);
    }
    for (unsigned i = 0; i < cores; i++) {
        homes[i] = number(&at, 4);
        entries[i] = number(&at, 8);
    }
    while (schedule-- > 0)
        steps[number(&at, 1)]++;

    for (unsigned i = 0; i < cores; i++) {
        fill(TEXT, 0xCC, processes[homes[i]].text);
        fill(DATA, 0, processes[homes[i]].data);
        memset((void *)(SAVE_PAGE + i * STRIDE), 0, PAGE);
        memset((void *)(STACK + i * STRIDE), 0, STACK_PAGES * PAGE);
        run_thread(i, homes[i], entries[i], steps[i]);
    }
    return at;
}

static uint8_t input[1 << 26];

int main(void)
{
    size_t length = fread(input, 1, sizeof input, stdin);
    map(TEXT, PAGE);
    map(DATA, PAGE);
    for (uintptr_t i = 0; i < CORES; i++) {
        map(SAVE_PAGE + i * STRIDE, PAGE);
        map(STACK + i * STRIDE, STACK_PAGES * PAGE);
    }
    for (unsigned i = 0; i < CORES; i++)
        children[i] = forked_child(i);
    for (const uint8_t *at = input; at < input + length;)
        at = run_bundle(at);
    for (unsigned i = 0; i < CORES; i++)
        kill(children[i], SIGKILL);
    return 0;
}
