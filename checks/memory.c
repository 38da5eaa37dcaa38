/* Makes calls of malloc, calloc and realloc fail in a program, before which it is put by LD_PRELOAD, for checks/memory.
   FAILS_FROM and FAILS_TO are the numbers of the first and the last call that fails; the program's first call has number 1.
   NOTE is a file descriptor, which gets a byte for each call that fails. Needs the GNU C library. */
#include <errno.h>
#include <stdatomic.h>
#include <stddef.h>
#include <stdlib.h>
#include <unistd.h>

extern void *__libc_malloc(size_t size);
extern void *__libc_calloc(size_t count, size_t size);
extern void *__libc_realloc(void *old, size_t size);

static atomic_long calls;
static long from, to;
static int note = -1;

static long number_of(const char *name) {
    const char *text = getenv(name);
    return text ? atol(text) : -1;
}

__attribute__((constructor)) static void begin(void) {
    from = number_of("FAILS_FROM");
    to = number_of("FAILS_TO");
    note = (int)number_of("NOTE");
}

static int fails(void) {
    if (note < 0)
        return 0;
    long number = atomic_fetch_add(&calls, 1) + 1;
    if (number < from || number > to)
        return 0;
    if (write(note, ".", 1) != 1)
        abort();
    errno = ENOMEM;
    return 1;
}

void *malloc(size_t size) { return fails() ? NULL : __libc_malloc(size); }

void *calloc(size_t count, size_t size) { return fails() ? NULL : __libc_calloc(count, size); }

void *realloc(void *old, size_t size) { return fails() ? NULL : __libc_realloc(old, size); }
