// Refuses one request for memory of the program that it is loaded into (LD_PRELOAD, see faults.py):
// that with the number REFUSE, from 1, of those that are made once the program is loaded. A file
// REFUSED is made then, so that a run without it has made fewer requests. Programs that this one
// starts are left alone.
#define _GNU_SOURCE
#include <errno.h>
#include <fcntl.h>
#include <stddef.h>
#include <stdlib.h>
#include <unistd.h>

extern void *__libc_malloc(size_t);
extern void *__libc_calloc(size_t, size_t);
extern void *__libc_realloc(void *, size_t);
extern void *__libc_memalign(size_t, size_t);

static long left; // requests up to the refused one, 0 where none is to be refused
static const char *mark;

__attribute__((constructor)) static void begin(void) {
    const char *number = getenv("REFUSE");
    mark = getenv("REFUSED");
    unsetenv("LD_PRELOAD");
    if (number)
        left = atol(number);
}

static int refused(void) {
    if (!left || --left)
        return 0;
    if (mark) {
        int file = open(mark, O_CREAT | O_WRONLY, 0600);
        if (file >= 0)
            close(file);
    }
    errno = ENOMEM;
    return 1;
}

void *malloc(size_t size) { return refused() ? NULL : __libc_malloc(size); }

void *calloc(size_t count, size_t size) { return refused() ? NULL : __libc_calloc(count, size); }

void *realloc(void *old, size_t size) { return refused() ? NULL : __libc_realloc(old, size); }

void *memalign(size_t unit, size_t size) { return refused() ? NULL : __libc_memalign(unit, size); }

void *aligned_alloc(size_t unit, size_t size) { return memalign(unit, size); }

int posix_memalign(void **to, size_t unit, size_t size) {
    void *found = memalign(unit, size);
    if (!found)
        return ENOMEM;
    *to = found;
    return 0;
}
