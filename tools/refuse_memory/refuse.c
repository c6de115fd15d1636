// Refuses one allocation of a program, or all from one on, when it is loaded before the C library (LD_PRELOAD). Allocations are counted
// from 0. REFUSE is the number of the refused one, or with a '-' behind it of the first that is; each refusal writes a byte to the file
// with the descriptor REFUSE_TELL.
#include <errno.h>
#include <stdlib.h>
#include <string.h>
#include <unistd.h>

extern void *__libc_malloc(size_t);
extern void *__libc_calloc(size_t, size_t);
extern void *__libc_realloc(void *, size_t);
extern void *__libc_memalign(size_t, size_t);

static long count;

// Whether this allocation, the next one, is refused.
static int refused(void) {
    const char *asked = getenv("REFUSE"), *tell = getenv("REFUSE_TELL");
    if (!asked || !tell) return 0;
    long first = atol(asked), number = count++;
    if (number != first && !(number > first && strchr(asked, '-'))) return 0;
    if (write(atoi(tell), "x", 1) != 1) _exit(99);
    errno = ENOMEM;
    return 1;
}

void *malloc(size_t size) { return refused() ? NULL : __libc_malloc(size); }

void *calloc(size_t items, size_t size) { return refused() ? NULL : __libc_calloc(items, size); }

void *realloc(void *old, size_t size) { return refused() ? NULL : __libc_realloc(old, size); }

void *memalign(size_t place, size_t size) { return refused() ? NULL : __libc_memalign(place, size); }

void *aligned_alloc(size_t place, size_t size) { return memalign(place, size); }

int posix_memalign(void **got, size_t place, size_t size) {
    void *memory = memalign(place, size);
    if (!memory) return ENOMEM;
    *got = memory;
    return 0;
}
