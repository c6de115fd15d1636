/* The memory that the library takes, from the functions here: now and then an allocation fails, and now and then each lies flush with a page that no one
 * may touch. `kept` tells how many allocations are kept. */
#ifndef HEAP_H
#define HEAP_H

#include "fuzz.h"

struct tried { bool ok; void *p; };

static char nothing;
static bool guarded;
static long left_to_give, kept;

/* The allocations between guards, of which few are kept at a time. */
static struct { uint8_t *map, *at; size_t size, pages; } given[256];

static void *guard(size_t size, size_t align) {
    size_t pages = (size + PAGE - 1) / PAGE + 2;
    for (size_t i = 0; i < 256; i++) {
        if (given[i].map) continue;
        given[i].map = mmap(NULL, pages * PAGE, PROT_READ | PROT_WRITE, MAP_PRIVATE | MAP_ANONYMOUS, -1, 0);
        CHECK(given[i].map != MAP_FAILED);
        CHECK(mprotect(given[i].map, PAGE, PROT_NONE) == 0 && mprotect(given[i].map + (pages - 1) * PAGE, PAGE, PROT_NONE) == 0);
        given[i].size = size, given[i].pages = pages;
        return given[i].at = given[i].map + (pages - 1) * PAGE - (size + align - 1) / align * align;
    }
    return malloc(size);
}

struct tried rattle_alloc(size_t n, size_t align) {
    void *p = left_to_give-- == 0 ? NULL : guarded ? guard(n ? n : align, align) : malloc(n ? n : align);
    kept += p != NULL;
    return (struct tried){p != NULL, p ? p : &nothing};
}

void rattle_dealloc(void *p) {
    kept--;
    for (size_t i = 0; i < 256; i++)
        if (given[i].map && given[i].at == p) {
            CHECK(munmap(given[i].map, given[i].pages * PAGE) == 0);
            given[i].map = NULL;
            return;
        }
    free(p);
}

struct tried rattle_realloc(void *old, size_t used, size_t n, size_t align) {
    if (!guarded) {
        void *p = left_to_give-- == 0 ? NULL : realloc(old, n ? n : align);
        return (struct tried){p != NULL, p ? p : &nothing};
    }
    struct tried made = rattle_alloc(n, align);
    if (made.ok) {
        memcpy(made.p, old, used < n ? used : n);
        rattle_dealloc(old);
    }
    return made;
}

#endif
