/* The heap of the library: the three functions that its proved code calls to allocate, over malloc. They are trusted, not proved.
 * A program may define all three itself. The file includes no header, so that one compiler makes it for every target. */
typedef __SIZE_TYPE__ size_t;

void *malloc(size_t);
void *realloc(void *, size_t);
void free(void *);

/* Whether there is memory, and where. If there is none, the pointer is not NULL, and nothing is owned there. */
struct tried {
    _Bool ok;
    void *p;
};

static char nothing;

static struct tried tried(void *p) { return (struct tried){p != 0, p ? p : &nothing}; }

/* New memory of `size` bytes. The alignment is at most 16, which malloc gives. */
struct tried rattle_alloc(size_t size, size_t align) { return tried(malloc(size ? size : align)); }

/* A block of `size` bytes in place of `old`, with the same first `kept` bytes. If it fails, `old` is as it was. */
struct tried rattle_realloc(void *old, size_t kept, size_t size, size_t align) {
    (void)kept;
    return tried(realloc(old, size ? size : align));
}

/* Frees a block of either. */
void rattle_dealloc(void *p) { free(p); }
