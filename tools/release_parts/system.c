/* What the programs call of C, for ARM64: the toolchain has these functions for x86-64 alone. They are trusted, not proved. */
#include <errno.h>
#include <stddef.h>
#include <string.h>

static size_t count;
static char **words;

/* glibc calls it with the arguments of main, before main. */
__attribute__((constructor)) static void keep(int number, char **given) {
    count = (size_t)number;
    words = given;
}

/* Puts argument `i` at the start of `room`, and returns its length: -1 if there is no such argument, -2 if it is longer than `room`. */
ptrdiff_t rattle_arg(size_t i, char *room, size_t len) {
    if (i >= count) return -1;
    size_t needed = strlen(words[i]);
    memcpy(room, words[i], needed < len ? needed : len);
    return needed > len ? -2 : (ptrdiff_t)needed;
}

int rattle_errno(void) { return errno; }

void rattle_set_errno(int error) { errno = error; }
