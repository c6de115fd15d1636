/* An example: reads a plan from the file that is named, and writes its planes to standard output.
 *   cc reconstruct_plan.c libtilgwaren.a -o reconstruct_plan && ./reconstruct_plan FILE > planes */
#include "tilgwaren.h"

#include <stdio.h>
#include <stdlib.h>

/* One byte more than the longest plan has is enough to be told that a file is too long. */
#define MOST (((size_t)1 << 26) + 1)

static const char *const kinds[] = {"", "block size", "transform", "mode", "vector", "missing reference", "coefficient"};

static int refused(uint32_t status, const tilg_refusal *refusal) {
    switch (status) {
    case TILG_TOO_LONG: fputs("too long\n", stderr); break;
    case TILG_MALFORMED: fprintf(stderr, "malformed at %u\n", refusal->at); break;
    case TILG_INVALID: fprintf(stderr, "invalid leaf %u: %s\n", refusal->leaf, kinds[refusal->kind]); break;
    default: fputs("out of memory\n", stderr); break;
    }
    return 1;
}

/* The bytes of a file, and their number in `len`; NULL where that fails. */
static uint8_t *read_file(const char *name, size_t *len) {
    FILE *file = fopen(name, "rb");
    uint8_t *bytes = file ? (uint8_t *)malloc(MOST) : NULL;
    *len = bytes ? fread(bytes, 1, MOST, file) : 0;
    if (bytes && ferror(file)) {
        free(bytes);
        bytes = NULL;
    }
    if (file) fclose(file);
    return bytes;
}

int main(int count, char **words) {
    size_t len, wanted, written;
    tilg_refusal refusal;
    uint8_t *plan = count == 2 ? read_file(words[1], &len) : NULL;
    if (!plan) {
        fputs("usage: reconstruct_plan FILE\n", stderr);
        return 2;
    }
    int result = 1;
    uint32_t status = tilg_planes_len(&wanted, &refusal, plan, len);
    uint8_t *planes = status == TILG_DONE ? (uint8_t *)malloc(wanted) : NULL;
    if (planes) status = tilg_reconstruct_plan(planes, wanted, &written, &refusal, plan, len);
    if (planes && status == TILG_DONE)
        result = fwrite(planes, 1, written, stdout) == written && fflush(stdout) == 0 ? 0 : 1;
    else
        result = refused(status, &refusal);
    free(planes);
    free(plan);
    return result;
}
