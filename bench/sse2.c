/* The program that bench/sse2.sh counts and times: the digest of this project and BLAKE3's C with SSE2, the same work on the same bytes, and their results
   compared. */
#define _GNU_SOURCE
#include <stdint.h>
#include <stdlib.h>
#include "digest_c.h"
#include "marks.h"
#include "mode.h"

/* theirs (theirs.c) */
void sse2_digest(const uint8_t *bytes, size_t length, uint8_t out[32]);

#define LONGEST 100000
static const digest_c_mode mode = MODE;
static uint8_t input[LONGEST], ours[32], theirs[32];

static void measure(size_t length) {
    char name[64];
    snprintf(name, sizeof name, "digest of %zu bytes", length);
    MEASURE("ours", name, digest_c_of(&mode, input, length, ours));
    MEASURE("sse2", name, sse2_digest(input, length, theirs));
    if (memcmp(ours, theirs, 32) != 0) {
        fprintf(stderr, "bench: %s: the digests differ\n", name);
        exit(1);
    }
    memset(ours, 0, 32);
}

int main(int argc, char **argv) {
    static const size_t lengths[] = {64, 200, 1024, 4096, 16384, 100000};
    timing = argc > 1 && strcmp(argv[1], "time") == 0;
    for (size_t i = 0; i < LONGEST; i++) input[i] = (uint8_t)(i % 251);
    sse2_digest(input, 0, theirs); /* at its first call BLAKE3's C asks the processor what it can do: not measured */
    MEASURE("ours", "nothing", (void)0);
    for (size_t i = 0; i < sizeof lengths / sizeof *lengths; i++) measure(lengths[i]);
    return 0;
}
