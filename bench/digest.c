/* The program that bench/digest.sh counts: the digest of this project and BLAKE3's portable C by two compilers, the
   same work on the same bytes, one call after the other, and their results compared. */
#define _GNU_SOURCE
#include <stdint.h>
#include <stdlib.h>
#include "digest_c.h"
#include "marks.h"
#include "mode.h"

/* theirs, by two compilers (theirs.c) */
void gcc_digest(const uint8_t *bytes, size_t length, uint8_t out[32]);
void clang_digest(const uint8_t *bytes, size_t length, uint8_t out[32]);

#define LONGEST 100000
static const digest_c_mode mode = MODE;
static uint8_t input[LONGEST], ours[32], gcc[32], clang[32];

static void compare(const char *name) {
    if (memcmp(ours, gcc, 32) != 0 || memcmp(ours, clang, 32) != 0) {
        fprintf(stderr, "bench: %s: the digests differ\n", name);
        exit(1);
    }
    memset(ours, 0, 32);
    memset(gcc, 1, 32);
    memset(clang, 2, 32);
}

static void measure_digest(size_t length) {
    char name[64];
    snprintf(name, sizeof name, "digest of %zu bytes", length);
    MEASURE("ours", name, digest_c_of(&mode, input, length, ours));
    MEASURE("gcc", name, gcc_digest(input, length, gcc));
    MEASURE("clang", name, clang_digest(input, length, clang));
    compare(name);
}

/* theirs takes the two digests where they lie side by side already */
static void measure_parent(void) {
    const char *name = "one parent of 64 bytes";
    MEASURE("ours", name, digest_c_pair(&mode, input, input + 32, ours));
    MEASURE("gcc", name, gcc_digest(input, 64, gcc));
    MEASURE("clang", name, clang_digest(input, 64, clang));
    compare(name);
}

/* At its first call BLAKE3's C asks the processor what it can do: that call is not measured. */
static void first_calls(void) {
    gcc_digest(input, 0, gcc);
    clang_digest(input, 0, clang);
}

int main(int argc, char **argv) {
    static const size_t lengths[] = {0, 64, 128, 200, 1024, 4096, 16384, 100000};
    timing = argc > 1 && strcmp(argv[1], "time") == 0;
    for (size_t i = 0; i < LONGEST; i++) input[i] = (uint8_t)(i % 251);
    first_calls();
    MEASURE("ours", "nothing", (void)0);
    measure_parent();
    for (size_t i = 0; i < sizeof lengths / sizeof *lengths; i++) measure_digest(lengths[i]);
    return 0;
}
