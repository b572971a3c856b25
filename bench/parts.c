/* The program that bench/digest.sh counts for input in parts: the keeper's three calls beside BLAKE3's init, update and finalize, its portable C by two
   compilers; and one mebibyte cut into parts, beside the digest of it at once. All digests of the same bytes are compared. */
#define _GNU_SOURCE
#include <stdint.h>
#include <stdlib.h>
#include "keeper.h"
#include "marks.h"
#include "mode.h"

/* theirs, by two compilers (theirs.c) */
void gcc_digest(const uint8_t *bytes, size_t length, uint8_t out[32]);
void gcc_begin(void);
void gcc_add(const uint8_t *part, size_t length);
void gcc_end(uint8_t out[32]);
void clang_digest(const uint8_t *bytes, size_t length, uint8_t out[32]);
void clang_begin(void);
void clang_add(const uint8_t *part, size_t length);
void clang_end(uint8_t out[32]);

enum { LENGTH = 1 << 20 };
_Static_assert(sizeof(keeper_parts) <= 1250, "a state is at most 1,250 bytes");
static const keeper_mode mode = MODE;
static keeper_parts state;
static uint8_t input[LENGTH], whole[32], ours[32], gcc[32], clang[32];

static void demand(int holds, const char *name, const char *what) {
    if (holds) return;
    fprintf(stderr, "bench: %s: %s\n", name, what);
    exit(1);
}

/* all four are the digest of so many bytes, and are then cleared */
static void compare(const char *name, size_t length) {
    uint8_t right[32];
    gcc_digest(input, length, right);
    demand(memcmp(whole, right, 32) == 0 && memcmp(ours, right, 32) == 0 && memcmp(gcc, right, 32) == 0 && memcmp(clang, right, 32) == 0, name,
           "the digests differ");
    memset(whole, 0, 32);
    memset(ours, 1, 32);
    memset(gcc, 2, 32);
    memset(clang, 3, 32);
}

/* the first bytes, part by part */
#define IN_PARTS(BEGIN, ADD, END)                                              \
    do {                                                                       \
        BEGIN;                                                                 \
        for (size_t at = 0; at < length; at += part) {                         \
            size_t more = length - at < part ? length - at : part;             \
            ADD;                                                               \
        }                                                                      \
        END;                                                                   \
    } while (0)

static void our_parts(size_t length, size_t part) {
    IN_PARTS(keeper_parts_begin(&mode, &state), keeper_parts_add(&state, input + at, more), keeper_parts_end(&state, ours, 32));
}
static void gcc_parts(size_t length, size_t part) { IN_PARTS(gcc_begin(), gcc_add(input + at, more), gcc_end(gcc)); }
static void clang_parts(size_t length, size_t part) { IN_PARTS(clang_begin(), clang_add(input + at, more), clang_end(clang)); }

/* what the last calls left is the digest of the first bytes, by all four */
static void ended(const char *name, size_t length) {
    keeper_digest(&mode, input, length, whole, 32);
    compare(name, length);
}

static void measure_whole(void) {
    const char *name = "1 MiB at once";
    MEASURE("ours", name, keeper_digest(&mode, input, LENGTH, ours, 32));
    MEASURE("gcc", name, gcc_digest(input, LENGTH, gcc));
    MEASURE("clang", name, clang_digest(input, LENGTH, clang));
    ended(name, LENGTH);
}

static void measure_parts(size_t part) {
    char name[64];
    snprintf(name, sizeof name, "1 MiB in parts of %zu", part);
    MEASURE("ours", name, our_parts(LENGTH, part));
    MEASURE("gcc", name, gcc_parts(LENGTH, part));
    MEASURE("clang", name, clang_parts(LENGTH, part));
    ended(name, LENGTH);
}

/* ---- the three calls alone. They are not timed, since a part changes what the next one costs. */

static void measure_begin(void) {
    MEASURE("ours", "begin", keeper_parts_begin(&mode, &state));
    MEASURE("gcc", "begin", gcc_begin());
    MEASURE("clang", "begin", clang_begin());
    keeper_parts_end(&state, ours, 32);
    gcc_end(gcc);
    clang_end(clang);
    ended("begin", 0);
}

/* A part behind so many bytes, and the end after it. One of no bytes changes no byte of the state. */
static void measure_add(size_t before, size_t length) {
    char name[64];
    keeper_parts kept;
    our_parts(before, LENGTH);
    gcc_parts(before, LENGTH);
    clang_parts(before, LENGTH);
    kept = state;
    snprintf(name, sizeof name, "add of %zu behind %zu", length, before);
    MEASURE("ours", name, keeper_parts_add(&state, input + before, length));
    MEASURE("gcc", name, gcc_add(input + before, length));
    MEASURE("clang", name, clang_add(input + before, length));
    demand(state.total == before + length && (length > 0 || memcmp(&state, &kept, sizeof state) == 0), name, "the state is another one");
    keeper_parts_end(&state, ours, 32);
    gcc_end(gcc);
    clang_end(clang);
    ended(name, before + length);
}

static void measure_end(size_t before) {
    char name[64];
    our_parts(before, LENGTH);
    gcc_parts(before, LENGTH);
    clang_parts(before, LENGTH);
    snprintf(name, sizeof name, "end behind %zu", before);
    MEASURE("ours", name, keeper_parts_end(&state, ours, 32));
    MEASURE("gcc", name, gcc_end(gcc));
    MEASURE("clang", name, clang_end(clang));
    ended(name, before);
}

/* No bytes behind 2^40, with as many subtrees as there can be: no input has to be so long, since any words are taken for subtrees. */
static void measure_most(void) {
    const char *name = "add of 0 behind 2^40";
    keeper_parts kept;
    uint32_t number = KEEPER_PARTS_OFF;
    memset(&state, 7, sizeof state);
    state.total = (uint64_t)1 << 40;
    state.held = 64;
    state.stacked = 30;
    kept = state;
    MEASURE("ours", name, number = keeper_parts_add(&state, input, 0));
    demand(number == KEEPER_DONE && memcmp(&state, &kept, sizeof state) == 0, name, "the state is another one");
}

int main(int argc, char **argv) {
    timing = argc > 1 && strcmp(argv[1], "time") == 0;
    for (size_t i = 0; i < LENGTH; i++) input[i] = (uint8_t)(i % 251);
    gcc_digest(input, 0, gcc); /* at its first call BLAKE3's C asks the processor what it can do: not measured */
    clang_digest(input, 0, clang);
    MEASURE("ours", "nothing", (void)0);
    if (!timing) {
        measure_begin();
        measure_add(0, 0);
        measure_add(100000, 0);
        measure_most();
        measure_add(0, 1);
        measure_add(100000, 1);
        measure_add(131072, 1);
        measure_end(0);
        measure_end(100000);
    }
    measure_whole();
    measure_parts(65536);
    measure_parts(4096);
    measure_parts(1500);
    measure_parts(64);
    return 0;
}
