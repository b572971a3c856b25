/* The program that bench/check.sh counts: letters checked by keeper_letter_check, and the same digests alone, unchecked, by this project's
   digest and by BLAKE3's portable C by two compilers. The roots that the four work out are compared. */
#define _GNU_SOURCE
#include <stdint.h>
#include <stdlib.h>
#include "digest_c.h"
#include "keeper.h"
#include "marks.h"
#include "mode.h"

/* theirs, by two compilers (theirs.c) */
void gcc_digest(const uint8_t *bytes, size_t length, uint8_t out[32]);
void clang_digest(const uint8_t *bytes, size_t length, uint8_t out[32]);

#define NODE 32
#define RECORD 200
#define HEAD 20
static const digest_c_mode digest_mode = MODE;
static const keeper_mode mode = MODE;
static uint8_t letter[HEAD + RECORD + 32 * NODE], trusted[NODE], worked[NODE];

static uint8_t *record(void) { return letter + HEAD; }
static uint8_t *item(unsigned k) { return letter + HEAD + RECORD + NODE * k; }

/* big-endian */
static void put(uint8_t *at, unsigned width, uint64_t number) {
    while (width-- > 0) {
        at[width] = (uint8_t)number;
        number >>= 8;
    }
}

/* A letter for a log of 2^height leaves, which is one peak: any items, one for each height. They decide on the root. */
static void make_letter(unsigned height, uint64_t index) {
    uint64_t leaves = (uint64_t)1 << height;
    put(letter, 8, 2 * leaves - 1);
    put(letter + 8, 8, index);
    put(letter + 16, 4, RECORD);
    for (size_t i = HEAD; i < sizeof letter; i++) letter[i] = (uint8_t)(i % 251);
}

/* the digests of a check alone: the record's, and one for each item, on the left where the index has a bit */
static void our_digests(unsigned height, uint64_t index) {
    digest_c_of(&digest_mode, record(), RECORD, worked);
    for (unsigned k = 0; k < height; k++) {
        if (index >> k & 1) digest_c_pair(&digest_mode, item(k), worked, worked);
        else digest_c_pair(&digest_mode, worked, item(k), worked);
    }
}

/* theirs takes the two digests of a parent side by side */
#define THEIRS(DIGEST)                                                         \
    do {                                                                       \
        uint8_t pair[2 * NODE];                                                \
        DIGEST(record(), RECORD, worked);                                      \
        for (unsigned k = 0; k < height; k++) {                                \
            memcpy(pair + (index >> k & 1 ? NODE : 0), worked, NODE);          \
            memcpy(pair + (index >> k & 1 ? 0 : NODE), item(k), NODE);         \
            DIGEST(pair, sizeof pair, worked);                                 \
        }                                                                      \
    } while (0)

static void gcc_digests(unsigned height, uint64_t index) { THEIRS(gcc_digest); }
static void clang_digests(unsigned height, uint64_t index) { THEIRS(clang_digest); }

/* the root that was worked out is the trusted one, and is cleared for the next side */
static void compare(const char *name) {
    if (memcmp(worked, trusted, NODE) != 0) {
        fprintf(stderr, "bench: check %s: the roots differ\n", name);
        exit(1);
    }
    memset(worked, 0, NODE);
}

static void measure(unsigned height) {
    uint64_t leaves = (uint64_t)1 << height, index = 0x5A5A5A5A & (leaves - 1), found = 0;
    size_t length = HEAD + RECORD + NODE * height, at = 0, record_length = 0;
    uint32_t number = 1;
    char name[64];
    snprintf(name, sizeof name, "%u", height);
    make_letter(height, index);
    our_digests(height, index);
    memcpy(trusted, worked, NODE);
    MEASURE("check", name, number = keeper_letter_check(&mode, 2 * leaves - 1, trusted, NODE, letter, length, &found, &at, &record_length));
    if (number != KEEPER_DONE || found != index || at != HEAD || record_length != RECORD) {
        fprintf(stderr, "bench: check %s was refused\n", name);
        exit(1);
    }
    MEASURE("digests", name, our_digests(height, index));
    compare(name);
    MEASURE("gcc", name, gcc_digests(height, index));
    compare(name);
    MEASURE("clang", name, clang_digests(height, index));
    compare(name);
}

int main(int argc, char **argv) {
    static const unsigned heights[] = {0, 10, 20, 32};
    timing = argc > 1 && strcmp(argv[1], "time") == 0;
    gcc_digests(0, 0); /* at its first call BLAKE3's C asks the processor what it can do: not measured */
    clang_digests(0, 0);
    MEASURE("check", "nothing", (void)0);
    for (int h = 0; h < 4; h++) measure(heights[h]);
    return 0;
}
