/* The program that bench/append.sh counts: appends by keeper_append, and the same digests alone, unchecked, by this project's digest
   and by BLAKE3's portable C by two compilers. The new nodes of the four are compared. */
#define _GNU_SOURCE
#include <stdint.h>
#include <stdlib.h>
#include "digest_c.h"
#include "keeper.h"
#include "marks.h"
#include "mode.h"

/* theirs, by two compilers (theirs.c) */
void gcc_digest(const uint8_t *bytes, size_t length, uint8_t out[32]);
void clang_digest(const uint8_t *bytes, size_t length, uint8_t out[32]);

#define NODE 32
#define MOST (((uint64_t)1 << 20) + 32)
static const digest_c_mode digest_mode = MODE;
static const keeper_mode mode = MODE;
static uint8_t record[16384], new_nodes[6 * NODE];
static uint8_t *nodes;

static uint64_t size_of(uint64_t leaves) { return 2 * leaves - (uint64_t)__builtin_popcountll(leaves); }
static uint8_t *node(uint64_t position) { return nodes + NODE * position; }

/* the left child of the parent that stands j + 1 behind a new leaf */
static uint8_t *left_of(uint64_t leaf, unsigned j) { return node(leaf + j - (((uint64_t)2 << j) - 1)); }

static void our_digests(uint64_t size, unsigned merges, size_t length) {
    digest_c_of(&digest_mode, record, length, node(size));
    for (unsigned j = 0; j < merges; j++) digest_c_pair(&digest_mode, left_of(size, j), node(size + j), node(size + j + 1));
}

/* theirs takes the two digests of a parent side by side */
#define THEIRS(DIGEST)                                                         \
    do {                                                                       \
        uint8_t pair[2 * NODE];                                                \
        DIGEST(record, length, node(size));                                    \
        for (unsigned j = 0; j < merges; j++) {                                \
            memcpy(pair, left_of(size, j), NODE);                              \
            memcpy(pair + NODE, node(size + j), NODE);                         \
            DIGEST(pair, sizeof pair, node(size + j + 1));                     \
        }                                                                      \
    } while (0)

static void gcc_digests(uint64_t size, unsigned merges, size_t length) { THEIRS(gcc_digest); }
static void clang_digests(uint64_t size, unsigned merges, size_t length) { THEIRS(clang_digest); }

/* the new nodes are the keeper's, and are cleared for the next side */
static void compare(const char *name, uint64_t size, unsigned merges) {
    size_t bytes = NODE * (merges + 1);
    if (memcmp(new_nodes, node(size), bytes) != 0) {
        fprintf(stderr, "bench: append %s: the nodes differ\n", name);
        exit(1);
    }
    memset(node(size), 0, bytes);
}

static void measure(unsigned height, unsigned merges, size_t length) {
    uint64_t leaves = ((uint64_t)1 << height) + ((uint64_t)1 << merges) - 1;
    uint64_t size = size_of(leaves), new_size = 0, hashes = 0;
    size_t room = NODE * size_of(leaves + 1);
    char name[64];
    snprintf(name, sizeof name, "%zu %u %u", length, merges, height);
    MEASURE("append", name, keeper_append(&mode, size, record, length, nodes, room, &new_size, &hashes));
    if (new_size != size_of(leaves + 1) || hashes != merges + 1) {
        fprintf(stderr, "bench: append %s was refused\n", name);
        exit(1);
    }
    memcpy(new_nodes, node(size), NODE * (merges + 1));
    compare(name, size, merges);
    MEASURE("digests", name, our_digests(size, merges, length));
    compare(name, size, merges);
    MEASURE("gcc", name, gcc_digests(size, merges, length));
    compare(name, size, merges);
    MEASURE("clang", name, clang_digests(size, merges, length));
    compare(name, size, merges);
}

int main(int argc, char **argv) {
    static const size_t lengths[] = {0, 200, 1024, 16384};
    static const unsigned merges[] = {0, 1, 5}, heights[] = {10, 16, 20};
    timing = argc > 1 && strcmp(argv[1], "time") == 0;
    for (size_t i = 0; i < sizeof record; i++) record[i] = (uint8_t)(i % 251);
    nodes = calloc(size_of(MOST), NODE);
    if (!nodes) return 1;
    gcc_digests(0, 0, 0); /* at its first call BLAKE3's C asks the processor what it can do: not measured */
    clang_digests(0, 0, 0);
    MEASURE("append", "nothing", (void)0);
    for (int l = 0; l < 4; l++)
        for (int m = 0; m < 3; m++)
            for (int h = 0; h < 3; h++) measure(heights[h], merges[m], lengths[l]);
    free(nodes);
    return 0;
}
