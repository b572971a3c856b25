/* The program that bench/append.sh counts for batches: records in one call of keeper_append_many, and the same by keeper_append one by one. Sizes,
   counts and nodes of the two are compared. */
#define _GNU_SOURCE
#include <stdint.h>
#include <stdlib.h>
#include "keeper.h"
#include "marks.h"
#include "mode.h"

enum { NODE = 32, RECORDS = 64, LONGEST = 1024 };
static const keeper_mode mode = MODE;
static uint8_t joined[RECORDS * LONGEST], new_nodes[2 * RECORDS * NODE];
static uint32_t lengths[RECORDS];
static uint8_t *nodes;

static uint64_t size_of(uint64_t leaves) { return 2 * leaves - (uint64_t)__builtin_popcountll(leaves); }

/* One append after the other; the size at the end, and all hashes. */
static uint64_t one_by_one(uint64_t size, size_t records, size_t length, size_t room, uint64_t *hashes) {
    uint64_t more;
    *hashes = 0;
    for (size_t i = 0; i < records; i++) {
        if (keeper_append(&mode, size, joined + i * length, length, nodes, room, &size, &more) != KEEPER_DONE) return 0;
        *hashes += more;
    }
    return size;
}

static void demand(int holds, const char *name, const char *what) {
    if (holds) return;
    fprintf(stderr, "bench: batch %s: %s\n", name, what);
    exit(1);
}

static void measure(unsigned height, size_t records, size_t length) {
    uint64_t leaves = height == 0 ? 0 : (uint64_t)1 << height, size = size_of(leaves), grown = size_of(leaves + records);
    uint64_t batch_size = 0, batch_hashes = 0, each_size = 0, each_hashes = 0;
    size_t room = NODE * grown, bytes = NODE * (grown - size);
    char name[64];
    snprintf(name, sizeof name, "%zu %zu %u", records, length, height);
    for (size_t i = 0; i < records; i++) lengths[i] = (uint32_t)length;
    MEASURE("batch", name, keeper_append_many(&mode, size, joined, records * length, lengths, records, nodes, room, &batch_size, &batch_hashes));
    memcpy(new_nodes, nodes + NODE * size, bytes);
    memset(nodes + NODE * size, 0, bytes);
    MEASURE("each", name, each_size = one_by_one(size, records, length, room, &each_hashes));
    demand(batch_size == grown && each_size == grown, name, "an append was refused");
    demand(batch_hashes == each_hashes, name, "the counts differ");
    demand(memcmp(new_nodes, nodes + NODE * size, bytes) == 0, name, "the nodes differ");
    memset(nodes + NODE * size, 0, bytes);
}

int main(int argc, char **argv) {
    static const size_t sizes[] = {0, 200, LONGEST};
    timing = argc > 1 && strcmp(argv[1], "time") == 0;
    for (size_t i = 0; i < sizeof joined; i++) joined[i] = (uint8_t)(i % 251);
    nodes = calloc(size_of(((uint64_t)1 << 20) + RECORDS), NODE);
    if (!nodes) return 1;
    MEASURE("batch", "nothing", (void)0);
    for (int i = 0; i < 3; i++) measure(0, RECORDS, sizes[i]);
    measure(20, RECORDS, 200);
    measure(20, 1, 200);
    measure(20, 0, 0);
    free(nodes);
    return 0;
}
