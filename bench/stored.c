/* The program that bench/stored.sh counts: a leaf written by keeper_store_leaf, keeper_digest of its record alone, where it lies in the leaf, and
   keeper_read_node of the leaf as it was written and with one bit of its digest changed; then an inner node. What each answers is looked at. */
#define _GNU_SOURCE
#include <stdint.h>
#include <stdlib.h>
#include "keeper.h"
#include "marks.h"
#include "mode.h"

enum { NODE = 32, HEAD = 37, INNER = 33, LONGEST = 16384, OTHER = 99 };
static const keeper_mode mode = MODE;
static uint8_t record[LONGEST], stored[HEAD + LONGEST], digest[NODE];

/* What a read answers, and what it was told to leave. */
static uint32_t number, kind;
static uint8_t out[NODE];
static size_t at, record_length;

static void demand(int holds, const char *name, const char *what) {
    if (holds) return;
    fprintf(stderr, "bench: stored %s: %s\n", name, what);
    exit(1);
}

static void clear(void) {
    number = kind = OTHER;
    at = record_length = OTHER;
    memset(out, OTHER, NODE);
}

/* The leaf with one bit of its digest changed, and then as it was. */
static void measure_lie(const char *name, size_t length) {
    uint8_t left[NODE];
    memset(left, OTHER, NODE);
    stored[1] ^= 1;
    clear();
    MEASURE("lie", name, number = keeper_read_node(&mode, stored, length, &kind, out, NODE, &at, &record_length));
    demand(number == KEEPER_OTHER_DIGEST, name, "a leaf that lies was not refused by its number");
    demand(kind == OTHER && at == OTHER && record_length == OTHER && memcmp(out, left, NODE) == 0, name, "a refusal wrote something");
    stored[1] ^= 1;
}

static void measure_leaf(size_t bytes) {
    size_t length = 0;
    char name[64];
    snprintf(name, sizeof name, "%zu", bytes);
    MEASURE("store", name, number = keeper_store_leaf(&mode, record, bytes, stored, sizeof stored, &length));
    demand(number == KEEPER_DONE && length == HEAD + bytes, name, "the leaf was not stored");
    MEASURE("digest", name, number = keeper_digest(&mode, stored + HEAD, bytes, digest, NODE));
    demand(number == KEEPER_DONE, name, "no digest");
    clear();
    MEASURE("read", name, number = keeper_read_node(&mode, stored, length, &kind, out, NODE, &at, &record_length));
    demand(number == KEEPER_DONE && kind == KEEPER_LEAF, name, "the leaf was not read");
    demand(at == HEAD && record_length == bytes && memcmp(out, digest, NODE) == 0, name, "another record or digest was read");
    measure_lie(name, length);
}

/* of any digest, here the last leaf's */
static void measure_inner(void) {
    size_t length = 0;
    MEASURE("store", "inner", number = keeper_store_inner(digest, NODE, stored, sizeof stored, &length));
    demand(number == KEEPER_DONE && length == INNER, "inner", "the node was not stored");
    clear();
    MEASURE("read", "inner", number = keeper_read_node(&mode, stored, length, &kind, out, NODE, &at, &record_length));
    demand(number == KEEPER_DONE && kind == KEEPER_INNER, "inner", "the node was not read");
    demand(at == 0 && record_length == 0 && memcmp(out, digest, NODE) == 0, "inner", "another digest was read");
}

int main(int argc, char **argv) {
    static const size_t lengths[] = {0, 1, 200, 1024, LONGEST};
    timing = argc > 1 && strcmp(argv[1], "time") == 0;
    for (size_t i = 0; i < sizeof record; i++) record[i] = (uint8_t)(i % 251);
    MEASURE("read", "nothing", (void)0);
    for (int i = 0; i < 5; i++) measure_leaf(lengths[i]);
    measure_inner();
    return 0;
}
