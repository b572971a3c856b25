/* The program that bench/find.sh counts: keeper_letter_write; keeper_find on that letter and on one that is refused; keeper_letter_check on the same
   letter; and the finder's digests alone, by BLAKE3's portable C by two compilers, whose roots are compared with the keeper's. */
#define _GNU_SOURCE
#include <stdint.h>
#include <stdlib.h>
#include <sys/mman.h>
#include "keeper.h"
#include "marks.h"
#include "mode.h"

/* theirs, by two compilers (theirs.c) */
typedef void Digest(const uint8_t *bytes, size_t length, uint8_t out[32]);
Digest gcc_digest, clang_digest;

#define NODE 32
#define RECORD 200
#define HEAD 20
#define MOST 28
static const keeper_mode mode = MODE;
static uint8_t record[RECORD], letter[HEAD + RECORD + MOST * NODE], root[NODE], first[2 * NODE], second[2 * NODE];
static uint8_t worked[NODE], folded[NODE], *nodes;

/* A log, and an index in it whose peak has 2^height leaves. */
typedef struct {
    const char *name;
    uint64_t leaves, index, size;
    unsigned height;
} Log;

static uint8_t *node(uint64_t position) { return nodes + NODE * position; }
static uint8_t *item(unsigned k) { return letter + HEAD + RECORD + NODE * k; }

static void demand(int holds, const char *what, const char *name) {
    if (holds) return;
    fprintf(stderr, "bench: find at %s: %s\n", name, what);
    exit(1);
}

/* The nodes that a letter speaks of, within the leaf's peak: the leaf, a sibling of any bytes on each height, and the parents. The other peaks hold
   any bytes. */
static void make_log(const Log *log) {
    uint64_t at = 0;
    uint8_t pair[2 * NODE];
    keeper_leaf_position(log->index, &at);
    keeper_digest(&mode, record, RECORD, node(at), NODE);
    for (unsigned k = 0; k < log->height; k++) {
        uint64_t below = ((uint64_t)2 << k) - 1;
        int is_right = log->index >> k & 1;
        uint64_t sibling = is_right ? at - below : at + below;
        memset(node(sibling), (int)(k + 1), NODE);
        memcpy(pair + (is_right ? NODE : 0), node(at), NODE);
        memcpy(pair + (is_right ? 0 : NODE), node(sibling), NODE);
        at = is_right ? at + 1 : sibling + 1;
        keeper_digest(&mode, pair, sizeof pair, node(at), NODE);
    }
}

/* ---- the finder's digests alone */

static void parent(Digest *digest, const uint8_t *left, const uint8_t *right, uint8_t *out) {
    uint8_t pair[2 * NODE];
    memcpy(pair, left, NODE);
    memcpy(pair + NODE, right, NODE);
    digest(pair, sizeof pair, out);
}

/* The letter's root: its record, the siblings from the leaf upward, the peaks to the right, those to the left. */
static void letter_digests(Digest *digest, const Log *log) {
    unsigned left = (unsigned)__builtin_popcountll(log->leaves >> log->height >> 1);
    digest(letter + HEAD, RECORD, worked);
    for (unsigned k = 0; k < log->height; k++) {
        if (log->index >> k & 1) parent(digest, item(left + k), worked, worked);
        else parent(digest, worked, item(left + k), worked);
    }
    if (log->leaves & (((uint64_t)1 << log->height) - 1)) parent(digest, worked, item(left + log->height), worked);
    while (left-- > 0) parent(digest, item(left), worked, worked);
}

/* The log's own peaks, folded from the right: those to the right of the index's, or all. Where no input differs, the digests above them are the
   letter's and are not worked out again. */
static void log_digests(Digest *digest, const Log *log, int all) {
    uint64_t at = log->size - 1, some = 0;
    for (unsigned h = 0; log->leaves >> h; h++) {
        if (!(log->leaves >> h & 1)) continue;
        if (h >= log->height && !all) return;
        if (some++) parent(digest, node(at), folded, folded);
        else memcpy(folded, node(at), NODE);
        at -= ((uint64_t)2 << h) - 1;
    }
}

static void digests(Digest *digest, const Log *log, int refused) {
    letter_digests(digest, log);
    log_digests(digest, log, refused);
}

/* Our letter's root is the log's; of a refused one the fold is. */
static void compare(int refused, const char *name) {
    demand(memcmp(refused ? folded : worked, root, NODE) == 0, "the digests alone have another root", name);
    demand(!refused || memcmp(worked, root, NODE) != 0, "a letter to be refused has the root", name);
    memset(worked, 0, NODE);
    memset(folded, 0, NODE);
}

/* ---- one letter */

/* Checks and finds the letter that lies there, and demands of both the number. */
static void measure(const char *name, const Log *log, size_t length, uint32_t wanted) {
    uint64_t checked = 0;
    size_t at = 0, record_length = 0;
    uint32_t number = 1, found = 0;
    MEASURE("check", name, number = keeper_letter_check(&mode, log->size, root, NODE, letter, length, &checked, &at, &record_length));
    demand(number == wanted, "the check answers another number", name);
    MEASURE("find", name,
            number = keeper_find(&mode, log->size, nodes, NODE * log->size, record, RECORD, letter, length, first, sizeof first, second,
                                 sizeof second, &found));
    demand(number == wanted, "the finder answers another number", name);
    demand(wanted != KEEPER_DONE || found == KEEPER_SAME, "the finder did not say same", name);
    MEASURE("gcc", name, digests(gcc_digest, log, wanted != KEEPER_DONE));
    compare(wanted != KEEPER_DONE, name);
    MEASURE("clang", name, digests(clang_digest, log, wanted != KEEPER_DONE));
    compare(wanted != KEEPER_DONE, name);
}

/* Our letter, written, and the same with one bit of the record changed. */
static void measure_log(Log log) {
    size_t length = 0;
    char refused[64];
    snprintf(refused, sizeof refused, "%s refused", log.name);
    demand(keeper_size(log.leaves, &log.size) == KEEPER_DONE, "no size", log.name);
    make_log(&log);
    demand(keeper_root(&mode, log.size, nodes, NODE * log.size, root, NODE) == KEEPER_DONE, "no root", log.name);
    uint32_t number = 1;
    MEASURE("write", log.name,
            number = keeper_letter_write(&mode, log.size, log.index, record, RECORD, nodes, NODE * log.size, letter, sizeof letter, &length));
    demand(number == KEEPER_DONE, "no letter", log.name);
    measure(log.name, &log, length, KEEPER_DONE);
    letter[HEAD] ^= 1;
    measure(refused, &log, length, KEEPER_OTHER_ROOT);
}

int main(int argc, char **argv) {
    static const uint64_t high = (uint64_t)1 << MOST;
    timing = argc > 1 && strcmp(argv[1], "time") == 0;
    for (size_t i = 0; i < sizeof record; i++) record[i] = (uint8_t)(i % 251);
    nodes = mmap(NULL, NODE * (2 * high - 1), PROT_READ | PROT_WRITE, MAP_PRIVATE | MAP_ANONYMOUS | MAP_NORESERVE, -1, 0);
    demand(nodes != MAP_FAILED, "no room for the nodes", "the start");
    gcc_digest(record, 0, worked); /* at its first call BLAKE3's C asks the processor what it can do: not measured */
    clang_digest(record, 0, worked);
    MEASURE("check", "nothing", (void)0);
    measure_log((Log){"1", 1, 0, 0, 0});
    measure_log((Log){"2^10", 1 << 10, 0x25A, 0, 10});
    measure_log((Log){"2^20", 1 << 20, 0xA5A5A, 0, 20});
    measure_log((Log){"2^20-1 first", (1 << 20) - 1, 0x25A5A, 0, 19});
    measure_log((Log){"2^20-1 last", (1 << 20) - 1, (1 << 20) - 2, 0, 0});
    measure_log((Log){"2^28-1 first", high - 1, 0x25A5A5A, 0, MOST - 1});
    return 0;
}
