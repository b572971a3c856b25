/* The program that bench/passage.sh counts: keeper_passage_write, _check, _entry, _entries and _find on one letter, and the digests that writing,
   checking and finding need, alone, by this project's digest. What each answers is looked at, and the roots are compared. All records of the log are
   the same: its nodes are then one digest for each height, and nobody has to hash two million. No count depends on what a record says. */
#define _GNU_SOURCE
#include <stdint.h>
#include <stdlib.h>
#include <sys/mman.h>
#include <unistd.h>
#include "digest_c.h"
#include "keeper.h"
#include "marks.h"
#include "mode.h"

enum { NODE = 32, RECORD = 200, HEAD = 10, FRAME = 12, MOST = 256, HEIGHT = 20, PAIRS = MOST * HEIGHT, ROOM = 1 << 18 };
#define LEAVES ((uint64_t)1 << HEIGHT)
static const digest_c_mode digest_mode = MODE;
static const keeper_mode mode = MODE;

/* Records of a log: so many, from the first on, each so far from the one before. */
typedef struct {
    const char *log, *kind;
    uint64_t leaves, first, step;
    size_t records;
} Passage;

static uint8_t *nodes, records[MOST * RECORD], letter[ROOM], root[NODE];
static uint64_t indexes[MOST], size;
static uint32_t lengths[MOST];
static size_t length;

static void demand(int holds, const char *what, const char *name) {
    if (holds) return;
    fprintf(stderr, "bench: passage %s: %s\n", name, what);
    exit(1);
}

static uint8_t *node(uint64_t position) { return nodes + NODE * position; }

/* The log of 2^20 equal records: a tree is the one below it twice, and a parent on top. The system copies it, since what the program did itself would
   be traced step by step. The log of one record less is its first nodes. */
static void make_log(void) {
    size_t all = NODE * (2 * LEAVES - 1);
    int file = memfd_create("nodes", 0);
    demand(file >= 0 && ftruncate(file, (off_t)all) == 0, "no room for the nodes", "log");
    nodes = mmap(NULL, all, PROT_READ | PROT_WRITE, MAP_SHARED, file, 0);
    demand(nodes != MAP_FAILED, "no room for the nodes", "log");
    digest_c_of(&digest_mode, records, RECORD, node(0));
    for (uint64_t tree = 1; tree < 2 * LEAVES - 1; tree = 2 * tree + 1) {
        size_t bytes = NODE * tree;
        demand(pwrite(file, nodes, bytes, (off_t)bytes) == (ssize_t)bytes, "the nodes were not copied", "log");
        digest_c_pair(&digest_mode, node(tree - 1), node(2 * tree - 1), node(2 * tree));
    }
}

/* ---- the digests alone: which pairs are hashed is found out before, and is not counted */

typedef struct {
    const uint8_t *left, *right;
    uint8_t *out;
} Pair;

/* The pairs of the letter's own tree, and those of a fold of the log's peaks that the letter has as one digest: there is at most one such. */
static Pair tree[PAIRS], fold[HEIGHT];
static size_t tree_pairs, fold_pairs, asked, used, asked_for;
static uint8_t made[PAIRS][NODE], folded[HEIGHT][NODE], leaves[MOST][NODE];
static const uint8_t *items, *folded_item;

static uint64_t below(uint64_t n) {
    uint64_t half = 1;
    while (2 * half < n) half *= 2;
    return half;
}

/* The digest of n leaves whose nodes begin at a position. */
static const uint8_t *fold_of(uint64_t n, uint64_t at) {
    uint64_t half = below(n);
    if (n == 1) return node(at);
    if (n == 2 * half) return node(at + 2 * n - 2);
    const uint8_t *left = node(at + 2 * half - 2), *right = fold_of(n - half, at + 2 * half - 1);
    fold[fold_pairs] = (Pair){left, right, folded[fold_pairs]};
    return fold[fold_pairs++].out;
}

/* The digest of n leaves from leaf `first` on: the walk of RULES 12.6. */
static const uint8_t *walk(uint64_t first, uint64_t n) {
    uint64_t half = below(n), at = 0;
    if (asked == asked_for || indexes[asked] >= first + n) {
        const uint8_t *item = items + NODE * used++;
        keeper_leaf_position(first, &at);
        if (n > 1 && n != 2 * half) {
            fold_of(n, at);
            folded_item = item;
        }
        return item;
    }
    if (n == 1) return leaves[asked++];
    const uint8_t *left = walk(first, half), *right = walk(first + half, n - half);
    tree[tree_pairs] = (Pair){left, right, made[tree_pairs]};
    return tree[tree_pairs++].out;
}

static void hash_pairs(const Pair *pairs, size_t count) {
    for (size_t i = 0; i < count; i++) digest_c_pair(&digest_mode, pairs[i].left, pairs[i].right, pairs[i].out);
}

static void write_digests(size_t count) {
    for (size_t k = 0; k < count; k++) digest_c_of(&digest_mode, records + k * RECORD, RECORD, leaves[k]);
    hash_pairs(fold, fold_pairs);
}

static void check_digests(size_t count) {
    for (size_t k = 0; k < count; k++) digest_c_of(&digest_mode, letter + HEAD + k * (FRAME + RECORD) + FRAME, RECORD, leaves[k]);
    hash_pairs(tree, tree_pairs);
}

static void find_digests(size_t count) {
    check_digests(count);
    hash_pairs(fold, fold_pairs);
}

/* The root that was worked out is the log's, and the fold the letter's digest; both are cleared for the next call. */
static void compare_root(const char *name) {
    uint8_t *top = made[tree_pairs - 1];
    demand(memcmp(top, root, NODE) == 0, "the digests alone have another root", name);
    memset(top, 0, NODE);
}

static void compare_fold(const char *name) {
    if (fold_pairs == 0) return;
    uint8_t *top = folded[fold_pairs - 1];
    demand(memcmp(top, folded_item, NODE) == 0, "the digests alone have another fold", name);
    memset(top, 0, NODE);
}

/* ---- one letter */

/* What the single letters of the same records have together. */
static size_t single_letters(const Passage *p) {
    static uint8_t single[ROOM];
    size_t all = 0, one = 0;
    for (size_t k = 0; k < p->records; k++) {
        uint32_t number = keeper_letter_write(&mode, size, indexes[k], records, RECORD, nodes, NODE * size, single, sizeof single, &one);
        demand(number == KEEPER_DONE, "no letter", p->log);
        all += one;
    }
    return all;
}

/* The calls are named by the log, the kind, and numbers: records, the letter's digests, its pairs, a fold's pairs, its bytes, the single letters'. */
static void name_it(char *name, size_t room, const Passage *p) {
    snprintf(name, room, "%s %s %zu %zu %zu %zu %zu %zu", p->log, p->kind, p->records, used, tree_pairs, fold_pairs, length, single_letters(p));
}

static void measure_write(const char *name, size_t count) {
    uint32_t number = 1;
    size_t again = 0;
    memset(letter, 0, HEAD);
    MEASURE("write", name,
            number = keeper_passage_write(&mode, size, indexes, count, records, RECORD * count, lengths, count, nodes, NODE * size, letter,
                                          sizeof letter, &again));
    demand(number == KEEPER_DONE && again == length, "the letter was not written", name);
    MEASURE("write_digests", name, write_digests(count));
    compare_fold(name);
}

static void measure_check(const char *name, size_t count) {
    static uint64_t listed[MOST], starts[MOST], counts[MOST];
    uint64_t found = 0, index = 0, end = 0;
    size_t at = 0, bytes = 0, last = HEAD + count * (FRAME + RECORD) - RECORD;
    uint32_t number = 1;
    MEASURE("check", name, number = keeper_passage_check(&mode, size, root, NODE, letter, length, &found));
    demand(number == KEEPER_DONE && found == count, "the letter was not accepted", name);
    MEASURE("check_digests", name, check_digests(count));
    compare_root(name);
    MEASURE("entry", name, number = keeper_passage_entry(&mode, size, root, NODE, letter, length, count - 1, &index, &at, &bytes));
    demand(number == KEEPER_DONE && index == indexes[count - 1] && at == last && bytes == RECORD, "another entry", name);
    MEASURE("entries", name,
            number = keeper_passage_entries(&mode, size, root, NODE, letter, length, listed, MOST, starts, MOST, counts, MOST, &end));
    demand(number == KEEPER_DONE && end == count && listed[count - 1] == index, "other entries", name);
    demand(starts[count - 1] == last && counts[count - 1] == RECORD, "another record among the entries", name);
}

static void measure_find(const char *name, size_t count) {
    static uint8_t first[2 * NODE], second[2 * NODE];
    uint32_t number = 1, found = 0;
    uint64_t index = 1;
    MEASURE("find", name,
            number = keeper_passage_find(&mode, size, nodes, NODE * size, records, RECORD * count, lengths, count, letter, length, first,
                                         sizeof first, second, sizeof second, &found, &index));
    demand(number == KEEPER_DONE && found == KEEPER_SAME && index == 0, "the finder did not say same", name);
    MEASURE("find_digests", name, find_digests(count));
    compare_root(name);
    compare_fold(name);
}

static void measure(Passage p) {
    char name[96];
    demand(keeper_size(p.leaves, &size) == KEEPER_DONE, "no size", p.log);
    demand(keeper_root(&mode, size, nodes, NODE * size, root, NODE) == KEEPER_DONE, "no root", p.log);
    for (size_t k = 0; k < p.records; k++) indexes[k] = p.first + k * p.step;
    asked = used = tree_pairs = fold_pairs = 0;
    asked_for = p.records;
    items = letter + HEAD + p.records * (FRAME + RECORD);
    walk(0, p.leaves);
    length = HEAD + p.records * (FRAME + RECORD) + NODE * used;
    name_it(name, sizeof name, &p);
    measure_write(name, p.records);
    measure_check(name, p.records);
    measure_find(name, p.records);
}

int main(int argc, char **argv) {
    static const uint64_t first = 0xA5A5A, early = 0x25A5A, low = 0x5A5;
    timing = argc > 1 && strcmp(argv[1], "time") == 0;
    for (size_t i = 0; i < sizeof records; i++) records[i] = (uint8_t)(i % RECORD);
    for (size_t k = 0; k < MOST; k++) lengths[k] = RECORD;
    make_log();
    MEASURE("check", "nothing", (void)0);
    measure((Passage){"2^20", "one", LEAVES, first, 1, 1});
    measure((Passage){"2^20", "first", LEAVES, 0, 1, 40});
    measure((Passage){"2^20", "neighbours", LEAVES, first, 1, 40});
    measure((Passage){"2^20", "neighbours", LEAVES, first, 1, 128});
    measure((Passage){"2^20", "neighbours", LEAVES, first, 1, 256});
    measure((Passage){"2^20", "spread", LEAVES, low, LEAVES / 40, 40});
    measure((Passage){"2^20", "spread", LEAVES, low, LEAVES / 128, 128});
    measure((Passage){"2^20", "spread", LEAVES, low, LEAVES / 256, 256});
    measure((Passage){"2^20-1", "one", LEAVES - 1, early, 1, 1});
    measure((Passage){"2^20-1", "neighbours", LEAVES - 1, early, 1, 40});
    measure((Passage){"2^20-1", "last", LEAVES - 1, LEAVES - 41, 1, 40});
    measure((Passage){"2^20-1", "spread", LEAVES - 1, low, LEAVES / 40, 40});
    return 0;
}
