/* The library's calls over a pipe, for outside/bridge.py: what a call is lent lies against forbidden pages, and all of it goes back.

   A request: the call's name (16 bytes, zeros behind it), the placing (1), how many lent parts (1), two numbers (8 each), the length of each
   part (4 each), the parts' bytes. A part is a lent buffer or a result variable. An answer: whether a byte around a part was changed (1), the
   call's number (4), the parts' bytes. All little-endian. Placing, bit 0: a part ends where its room ends, else it begins where that begins;
   bit 1: an empty part has a null pointer. Next to its room on either side is a page that nobody may read or write, and a call may not write
   to a part that it only reads: a library that does ends this program, and that is a difference too. A mode is a part as any other, and so is the
   state of a digest in parts. A part of numbers has the length of whole numbers, so that it is aligned where it ends with its room too. */
#include <stddef.h>
#include <stdint.h>
#include <stdio.h>
#include <stdlib.h>
#include <string.h>
#include <sys/mman.h>
#include <unistd.h>
#include "keeper.h"

enum { NAME = 16, NUMBERS = 2, PARTS = 10, ROOM = 1 << 18, MARGIN = 256, UNTOUCHED = 0xA5 };
typedef struct {
    uint8_t *room, *bytes;
    size_t length;
} Part;
static Part parts[PARTS];
static uint64_t numbers[NUMBERS];
_Static_assert(sizeof(keeper_mode) == 36 && offsetof(keeper_mode, keyed) == 0 && offsetof(keeper_mode, key) == 4, "a mode is its number and its key");
_Static_assert(sizeof(keeper_parts) == 1112, "a state has no byte between its fields");

/* ---- the calls, by the names and in the order of keeper.h */

#define BUFFER(I) parts[I].bytes, parts[I].length
#define U64(I) ((uint64_t *)(void *)parts[I].bytes)
#define U32(I) ((uint32_t *)(void *)parts[I].bytes)
#define WORDS(I) U32(I), parts[I].length / sizeof(uint32_t)
#define PLACES(I) U64(I), parts[I].length / sizeof(uint64_t)
#define SIZE(I) ((size_t *)(void *)parts[I].bytes)
#define MODE(I) ((keeper_mode *)(void *)parts[I].bytes)
#define STATE(I) ((keeper_parts *)(void *)parts[I].bytes)

static uint32_t mode_plain(void) { return keeper_mode_plain(MODE(0)); }
static uint32_t mode_keyed(void) { return keeper_mode_keyed(BUFFER(0), MODE(1)); }
static uint32_t digest(void) { return keeper_digest(MODE(0), BUFFER(1), BUFFER(2)); }
static uint32_t parts_begin(void) { return keeper_parts_begin(MODE(0), STATE(1)); }
static uint32_t parts_add(void) { return keeper_parts_add(STATE(1), BUFFER(0)); }
static uint32_t parts_end(void) { return keeper_parts_end(STATE(0), BUFFER(1)); }
static uint32_t size(void) { return keeper_size(numbers[0], U64(0)); }
static uint32_t leaf_position(void) { return keeper_leaf_position(numbers[0], U64(0)); }
static uint32_t leaf_count(void) { return keeper_leaf_count(numbers[0], U64(0)); }
static uint32_t append(void) { return keeper_append(MODE(0), numbers[0], BUFFER(1), BUFFER(2), U64(3), U64(4)); }
static uint32_t append_many(void) { return keeper_append_many(MODE(0), numbers[0], BUFFER(1), WORDS(2), BUFFER(3), U64(4), U64(5)); }
static uint32_t root(void) { return keeper_root(MODE(0), numbers[0], BUFFER(1), BUFFER(2)); }
static uint32_t letter_write(void) { return keeper_letter_write(MODE(0), numbers[0], numbers[1], BUFFER(1), BUFFER(2), BUFFER(3), SIZE(4)); }
static uint32_t letter_check(void) { return keeper_letter_check(MODE(0), numbers[0], BUFFER(1), BUFFER(2), U64(3), SIZE(4), SIZE(5)); }
static uint32_t find(void) { return keeper_find(MODE(0), numbers[0], BUFFER(1), BUFFER(2), BUFFER(3), BUFFER(4), BUFFER(5), U32(6)); }
static uint32_t store_leaf(void) { return keeper_store_leaf(MODE(0), BUFFER(1), BUFFER(2), SIZE(3)); }
static uint32_t store_inner(void) { return keeper_store_inner(BUFFER(0), BUFFER(1), SIZE(2)); }
static uint32_t read_node(void) { return keeper_read_node(MODE(0), BUFFER(1), U32(2), BUFFER(3), SIZE(4), SIZE(5)); }
static uint32_t passage_write(void) {
    return keeper_passage_write(MODE(0), numbers[0], PLACES(1), BUFFER(2), WORDS(3), BUFFER(4), BUFFER(5), SIZE(6));
}
static uint32_t passage_check(void) { return keeper_passage_check(MODE(0), numbers[0], BUFFER(1), BUFFER(2), U64(3)); }
static uint32_t passage_entry(void) { return keeper_passage_entry(MODE(0), numbers[0], BUFFER(1), BUFFER(2), numbers[1], U64(3), SIZE(4), SIZE(5)); }
static uint32_t passage_entries(void) {
    return keeper_passage_entries(MODE(0), numbers[0], BUFFER(1), BUFFER(2), PLACES(3), PLACES(4), PLACES(5), U64(6));
}
static uint32_t passage_find(void) {
    return keeper_passage_find(MODE(0), numbers[0], BUFFER(1), BUFFER(2), WORDS(3), BUFFER(4), BUFFER(5), BUFFER(6), U32(7), U64(8));
}

/* A buffer that is too long to be sent: zeros that nobody has written. NULL where there is no such memory, and then the number is that of no call. */
static uint8_t *wide_room(size_t length) {
    uint8_t *all = mmap(NULL, length, PROT_READ | PROT_WRITE, MAP_PRIVATE | MAP_ANONYMOUS | MAP_NORESERVE, -1, 0);
    return all == MAP_FAILED ? NULL : all;
}

/* append_many over such a buffer, of numbers[1] bytes: the part is its end. */
static uint32_t append_wide(void) {
    size_t length = (size_t)numbers[1], before = length - parts[3].length;
    uint8_t *all = wide_room(length);
    if (!all) return UINT32_MAX;
    memcpy(all + before, parts[3].bytes, parts[3].length);
    uint32_t number = keeper_append_many(MODE(0), numbers[0], BUFFER(1), WORDS(2), all, length, U64(4), U64(5));
    memcpy(parts[3].bytes, all + before, parts[3].length);
    munmap(all, length);
    return number;
}

/* Such a buffer of nodes, of numbers[1] bytes: those in a part stand at the positions in the part before it, and all others are zeros. */
static uint8_t *wide_nodes(int positions) {
    uint8_t *all = wide_room((size_t)numbers[1]);
    for (size_t i = 0; all && i < parts[positions].length / sizeof(uint64_t); i++)
        memcpy(all + 32 * U64(positions)[i], parts[positions + 1].bytes + 32 * i, 32);
    return all;
}

/* passage_write and passage_find over such nodes. */
static uint32_t write_wide(void) {
    uint8_t *nodes = wide_nodes(4);
    if (!nodes) return UINT32_MAX;
    uint32_t number = keeper_passage_write(MODE(0), numbers[0], PLACES(1), BUFFER(2), WORDS(3), nodes, numbers[1], BUFFER(6), SIZE(7));
    munmap(nodes, numbers[1]);
    return number;
}

static uint32_t find_wide(void) {
    uint8_t *nodes = wide_nodes(3);
    if (!nodes) return UINT32_MAX;
    uint32_t number = keeper_passage_find(MODE(0), numbers[0], nodes, numbers[1], BUFFER(1), WORDS(2), BUFFER(5), BUFFER(6), BUFFER(7), U32(8),
                                          U64(9));
    munmap(nodes, numbers[1]);
    return number;
}

static void put_number(uint8_t *at, int bytes, uint64_t number) {
    for (int i = 0; i < bytes; i++) at[i] = (uint8_t)(number >> 8 * (bytes - 1 - i));
}

/* passage_check and passage_entries of a letter that is too long to be sent, numbers[1] bytes short and against a forbidden page: its indexes, the
   bytes that each of its records has, and its digests are parts. The number of no call where the two calls answer differently. */
static uint32_t check_long(void) {
    size_t page = (size_t)sysconf(_SC_PAGESIZE), count = parts[2].length / sizeof(uint64_t), record = parts[3].length;
    size_t length = 10 + count * (12 + record) + parts[4].length, room = (length + page - 1) / page * page;
    uint8_t *all = mmap(NULL, room + page, PROT_READ | PROT_WRITE, MAP_PRIVATE | MAP_ANONYMOUS, -1, 0);
    if (all == MAP_FAILED) return UINT32_MAX;
    uint8_t *letter = all + room - length, *at = letter + 10;
    put_number(letter, 8, numbers[0]), put_number(letter + 8, 2, count);
    for (size_t k = 0; k < count; k++, at += 12 + record) {
        put_number(at, 8, U64(2)[k]), put_number(at + 8, 4, record);
        memcpy(at + 12, parts[3].bytes, record);
    }
    memcpy(at, parts[4].bytes, parts[4].length);
    memmove(letter + numbers[1], letter, length - numbers[1]);
    mprotect(all, room, PROT_READ), mprotect(all + room, page, PROT_NONE);
    letter += numbers[1], length -= numbers[1];
    uint32_t number = keeper_passage_entries(MODE(0), numbers[0], BUFFER(1), letter, length, PLACES(5), PLACES(6), PLACES(7), U64(8));
    uint64_t counted = number == 0 ? *U64(8) : 0, checked = 0;
    if (keeper_passage_check(MODE(0), numbers[0], BUFFER(1), letter, length, &checked) != number || checked != counted) number = UINT32_MAX;
    munmap(all, room + page);
    return number;
}

/* A digest in parts from its begin to its end: the second part's bytes in parts of the lengths in the third. The first number that is not 0. */
static uint32_t parts_cut(void) {
    const uint8_t *at = parts[1].bytes;
    uint32_t number = keeper_parts_begin(MODE(0), STATE(3));
    for (size_t i = 0; number == 0 && i < parts[2].length / sizeof(uint32_t); i++) {
        number = keeper_parts_add(STATE(3), at, U32(2)[i]);
        if (at) at += U32(2)[i];
    }
    return number ? number : keeper_parts_end(STATE(3), BUFFER(4));
}

/* No call of the library: writes one byte beside a part, which has to be noticed. */
static uint32_t stray(void) {
    if (parts[0].bytes == parts[0].room) parts[0].bytes[parts[0].length] = 0;
    else parts[0].bytes[-1] = 0;
    return 0;
}

/* No call of the library: how this compiler lays out a mode and a state, for the other side to compare. Sizes, and of each field where it begins and
   how long it is. */
#define FIELD(TYPE, NAME) offsetof(TYPE, NAME), sizeof((TYPE *)0)->NAME
static uint32_t layout(void) {
    const uint64_t mode[] = {sizeof(keeper_mode), FIELD(keeper_mode, keyed), FIELD(keeper_mode, key)};
    const uint64_t state[] = {sizeof(keeper_parts), FIELD(keeper_parts, total), FIELD(keeper_parts, held), FIELD(keeper_parts, stacked),
                              FIELD(keeper_parts, keyed), FIELD(keeper_parts, key), FIELD(keeper_parts, chain), FIELD(keeper_parts, stack),
                              FIELD(keeper_parts, block)};
    if (parts[0].length != sizeof mode || parts[1].length != sizeof state) return UINT32_MAX;
    memcpy(parts[0].bytes, mode, sizeof mode);
    memcpy(parts[1].bytes, state, sizeof state);
    return 0;
}

/* A call, and how many parts, the first ones, it only reads. */
static const struct {
    const char *name;
    uint32_t (*call)(void);
    int reads;
} calls[] = {
    {"mode_plain", mode_plain, 0},
    {"mode_keyed", mode_keyed, 1},
    {"digest", digest, 2},
    {"parts_begin", parts_begin, 1},
    {"parts_add", parts_add, 1},
    {"parts_end", parts_end, 1},
    {"size", size, 0},
    {"leaf_position", leaf_position, 0},
    {"leaf_count", leaf_count, 0},
    {"append", append, 2},
    {"append_many", append_many, 3},
    {"root", root, 2},
    {"letter_write", letter_write, 3},
    {"letter_check", letter_check, 3},
    {"find", find, 4},
    {"store_leaf", store_leaf, 2},
    {"store_inner", store_inner, 1},
    {"read_node", read_node, 2},
    {"passage_write", passage_write, 5},
    {"passage_check", passage_check, 3},
    {"passage_entry", passage_entry, 3},
    {"passage_entries", passage_entries, 3},
    {"passage_find", passage_find, 5},
    {"append_wide", append_wide, 3},
    {"write_wide", write_wide, 6},
    {"find_wide", find_wide, 6},
    {"check_long", check_long, 5},
    {"parts_cut", parts_cut, 3},
    {"stray", stray, 0},
    {"layout", layout, 0},
};

/* ---- rooms */

static _Noreturn void stop(const char *why) {
    fprintf(stderr, "bridge: %s\n", why);
    exit(2);
}

static void make_rooms(void) {
    size_t page = (size_t)sysconf(_SC_PAGESIZE);
    for (int i = 0; i < PARTS; i++) {
        uint8_t *all = mmap(NULL, ROOM + 2 * page, PROT_NONE, MAP_PRIVATE | MAP_ANONYMOUS, -1, 0);
        if (all == MAP_FAILED || mprotect(all + page, ROOM, PROT_READ | PROT_WRITE) != 0) stop("no memory");
        parts[i].room = all + page;
        memset(parts[i].room, UNTOUCHED, ROOM);
    }
}

/* The bytes of the room beside a part, behind it or before it, have the value that they were given. */
static int margin_untouched(const Part *part) {
    if (!part->bytes) return 1;
    const uint8_t *margin = part->bytes == part->room ? part->bytes + part->length : part->bytes - MARGIN;
    for (int i = 0; i < MARGIN; i++)
        if (margin[i] != UNTOUCHED) return 0;
    return 1;
}

/* ---- requests and answers */

static int read_whole(void *bytes, size_t count) { return fread(bytes, 1, count, stdin) == count; }

static uint32_t word_at(const uint8_t *at) { return at[0] | (uint32_t)at[1] << 8 | (uint32_t)at[2] << 16 | (uint32_t)at[3] << 24; }

static void place(Part *part, size_t length, int placing) {
    if (length > ROOM - MARGIN) stop("a part is too long");
    part->length = length;
    part->bytes = placing & 1 ? part->room + ROOM - length : part->room;
    if (length == 0 && placing & 2) part->bytes = NULL;
    if (length > 0 && !read_whole(part->bytes, length)) stop("the request was cut");
}

/* Calls with the parts that are only read made so; the number. */
static uint32_t call(const char *name) {
    for (size_t i = 0; i < sizeof calls / sizeof *calls; i++) {
        if (strcmp(name, calls[i].name) != 0) continue;
        for (int k = 0; k < calls[i].reads; k++) mprotect(parts[k].room, ROOM, PROT_READ);
        uint32_t number = calls[i].call();
        for (int k = 0; k < calls[i].reads; k++) mprotect(parts[k].room, ROOM, PROT_READ | PROT_WRITE);
        return number;
    }
    stop("no call has that name");
}

static void answer(uint32_t number, int count) {
    uint8_t head[5] = {0, (uint8_t)number, (uint8_t)(number >> 8), (uint8_t)(number >> 16), (uint8_t)(number >> 24)};
    for (int i = 0; i < count; i++) head[0] |= (uint8_t)!margin_untouched(&parts[i]);
    fwrite(head, 1, sizeof head, stdout);
    for (int i = 0; i < count; i++) {
        if (parts[i].length > 0) fwrite(parts[i].bytes, 1, parts[i].length, stdout);
        memset(parts[i].room, UNTOUCHED, parts[i].length + MARGIN);
        memset(parts[i].room + ROOM - parts[i].length - MARGIN, UNTOUCHED, parts[i].length + MARGIN);
    }
    fflush(stdout);
}

int main(void) {
    char name[NAME + 1] = {0};
    uint8_t head[2], words[8 * NUMBERS + 4 * PARTS];
    make_rooms();
    while (read_whole(name, NAME)) {
        if (!read_whole(head, sizeof head) || head[1] > PARTS || !read_whole(words, 8 * NUMBERS + 4u * head[1])) stop("the request was cut");
        for (int i = 0; i < NUMBERS; i++) numbers[i] = word_at(words + 8 * i) | (uint64_t)word_at(words + 8 * i + 4) << 32;
        for (int i = 0; i < head[1]; i++) place(&parts[i], word_at(words + 8 * NUMBERS + 4 * i), head[0]);
        answer(call(name), head[1]);
    }
    return 0;
}
