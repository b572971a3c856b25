/* What stands in for the library in tests under sanitizers, on a machine whose own code the library is not: the calls of keeper.h that the host makes,
   once more, in plain C. Nothing is proved of it, and no host that people run has it. The tests hold it to the second program as they hold the host. */
#include <string.h>
#include "keeper.h"

enum { NODE = 32, BLOCK = 64, CHUNK = 1024, LONGEST = 16384, HEAD = 20 };
enum { START = 1, END = 2, PARENT = 4, TOP = 8, KEYED = 16 };

/* ---- BLAKE3 */

static const uint32_t starting[8] = {0x6A09E667, 0xBB67AE85, 0x3C6EF372, 0xA54FF53A, 0x510E527F, 0x9B05688C, 0x1F83D9AB, 0x5BE0CD19};
static const uint8_t order[16] = {2, 6, 3, 10, 7, 0, 4, 13, 1, 11, 12, 5, 9, 14, 15, 8};

/* The words that chaining begins with, and the flag of every compression. */
typedef struct {
    uint32_t words[8], flag;
} Begin;

static Begin begin_of(const keeper_mode *mode) {
    Begin begin = {.flag = mode->keyed ? KEYED : 0};
    memcpy(begin.words, starting, sizeof begin.words);
    for (int i = 0; mode->keyed && i < 8; i++) begin.words[i] = 0;
    for (int i = 0; mode->keyed && i < 32; i++) begin.words[i / 4] |= (uint32_t)mode->key[i] << 8 * (i % 4);
    return begin;
}

static uint32_t turn(uint32_t word, int by) { return word >> by | word << (32 - by); }

static void mix(uint32_t *v, int a, int b, int c, int d, uint32_t x, uint32_t y) {
    v[a] += v[b] + x, v[d] = turn(v[d] ^ v[a], 16), v[c] += v[d], v[b] = turn(v[b] ^ v[c], 12);
    v[a] += v[b] + y, v[d] = turn(v[d] ^ v[a], 8), v[c] += v[d], v[b] = turn(v[b] ^ v[c], 7);
}

static void compress(uint32_t chain[8], const uint8_t block[BLOCK], uint64_t counter, uint32_t length, uint32_t flags) {
    uint32_t m[16], next[16], v[16];
    for (int i = 0; i < 16; i++) m[i] = block[4 * i] | (uint32_t)block[4 * i + 1] << 8 | (uint32_t)block[4 * i + 2] << 16 | (uint32_t)block[4 * i + 3] << 24;
    memcpy(v, chain, 32);
    memcpy(v + 8, starting, 16);
    v[12] = (uint32_t)counter, v[13] = (uint32_t)(counter >> 32), v[14] = length, v[15] = flags;
    for (int round = 0; round < 7; round++) {
        for (int i = 0; i < 4; i++) mix(v, i, 4 + i, 8 + i, 12 + i, m[2 * i], m[2 * i + 1]);
        for (int i = 0; i < 4; i++) mix(v, i, 4 + (i + 1) % 4, 8 + (i + 2) % 4, 12 + (i + 3) % 4, m[8 + 2 * i], m[9 + 2 * i]);
        for (int i = 0; i < 16; i++) next[i] = m[order[i]];
        memcpy(m, next, sizeof m);
    }
    for (int i = 0; i < 8; i++) chain[i] = v[i] ^ v[i + 8];
}

static void hash_chunk(const Begin *begin, const uint8_t *bytes, size_t length, uint64_t counter, uint32_t top, uint32_t chain[8]) {
    memcpy(chain, begin->words, 32);
    for (size_t at = 0; at == 0 || at < length; at += BLOCK) {
        uint8_t block[BLOCK] = {0};
        size_t part = length - at < BLOCK ? length - at : BLOCK;
        if (part > 0) memcpy(block, bytes + at, part);
        uint32_t last = at + BLOCK >= length ? END | top : 0;
        compress(chain, block, counter, (uint32_t)part, begin->flag | (at == 0 ? START : 0) | last);
    }
}

static void put_words(const uint32_t chain[8], uint8_t *out) {
    for (int i = 0; i < 32; i++) out[i] = (uint8_t)(chain[i / 4] >> 8 * (i % 4));
}

static void hash_tree(const Begin *begin, const uint8_t *bytes, size_t length, uint64_t counter, uint32_t top, uint32_t chain[8]) {
    uint8_t pair[BLOCK];
    size_t left = CHUNK;
    if (length <= CHUNK) {
        hash_chunk(begin, bytes, length, counter, top, chain);
        return;
    }
    while (2 * left < length) left *= 2;
    hash_tree(begin, bytes, left, counter, 0, chain);
    put_words(chain, pair);
    hash_tree(begin, bytes + left, length - left, counter + left / CHUNK, 0, chain);
    put_words(chain, pair + NODE);
    memcpy(chain, begin->words, 32);
    compress(chain, pair, 0, BLOCK, begin->flag | PARENT | top);
}

static void digest(const keeper_mode *mode, const uint8_t *bytes, size_t length, uint8_t *out) {
    uint32_t chain[8];
    Begin begin = begin_of(mode);
    hash_tree(&begin, bytes, length, 0, TOP, chain);
    put_words(chain, out);
}

static void digest_pair(const keeper_mode *mode, const uint8_t *left, const uint8_t *right, uint8_t *out) {
    uint8_t pair[BLOCK];
    memcpy(pair, left, NODE);
    memcpy(pair + NODE, right, NODE);
    digest(mode, pair, BLOCK, out);
}

/* ---- the calls */

static const uint64_t most = (uint64_t)1 << 32;
static uint64_t size_of(uint64_t leaves) { return 2 * leaves - (uint64_t)__builtin_popcountll(leaves); }

uint32_t keeper_mode_keyed(const uint8_t *key, size_t key_len, keeper_mode *mode) {
    if (key_len != sizeof mode->key) return KEEPER_NOT_A_KEY;
    mode->keyed = 1;
    memcpy(mode->key, key, key_len);
    return KEEPER_DONE;
}

uint32_t keeper_digest(const keeper_mode *mode, const uint8_t *bytes, size_t len, uint8_t *out, size_t out_len) {
    if (out_len < NODE) return KEEPER_OUTPUT_TOO_SHORT;
    uint8_t result[NODE];
    digest(mode, bytes, len, result);
    memcpy(out, result, NODE);
    return KEEPER_DONE;
}

/* ---- a digest in parts (RULES 5.7), byte by byte */

static const uint64_t longest = (uint64_t)1 << 40;

static uint64_t chunks_of(uint64_t total) { return total == 0 ? 0 : (total - 1) / CHUNK; }

static int fits(const keeper_parts *state) {
    uint64_t total = state->total, held = total == 0 ? 0 : (total - 1) % BLOCK + 1;
    return total <= longest && state->held == held && state->stacked == (uint32_t)__builtin_popcountll(chunks_of(total));
}

static Begin begin_of_parts(const keeper_parts *state) {
    Begin begin = {.flag = state->keyed ? KEYED : 0};
    memcpy(begin.words, state->keyed ? state->key : starting, sizeof begin.words);
    return begin;
}

static void join(const Begin *begin, const uint32_t left[8], uint32_t right[8], uint32_t top) {
    uint8_t pair[BLOCK];
    put_words(left, pair);
    put_words(right, pair + NODE);
    memcpy(right, begin->words, 32);
    compress(right, pair, 0, BLOCK, begin->flag | PARENT | top);
}

/* A full block, behind which a byte comes: into the chain, and with the last of a chunk onto the stack. */
static void close_block(keeper_parts *state) {
    Begin begin = begin_of_parts(state);
    uint64_t chunk = chunks_of(state->total);
    int is_last = state->total % CHUNK == 0;
    compress(state->chain, state->block, chunk, BLOCK, begin.flag | ((state->total - 1) % CHUNK < BLOCK ? START : 0) | (is_last ? END : 0));
    memset(state->block, 0, BLOCK);
    state->held = 0;
    if (!is_last) return;
    for (uint64_t left = chunk; left & 1; left >>= 1) join(&begin, state->stack + 8 * --state->stacked, state->chain, 0);
    memcpy(state->stack + 8 * state->stacked++, state->chain, 32);
    memcpy(state->chain, begin.words, 32);
}

uint32_t keeper_parts_begin(const keeper_mode *mode, keeper_parts *state) {
    Begin begin = begin_of(mode);
    memset(state, 0, sizeof *state);
    state->keyed = mode->keyed != 0;
    if (mode->keyed) memcpy(state->key, begin.words, 32);
    memcpy(state->chain, begin.words, 32);
    return KEEPER_DONE;
}

uint32_t keeper_parts_add(keeper_parts *state, const uint8_t *part, size_t part_len) {
    if (!fits(state) || part_len > longest - state->total) return KEEPER_PARTS_OFF;
    for (size_t i = 0; i < part_len; i++) {
        if (state->held == BLOCK) close_block(state);
        state->block[state->held++] = part[i];
        state->total++;
    }
    if (part_len == 0) return KEEPER_DONE;
    memset(state->block + state->held, 0, BLOCK - state->held);
    memset(state->stack + 8 * state->stacked, 0, sizeof state->stack - 32 * state->stacked);
    return KEEPER_DONE;
}

uint32_t keeper_parts_end(const keeper_parts *state, uint8_t *out, size_t out_len) {
    if (!fits(state)) return KEEPER_PARTS_OFF;
    if (out_len < NODE) return KEEPER_OUTPUT_TOO_SHORT;
    Begin begin = begin_of_parts(state);
    uint8_t block[BLOCK] = {0};
    uint32_t chain[8], first = state->total <= BLOCK || (state->total - 1) % CHUNK < BLOCK ? START : 0;
    memcpy(block, state->block, state->held);
    memcpy(chain, state->chain, 32);
    compress(chain, block, chunks_of(state->total), (uint32_t)state->held, begin.flag | first | END | (state->stacked == 0 ? TOP : 0));
    for (uint32_t i = state->stacked; i-- > 0;) join(&begin, state->stack + 8 * i, chain, i == 0 ? TOP : 0);
    put_words(chain, out);
    return KEEPER_DONE;
}

uint32_t keeper_size(uint64_t leaves, uint64_t *size) {
    if (leaves > most) return KEEPER_TOO_MANY_LEAVES;
    *size = size_of(leaves);
    return KEEPER_DONE;
}

uint32_t keeper_leaf_position(uint64_t index, uint64_t *position) {
    if (index >= most) return KEEPER_NO_SUCH_LEAF;
    *position = size_of(index);
    return KEEPER_DONE;
}

uint32_t keeper_leaf_count(uint64_t size, uint64_t *leaves) {
    uint64_t low = 0, high = most;
    while (low < high) {
        uint64_t middle = (low + high) / 2;
        if (size_of(middle) < size) low = middle + 1;
        else high = middle;
    }
    if (size_of(low) != size) return KEEPER_NO_SUCH_SIZE;
    *leaves = low;
    return KEEPER_DONE;
}

/* The leaf of a record behind so many others, and the parents that are whole with it. */
static void write_record(const keeper_mode *mode, uint64_t leaves, const uint8_t *record, size_t record_len, uint8_t *nodes) {
    uint64_t at = size_of(leaves);
    digest(mode, record, record_len, nodes + NODE * at);
    for (unsigned height = 1; leaves >> (height - 1) & 1; height++, at++)
        digest_pair(mode, nodes + NODE * (at + 1 - ((uint64_t)1 << height)), nodes + NODE * at, nodes + NODE * (at + 1));
}

/* What appending one record behind so many others would be refused with. */
static uint32_t refusal_of(uint64_t leaves, uint32_t record_len, size_t nodes_len) {
    if (leaves == most) return KEEPER_TOO_MANY_LEAVES;
    if (record_len > LONGEST) return KEEPER_RECORD_TOO_LONG;
    return nodes_len / NODE < size_of(leaves + 1) ? KEEPER_NODES_TOO_SHORT : KEEPER_DONE;
}

static int add_up_to(const uint32_t *lengths, size_t count, size_t left) {
    for (size_t i = 0; i < count; left -= lengths[i++])
        if (lengths[i] > left) return 0;
    return left == 0;
}

uint32_t keeper_append_many(const keeper_mode *mode, uint64_t size, const uint8_t *records, size_t records_len, const uint32_t *lengths,
                            size_t lengths_count, uint8_t *nodes, size_t nodes_len, uint64_t *new_size, uint64_t *hashes) {
    uint64_t leaves;
    uint32_t number;
    if (keeper_leaf_count(size, &leaves) != KEEPER_DONE) return KEEPER_NO_SUCH_SIZE;
    if (!add_up_to(lengths, lengths_count, records_len)) return KEEPER_LENGTHS_OFF;
    for (size_t i = 0; i < lengths_count; i++)
        if ((number = refusal_of(leaves + i, lengths[i], nodes_len)) != KEEPER_DONE) return number;
    for (size_t i = 0; i < lengths_count; records += lengths[i++]) write_record(mode, leaves + i, records, lengths[i], nodes);
    *new_size = size_of(leaves + lengths_count);
    *hashes = *new_size - size;
    return KEEPER_DONE;
}

/* The peaks from one leaf on, folded. */
static void fold_from(const keeper_mode *mode, uint64_t leaves, uint64_t first, const uint8_t *nodes, uint8_t *out) {
    int some = 0;
    for (uint64_t left = leaves; left > first; left &= left - 1) {
        const uint8_t *peak = nodes + NODE * (size_of(left) - 1);
        if (some++) digest_pair(mode, peak, out, out);
        else memcpy(out, peak, NODE);
    }
}

uint32_t keeper_root(const keeper_mode *mode, uint64_t size, const uint8_t *nodes, size_t nodes_len, uint8_t *out, size_t out_len) {
    uint64_t leaves;
    if (keeper_leaf_count(size, &leaves) != KEEPER_DONE) return KEEPER_NO_SUCH_SIZE;
    if (leaves == 0) return KEEPER_EMPTY_LOG;
    if (nodes_len / NODE < size) return KEEPER_NODES_TOO_SHORT;
    if (out_len < NODE) return KEEPER_OUTPUT_TOO_SHORT;
    fold_from(mode, leaves, 0, nodes, out);
    return KEEPER_DONE;
}

static void put_number(uint8_t *at, int width, uint64_t number) {
    while (width-- > 0) at[width] = (uint8_t)number, number >>= 8;
}

static uint64_t number_at(const uint8_t *at, int width) {
    uint64_t number = 0;
    for (int i = 0; i < width; i++) number = number << 8 | at[i];
    return number;
}

/* The height of an index's peak, the first leaf of the peak, and how many peaks are to its left. */
static unsigned peak_of(uint64_t leaves, uint64_t index, uint64_t *first, unsigned *lefts) {
    unsigned height = 32;
    for (*first = 0, *lefts = 0;; height--) {
        if (!(leaves >> height & 1)) continue;
        if (index - *first < (uint64_t)1 << height) return height;
        *first += (uint64_t)1 << height;
        ++*lefts;
    }
}

static uint64_t place(uint64_t index, unsigned height) { return size_of(index >> height << height) + ((uint64_t)2 << height) - 2; }

uint32_t keeper_letter_write(const keeper_mode *mode, uint64_t size, uint64_t index, const uint8_t *record, size_t record_len, const uint8_t *nodes,
                             size_t nodes_len, uint8_t *out, size_t out_len, size_t *length) {
    uint64_t leaves, first;
    unsigned lefts, done = 0;
    uint8_t leaf[NODE], items[33 * NODE];
    if (keeper_leaf_count(size, &leaves) != KEEPER_DONE) return KEEPER_NO_SUCH_SIZE;
    if (index >= leaves) return KEEPER_NO_SUCH_LEAF;
    if (record_len > LONGEST) return KEEPER_RECORD_TOO_LONG;
    if (nodes_len / NODE < size) return KEEPER_NODES_TOO_SHORT;
    digest(mode, record, record_len, leaf);
    if (memcmp(leaf, nodes + NODE * size_of(index), NODE) != 0) return KEEPER_OTHER_RECORD;
    unsigned height = peak_of(leaves, index, &first, &lefts);
    for (uint64_t left = first, k = lefts; k-- > 0; left &= left - 1, done++) memcpy(items + NODE * k, nodes + NODE * (size_of(left) - 1), NODE);
    for (unsigned k = 0; k < height; k++) memcpy(items + NODE * done++, nodes + NODE * place(index ^ (uint64_t)1 << k, k), NODE);
    if (first + ((uint64_t)1 << height) < leaves) fold_from(mode, leaves, first + ((uint64_t)1 << height), nodes, items + NODE * done++);
    if (out_len < HEAD + record_len + NODE * done) return KEEPER_OUTPUT_TOO_SHORT;
    put_number(out, 8, size), put_number(out + 8, 8, index), put_number(out + 16, 4, record_len);
    if (record_len > 0) memcpy(out + HEAD, record, record_len);
    memcpy(out + HEAD + record_len, items, NODE * done);
    *length = HEAD + record_len + NODE * done;
    return KEEPER_DONE;
}

/* The letter's root, from its items. */
static void work_out(const keeper_mode *mode, uint64_t leaves, const uint8_t *letter, size_t record_len, uint8_t top[NODE]) {
    uint64_t first, index = number_at(letter + 8, 8);
    unsigned lefts, height = peak_of(leaves, index, &first, &lefts);
    const uint8_t *items = letter + HEAD + record_len;
    digest(mode, letter + HEAD, record_len, top);
    for (unsigned k = 0; k < height; k++) {
        const uint8_t *item = items + NODE * (lefts + k);
        if (index >> k & 1) digest_pair(mode, item, top, top);
        else digest_pair(mode, top, item, top);
    }
    if (first + ((uint64_t)1 << height) < leaves) digest_pair(mode, top, items + NODE * (lefts + height), top);
    while (lefts-- > 0) digest_pair(mode, items + NODE * lefts, top, top);
}

static uint32_t check_fields(const keeper_mode *mode, uint64_t size, const uint8_t *root, const uint8_t *letter, size_t letter_len) {
    uint64_t leaves = 0, first;
    unsigned lefts;
    uint8_t top[NODE];
    keeper_leaf_count(size, &leaves);
    if (letter_len < HEAD) return KEEPER_NOT_A_LETTER;
    if (number_at(letter, 8) != size) return KEEPER_OTHER_SIZE;
    if (number_at(letter + 8, 8) >= leaves) return KEEPER_NO_SUCH_LEAF;
    size_t stated = (size_t)number_at(letter + 16, 4);
    if (stated > LONGEST) return KEEPER_RECORD_TOO_LONG;
    unsigned height = peak_of(leaves, number_at(letter + 8, 8), &first, &lefts);
    unsigned items = lefts + height + (first + ((uint64_t)1 << height) < leaves);
    if (letter_len != HEAD + stated + NODE * items) return KEEPER_NOT_A_LETTER;
    work_out(mode, leaves, letter, stated, top);
    return memcmp(top, root, NODE) == 0 ? KEEPER_DONE : KEEPER_OTHER_ROOT;
}

uint32_t keeper_letter_check(const keeper_mode *mode, uint64_t size, const uint8_t *root, size_t root_len, const uint8_t *letter, size_t letter_len,
                             uint64_t *index, size_t *record_at, size_t *record_len) {
    uint64_t leaves;
    if (keeper_leaf_count(size, &leaves) != KEEPER_DONE) return KEEPER_NO_SUCH_SIZE;
    if (root_len != NODE) return KEEPER_NOT_A_DIGEST;
    uint32_t number = check_fields(mode, size, root, letter, letter_len);
    if (number != KEEPER_DONE) return number;
    *index = number_at(letter + 8, 8);
    *record_at = HEAD;
    *record_len = (size_t)number_at(letter + 16, 4);
    return KEEPER_DONE;
}

/* ---- stored nodes */

enum { INNER = 1 + NODE, LEAF = INNER + 4 };

uint32_t keeper_store_leaf(const keeper_mode *mode, const uint8_t *record, size_t record_len, uint8_t *out, size_t out_len, size_t *length) {
    if (record_len > LONGEST) return KEEPER_RECORD_TOO_LONG;
    if (out_len < LEAF + record_len) return KEEPER_OUTPUT_TOO_SHORT;
    out[0] = KEEPER_LEAF;
    digest(mode, record, record_len, out + 1);
    put_number(out + INNER, 4, record_len);
    if (record_len > 0) memcpy(out + LEAF, record, record_len);
    *length = LEAF + record_len;
    return KEEPER_DONE;
}

uint32_t keeper_store_inner(const uint8_t *given, size_t given_len, uint8_t *out, size_t out_len, size_t *length) {
    if (given_len != NODE) return KEEPER_NOT_A_DIGEST;
    if (out_len < INNER) return KEEPER_OUTPUT_TOO_SHORT;
    out[0] = KEEPER_INNER;
    memcpy(out + 1, given, NODE);
    *length = INNER;
    return KEEPER_DONE;
}

/* What is wrong with a leaf of 37 bytes or more. */
static uint32_t check_leaf(const keeper_mode *mode, const uint8_t *bytes, size_t bytes_len) {
    uint8_t worked[NODE];
    uint64_t stated = number_at(bytes + INNER, 4);
    if (stated > LONGEST) return KEEPER_RECORD_TOO_LONG;
    if (bytes_len != LEAF + stated) return KEEPER_NOT_A_NODE;
    digest(mode, bytes + LEAF, (size_t)stated, worked);
    return memcmp(worked, bytes + 1, NODE) == 0 ? KEEPER_DONE : KEEPER_OTHER_DIGEST;
}

uint32_t keeper_read_node(const keeper_mode *mode, const uint8_t *bytes, size_t bytes_len, uint32_t *kind, uint8_t *out, size_t out_len,
                          size_t *record_at, size_t *record_len) {
    if (bytes_len < INNER || bytes[0] > KEEPER_LEAF) return KEEPER_NOT_A_NODE;
    int is_leaf = bytes[0] == KEEPER_LEAF;
    if (is_leaf ? bytes_len < LEAF : bytes_len != INNER) return KEEPER_NOT_A_NODE;
    uint32_t number = is_leaf ? check_leaf(mode, bytes, bytes_len) : KEEPER_DONE;
    if (number == KEEPER_DONE && out_len < NODE) number = KEEPER_OUTPUT_TOO_SHORT;
    if (number != KEEPER_DONE) return number;
    *kind = bytes[0];
    memcpy(out, bytes + 1, NODE);
    *record_at = is_leaf ? LEAF : 0;
    *record_len = is_leaf ? bytes_len - LEAF : 0;
    return KEEPER_DONE;
}

/* "pair" and "records" want two strings of one digest, which no test has: a letter that is accepted is the log's own here. */
uint32_t keeper_find(const keeper_mode *mode, uint64_t size, const uint8_t *nodes, size_t nodes_len, const uint8_t *record, size_t record_len,
                     const uint8_t *letter, size_t letter_len, uint8_t *first, size_t first_len, uint8_t *second, size_t second_len, uint32_t *found) {
    uint8_t top[NODE], own[NODE];
    uint32_t number = keeper_root(mode, size, nodes, nodes_len, top, NODE);
    (void)first, (void)second;
    if (number == KEEPER_DONE) number = check_fields(mode, size, top, letter, letter_len);
    if (number != KEEPER_DONE) return number;
    uint64_t index = number_at(letter + 8, 8), leaves = 0, peak;
    unsigned lefts;
    if (record_len > LONGEST) return KEEPER_RECORD_TOO_LONG;
    digest(mode, record, record_len, own);
    if (memcmp(own, nodes + NODE * size_of(index), NODE) != 0) return KEEPER_OTHER_RECORD;
    keeper_leaf_count(size, &leaves);
    unsigned height = peak_of(leaves, index, &peak, &lefts);
    for (unsigned k = 1; k <= height; k++) {
        const uint8_t *parent = nodes + NODE * place(index, k);
        digest_pair(mode, parent - NODE * ((uint64_t)1 << k), parent - NODE, own);
        if (memcmp(own, parent, NODE) != 0) return KEEPER_DAMAGED_NODES;
    }
    if (first_len < BLOCK || second_len < BLOCK) return KEEPER_OUTPUT_TOO_SHORT;
    *found = KEEPER_SAME;
    return KEEPER_DONE;
}

/* ---- passage letters */

enum { PASSAGE = 10, ENTRY = 12, MOST = 256 };

/* What a passage letter names, and the digests behind it. */
typedef struct {
    size_t count;
    uint64_t indexes[MOST], starts[MOST], lengths[MOST];
    const uint8_t *digests;
} Named;

/* The largest power of two below a number of leaves: so many stand on the left. */
static uint64_t left_of(uint64_t count) {
    uint64_t left = 1;
    while (2 * left < count) left *= 2;
    return left;
}

static size_t below(const uint64_t *indexes, size_t count, uint64_t end) {
    size_t k = 0;
    while (k < count && indexes[k] < end) k++;
    return k;
}

static void take_digest(const keeper_mode *mode, uint64_t leaves, uint64_t first, uint64_t count, const uint8_t *nodes, uint8_t *out) {
    if (count & (count - 1)) fold_from(mode, leaves, first, nodes, out);
    else memcpy(out, nodes + NODE * place(first, (unsigned)__builtin_ctzll(count)), NODE);
}

/* The digests that a letter needs for the leaves from the first on: how many; and where there are nodes, themselves. */
static size_t give(const keeper_mode *mode, uint64_t leaves, uint64_t first, uint64_t count, const uint64_t *indexes, size_t asked,
                   const uint8_t *nodes, uint8_t *out) {
    if (asked == 0 && nodes) take_digest(mode, leaves, first, count, nodes, out);
    if (asked == 0 || count == 1) return asked == 0;
    uint64_t left = left_of(count);
    size_t k = below(indexes, asked, first + left), done = give(mode, leaves, first, left, indexes, k, nodes, out);
    return done + give(mode, leaves, first + left, count - left, indexes + k, asked - k, nodes, out ? out + NODE * done : NULL);
}

static uint32_t list_refusal(const uint64_t *indexes, size_t count) {
    if (count == 0 || count > MOST) return KEEPER_NOT_RISING;
    for (size_t k = 1; k < count; k++)
        if (indexes[k] <= indexes[k - 1]) return KEEPER_NOT_RISING;
    return KEEPER_DONE;
}

/* Of each record in turn 5 and 3, and where there are nodes 13. */
static uint32_t records_refusal(const keeper_mode *mode, uint64_t leaves, const uint64_t *indexes, const uint8_t *records, const uint32_t *lengths,
                                size_t count, const uint8_t *nodes) {
    uint8_t leaf[NODE];
    for (size_t k = 0; k < count; records += lengths[k++]) {
        if (indexes[k] >= leaves) return KEEPER_NO_SUCH_LEAF;
        if (lengths[k] > LONGEST) return KEEPER_RECORD_TOO_LONG;
        if (!nodes) continue;
        digest(mode, records, lengths[k], leaf);
        if (memcmp(leaf, nodes + NODE * size_of(indexes[k]), NODE) != 0) return KEEPER_OTHER_RECORD;
    }
    return KEEPER_DONE;
}

static void put_passage(uint64_t size, const uint64_t *indexes, const uint8_t *records, const uint32_t *lengths, size_t count, uint8_t *out) {
    put_number(out, 8, size), put_number(out + 8, 2, count), out += PASSAGE;
    for (size_t k = 0; k < count; records += lengths[k++]) {
        put_number(out, 8, indexes[k]), put_number(out + 8, 4, lengths[k]);
        if (lengths[k] > 0) memcpy(out + ENTRY, records, lengths[k]);
        out += ENTRY + lengths[k];
    }
}

uint32_t keeper_passage_write(const keeper_mode *mode, uint64_t size, const uint64_t *indexes, size_t indexes_count, const uint8_t *records,
                              size_t records_len, const uint32_t *lengths, size_t lengths_count, const uint8_t *nodes, size_t nodes_len, uint8_t *out,
                              size_t out_len, size_t *length) {
    uint64_t leaves;
    if (keeper_leaf_count(size, &leaves) != KEEPER_DONE) return KEEPER_NO_SUCH_SIZE;
    if (list_refusal(indexes, indexes_count) != KEEPER_DONE) return KEEPER_NOT_RISING;
    if (lengths_count != indexes_count || !add_up_to(lengths, lengths_count, records_len)) return KEEPER_LENGTHS_OFF;
    uint32_t number = records_refusal(mode, leaves, indexes, records, lengths, lengths_count, NULL);
    if (number == KEEPER_DONE && nodes_len / NODE < size) number = KEEPER_NODES_TOO_SHORT;
    if (number == KEEPER_DONE) number = records_refusal(mode, leaves, indexes, records, lengths, lengths_count, nodes);
    if (number != KEEPER_DONE) return number;
    size_t behind = PASSAGE + ENTRY * indexes_count + records_len;
    size_t wanted = behind + NODE * give(mode, leaves, 0, leaves, indexes, indexes_count, NULL, NULL);
    if (out_len < wanted) return KEEPER_OUTPUT_TOO_SHORT;
    put_passage(size, indexes, records, lengths, indexes_count, out);
    give(mode, leaves, 0, leaves, indexes, indexes_count, nodes, out + behind);
    *length = wanted;
    return KEEPER_DONE;
}

/* The fields of one record, from a place on. */
static uint32_t take_entry(uint64_t leaves, const uint8_t *letter, size_t letter_len, size_t at, size_t k, Named *named) {
    if (letter_len - at < ENTRY) return KEEPER_NOT_A_LETTER;
    named->indexes[k] = number_at(letter + at, 8);
    named->starts[k] = at + ENTRY;
    named->lengths[k] = number_at(letter + at + 8, 4);
    if (k > 0 && named->indexes[k] <= named->indexes[k - 1]) return KEEPER_NOT_RISING;
    if (named->indexes[k] >= leaves) return KEEPER_NO_SUCH_LEAF;
    if (named->lengths[k] > LONGEST) return KEEPER_RECORD_TOO_LONG;
    return letter_len - named->starts[k] < named->lengths[k] ? KEEPER_NOT_A_LETTER : KEEPER_DONE;
}

static uint32_t take_entries(const keeper_mode *mode, uint64_t size, uint64_t leaves, const uint8_t *letter, size_t letter_len, Named *named) {
    size_t at = PASSAGE;
    uint32_t number;
    if (letter_len < PASSAGE) return KEEPER_NOT_A_LETTER;
    if (number_at(letter, 8) != size) return KEEPER_OTHER_SIZE;
    named->count = (size_t)number_at(letter + 8, 2);
    if (named->count == 0 || named->count > MOST) return KEEPER_NOT_RISING;
    for (size_t k = 0; k < named->count; at = named->starts[k] + named->lengths[k], k++)
        if ((number = take_entry(leaves, letter, letter_len, at, k, named)) != KEEPER_DONE) return number;
    named->digests = letter + at;
    size_t digests = give(mode, leaves, 0, leaves, named->indexes, named->count, NULL, NULL);
    return letter_len - at == NODE * digests ? KEEPER_DONE : KEEPER_NOT_A_LETTER;
}

/* The digest of the leaves from the first on, as the letter has it, of its records from one to another; the digests that it needs are taken off. */
static void work_out_part(const keeper_mode *mode, uint64_t first, uint64_t count, const uint8_t *letter, Named *named, size_t from, size_t to,
                          uint8_t out[NODE]) {
    uint8_t right[NODE];
    if (from == to) {
        memcpy(out, named->digests, NODE);
        named->digests += NODE;
    } else if (count == 1) {
        digest(mode, letter + named->starts[from], (size_t)named->lengths[from], out);
    } else {
        uint64_t left = left_of(count);
        size_t middle = from + below(named->indexes + from, to - from, first + left);
        work_out_part(mode, first, left, letter, named, from, middle, out);
        work_out_part(mode, first + left, count - left, letter, named, middle, to, right);
        digest_pair(mode, out, right, out);
    }
}

/* From 7 on. */
static uint32_t check_passage(const keeper_mode *mode, uint64_t size, const uint8_t *root, const uint8_t *letter, size_t letter_len, Named *named) {
    uint64_t leaves = 0;
    uint8_t top[NODE];
    keeper_leaf_count(size, &leaves);
    uint32_t number = take_entries(mode, size, leaves, letter, letter_len, named);
    if (number != KEEPER_DONE) return number;
    work_out_part(mode, 0, leaves, letter, named, 0, named->count, top);
    return memcmp(top, root, NODE) == 0 ? KEEPER_DONE : KEEPER_OTHER_ROOT;
}

uint32_t keeper_passage_entries(const keeper_mode *mode, uint64_t size, const uint8_t *root, size_t root_len, const uint8_t *letter,
                                size_t letter_len, uint64_t *indexes, size_t indexes_count, uint64_t *starts, size_t starts_count,
                                uint64_t *lengths, size_t lengths_count, uint64_t *count) {
    static Named named;
    uint64_t leaves;
    if (keeper_leaf_count(size, &leaves) != KEEPER_DONE) return KEEPER_NO_SUCH_SIZE;
    if (root_len != NODE) return KEEPER_NOT_A_DIGEST;
    uint32_t number = check_passage(mode, size, root, letter, letter_len, &named);
    if (number != KEEPER_DONE) return number;
    if (indexes_count < named.count || starts_count < named.count || lengths_count < named.count) return KEEPER_OUTPUT_TOO_SHORT;
    memcpy(indexes, named.indexes, sizeof *indexes * named.count);
    memcpy(starts, named.starts, sizeof *starts * named.count);
    memcpy(lengths, named.lengths, sizeof *lengths * named.count);
    *count = named.count;
    return KEEPER_DONE;
}

/* Whether a node above an asked leaf, within its peak, is not the digest of its two children. */
static int is_broken(const keeper_mode *mode, uint64_t first, uint64_t count, const uint64_t *indexes, size_t asked, const uint8_t *nodes) {
    uint8_t own[NODE];
    if (asked == 0 || count == 1) return 0;
    uint64_t left = left_of(count);
    size_t k = below(indexes, asked, first + left);
    if ((count & (count - 1)) == 0) {
        const uint8_t *parent = nodes + NODE * place(first, (unsigned)__builtin_ctzll(count));
        digest_pair(mode, parent - NODE * count, parent - NODE, own);
        if (memcmp(own, parent, NODE) != 0) return 1;
    }
    return is_broken(mode, first, left, indexes, k, nodes) || is_broken(mode, first + left, count - left, indexes + k, asked - k, nodes);
}

/* As of keeper_find, a letter that is accepted is the log's own here. */
uint32_t keeper_passage_find(const keeper_mode *mode, uint64_t size, const uint8_t *nodes, size_t nodes_len, const uint8_t *records,
                             size_t records_len, const uint32_t *lengths, size_t lengths_count, const uint8_t *letter, size_t letter_len,
                             uint8_t *first, size_t first_len, uint8_t *second, size_t second_len, uint32_t *found, uint64_t *index) {
    static Named named;
    uint8_t top[NODE];
    uint64_t leaves = 0;
    (void)first, (void)second;
    uint32_t number = keeper_root(mode, size, nodes, nodes_len, top, NODE);
    if (number == KEEPER_DONE) number = check_passage(mode, size, top, letter, letter_len, &named);
    if (number != KEEPER_DONE) return number;
    if (lengths_count != named.count || !add_up_to(lengths, lengths_count, records_len)) return KEEPER_LENGTHS_OFF;
    keeper_leaf_count(size, &leaves);
    number = records_refusal(mode, leaves, named.indexes, records, lengths, lengths_count, nodes);
    if (number != KEEPER_DONE) return number;
    if (is_broken(mode, 0, leaves, named.indexes, named.count, nodes)) return KEEPER_DAMAGED_NODES;
    if (first_len < BLOCK || second_len < BLOCK) return KEEPER_OUTPUT_TOO_SHORT;
    *found = KEEPER_SAME;
    *index = 0;
    return KEEPER_DONE;
}
