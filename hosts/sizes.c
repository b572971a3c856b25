/* The two pages at the beginning of a log's file that hold its size and root, each page twice.
   A copy has a name (16 bytes), a size (8, big-endian), the root at that size (32; zeros for an empty log) and the plain digest of those 56 bytes. In a
   keyed log the name is another one, and behind the root there is a tag (32), the digest of that name under the log's key: it tells another key, and
   nobody finds the key by it. The plain digest is then that of those 88 bytes. */
#include <string.h>
#include "keeper.h"
#include "key.h"
#include "sizes.h"

enum { NAMED = 16, ROOTED = NAMED + 8 + NODE, WHOLE = ROOTED + NODE };
static const char plain_name[NAMED + 1] = "cinchcleat log 1", keyed_name[NAMED + 1] = "cinchcleat keyed";

/* ---- the mark of a mode */

void mark_of(const keeper_mode *mode, Mark *mark) {
    *mark = (Mark){.keyed = mode->keyed != 0};
    if (mark->keyed) keeper_digest(mode, (const uint8_t *)keyed_name, NAMED, mark->tag, NODE);
}

static int is_same(const Mark *a, const Mark *b) { return a->keyed == b->keyed && memcmp(a->tag, b->tag, NODE) == 0; }

static size_t sealed_by(const Mark *mark) { return mark->keyed ? ROOTED + NODE : ROOTED; }

/* ---- a copy */

static uint64_t size_in(const uint8_t *copy) {
    uint64_t size = 0;
    for (int i = 0; i < 8; i++) size = size << 8 | copy[NAMED + i];
    return size;
}

/* Whether a copy is whole, and then the mark that it has. */
static int is_whole(const uint8_t *copy, Mark *mark) {
    uint8_t seal[NODE];
    *mark = (Mark){.keyed = memcmp(copy, keyed_name, NAMED) == 0};
    if (!mark->keyed && memcmp(copy, plain_name, NAMED) != 0) return 0;
    if (mark->keyed) memcpy(mark->tag, copy + ROOTED, NODE);
    keeper_digest(&plain, copy, sealed_by(mark), seal, NODE);
    return memcmp(copy + sealed_by(mark), seal, NODE) == 0;
}

static int is_zeros(const uint8_t *copy) {
    for (int i = 0; i < WHOLE; i++)
        if (copy[i] != 0) return 0;
    return 1;
}

/* ---- the pages */

static void read_page(const uint8_t *page, const Mark *mark, int which, Sizes *sizes) {
    for (int at = 0; at < SIZE_PAGE; at += SIZE_COPY) {
        const uint8_t *copy = page + at;
        Mark found;
        int whole = is_whole(copy, &found);
        if (!whole || !is_same(&found, mark)) {
            sizes->damaged += mark->keyed || !is_zeros(copy);
            sizes->strange += whole;
            if (whole) sizes->stranger = found;
            continue;
        }
        if (sizes->whole[which]++ > 0 && size_in(copy) <= sizes->states[which].size) continue;
        sizes->states[which].size = size_in(copy);
        memcpy(sizes->states[which].root, copy + NAMED + 8, NODE);
    }
}

void read_sizes(const uint8_t pages[SIZES], const Mark *mark, Sizes *sizes) {
    memset(sizes, 0, sizeof *sizes);
    for (int which = 0; which < 2; which++) read_page(pages + which * SIZE_PAGE, mark, which, sizes);
}

void fill_page(const State *state, const Mark *mark, uint8_t page[SIZE_PAGE]) {
    memset(page, 0, SIZE_PAGE);
    memcpy(page, mark->keyed ? keyed_name : plain_name, NAMED);
    for (int i = 0; i < 8; i++) page[NAMED + i] = (uint8_t)(state->size >> (56 - 8 * i));
    memcpy(page + NAMED + 8, state->root, NODE);
    if (mark->keyed) memcpy(page + ROOTED, mark->tag, NODE);
    keeper_digest(&plain, page, sealed_by(mark), page + sealed_by(mark), NODE);
    memcpy(page + SIZE_COPY, page, sealed_by(mark) + NODE);
}
