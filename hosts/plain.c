/* The root of records by the plain rule (RULES 7.5), in one pass: without peaks, positions or nodes.
   One record has its digest for a root. More are split after the largest power of two below their number, and the root is the digest of the two
   sides' roots, left then right. So a left side is always a power of two, and within it each side is a half: its root is worked out as its records
   come, two halves being joined as soon as the second is whole. At the end the sides that are whole stand as the bits of the number do, the longest
   first, and each split is between one of them and all that stands to its right: they are joined from the right. */
#include <string.h>
#include "input.h"
#include "plain.h"

void plain_begin(Plain *so_far, const keeper_mode *mode) { *so_far = (Plain){.mode = mode}; }

/* Whether a side of that height is whole and waits for what comes to its right. */
static int waits(const Plain *so_far, unsigned height) { return so_far->count >> height & 1; }

uint32_t plain_add(Plain *so_far, const uint8_t *record, size_t length) {
    uint8_t root[NODE];
    uint64_t size;
    unsigned height = 0;
    uint32_t number = keeper_size(so_far->count + 1, &size);
    if (number == KEEPER_DONE && length > LONGEST_RECORD) number = KEEPER_RECORD_TOO_LONG;
    if (number != KEEPER_DONE) return number;
    keeper_digest(so_far->mode, record, length, root, NODE);
    for (; waits(so_far, height); height++) digest_of_pair(so_far->mode, so_far->sides[height], root, root);
    memcpy(so_far->sides[height], root, NODE);
    so_far->count++;
    return KEEPER_DONE;
}

uint32_t plain_root(const Plain *so_far, uint64_t *size, uint8_t root[NODE]) {
    unsigned height = 0;
    if (so_far->count == 0) return KEEPER_EMPTY_LOG;
    while (!waits(so_far, height)) height++;
    memcpy(root, so_far->sides[height], NODE);
    while (++height < SIDES)
        if (waits(so_far, height)) digest_of_pair(so_far->mode, so_far->sides[height], root, root);
    return keeper_size(so_far->count, size);
}
