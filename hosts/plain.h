/* The root of records by the plain rule (RULES 7.5), in one pass: without peaks, positions or nodes. */
#ifndef PLAIN_H
#define PLAIN_H
#include <stddef.h>
#include <stdint.h>
#include "keeper.h"
#include "tree.h"

/* What has come so far. No record is kept: for each one-bit of their number there is the root of as many records as that bit is worth. */
enum { SIDES = 33 };
typedef struct {
    const keeper_mode *mode;
    uint64_t count;
    uint8_t sides[SIDES][NODE]; /* at a height, where that bit of the count is 1 */
} Plain;

void plain_begin(Plain *so_far, const keeper_mode *mode);

/* One more record, behind the others. 2, 3, and then it is not taken. */
uint32_t plain_add(Plain *so_far, const uint8_t *record, size_t length);

/* The size and the root of all that came. 10. */
uint32_t plain_root(const Plain *so_far, uint64_t *size, uint8_t root[NODE]);

#endif
