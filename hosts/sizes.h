/* The two pages at the beginning of a log's file that hold its size and root, each page twice. */
#ifndef SIZES_H
#define SIZES_H
#include <stdint.h>
#include "keeper.h"
#include "tree.h"

/* A page has a copy at its start and one in its middle, so that the two lie in different sectors of a disk. */
enum { SIZE_PAGE = 4096, SIZE_COPY = 2048, SIZES = 2 * SIZE_PAGE };

/* A state of the log: the size, and the root of the nodes below it (zeros for none). */
typedef struct {
    uint64_t size;
    uint8_t root[NODE];
} State;

/* What the pages have of the log's mode: whether it is keyed, and then the tag of its key. */
typedef struct {
    int keyed;
    uint8_t tag[NODE]; /* zeros for a plain log */
} Mark;
void mark_of(const keeper_mode *mode, Mark *mark);

/* What the two pages say, as those of a log with that mark. */
typedef struct {
    State states[2]; /* of each page, by its whole copy with the greater size */
    int whole[2];    /* how many whole copies each page has */
    int damaged;     /* how many copies are not whole; zeros do not count in a plain log, since one made before copies has them there */
    int strange;     /* how many of these are whole, with another mark */
    Mark stranger;   /* the mark of the last such */
} Sizes;

void read_sizes(const uint8_t pages[SIZES], const Mark *mark, Sizes *sizes);
void fill_page(const State *state, const Mark *mark, uint8_t page[SIZE_PAGE]);

#endif
