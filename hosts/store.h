/* A log's node file: the nodes in a memory map, the size beside them, safe against a crash. */
#ifndef STORE_H
#define STORE_H
#include <stddef.h>
#include <stdint.h>
#include "mapped.h"
#include "records.h"
#include "sizes.h"

/* How a log is found: whole; whole with a damaged copy of a size; with a page of sizes lost; with the newest state's nodes damaged or cut off, and the
   older state whole; with no state whole. */
typedef enum { SOUND, COPY_DAMAGED, PAGE_LOST, OLDER_STATE, NO_STATE } Found;

/* To read: the log as it was last kept, or its older state, which is said. To append: the newest state or none, made where there is no log, and no
   other writer until store_close; a log that is not whole is not opened. To look: as it is, whatever it is, without other writers where wanted. To
   tell: as to read, and a keyed log without its key too. */
typedef enum { TO_READ, TO_APPEND, TO_LOOK, TO_REPAIR, TO_TELL } Purpose;

typedef struct {
    Purpose purpose;
    const keeper_mode *mode;
    Mark mark;           /* what the pages have of the mode */
    int is_shut;         /* keyed, and there is no key: size and root are taken as they were kept */
    Mapped file;
    Records records;
    Found found;
    State newest;        /* as the sizes have it */
    State state;         /* as it is used: the newest that is whole, and what was kept since */
    int page;            /* which page of sizes holds it */
    uint64_t size;       /* with what was appended and is not kept yet */
    int made;            /* by this program, with nothing kept yet */
} Store;

/* Fails, with words, where the log is in another mode than the one that was taken (key.h). */
void store_open(Store *store, const char *path, Purpose purpose, double wait);

/* The nodes, and how many bytes of them there are. */
uint8_t *store_nodes(const Store *store);
size_t store_room(const Store *store);
uint64_t store_leaves(const Store *store);

/* Whether the nodes of a state are there: room for all, and its root, where that can be worked out. What is wrong with them, in words. */
int nodes_there(const Store *store, const State *state);
void what_is_wrong(const Store *store, const State *state, char *words, size_t room);

/* These records, not kept yet, up to the first that is refused or has no room: how many are appended, and the library's number of that one, or
   STORE_FULL, with errno. */
enum { STORE_FULL = 1 << 16 };
uint32_t store_append(Store *store, const Joined *joined, size_t *appended);

/* What was appended is on disk when this returns: 0, or -1 with errno, and then the log is as it was last kept. */
int store_keep(Store *store);

/* A state into one page of sizes and then the other, for a repair: 0, or -1 with errno. */
int store_set(Store *store, const State *state);

/* A log that was made for this and has nothing kept stays from now on. */
void store_stays(Store *store);
void store_close(Store *store);

#endif
