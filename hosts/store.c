/* A log's node file: the nodes in a memory map, the size beside them, safe against a crash.

   The file has two pages with a size and its root, each written twice (sizes.h), and then the nodes, the one at position p from byte 8192 + 32p on.
   What is appended becomes part of the log in five steps, of which the first two are made for each batch of records, in one order or the other:

     step                                                   what a crash during it leaves
     1 the files grow, where there is no room               bytes behind the size, which mean nothing
     2 keeper_append_many writes nodes behind the size      the same
     3 msync: records, where they are kept, and nodes       the same
     4 the page not in use gets the new size, twice         copies of the new size, with its nodes, of the size before the last, or one torn; the
                                                            other page whole, with the old size
     5 fdatasync: the page goes to disk                     the same as 4

   So at every moment there is a whole page whose nodes are on disk, and no crash leaves a page without a whole copy or a size without its nodes.
   Where a log is found so, it was cut or changed, or its disk lost what it had reported as written: it is read in the older state, which is said, and
   not appended to, since the next append would be written over records that were acknowledged.
   Nodes below a size never change, and so a reader needs no lock; a writer keeps other writers out by one.
   A log is in one mode, plain or keyed, from the moment it is made: both pages say so, and one in another mode is not opened. */
#include <errno.h>
#include <fcntl.h>
#include <inttypes.h>
#include <stdio.h>
#include <stdlib.h>
#include <string.h>
#include <sys/file.h>
#include <sys/stat.h>
#include <time.h>
#include <unistd.h>
#include "fresh.h"
#include "keeper.h"
#include "key.h"
#include "progress.h"
#include "say.h"
#include "start.h"
#include "store.h"

/* An append reads the peaks alone, whose root is known. Of the other inner nodes it looks at those that came with so many of the last leaves. */
enum { LOOKED_AT = 16384 };

uint8_t *store_nodes(const Store *store) { return store->file.bytes + SIZES; }
size_t store_room(const Store *store) { return store->file.length - SIZES; }

static uint64_t leaves_at(uint64_t size) {
    uint64_t leaves = 0;
    keeper_leaf_count(size, &leaves);
    return leaves;
}

uint64_t store_leaves(const Store *store) { return leaves_at(store->size); }

static void nap(long milliseconds) {
    struct timespec time = {milliseconds / 1000, milliseconds % 1000 * 1000000L};
    nanosleep(&time, NULL);
}

/* ---- what is there */

int nodes_there(const Store *store, const State *state) {
    uint8_t root[NODE] = {0};
    uint64_t leaves;
    if (store_room(store) / NODE < state->size) return 0;
    if (store->is_shut) return keeper_leaf_count(state->size, &leaves) == KEEPER_DONE;
    if (state->size > 0 && keeper_root(store->mode, state->size, store_nodes(store), store_room(store), root, NODE) != KEEPER_DONE) return 0;
    return memcmp(root, state->root, NODE) == 0;
}

void what_is_wrong(const Store *store, const State *state, char *words, size_t room) {
    Wrong wrong;
    uint64_t leaves = leaves_at(state->size), held = store_room(store) / NODE;
    if (held < state->size)
        snprintf(words, room, "the file was cut: it has room for %" PRIu64 " nodes of %" PRIu64, held, state->size);
    else if (!store->is_shut && wrong_among(store->mode, store_nodes(store), 0, leaves, &wrong))
        snprintf(words, room, "the node at position %" PRIu64 ", byte %" PRIu64 " of the file, is not the digest of the nodes at %" PRIu64 " and %" PRIu64,
                 wrong.position, SIZES + NODE * wrong.position, wrong.left, wrong.right);
    else if (!nodes_there(store, state))
        snprintf(words, room, "the nodes have another root than the one that was kept with size %" PRIu64 "%s", state->size,
                 leaves & 1 ? "; every inner node is right, and so the last leaf was changed, or size and root were" : "");
    else
        snprintf(words, room, "a page of sizes, in the first %d bytes of the file, has no whole copy: it may have held a newer size", SIZES);
}

/* Takes the newest state whose nodes are there. */
static void take_state(Store *store, const Sizes *sizes) {
    int best = sizes->whole[0] == 0 || (sizes->whole[1] > 0 && sizes->states[1].size > sizes->states[0].size);
    store->newest = sizes->states[best];
    store->page = best;
    store->found = sizes->whole[0] == 0 || sizes->whole[1] == 0 ? PAGE_LOST : sizes->damaged > 0 ? COPY_DAMAGED : SOUND;
    if (!nodes_there(store, &store->newest)) {
        store->page = 1 - best;
        store->found = sizes->whole[1 - best] > 0 && nodes_there(store, &sizes->states[1 - best]) ? OLDER_STATE : NO_STATE;
    }
    if (store->found == NO_STATE) store->page = best;
    store->state = sizes->states[store->page];
    store->size = store->state.size;
}

/* The sizes, of a log in the mode that was taken. One in another mode is not read; without a key it can be told that it is keyed. */
static void take_sizes(Store *store, const uint8_t pages[SIZES], Sizes *sizes) {
    const char *path = store->file.path;
    read_sizes(pages, &store->mark, sizes);
    if (sizes->whole[0] + sizes->whole[1] > 0 || sizes->strange == 0) return;
    if (!sizes->stranger.keyed) fail("%s is not keyed: leave --key out", path);
    if (store->mark.keyed) fail("%s is keyed by another key: name its own by --key FILE", path);
    if (store->purpose != TO_TELL) fail("%s is keyed: name its key by --key FILE", path);
    store->mark = sizes->stranger;
    store->is_shut = 1;
    read_sizes(pages, &store->mark, sizes);
}

/* Reads the file's state: the sizes are copied first, since a writer may be at them. */
static void look(Store *store, uint8_t pages[SIZES]) {
    Sizes sizes;
    if (map_whole(&store->file, SIZES) != 0) {
        if (errno == EINVAL) fail("%s is not a log: a log is a file of %d bytes or more", store->file.path, SIZES);
        fail("cannot map %s: %s", store->file.path, strerror(errno));
    }
    memcpy(pages, store->file.bytes, SIZES);
    take_sizes(store, pages, &sizes);
    if (sizes.whole[0] + sizes.whole[1] > 0) take_state(store, &sizes);
    else store->found = NO_STATE, store->state = store->newest = (State){0};
}

/* What looks damaged may be a writer's work in the middle: it is mapped and read again, and believed when it has stayed the same for a while. */
static void look_well(Store *store) {
    const int sure = 8, most = 400;
    uint8_t before[SIZES], pages[SIZES];
    size_t length = 0;
    look(store, pages);
    for (int same = 0, looks = 0; store->found != SOUND && same < sure && looks < most; looks++) {
        memcpy(before, pages, SIZES);
        length = store->file.length;
        nap(5);
        look(store, pages);
        same = length == store->file.length && memcmp(before, pages, SIZES) == 0 ? same + 1 : 0;
    }
    Sizes sizes;
    read_sizes(pages, &store->mark, &sizes);
    if (sizes.whole[0] + sizes.whole[1] == 0) fail("%s is not a log, or its first bytes are damaged: take its copy", store->file.path);
}

/* ---- how it is opened */

static void say_what_was_found(const Store *store) {
    char words[512];
    const char *path = store->file.path;
    unsigned long long had = leaves_at(store->newest.size), has = leaves_at(store->state.size);
    if (store->found == COPY_DAMAGED && store->is_shut) note("%s: a copy of its size is damaged, by a crash in an append or later; another is whole", path);
    else if (store->found == COPY_DAMAGED)
        note("%s: a copy of its size is damaged, by a crash in an append or later; another is whole, and all %llu records are there", path, has);
    if (store->found == SOUND || store->found == COPY_DAMAGED) return;
    what_is_wrong(store, &store->newest, words, sizeof words);
    if (store->found == NO_STATE)
        fail("%s was cut, or its nodes were changed: %s. It had %llu records; keeper verify looks further, or take its copy", path, words, had);
    if (store->found == OLDER_STATE)
        note("%s was cut, or its nodes were changed: %s. It had %llu records and is read as it was with the first %llu", path, words, had, has);
    else note("%s is damaged: %s. It is read with %llu records", path, words, has);
}

/* A log that is not whole is not appended to. */
static void demand_whole(const Store *store) {
    char words[512];
    Wrong wrong;
    uint64_t leaves = leaves_at(store->newest.size), first = leaves > LOOKED_AT ? leaves - LOOKED_AT : 0;
    int whole = store->found == SOUND || store->found == COPY_DAMAGED;
    if (whole && !wrong_among(store->mode, store_nodes(store), first, leaves, &wrong)) return;
    what_is_wrong(store, &store->newest, words, sizeof words);
    fail("%s was cut or changed: %s. It has %" PRIu64 " records, and nothing was appended, so that none is written over.\n"
         "  keeper verify %s looks further; keeper repair %s COPY keeps a copy and mends what can be mended.",
         store->file.path, words, leaves, store->file.path, store->file.path);
}

/* The one that this program appends to and has kept nothing in: what it has made for it is taken back at the program's end. */
static Store *unfinished;

static void take_back(void) {
    if (unfinished) store_close(unfinished);
}

static int make(Store *store) {
    uint8_t pages[SIZES];
    State empty = {0};
    fill_page(&empty, &store->mark, pages);
    fill_page(&empty, &store->mark, pages + SIZE_PAGE);
    int file = fresh_file(store->file.path, pages, SIZES);
    if (file < 0) return -1;
    store->made = 1;
    return file;
}

static void lock(Store *store, double wait) {
    double until = seconds() + wait;
    while (flock(store->file.file, LOCK_EX | LOCK_NB) != 0) {
        if (errno != EWOULDBLOCK && errno != EINTR) fail("cannot lock %s: %s", store->file.path, strerror(errno));
        if (stop_asked()) fail("%s came while another program appends to %s: nothing was done", stop_asked(), store->file.path);
        if (seconds() >= until)
            fail_with(BUSY, "another program appends to %s: try again when it is done, or let --wait SECONDS wait for it", store->file.path);
        nap(10);
    }
}

/* A name that leads to nothing is a link, and no log is made behind it. */
static void demand_no_link(const char *path) {
    struct stat about;
    if (lstat(path, &about) == 0 && S_ISLNK(about.st_mode) && stat(path, &about) != 0)
        fail("%s is a link that leads nowhere: a new log is made in the place of nothing", path);
}

/* Opens the file, and to write locks it; where its name has gone to another file before the lock was there, once more. */
static void open_file(Store *store, double wait) {
    const char *path = store->file.path;
    int writing = store->purpose == TO_APPEND || store->purpose == TO_REPAIR;
    struct stat about;
    for (;;) {
        int file = open(path, (writing ? O_RDWR : O_RDONLY) | O_NONBLOCK | O_CLOEXEC);
        if (file < 0 && errno == ENOENT && store->purpose == TO_APPEND) {
            demand_no_link(path);
            file = make(store);
            if (file < 0 && errno == EEXIST) continue;
            if (file < 0) fail("cannot make %s: %s", path, strerror(errno));
        }
        if (file < 0) fail("cannot open %s: %s", path, strerror(errno));
        if (fstat(file, &about) != 0 || !S_ISREG(about.st_mode)) fail("%s is not a log: a log is a file", path);
        store->file.file = file;
        if (writing) lock(store, wait);
        if (!writing || still_named(path, file)) return;
        close(file);
    }
}

/* A log that was found whole, and not before. */
static void map_to_write(Store *store) {
    store->file.writing = 1;
    if (map_whole(&store->file, SIZES) != 0) fail("cannot map %s: %s", store->file.path, strerror(errno));
}

void store_open(Store *store, const char *path, Purpose purpose, double wait) {
    *store = (Store){.mode = mode_taken(), .purpose = purpose, .file = {.path = path, .file = -1}};
    mark_of(store->mode, &store->mark);
    store->records.bytes.file = store->records.ends.file = -1;
    if (purpose == TO_APPEND) {
        if (!unfinished) atexit(take_back);
        unfinished = store;
    }
    open_file(store, wait);
    look_well(store);
    if (purpose == TO_APPEND) demand_whole(store);
    if (purpose == TO_APPEND || purpose == TO_READ || purpose == TO_TELL) say_what_was_found(store);
    if (purpose == TO_APPEND) map_to_write(store);
}

void store_stays(Store *store) {
    store->made = store->records.made[0] = store->records.made[1] = 0;
    if (unfinished == store) unfinished = NULL;
}

void store_close(Store *store) {
    if (store->made) fresh_remove(store->file.path, store->file.file);
    if (unfinished == store) unfinished = NULL;
    records_close(&store->records);
    map_close(&store->file);
}

/* ---- appends */

/* Room for the nodes of so many more records: the library's number, or STORE_FULL. */
static uint32_t make_room(Store *store, size_t count) {
    uint64_t size;
    uint32_t number = keeper_size(store_leaves(store) + count, &size);
    if (number != KEEPER_DONE) return number;
    return map_longer(&store->file, SIZES + NODE * size) == 0 ? KEEPER_DONE : STORE_FULL;
}

/* All of them or none. Where the nodes are written and the records have no room, the size stays, and what is behind it means nothing. */
static uint32_t append_all(Store *store, const Joined *joined) {
    uint64_t size, hashes;
    uint32_t number;
    while ((number = keeper_append_many(store->mode, store->size, joined->bytes, joined->length, joined->lengths, joined->count, store_nodes(store),
                                        store_room(store), &size, &hashes)) == KEEPER_NODES_TOO_SHORT)
        if ((number = make_room(store, joined->count)) != KEEPER_DONE) return number;
    if (number != KEEPER_DONE) return number;
    if (records_room(&store->records, joined) != 0) return STORE_FULL;
    store->size = size;
    records_add(&store->records, joined);
    return KEEPER_DONE;
}

/* Of a batch that is not appended whole the records are appended one by one, unless its lengths cut none: so the first that is not is found, and has
   its own number. */
uint32_t store_append(Store *store, const Joined *joined, size_t *appended) {
    uint32_t number = append_all(store, joined);
    *appended = number == KEEPER_DONE ? joined->count : 0;
    if (number == KEEPER_DONE || number == KEEPER_LENGTHS_OFF) return number;
    Joined one = {.bytes = joined->bytes, .count = 1};
    for (; *appended < joined->count; ++*appended) {
        one.lengths = joined->lengths + *appended;
        one.length = *one.lengths;
        if ((number = append_all(store, &one)) != KEEPER_DONE) return number;
        one.bytes += one.length;
    }
    return KEEPER_DONE;
}

static int write_page(Store *store, const State *state, int which) {
    uint8_t page[SIZE_PAGE];
    fill_page(state, &store->mark, page);
    ssize_t written = pwrite(store->file.file, page, SIZE_PAGE, which * SIZE_PAGE);
    if (written >= 0 && written != SIZE_PAGE) errno = ENOSPC;
    return written == SIZE_PAGE && fdatasync(store->file.file) == 0 ? 0 : -1;
}

int store_keep(Store *store) {
    State next = {.size = store->size};
    if (next.size == store->state.size) return 0;
    if (keeper_root(store->mode, next.size, store_nodes(store), store_room(store), next.root, NODE) != KEEPER_DONE) {
        errno = EIO;
        return -1;
    }
    if (records_keep(&store->records) != 0) return -1;
    if (map_sync(&store->file, SIZES + NODE * store->state.size, SIZES + NODE * next.size) != 0) return -1;
    store_stays(store); /* from here on the size may be on disk, whatever is answered */
    if (write_page(store, &next, 1 - store->page) != 0) return -1;
    store->page = 1 - store->page;
    store->state = store->newest = next;
    return 0;
}

int store_set(Store *store, const State *state) {
    if (write_page(store, state, 1 - store->page) != 0) return -1;
    return write_page(store, state, store->page);
}
