/* keeper repair: a damaged log mended as far as it can be, with a copy kept of what it was.
   Inner nodes are worked out anew from the leaves, and a leaf from the record that is kept beside the log. Where the newest root comes out, nothing is
   lost. Else the log goes back to its older state, if that is whole, and says how many records are to be appended again. */
#include <errno.h>
#include <fcntl.h>
#include <inttypes.h>
#include <stdio.h>
#include <stdlib.h>
#include <string.h>
#include <sys/mman.h>
#include <unistd.h>
#include "answer.h"
#include "commands.h"
#include "input.h"
#include "keeper.h"
#include "key.h"
#include "say.h"
#include "store.h"

static Input record;

/* ---- what can be mended */

/* Leaves that are not their record's digest get it. */
static void mend_leaves(const Store *log, uint8_t *nodes, uint64_t leaves) {
    for (uint64_t index = log->records.first; log->records.open && index < leaves; index++)
        if (records_read(&log->records, index, &record) == 0)
            keeper_digest(log->mode, record.bytes, record.length, nodes + NODE * place_of(index, 0), NODE);
}

static int has_root(const keeper_mode *mode, const uint8_t *nodes, const State *state) {
    uint8_t root[NODE] = {0};
    if (state->size > 0 && keeper_root(mode, state->size, nodes, NODE * state->size, root, NODE) != KEEPER_DONE) return 0;
    return memcmp(root, state->root, NODE) == 0;
}

/* The newest state's nodes, worked out anew in memory of their own; NULL where they do not have its root. */
static uint8_t *mended_nodes(const Store *log, uint64_t leaves) {
    size_t bytes = NODE * log->newest.size;
    if (store_room(log) < bytes || bytes == 0) return NULL;
    for (int with_records = 0; with_records <= log->records.open; with_records++) {
        uint8_t *nodes = malloc(bytes);
        if (!nodes) fail("no memory for %zu bytes of nodes", bytes);
        memcpy(nodes, store_nodes(log), bytes);
        if (with_records) mend_leaves(log, nodes, leaves);
        rebuild(log->mode, nodes, leaves);
        if (has_root(log->mode, nodes, &log->newest)) return nodes;
        free(nodes);
    }
    return NULL;
}

/* ---- the copy, and the writing */

static void write_all(int file, const uint8_t *bytes, size_t count, off_t at, const char *path) {
    for (size_t done = 0; done < count;) {
        ssize_t part = pwrite(file, bytes + done, count - done, at + (off_t)done);
        if (part < 0 && errno == EINTR) continue;
        if (part < 0) fail("cannot write %s: %s", path, strerror(errno));
        done += (size_t)part;
    }
}

static void keep_copy(const Store *log, const char *path) {
    int file = open(path, O_WRONLY | O_CREAT | O_EXCL | O_NOFOLLOW | O_CLOEXEC, 0666);
    if (file < 0) fail("cannot make the copy %s: %s. Nothing was changed", path, strerror(errno));
    write_all(file, log->file.bytes, log->file.length, 0, path);
    if (fsync(file) != 0 || close(file) != 0) fail("cannot write the copy %s: %s. Nothing was changed", path, strerror(errno));
}

/* Nodes that differ are written, and are on disk before the sizes are. */
static uint64_t write_nodes(Store *log, const uint8_t *nodes) {
    uint64_t changed = 0;
    for (uint64_t p = 0; p < log->newest.size; p++) {
        if (memcmp(nodes + NODE * p, store_nodes(log) + NODE * p, NODE) == 0) continue;
        write_all(log->file.file, nodes + NODE * p, NODE, (off_t)(SIZES + NODE * p), log->file.path);
        changed++;
    }
    return changed;
}

static void write_state(Store *log, const State *state) {
    if (fdatasync(log->file.file) != 0 || store_set(log, state) != 0) fail("cannot write %s: %s", log->file.path, strerror(errno));
}

/* ---- the command */

static int tell(const Store *log, const char *copy, uint64_t had, uint64_t has, uint64_t changed) {
    if (log->found == PAGE_LOST) note("the page of sizes that was lost may have held a newer size: what it spoke of is in %s", copy);
    put_number("records_before", had);
    put_number("records", has);
    put_number("nodes_mended", changed);
    put_text("copy", copy);
    answer_holds("%s is repaired, with %" PRIu64 " records", log->file.path, has);
    if (had == has)
        line("repaired: all %" PRIu64 " records are there; %" PRIu64 " nodes were worked out anew. As it was it is kept in %s", has, changed, copy);
    else
        line("repaired: the log has gone back to the first %" PRIu64 " of %" PRIu64 " records; append the others again. As it was it is kept in %s", has, had,
             copy);
    return DONE;
}

int repair(const Asked *asked) {
    Store log;
    Wrong wrong;
    uint64_t leaves = 0, older = 0, changed = 0;
    demand_words(asked, 2, 2);
    store_open(&log, asked->words[0], TO_REPAIR, seconds_in(asked->wait));
    keeper_leaf_count(log.newest.size, &leaves);
    keeper_leaf_count(log.state.size, &older);
    if (log.found == SOUND && !wrong_among(log.mode, store_nodes(&log), 0, leaves, &wrong)) {
        line("nothing is to be repaired: the log is whole, with %" PRIu64 " records", leaves);
        put_number("records", leaves);
        return DONE;
    }
    records_open(&log.records, log.file.path, log.found == OLDER_STATE || log.found == NO_STATE ? leaves : older, 0, 0);
    uint8_t *nodes = mended_nodes(&log, leaves);
    forget_key();
    if (!nodes && log.found != OLDER_STATE && log.newest.size > 0)
        fail("%s cannot be repaired: its nodes do not have the root that was kept. Nothing was changed; take its copy", log.file.path);
    keep_copy(&log, asked->words[1]);
    if (nodes) changed = write_nodes(&log, nodes);
    write_state(&log, nodes ? &log.newest : &log.state);
    int status = tell(&log, asked->words[1], leaves, nodes ? leaves : older, changed);
    free(nodes);
    store_close(&log);
    return status;
}
