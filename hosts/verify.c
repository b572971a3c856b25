/* keeper verify: every inner node worked out anew from its children, and with the records every leaf. */
#include <inttypes.h>
#include <stdio.h>
#include <string.h>
#include "answer.h"
#include "commands.h"
#include "input.h"
#include "keeper.h"
#include "progress.h"
#include "say.h"
#include "store.h"

enum { TOGETHER = 1 << 14 };
static Input record;

static int wrong_leaf(const Store *log, uint64_t index) {
    uint8_t digest[NODE];
    if (index < log->records.first) return 0;
    if (records_read(&log->records, index, &record) != 0) return 1;
    keeper_digest(log->mode, record.bytes, record.length, digest, NODE);
    return memcmp(digest, store_nodes(log) + NODE * place_of(index, 0), NODE) != 0;
}

/* What is wrong lowest, among the leaves that are looked at and the inner nodes: whether there is something. */
static int lowest_wrong(const Store *log, uint64_t leaves, int with_records, Wrong *wrong, int *is_leaf) {
    Progress progress;
    progress_begin(&progress, leaves);
    for (uint64_t from = 0, to; from < leaves; from = to) {
        to = leaves - from > TOGETHER ? from + TOGETHER : leaves;
        int inner = wrong_among(log->mode, store_nodes(log), from, to, wrong);
        for (uint64_t index = from; with_records && index < to; index++) {
            if (!wrong_leaf(log, index) || (inner && place_of(index, 0) > wrong->position)) continue;
            *is_leaf = 1;
            wrong->position = place_of(index, 0);
            return 1;
        }
        if (inner) return 1;
        progress_tell(&progress, to, NODE * place_of(to - 1, 0));
    }
    progress_end();
    return 0;
}

static int tell_wrong(const Store *log, const Wrong *wrong, int is_leaf) {
    put_number("wrong_position", wrong->position);
    put_text("wrong_kind", is_leaf ? "leaf" : "inner");
    if (is_leaf)
        return failed("%s: the lowest position that is wrong is %" PRIu64 ", a leaf: it is not the digest of the record in %s, or that record was changed",
                      log->file.path, wrong->position, log->records.bytes_path);
    return failed("%s: the lowest position that is wrong is %" PRIu64 ": the node there, byte %" PRIu64
                  " of the file, is not the digest of the nodes at %" PRIu64 " and %" PRIu64 ", or one of those was changed",
                  log->file.path, wrong->position, SIZES + NODE * wrong->position, wrong->left, wrong->right);
}

/* No node is wrong, and yet the log is not whole. */
static int tell_other(const Store *log) {
    char words[512];
    what_is_wrong(log, &log->newest, words, sizeof words);
    return failed("%s: every inner node that was looked at is right; but %s", log->file.path, words);
}

int verify(const Asked *asked) {
    Store log;
    Wrong wrong = {0};
    int is_leaf = 0;
    uint64_t leaves = 0;
    demand_words(asked, 1, 1);
    store_open(&log, asked->words[0], TO_LOOK, 0);
    keeper_leaf_count(log.newest.size, &leaves);
    if (store_room(&log) / NODE < log.newest.size) return tell_other(&log);
    if (asked->records) records_open(&log.records, log.file.path, leaves, 0, 0);
    if (asked->records && !log.records.open) fail("%s keeps no records beside it: it can be verified without --records", log.file.path);
    uint64_t held = asked->records ? leaves - log.records.first : 0;
    put_number("records", leaves);
    put_number("size", log.newest.size);
    put_number("inner_nodes", log.newest.size - leaves);
    put_number("leaves_looked_at", held);
    if (lowest_wrong(&log, leaves, asked->records, &wrong, &is_leaf)) return tell_wrong(&log, &wrong, is_leaf);
    if (log.found != SOUND && log.found != COPY_DAMAGED) return tell_other(&log);
    line("whole: %" PRIu64 " records; each of %" PRIu64 " inner nodes is the digest of its two children, and the root is the one that was kept", leaves,
         log.newest.size - leaves);
    if (asked->records) line("and each of %" PRIu64 " leaves is the digest of its record", held);
    else line("leaves were taken as they stand; with --records they are held to the records that are kept beside the log");
    store_close(&log);
    return DONE;
}
