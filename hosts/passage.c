/* keeper passage: one letter for many records of a log. */
#include <inttypes.h>
#include <limits.h>
#include <stdio.h>
#include <unistd.h>
#include "answer.h"
#include "commands.h"
#include "gathered.h"
#include "keeper.h"
#include "key.h"
#include "letters.h"
#include "say.h"
#include "trusted.h"

/* The list that is asked for. One index more than a letter takes is held: the library has a number for that list, whatever is behind it. */
static uint64_t indexes[MOST_RECORDS + 1];
static size_t count;
static Gathered records;
static Letter written;
static Judged judged;

/* ---- what is asked for */

/* The indexes: each has a file behind it, or with --records none has. */
static void take_list(const Asked *asked) {
    int step = asked->records ? 1 : 2;
    demand_words(asked, 1 + step, INT_MAX);
    if ((asked->count - 1) % step != 0) wrong_use("behind each index stands the file of its record, and behind the last there is none");
    for (int i = 1; i < asked->count; i += step) {
        uint64_t index = number_in(asked->words[i], "record's index");
        if (count <= MOST_RECORDS) indexes[count++] = index;
    }
}

static void take_files(const Asked *asked) {
    char *names[MOST_RECORDS];
    for (size_t k = 0; k < count; k++) names[k] = asked->words[2 + 2 * k];
    name_input(names, count);
    for (size_t k = 0; k < count; k++) gather_file(&records, names[k]);
}

/* For a list that is too long no record is read. */
static void take_records(Store *log, const Asked *asked) {
    if (count > MOST_RECORDS) return;
    if (asked->records) gather_kept(&records, log, indexes, count);
    else take_files(asked);
}

/* ---- refusals */

/* What is wrong with the list, in words. */
static int refused_list(void) {
    size_t k = 1;
    int status = refused("passage letter", KEEPER_NOT_RISING);
    while (k < count && indexes[k] > indexes[k - 1]) k++;
    if (k < count) note("index %" PRIu64 " stands behind %" PRIu64 ", and is not above it", indexes[k], indexes[k - 1]);
    else note("there are more than %d indexes", MOST_RECORDS);
    if (k < count) put_number("index", indexes[k]);
    return status;
}

/* A record that is not the leaf's: the leaf may be damaged. */
static int refused_passage(uint32_t number, const Store *log, uint64_t size) {
    uint64_t leaves = 0;
    keeper_leaf_count(size, &leaves);
    if (number == KEEPER_NOT_RISING) return refused_list();
    size_t k = place_refused(number, log, leaves, indexes, &records);
    if (k == records.count) return refused("passage letter", number);
    if (number == KEEPER_OTHER_RECORD) demand_way(log, size, indexes[k]);
    return refused_at("passage letter", number, log, indexes[k], records.names[k]);
}

/* ---- the letter */

static int names_these(void) {
    size_t k = 0;
    if (judged.number != KEEPER_DONE || judged.count != count) return 0;
    while (k < count && judged.indexes[k] == indexes[k]) k++;
    return k == count;
}

/* A letter is held to the log's own root before it goes out. */
static void demand_accepted(const Store *log, uint64_t size, const uint8_t top[NODE]) {
    judge_letter(log->mode, size, top, NODE, &written, &judged);
    if (names_these()) return;
    for (size_t k = 0; k < count; k++) demand_way(log, size, indexes[k]);
    fail_damaged(log, NULL);
}

static void put_written(uint64_t size, const uint8_t top[NODE]) {
    put_number("size", size);
    put_bytes("root", top, NODE);
    put_number("record_count", count);
    put_open("entries", '[');
    for (size_t k = 0; k < count; k++) {
        put_open(NULL, '{');
        put_number("index", indexes[k]);
        put_record(written.bytes + judged.starts[k], (size_t)judged.lengths[k]);
        put_close();
    }
    put_close();
    put_bytes("letter", written.bytes, written.length);
}

int passage(const Asked *asked) {
    Store log;
    uint8_t top[NODE];
    take_list(asked);
    if (!asked->json && isatty(STDOUT_FILENO)) fail("a letter is bytes and no text: send it to a file, >LETTER");
    store_open(&log, asked->words[0], TO_READ, 0);
    uint64_t size = size_asked(&log, asked);
    take_records(&log, asked);
    uint32_t number = keeper_passage_write(log.mode, size, indexes, count, records.bytes, records.length, records.lengths, records.count,
                                           store_nodes(&log), lent(&log), written.bytes, sizeof written.bytes, &written.length);
    if (number == KEEPER_DONE) number = trusted_root(&log, size, top);
    if (number != KEEPER_DONE) return refused_passage(number, &log, size);
    demand_accepted(&log, size, top);
    forget_key();
    if (!asked->json) fwrite(written.bytes, 1, written.length, stdout);
    put_written(size, top);
    store_close(&log);
    return DONE;
}
