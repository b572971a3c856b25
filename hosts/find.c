/* keeper find: an accepted letter, of either kind, beside the log that it is about. */
#include <inttypes.h>
#include <stdio.h>
#include "answer.h"
#include "commands.h"
#include "gathered.h"
#include "keeper.h"
#include "letters.h"
#include "say.h"
#include "trusted.h"

enum { PAIR = 64 };
static Letter letter;
static Judged judged;
static Gathered records;

/* What was found: two strings for a pair, and for records of a passage the index. */
typedef struct {
    uint32_t number, found;
    uint64_t index;
    uint8_t first[PAIR], second[PAIR];
} Finding;

/* ---- words */

static void tell_pair(const Finding *finding) {
    char digits[2][2 * PAIR + 1];
    hex_of(finding->first, PAIR, digits[0]);
    hex_of(finding->second, PAIR, digits[1]);
    line("pair: two strings of 64 bytes differ and have one digest, the log's and the letter's\n%s\n%s", digits[0], digits[1]);
    put_text("first", digits[0]);
    put_text("second", digits[1]);
}

static void tell_records(uint64_t index) {
    if (!is_passage(&letter)) {
        line("records: the record and the letter's differ and have one digest");
        return;
    }
    line("records: the record of index %" PRIu64 " and the letter's differ and have one digest", index);
    put_number("index", index);
}

static void tell(const Finding *finding) {
    put_text("found", finding->found == KEEPER_SAME ? "same" : finding->found == KEEPER_RECORDS ? "records" : "pair");
    if (finding->found == KEEPER_SAME) line("same: the letter is the log's own");
    if (finding->found == KEEPER_RECORDS) tell_records(finding->index);
    if (finding->found == KEEPER_PAIR) tell_pair(finding);
}

/* Which record it is about, or how many there are and should be. */
static int refused_finding(uint32_t number, const Store *log, uint64_t leaves) {
    size_t k = place_refused(number, log, leaves, judged.indexes, &records);
    if (k < records.count) return refused_at("find", number, log, judged.indexes[k], records.names[k]);
    int status = refused("find", number);
    if (number == KEEPER_LENGTHS_OFF) note("the letter names %" PRIu64 " records, and %zu are given", judged.count, records.count);
    return status;
}

/* ---- the finders */

static void find_single(const Store *log, uint64_t size, Finding *finding) {
    finding->number = keeper_find(log->mode, size, store_nodes(log), lent(log), records.bytes, records.length, letter.bytes, letter.length,
                                  finding->first, PAIR, finding->second, PAIR, &finding->found);
}

static void find_passage(const Store *log, uint64_t size, Finding *finding) {
    finding->number = keeper_passage_find(log->mode, size, store_nodes(log), lent(log), records.bytes, records.length, records.lengths, records.count,
                                          letter.bytes, letter.length, finding->first, PAIR, finding->second, PAIR, &finding->found, &finding->index);
}

/* The library's number on the letter, under the root of the log's own nodes: the indexes are known then, and a refusal of the finder behind it is
   about records or nodes. */
static uint32_t judge(const Store *log, uint64_t size) {
    uint8_t top[NODE];
    uint32_t number = keeper_root(log->mode, size, store_nodes(log), lent(log), top, NODE);
    if (number != KEEPER_DONE) return number;
    judge_letter(log->mode, size, top, NODE, &letter, &judged);
    return judged.number;
}

/* ---- the command */

static void demand_form(const Asked *asked) {
    if (asked->records) demand_words(asked, 2, 2);
    else demand_words(asked, 3, 2 + MOST_RECORDS);
    name_input(asked->words + 1, (size_t)asked->count - 1);
}

/* The words between log and letter are records: one for each that the letter names, in its order. */
static void take_words(const Asked *asked) {
    int last = asked->count - 1;
    read_letter(&letter, path_of(asked->words[last]));
    if (!is_passage(&letter) && last > 2) wrong_use("the letter is of one record, and %d are given", last - 1);
    for (int i = 1; i < last; i++) gather_file(&records, asked->words[i]);
}

int find(const Asked *asked) {
    Store log;
    Finding finding = {0};
    uint64_t leaves = 0;
    demand_form(asked);
    store_open(&log, asked->words[0], TO_READ, 0);
    uint64_t size = size_asked(&log, asked);
    take_words(asked);
    uint32_t number = judge(&log, size);
    if (number != KEEPER_DONE) return refused("find", number);
    keeper_leaf_count(size, &leaves);
    if (asked->records) gather_kept(&records, &log, judged.indexes, (size_t)judged.count);
    if (is_passage(&letter)) find_passage(&log, size, &finding);
    else find_single(&log, size, &finding);
    if (finding.number != KEEPER_DONE) return refused_finding(finding.number, &log, leaves);
    put_number("size", size);
    tell(&finding);
    store_close(&log);
    return DONE;
}
