/* keeper info and letter: what is asked of a log. */
#include <inttypes.h>
#include <stdio.h>
#include <string.h>
#include <unistd.h>
#include "answer.h"
#include "commands.h"
#include "input.h"
#include "keeper.h"
#include "key.h"
#include "say.h"
#include "store.h"
#include "trusted.h"

static Input record, written;

/* ---- info */

static int is_whole(const Store *log) { return log->found == SOUND || log->found == COPY_DAMAGED; }

static const char *state_of(const Store *log) {
    static const char *const words[] = {[SOUND] = "whole", [COPY_DAMAGED] = "whole, a copy of its size is damaged",
                                        [PAGE_LOST] = "damaged: a page of sizes is lost",
                                        [OLDER_STATE] = "damaged: read as it was before its newest state"};
    if (log->is_shut && is_whole(log)) return "not looked at: its nodes can be held to its root with the key alone";
    return log->found < NO_STATE ? words[log->found] : "damaged";
}

static void tell_records(const Store *log) {
    uint64_t first = log->records.first;
    put_flag("keeps_records", log->records.open);
    if (!log->records.open) {
        line("records are not kept beside it");
        return;
    }
    put_number("records_kept_from", first);
    line("records are kept beside it from index %" PRIu64 " on, in %s", first, log->records.bytes_path);
}

int info(const Asked *asked) {
    Store log;
    char digits[2 * NODE + 1] = "";
    demand_words(asked, 1, 1);
    store_open(&log, asked->words[0], TO_TELL, 0);
    if (log.size > 0) hex_of(log.state.root, NODE, digits);
    line("records %" PRIu64 "\nsize    %" PRIu64 "\nroot    %s\nfile    %s, %zu bytes\nkeyed   %s\nstate   %s", store_leaves(&log), log.size,
         digits[0] ? digits : "none, the log is empty", log.file.path, log.file.length, log.mark.keyed ? "yes" : "no", state_of(&log));
    put_number("records", store_leaves(&log));
    put_number("size", log.size);
    put_text("root", digits);
    put_text("file", log.file.path);
    put_number("file_length", log.file.length);
    put_flag("keyed", log.mark.keyed);
    put_text("state", state_of(&log));
    if (!log.is_shut || !is_whole(&log)) put_flag("whole", is_whole(&log));
    records_open(&log.records, log.file.path, store_leaves(&log), 0, 0);
    tell_records(&log);
    store_close(&log);
    return DONE;
}

/* ---- letter */

/* The record that is given, the one that is kept beside the log, or the one on standard input: whether it was kept. */
static int take_record(Store *log, const Asked *asked, uint64_t index) {
    const char *given = asked->record;
    if (!given) records_open(&log->records, log->file.path, store_leaves(log), 0, 0);
    if (!given && log->records.open && index >= log->records.first && index < store_leaves(log)) {
        if (records_read(&log->records, index, &record) != 0)
            fail("%s or %s is damaged: the record of index %" PRIu64 " cannot be read. Give it with --record FILE", log->records.bytes_path,
                 log->records.ends_path, index);
        return 1;
    }
    read_input(&record, given && strcmp(given, "-") != 0 ? given : NULL, LONGEST_RECORD + 1);
    return 0;
}

/* A record that is not the leaf's: the leaf is damaged, or the record that was kept is, or it is another record. */
static int other_record(const Store *log, uint64_t size, uint64_t index, int was_kept) {
    demand_way(log, size, index);
    if (was_kept)
        fail("%s is damaged: the record of index %" PRIu64 " is not the one that was logged. Nothing was written; keeper verify %s --records looks "
             "further, and --record FILE gives the record.", log->records.bytes_path, index, log->file.path);
    return refused("letter", KEEPER_OTHER_RECORD);
}

/* A letter is held to the log's own root before it goes out. */
static void demand_accepted(const Store *log, uint64_t size, uint64_t index, const uint8_t top[NODE]) {
    uint64_t named;
    size_t at, length;
    if (keeper_letter_check(log->mode, size, top, NODE, written.bytes, written.length, &named, &at, &length) == KEEPER_DONE && named == index) return;
    demand_way(log, size, index);
    fail_damaged(log, NULL);
}

int write_letter(const Asked *asked) {
    Store log;
    uint8_t top[NODE];
    demand_words(asked, 2, 2);
    uint64_t index = number_in(asked->words[1], "record's index");
    if (!asked->json && isatty(STDOUT_FILENO)) fail("a letter is bytes and no text: send it to a file, >LETTER");
    store_open(&log, asked->words[0], TO_READ, 0);
    uint64_t size = size_asked(&log, asked);
    int was_kept = take_record(&log, asked, index);
    uint32_t number = keeper_letter_write(log.mode, size, index, record.bytes, record.length, store_nodes(&log), lent(&log), written.bytes,
                                          sizeof written.bytes, &written.length);
    if (number == KEEPER_OTHER_RECORD) return other_record(&log, size, index, was_kept);
    if (number == KEEPER_DONE) number = trusted_root(&log, size, top);
    if (number != KEEPER_DONE) return refused("letter", number);
    demand_accepted(&log, size, index, top);
    forget_key();
    if (!asked->json) fwrite(written.bytes, 1, written.length, stdout);
    put_number("size", size);
    put_bytes("root", top, NODE);
    put_number("index", index);
    put_record(record.bytes, record.length);
    put_bytes("letter", written.bytes, written.length);
    store_close(&log);
    return DONE;
}
