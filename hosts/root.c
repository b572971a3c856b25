/* keeper root: the size and root of a log, or of records by the plain rule, and whether those are the log's. */
#include <errno.h>
#include <inttypes.h>
#include <stdio.h>
#include <string.h>
#include <unistd.h>
#include "answer.h"
#include "commands.h"
#include "input.h"
#include "keeper.h"
#include "key.h"
#include "plain.h"
#include "progress.h"
#include "say.h"
#include "start.h"
#include "store.h"
#include "stream.h"
#include "trusted.h"

enum { NUMBER = 8 };
static Input record;

/* A size, its root, also in digits, and how many records they are of. */
typedef struct {
    uint64_t size, records;
    uint8_t top[NODE];
    char digits[2 * NODE + 1];
} Rooted;

/* ---- the answer */

static void demand_form(const Asked *asked) {
    if (asked->bytes && asked->json) wrong_use("--bytes and --json are two forms of one answer");
    if (asked->bytes && isatty(STDOUT_FILENO)) fail("these are bytes and no text: send them to a file, >NOTED");
}

/* The size in 8 bytes, big-endian, and the root. */
static void write_noted(const Rooted *rooted) {
    uint8_t bytes[NUMBER];
    for (int i = 0; i < NUMBER; i++) bytes[i] = (uint8_t)(rooted->size >> 8 * (NUMBER - 1 - i));
    fwrite(bytes, 1, NUMBER, stdout);
    fwrite(rooted->top, 1, NODE, stdout);
}

/* As a line, or as bytes. */
static void tell(const Asked *asked, const Rooted *rooted) {
    if (asked->bytes) write_noted(rooted);
    else line("%" PRIu64 " %s", rooted->size, rooted->digits);
}

static void put_rooted(const Rooted *rooted) {
    put_number("size", rooted->size);
    put_text("root", rooted->digits);
    put_number("records", rooted->records);
}

/* ---- of a log */

/* At the size that is asked for: the library's number. */
static uint32_t take_logs(const Store *log, const Asked *asked, Rooted *rooted) {
    rooted->size = size_asked(log, asked);
    uint32_t number = trusted_root(log, rooted->size, rooted->top);
    if (number != KEEPER_DONE) return number;
    keeper_leaf_count(rooted->size, &rooted->records);
    hex_of(rooted->top, NODE, rooted->digits);
    return KEEPER_DONE;
}

static int root_of_log(const Asked *asked) {
    Store log;
    Rooted logs = {0};
    if (asked->folder || asked->stream) wrong_use("--folder and --stream go with --records");
    demand_words(asked, 1, 1);
    demand_form(asked);
    store_open(&log, asked->words[0], TO_READ, 0);
    uint32_t number = take_logs(&log, asked, &logs);
    if (number != KEEPER_DONE) return refused("root", number);
    tell(asked, &logs);
    put_rooted(&logs);
    store_close(&log);
    return DONE;
}

/* ---- records, each read once */

/* What has come so far: the records, and their bytes. */
typedef struct {
    Plain plain;
    uint64_t bytes;
    Progress progress;
} Work;

/* One more record, of that file where it is one: DONE, or REFUSED. */
static int add(Work *work, const uint8_t *bytes, size_t length, const char *path) {
    uint32_t number = plain_add(&work->plain, bytes, length);
    work->bytes += length;
    progress_tell(&work->progress, work->plain.count, work->bytes);
    if (number == KEEPER_DONE) return DONE;
    if (path) note("%s cannot be taken for a record, and so no root was worked out; a log is named before --records", path);
    else note("the record of index %" PRIu64 " cannot be taken, and so no root was worked out", work->plain.count);
    return refused("root", number);
}

static int add_files(Work *work, char *const *paths, size_t count) {
    int status = DONE;
    for (size_t i = 0; i < count && status == DONE; i++) {
        read_input(&record, paths[i], LONGEST_RECORD + 1);
        status = add(work, record.bytes, record.length, paths[i]);
    }
    return status;
}

static int add_folder(Work *work, const char *folder) {
    Files files = folder_files(folder);
    int status = add_files(work, files.paths, files.count);
    free_files(&files);
    return status;
}

/* Nothing is to be done where a stream pauses. */
static int pause_of(void *of, int quiet) {
    (void)of, (void)quiet;
    return 0;
}

static int add_stream(Work *work) {
    static Stream stream;
    const uint8_t *bytes;
    size_t length;
    Next next;
    take_standard_input();
    stream.pause = pause_of;
    while ((next = next_record(&stream, &bytes, &length)) == A_RECORD)
        if (add(work, bytes, length, NULL) != DONE) return REFUSED;
    if (next == BROKEN) fail("the stream ends within a record: no root was worked out");
    if (next == STOPPED) fail("%s came before the stream's end: no root was worked out", stop_asked());
    if (next == UNREADABLE) fail("cannot read standard input: %s", stream.error == EBADF ? "it is closed" : strerror(stream.error));
    return DONE;
}

/* The first so many of those that are kept beside the log. */
static int add_kept(Work *work, Store *log, uint64_t count) {
    static const char otherwise[] = "name the log's records behind --records, or give them by --folder or --stream";
    const Records *kept = &log->records;
    int status = DONE;
    records_open(&log->records, log->file.path, store_leaves(log), 0, 0);
    if (!kept->open) fail("%s keeps no records beside it: %s", log->file.path, otherwise);
    if (kept->first > 0) fail("%s keeps its records from index %" PRIu64 " on, and a root is of all: %s", log->file.path, kept->first, otherwise);
    for (uint64_t index = 0; index < count && status == DONE; index++) {
        if (stop_asked()) fail("%s came before all was read: no root was worked out", stop_asked());
        if (records_read(kept, index, &record) != 0)
            fail("%s or %s is damaged: the record of index %" PRIu64 " cannot be read, and so no root was worked out", kept->bytes_path,
                 kept->ends_path, index);
        status = add(work, record.bytes, record.length, NULL);
    }
    return status;
}

/* ---- of records, and whether they are the log's */

static int files_named(const Asked *asked) { return asked->count - asked->before_records; }

/* Whether the records are to be those that are kept beside the log. */
static int are_kept(const Asked *asked) { return files_named(asked) == 0 && !asked->folder && !asked->stream; }

static void demand_one_source(const Asked *asked) {
    int logs = asked->before_records;
    if (logs > 1) wrong_use("one word can stand before --records, the log, and there are %d: the records are named behind it", logs);
    if ((files_named(asked) > 0) + (asked->folder != NULL) + asked->stream > 1) wrong_use("records come from files, from a folder or from a stream");
    if (logs == 0 && are_kept(asked)) wrong_use("--records needs records, behind it or by --folder or --stream, or before it a log that keeps them");
    if (logs == 0 && asked->size) wrong_use("--size goes with a log");
    if (logs > 0 && asked->bytes) wrong_use("with --records and a log there are words to say, and no --bytes");
}

/* All records, from where they come: DONE, or REFUSED. */
static int add_all(Work *work, const Asked *asked, Store *log, uint64_t kept) {
    if (asked->stream) return add_stream(work);
    if (asked->folder) return add_folder(work, asked->folder);
    if (log && are_kept(asked)) return add_kept(work, log, kept);
    return add_files(work, asked->words + asked->before_records, (size_t)files_named(asked));
}

/* Their size and root, also into the answer, beside a log of so many: DONE, or REFUSED. */
static int take_records(const Asked *asked, Store *log, uint64_t logged, Rooted *rooted) {
    Work work = {0};
    plain_begin(&work.plain, mode_taken());
    progress_begin(&work.progress, are_kept(asked) ? logged : (uint64_t)files_named(asked));
    watch_for_stop();
    int status = add_all(&work, asked, log, logged);
    progress_end();
    if (status != DONE) return status;
    uint32_t number = plain_root(&work.plain, &rooted->size, rooted->top);
    if (number != KEEPER_DONE && log) fail("there are no records, and so no root was worked out; %s has %" PRIu64 " of them", log->file.path, logged);
    if (number != KEEPER_DONE) note("there are no records, and so there is no root");
    if (number != KEEPER_DONE) return refused("root", number);
    rooted->records = work.plain.count;
    hex_of(rooted->top, NODE, rooted->digits);
    put_rooted(rooted);
    return DONE;
}

/* Why the records' root is not the log's. */
static int tell_other(const Asked *asked, const Store *log, const Rooted *ours, const Rooted *logs) {
    const char *path = log->file.path, *then = asked->size ? " at that size" : "";
    char earlier[80] = "";
    if (ours->records < logs->records) snprintf(earlier, sizeof earlier, "; --size %" PRIu64 " asks for it as it was with so many", ours->size);
    if (ours->records != logs->records)
        return failed("%s%s has another root: the number of records is %" PRIu64 ", with size %" PRIu64 " and root %s, and the log's is %" PRIu64
                      ", with size %" PRIu64 " and root %s%s", path, then, ours->records, ours->size, ours->digits, logs->records, logs->size,
                      logs->digits, earlier);
    if (are_kept(asked))
        return failed("%s%s has another root: a record in %s, as %s cuts it, is not the one that was logged. Those there have root %s, and the log "
                      "has root %s; keeper verify %s --records looks further", path, then, log->records.bytes_path, log->records.ends_path,
                      ours->digits, logs->digits, path);
    return failed("%s%s has another root: a record is not the one that was logged, or they are in another order. These have root %s, and the log "
                  "has root %s", path, then, ours->digits, logs->digits);
}

static int hold_to_log(const Asked *asked, const Store *log, const Rooted *ours, const Rooted *logs) {
    int is_logs = ours->records == logs->records && memcmp(ours->top, logs->top, NODE) == 0;
    put_flag("is_the_logs", is_logs);
    put_number("log_size", logs->size);
    put_text("log_root", logs->digits);
    put_number("log_records", logs->records);
    if (!is_logs) return tell_other(asked, log, ours, logs);
    tell(asked, ours);
    line("this is the root of %s%s, worked out from %" PRIu64 " record%s", log->file.path, asked->size ? " at that size" : "", ours->records,
         ours->records == 1 ? "" : "s");
    return DONE;
}

static int root_of_records(const Asked *asked) {
    Store log;
    Rooted ours = {0}, logs = {0};
    demand_one_source(asked);
    demand_form(asked);
    if (asked->before_records == 0) {
        int status = take_records(asked, NULL, 0, &ours);
        if (status == DONE) tell(asked, &ours);
        return status;
    }
    store_open(&log, asked->words[0], TO_READ, 0);
    uint32_t number = take_logs(&log, asked, &logs);
    if (number != KEEPER_DONE) return refused("root", number);
    int status = take_records(asked, &log, logs.records, &ours);
    if (status == DONE) status = hold_to_log(asked, &log, &ours, &logs);
    store_close(&log);
    return status;
}

int root(const Asked *asked) { return asked->records ? root_of_records(asked) : root_of_log(asked); }
