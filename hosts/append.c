/* keeper append: records from files, a folder or a stream. */
#include <errno.h>
#include <inttypes.h>
#include <stdio.h>
#include <string.h>
#include "answer.h"
#include "batch.h"
#include "commands.h"
#include "input.h"
#include "keeper.h"
#include "progress.h"
#include "say.h"
#include "start.h"
#include "store.h"
#include "stream.h"

/* A stream is kept at every pause, and without one after so many seconds or records. */
enum { KEEP_SECONDS = 1, KEEP_RECORDS = 1 << 16 };
static Input record;
static Batch waiting;

/* Appends of one run: the log, where they began, how many came in. */
typedef struct {
    Store log;
    uint64_t first, first_size;
    uint64_t records, bytes; /* that came in */
    uint64_t appended, kept; /* how many of the records are in the log, and how many on disk */
    int acknowledge;
    double kept_at;
    Progress progress;
    uint32_t number; /* of the first record that was not appended */
    int error;       /* errno of a write that failed */
} Work;

/* So many records are to come, 0 where nobody knows. */
static void begin(Work *work, const Asked *asked, size_t count) {
    *work = (Work){.acknowledge = asked->acknowledge};
    store_open(&work->log, asked->words[0], TO_APPEND, seconds_in(asked->wait));
    work->first_size = work->log.size;
    work->first = store_leaves(&work->log);
    records_open(&work->log.records, asked->words[0], work->first, 1, asked->keep_records);
    progress_begin(&work->progress, count);
    work->kept_at = work->progress.begun;
}

/* What waits goes into the log, up to the first record that is refused or has no room. */
static void append_waiting(Work *work) {
    size_t appended;
    Joined joined = batch_joined(&waiting);
    work->number = store_append(&work->log, &joined, &appended);
    if (work->number == STORE_FULL) work->error = errno;
    work->appended += appended;
    batch_empty(&waiting);
}

/* One more record, which waits until there is a batch. */
static void take(Work *work, const uint8_t *bytes, size_t length) {
    batch_add(&waiting, bytes, length);
    work->records++;
    work->bytes += length;
    if (batch_is_full(&waiting)) append_waiting(work);
}

/* Brings to disk what came in: 0, or -1 where that failed. */
static int keep(Work *work) {
    uint64_t before = work->log.state.size, leaves;
    if (store_keep(&work->log) != 0) {
        work->error = errno;
        return -1;
    }
    work->kept = work->appended;
    work->kept_at = seconds();
    if (!work->acknowledge || work->log.state.size == before) return 0;
    keeper_leaf_count(work->log.state.size, &leaves);
    progress_end();
    line("kept: size %" PRIu64 ", %" PRIu64 " records", work->log.state.size, leaves);
    put_number("kept_size", work->log.state.size);
    put_number("kept_records", leaves);
    answer_line();
    fflush(stdout);
    return 0;
}

/* What is on disk, in words and as an answer. */
static void tell(Work *work) {
    char words[256];
    uint64_t size = work->log.state.size, leaves;
    keeper_leaf_count(size, &leaves);
    uint64_t kept = leaves - work->first, hashes = size - work->first_size;
    progress_end();
    if (kept == 0) snprintf(words, sizeof words, "appended nothing");
    else if (kept == 1) snprintf(words, sizeof words, "appended 1 record, index %" PRIu64, work->first);
    else snprintf(words, sizeof words, "appended %" PRIu64 " records, index %" PRIu64 " to %" PRIu64, kept, work->first, leaves - 1);
    line("%s; size %" PRIu64 ", hashes %" PRIu64, words, size, hashes);
    answer_holds("it is on disk: %s; size %" PRIu64, words, size);
    put_number("appended", kept);
    if (kept > 0) put_number("first_index", work->first);
    if (kept > 0) put_number("last_index", leaves - 1);
    put_number("records", leaves);
    put_number("size", size);
    put_number("hashes", hashes);
    put_flag("keeps_records", work->log.records.open);
}

/* ---- files: kept together at the end, or not at all */

/* A file that cannot be read ends the program, unless one before it is refused. */
static void read_next(Work *work, const char *path) {
    if (try_input(&record, path, LONGEST_RECORD + 1) == 0) return;
    int error = errno;
    append_waiting(work);
    errno = error;
    if (work->number == KEEPER_DONE) fail_unread(path);
}

/* Each file is a record, up to the first that is not appended. One that is alone was read before the log was opened. */
static void take_files(Work *work, char *const *paths, size_t count) {
    for (size_t i = 0; i < count && work->number == KEEPER_DONE; i++) {
        if (count > 1) read_next(work, paths[i]);
        if (work->number == KEEPER_DONE) take(work, record.bytes, record.length);
        progress_tell(&work->progress, work->records, work->bytes);
    }
    if (work->number == KEEPER_DONE) append_waiting(work);
}

static int refuse_files(Work *work, const char *path) {
    if (work->number == STORE_FULL) fail("cannot make %s longer: %s. Nothing was appended", work->log.file.path, strerror(work->error));
    if (path) note("%s cannot be appended, and so nothing was", path);
    store_close(&work->log);
    return refused("append", work->number);
}

static int append_files(const Asked *asked, char *const *paths, size_t count) {
    Work work;
    if (count == 1) read_input(&record, paths[0], LONGEST_RECORD + 1);
    begin(&work, asked, count);
    take_files(&work, paths, count);
    if (work.number != KEEPER_DONE) return refuse_files(&work, paths[work.appended]);
    if (keep(&work) != 0) fail("cannot write %s: %s. It is not certain what is on disk: keeper info shows it", asked->words[0], strerror(work.error));
    tell(&work);
    store_stays(&work.log);
    store_close(&work.log);
    return DONE;
}

static int append_folder(const Asked *asked) {
    Files files = folder_files(asked->folder);
    int status = append_files(asked, files.paths, files.count);
    free_files(&files);
    return status;
}

/* ---- a stream: kept as it comes */

static int pause_of(void *of, int quiet) {
    Work *work = of;
    progress_tell(&work->progress, work->records, work->bytes);
    if (!quiet && seconds() - work->kept_at < KEEP_SECONDS) return 0;
    append_waiting(work);
    return work->number == KEEPER_DONE ? keep(work) : -1;
}

static int goes_on(const Work *work) { return work->number == KEEPER_DONE && work->error == 0; }

/* Behind the last record: what waits is appended, and what is appended is kept, unless a write has failed. */
static void keep_rest(Work *work) {
    if (goes_on(work)) append_waiting(work);
    if (work->error != 0 && work->number != STORE_FULL) return;
    int full = work->error;
    work->error = 0;
    if (keep(work) == 0) work->error = full;
    else work->number = KEEPER_DONE;
}

/* Why a stream ended before its end, and the status. */
static int say_end(const Work *work, const Stream *stream, Next next) {
    const char *log = work->log.file.path;
    uint32_t number = work->number;
    if (number == STORE_FULL) return failed("cannot make %s longer: %s. What came in before is kept, and the next record is not", log, strerror(work->error));
    if (number != KEEPER_DONE) return refused("append", number);
    if (work->error != 0) return failed("cannot write %s: %s. For what came behind that it is not certain: keeper info shows it", log, strerror(work->error));
    if (next == BROKEN) return failed("the stream ends within a record; what came before it is appended");
    if (next == STOPPED) return failed("%s came; what came in whole before it is kept", stop_asked());
    if (next == UNREADABLE)
        return failed("cannot read standard input: %s; what came in whole is kept", stream->error == EBADF ? "it is closed" : strerror(stream->error));
    return DONE;
}

static int append_stream(const Asked *asked) {
    static Stream stream;
    Work work;
    const uint8_t *bytes;
    size_t length;
    Next next = A_RECORD;
    take_standard_input();
    begin(&work, asked, 0);
    stream.pause = pause_of;
    stream.of = &work;
    while (goes_on(&work) && (next = next_record(&stream, &bytes, &length)) == A_RECORD) {
        take(&work, bytes, length);
        if (goes_on(&work) && work.appended - work.kept >= KEEP_RECORDS) keep(&work);
    }
    keep_rest(&work);
    tell(&work);
    int status = say_end(&work, &stream, next);
    if (status == DONE) store_stays(&work.log);
    store_close(&work.log);
    return status;
}

int append(const Asked *asked) {
    static char *const standard_input[] = {NULL};
    if (asked->count < 1) wrong_use("append needs the name of a log");
    if ((asked->stream || asked->folder) && (asked->count > 1 || (asked->stream && asked->folder)))
        wrong_use("records come from files, from a folder or from a stream");
    if (asked->acknowledge && !asked->stream) wrong_use("--acknowledge goes with --stream");
    watch_for_stop();
    if (asked->stream) return append_stream(asked);
    if (asked->folder) return append_folder(asked);
    if (asked->count == 1) return append_files(asked, standard_input, 1);
    return append_files(asked, asked->words + 1, (size_t)asked->count - 1);
}
