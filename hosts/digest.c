/* keeper digest: the digests of files of any length, as b3sum lists them; and such lists, held to the files that they name. */
#include <inttypes.h>
#include <stdio.h>
#include <string.h>
#include <unistd.h>
#include "answer.h"
#include "blocks.h"
#include "commands.h"
#include "input.h"
#include "keeper.h"
#include "key.h"
#include "numbers.h"
#include "progress.h"
#include "say.h"
#include "start.h"
#include "sums.h"

/* The most that a digest in parts takes. */
static const uint64_t most = (uint64_t)1 << 40;
static Blocks file;
static Lines list;

/* The files of one run: what came of them, and how far they are read. */
typedef struct {
    uint64_t done, others;    /* digests that were told, or are as listed; those that are not */
    uint64_t refused, unread; /* files without a digest */
    uint32_t number;          /* of the last that was refused */
    uint64_t bad_lines, bad_lists;
    int quiet, on_terminal; /* whether files that are as listed have no line; whether the answer goes to a terminal */
    int input_taken;        /* whether standard input was the key, a list or a file already */
    Reading reading;
    Progress progress;
} Work;

/* What came of one file: its digest, or the number of a refusal, or why it could not be read. */
typedef struct {
    uint8_t digest[DIGEST];
    uint32_t number;
    const char *unread; /* NULL where it was read */
} Taken;

/* ---- one file */

/* Why it could not be opened or read; where the program was asked to stop, it does. */
static const char *why_not(const char *name) {
    if (stop_asked()) fail("%s came before all was read", stop_asked());
    return why_unread(path_of(name));
}

static void count_bytes(Work *work, uint64_t count) {
    work->reading.bytes += count;
    work->reading.all += count;
    progress_tell_reading(&work->progress, &work->reading);
}

/* The open file to its end, each block a part: the library's number, with *failed where a read did. One that is too long is known by its length, and
   not read for hours before it is refused. */
static uint32_t digest_blocks(Work *work, uint8_t digest[DIGEST], int *failed) {
    keeper_parts *parts = parts_begun();
    uint32_t number = file.length > most ? KEEPER_PARTS_OFF : KEEPER_DONE;
    for (ssize_t got = 1; got > 0 && number == KEEPER_DONE;) {
        got = blocks_more(&file);
        if ((*failed = got < 0)) return KEEPER_DONE;
        if (got > 0) count_bytes(work, (uint64_t)got);
        if (got > 0 && file.count < BLOCK) continue;
        number = keeper_parts_add(parts, file.bytes, file.count);
        file.count = 0;
    }
    return number == KEEPER_DONE ? keeper_parts_end(parts, digest, DIGEST) : number;
}

static Taken take_file(Work *work, const char *name) {
    Taken taken = {0};
    int failed = 0;
    work->reading.number++;
    work->reading.bytes = 0;
    if (is_input(name) && work->input_taken++ > 0) {
        taken.unread = "it was read already";
    } else if (blocks_open(&file, path_of(name)) != 0) {
        taken.unread = why_not(name);
    } else {
        work->reading.length = file.length;
        taken.number = digest_blocks(work, taken.digest, &failed);
        if (failed) taken.unread = why_not(name);
        blocks_close(&file);
    }
    return taken;
}

/* The line of progress is ended before another line begins. */
static const Shown *shown_name(const Work *work, const char *name) {
    static Shown shown;
    show_name(name, work->on_terminal, &shown);
    if (work->on_terminal) progress_end();
    return &shown;
}

/* ---- digests, told */

static void tell_digest(Work *work, const char *name, const Taken *taken) {
    char digits[2 * DIGEST + 1];
    const Shown *shown = shown_name(work, name);
    hex_of(taken->digest, DIGEST, digits);
    line("%s%s  %s", shown->mark, digits, shown->text);
    put_number("length", work->reading.bytes);
    put_text("digest", digits);
    work->done++;
}

static void tell_file(Work *work, const char *name) {
    put_open(NULL, '{');
    put_text("file", name);
    Taken taken = take_file(work, name);
    if (taken.unread) {
        note("cannot read %s: %s", called(name), taken.unread);
        put_text("error", taken.unread);
        work->unread++;
    } else if (taken.number != KEEPER_DONE) {
        refused(called(name), taken.number);
        work->refused++;
    } else {
        tell_digest(work, name, &taken);
    }
    put_close();
}

/* Where the answer cannot be written, there is no use in reading on. */
static int tell_files(Work *work, char *const *names, size_t count) {
    put_open("files", '[');
    for (size_t i = 0; i < count && !ferror(stdout); i++) tell_file(work, names[i]);
    put_close();
    progress_end();
    put_number("digest_count", work->done);
    put_number("refused_count", work->refused);
    put_number("unread_count", work->unread);
    return work->unread > 0 ? FAILED : work->refused > 0 ? REFUSED : DONE;
}

/* ---- lists, held to their files */

/* The line of a file, as b3sum has it, with the reason where there is one beside the digest. */
static void tell_check(const Work *work, const char *name, const Taken *taken, int as_listed) {
    char why[256] = "";
    if (as_listed && work->quiet) return;
    if (taken->unread) snprintf(why, sizeof why, " (%s)", taken->unread);
    else if (taken->number != KEEPER_DONE) snprintf(why, sizeof why, " (number %u: %s)", (unsigned)taken->number, words_of(taken->number)->meaning);
    const Shown *shown = shown_name(work, name);
    line("%s%s: %s%s", shown->mark, shown->text, as_listed ? "OK" : "FAILED", why);
}

static void put_check(const Work *work, const Listed *listed, const Taken *taken, int as_listed) {
    put_open(NULL, '{');
    put_text("file", listed->name);
    put_flag("as_listed", as_listed);
    put_bytes("listed", listed->digest, DIGEST);
    if (taken->unread) put_text("error", taken->unread);
    else if (taken->number != KEEPER_DONE) put_refusal(taken->number);
    else put_number("length", work->reading.bytes), put_bytes("digest", taken->digest, DIGEST);
    put_close();
}

static void check_file(Work *work, const Listed *listed) {
    Taken taken = take_file(work, listed->name);
    int has_digest = !taken.unread && taken.number == KEEPER_DONE;
    int as_listed = has_digest && memcmp(taken.digest, listed->digest, DIGEST) == 0;
    tell_check(work, listed->name, &taken, as_listed);
    put_check(work, listed, &taken, as_listed);
    if (taken.unread) work->unread++;
    else if (!has_digest) work->refused++, work->number = taken.number;
    else if (as_listed) work->done++;
    else work->others++;
}

/* The lines of a list: how many there are, how many of them have no digest and name, and the first of those. */
typedef struct {
    uint64_t all, bad, first_bad;
} Counted;

/* Each line of the open list: 0, or -1 with errno. */
static int check_lines(Work *work, Counted *counted) {
    static Listed listed;
    int got = 0;
    while (!ferror(stdout) && (got = lines_next(&list)) > 0) {
        counted->all++;
        if (is_listed(list.line, list.length, &listed)) check_file(work, &listed);
        else if (++counted->bad == 1) counted->first_bad = counted->all;
    }
    return got < 0 ? -1 : 0;
}

static void check_list(Work *work, const char *name) {
    Counted counted = {0};
    int unread = lines_open(&list, path_of(name)) != 0 || check_lines(work, &counted) != 0;
    if (unread) note("cannot read %s: %s", called(name), why_not(name));
    else if (counted.all == 0) note("%s is empty", called(name));
    if (counted.bad > 0)
        note("%s: %" PRIu64 " of %" PRIu64 " lines are no digest, two spaces and a name; the first of them is line %" PRIu64, called(name),
             counted.bad, counted.all, counted.first_bad);
    work->bad_lines += counted.bad;
    work->bad_lists += unread || counted.all == 0;
    lines_close(&list);
}

/* What came of all lists, and the status. */
static int tell_total(const Work *work) {
    put_number("as_listed_count", work->done);
    put_number("other_count", work->others);
    put_number("refused_count", work->refused);
    put_number("unread_count", work->unread);
    put_number("bad_line_count", work->bad_lines);
    if (work->done + work->others + work->refused + work->unread == 0) return failed("no file is listed there, and so none was looked at");
    if (work->others + work->unread + work->bad_lines + work->bad_lists > 0)
        return failed("not all is as listed. Files: %" PRIu64 " as listed, %" PRIu64 " with another digest, %" PRIu64 " refused, %" PRIu64
                      " not read; lines without a digest and a name: %" PRIu64, work->done, work->others, work->refused, work->unread,
                      work->bad_lines);
    return work->refused > 0 ? refused("digest", work->number) : DONE;
}

static int check_lists(Work *work, char *const *names, size_t count) {
    put_open("files", '[');
    for (size_t i = 0; i < count && !ferror(stdout); i++) check_list(work, names[i]);
    put_close();
    progress_end();
    return tell_total(work);
}

/* ---- the command */

/* A line goes out as soon as it is there, and whole: so many programs can write to one list. */
int digest(const Asked *asked) {
    static char input[] = "-", *const alone[] = {input};
    char *const *names = asked->count > 0 ? asked->words : alone;
    size_t count = asked->count > 0 ? (size_t)asked->count : 1;
    Work work = {.quiet = asked->quiet, .on_terminal = isatty(STDOUT_FILENO)};
    int named = name_input(names, count), is_key = asked->key && is_input(asked->key);
    if (named) take_standard_input();
    work.input_taken = is_key || (asked->check && named);
    setvbuf(stdout, NULL, _IOLBF, 0);
    watch_for_stop();
    progress_begin(&work.progress, asked->check ? 0 : count);
    put_flag("keyed", mode_taken()->keyed != 0);
    return asked->check ? check_lists(&work, names, count) : tell_files(&work, names, count);
}
