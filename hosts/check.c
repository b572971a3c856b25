/* keeper check: letters of both kinds, held to the size and root that were noted. */
#include <errno.h>
#include <inttypes.h>
#include <libgen.h>
#include <stdio.h>
#include <stdlib.h>
#include <string.h>
#include <sys/stat.h>
#include "answer.h"
#include "commands.h"
#include "handed.h"
#include "input.h"
#include "keeper.h"
#include "key.h"
#include "numbers.h"
#include "page.h"
#include "say.h"
#include "shown.h"

static Checked now;
static const Letter *const letter = &now.letter;
static const Judged *const judged = &now.judged;

/* What is trusted, and how many letters were accepted, refused, and not read. */
typedef struct {
    const Asked *asked;
    const keeper_mode *mode;
    uint64_t size, accepted, refused, unread;
    uint8_t top[ROOT + 1];
    size_t top_length;
} Checks;

/* ---- the records, handed out */

/* Under the name of the letter, which must not be taken: NAME.record, and of a passage NAME.INDEX.record. */
static void hand_out_by_name(const char *folder, const char *from, size_t k) {
    static const char ending[] = ".record";
    char index[24] = "", *copy = strdup(is_input(from) ? "letter" : from);
    char *name = copy ? malloc(strlen(copy) + sizeof index + sizeof ending) : NULL;
    if (!name) fail("no memory");
    if (is_passage(letter)) snprintf(index, sizeof index, ".%" PRIu64, judged->indexes[k]);
    strcat(strcat(strcpy(name, basename(copy)), index), ending);
    char *path = path_in(folder, name);
    hand_out_new(path, letter->bytes + judged->starts[k], (size_t)judged->lengths[k]);
    free(path);
    free(name);
    free(copy);
}

/* INDEX.record, in the place of a file that is there. */
static void hand_out_by_index(const char *folder, const char *from, size_t k) {
    char name[32];
    snprintf(name, sizeof name, "%" PRIu64 ".record", judged->indexes[k]);
    char *path = path_in(folder, name);
    demand_free_of(path, from, "the letter");
    hand_out(path, letter->bytes + judged->starts[k], (size_t)judged->lengths[k]);
    free(path);
}

/* Whether one record is wanted, and an accepted letter has more: nothing is handed out then. */
static int has_too_many(const Checks *checks) { return checks->asked->record && is_accepted(&now) && judged->count > 1; }

/* Into the file, or the folders, that were asked for. */
static void hand_out_records(const Checks *checks, const char *from) {
    const Asked *asked = checks->asked;
    if (asked->record) hand_out(asked->record, letter->bytes + judged->starts[0], (size_t)judged->lengths[0]);
    for (size_t k = 0; k < judged->count; k++) {
        if (asked->records_to) hand_out_by_name(asked->records_to, from, k);
        if (asked->to) hand_out_by_index(asked->to, from, k);
    }
}

/* ---- one letter */

static void write_page(const Checks *checks, int has_fields) {
    Verdict verdict = {checks->size, checks->asked->words[1], checks->mode->keyed != 0, judged->number, has_fields ? &now.view : NULL};
    if (page_for_hearing(checks->asked->page, &verdict) != 0) fail("cannot write %s: %s", checks->asked->page, strerror(errno));
}

/* The library's number on the letter that was read. Where it is the one on standard input, the key is not needed again. */
static void judge(Checks *checks, const char *from) {
    judge_letter(checks->mode, checks->size, checks->top, checks->top_length, letter, &now.judged);
    int has_fields = !is_passage(letter) && view_letter(checks->mode, letter->bytes, letter->length, &now.view) == 0;
    if (checks->asked->count == 2) forget_key();
    if (is_accepted(&now) && !has_too_many(checks)) hand_out_records(checks, from);
    if (is_accepted(&now)) checks->accepted++;
    else checks->refused++;
    if (checks->asked->page) write_page(checks, has_fields);
}

static int tell_one(const Checks *checks) {
    const Asked *asked = checks->asked;
    if (has_too_many(checks))
        return failed("the letter is accepted, and has %" PRIu64 " records: nothing was handed out. --to FOLDER writes them by index", judged->count);
    if (!asked->record || !is_input(asked->record)) {
        if (is_accepted(&now)) tell_accepted(&now, "", "");
        tell_rest(&now, asked->show);
    }
    return is_accepted(&now) ? DONE : refused(called_letter(&now), judged->number);
}

static int check_one(Checks *checks) {
    read_letter(&now.letter, NULL);
    if (checks->asked->page && is_passage(letter))
        fail("a page shows the way of one record to the root, and this letter is of a passage: nothing was checked. Leave --page out");
    judge(checks, "-");
    put_number("size", checks->size);
    put_text("root", checks->asked->words[1]);
    put_flag("accepted", is_accepted(&now));
    put_open("letter", '{');
    put_letter(&now, NULL);
    put_close();
    return tell_one(checks);
}

/* ---- many letters: a line each, and a total */

static void tell_verdict(const char *path) {
    const char *kind = is_passage(letter) ? "passage letter " : "";
    if (is_accepted(&now)) tell_accepted(&now, path, ": ");
    else line("%s: %srefused, number %u: %s", path, kind, (unsigned)judged->number, words_of(judged->number)->meaning);
}

static void check_file(Checks *checks, const char *path) {
    put_open(NULL, '{');
    if (try_letter(&now.letter, path) != 0) {
        line("%s: not checked: cannot read it: %s", path, strerror(errno));
        put_text("file", path);
        put_text("error", strerror(errno));
        checks->unread++;
    } else {
        judge(checks, path);
        tell_verdict(path);
        tell_rest(&now, checks->asked->show);
        put_letter(&now, path);
    }
    put_close();
}

static void check_path(Checks *checks, const char *path) {
    struct stat about;
    if (stat(path, &about) != 0 || !S_ISDIR(about.st_mode)) {
        check_file(checks, path);
        return;
    }
    Files files = folder_files(path);
    for (size_t i = 0; i < files.count; i++) check_file(checks, files.paths[i]);
    free_files(&files);
}

static int check_many(Checks *checks) {
    put_number("size", checks->size);
    put_text("root", checks->asked->words[1]);
    put_open("letters", '[');
    for (int i = 2; i < checks->asked->count; i++) check_path(checks, checks->asked->words[i]);
    put_close();
    uint64_t all = checks->accepted + checks->refused + checks->unread;
    line("%" PRIu64 " letters: %" PRIu64 " accepted, %" PRIu64 " refused, %" PRIu64 " not read", all, checks->accepted, checks->refused,
         checks->unread);
    put_number("accepted_count", checks->accepted);
    put_number("refused_count", checks->refused);
    put_number("unread_count", checks->unread);
    if (all == 0) return failed("there is no letter there");
    return checks->unread > 0 ? FAILED : checks->refused > 0 ? REFUSED : DONE;
}

/* ---- the command */

/* No output is written over what is needed later, and a folder is there before anything is checked. */
static void demand_places(const Asked *asked) {
    if (asked->record) demand_free_of(asked->record, "-", "the letter");
    if (asked->page) demand_free_of(asked->page, "-", "the letter");
    if (asked->records_to) demand_folder(asked->records_to);
    if (asked->to) demand_folder(asked->to);
}

int check(const Asked *asked) {
    Checks checks = {.asked = asked, .mode = mode_taken()};
    if (asked->count < 2) wrong_use("check needs the size and the root that were noted");
    checks.size = number_in(asked->words[0], "log's size");
    checks.top_length = bytes_in(asked->words[1], "root", checks.top);
    if (asked->count > 2 && (asked->record || asked->page)) wrong_use("--record and --page go with one letter on standard input");
    if (asked->json && asked->record && is_input(asked->record)) wrong_use("the record and an object cannot both go to standard output");
    demand_places(asked);
    return asked->count == 2 ? check_one(&checks) : check_many(&checks);
}
