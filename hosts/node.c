/* keeper node: stored nodes (RULES 8), written from a record or from a digest, and read. */
#include <inttypes.h>
#include <stdio.h>
#include <string.h>
#include <unistd.h>
#include "answer.h"
#include "commands.h"
#include "handed.h"
#include "input.h"
#include "keeper.h"
#include "key.h"
#include "numbers.h"
#include "say.h"
#include "sums.h"
#include "tree.h"

/* One byte more than the longest node is read, and no more of what has no end. What is longer gets the number of these bytes, as it would whole: its
   first 37 decide. It is 11 where they begin with neither 00 nor 01, or with 00, since 33 bytes are wanted then. With 01 it is 3 where more than
   16,384 bytes are stated, and else 11, since 37 and what is stated are fewer than these bytes. 18 wants the exact length, and never comes of it. */
enum { FLAG = 1, LEAF_HEAD = FLAG + NODE + 4, LONGEST_NODE = LEAF_HEAD + LONGEST_RECORD };

static Input given, written;

/* What was asked for, and how many nodes were accepted, refused, and not read. */
typedef struct {
    const Asked *asked;
    const keeper_mode *mode;
    uint64_t accepted, refused, unread;
} Nodes;

/* What came of one node. */
typedef struct {
    const char *unread;    /* why it could not be read; NULL where it was */
    uint32_t number, kind; /* the library's number; and where that is 0, the kind */
    uint8_t digest[NODE];  /* the one that stands in it, where the number is 0 or 18 */
    uint8_t worked[NODE];  /* the one that its record has, where the number is 18 */
    size_t record, length; /* where its record begins, and how long it is */
} Found;

/* ---- one node */

/* The library's number, and for 18 the two digests that differ, for a person to look at. */
static void judge(const keeper_mode *mode, Found *found) {
    found->number = keeper_read_node(mode, given.bytes, given.length, &found->kind, found->digest, NODE, &found->record, &found->length);
    if (found->number != KEEPER_OTHER_DIGEST || given.length < LEAF_HEAD) return;
    memcpy(found->digest, given.bytes + FLAG, NODE);
    keeper_digest(mode, given.bytes + LEAF_HEAD, given.length - LEAF_HEAD, found->worked, NODE);
}

/* The record of a refused leaf is in no answer. */
static void put_refused(const Found *found) {
    put_refusal(found->number);
    if (found->number != KEEPER_OTHER_DIGEST) return;
    put_bytes("leaf_digest", found->digest, NODE);
    put_bytes("record_digest", found->worked, NODE);
}

static void put_accepted(const Found *found) {
    put_text("kind", found->kind == KEEPER_LEAF ? "leaf" : "inner");
    put_bytes("digest", found->digest, NODE);
    if (found->kind == KEEPER_LEAF) put_record(given.bytes + found->record, found->length);
}

static void put_found(const char *name, const Found *found) {
    put_open(NULL, '{');
    put_text("file", name);
    if (found->unread) put_text("error", found->unread);
    else put_flag("accepted", found->number == KEEPER_DONE);
    if (!found->unread && found->number == KEEPER_DONE) put_accepted(found);
    if (!found->unread && found->number != KEEPER_DONE) put_refused(found);
    put_close();
}

static Found look_at(Nodes *nodes, const char *name) {
    Found found = {0};
    if (try_input(&given, path_of(name), LONGEST_NODE + 1) != 0) found.unread = why_unread(path_of(name));
    else judge(nodes->mode, &found);
    put_found(name, &found);
    if (found.unread) nodes->unread++;
    else if (found.number == KEEPER_DONE) nodes->accepted++;
    else nodes->refused++;
    return found;
}

/* In words, behind the name where it is one of many. */
static void tell(const char *mark, const char *name, const Found *found) {
    char digits[2 * NODE + 1];
    const char *colon = name[0] ? ": " : "";
    hex_of(found->digest, NODE, digits);
    if (found->kind == KEEPER_LEAF) line("%s%s%sleaf: digest %s, a record of %zu bytes", mark, name, colon, digits, found->length);
    else line("%s%s%sinner: digest %s, taken as it stands", mark, name, colon, digits);
}

/* The two digests of a leaf that got 18, a line each. */
static const char *two_digests(const Found *found) {
    static char lines[256];
    char digits[2][2 * NODE + 1];
    hex_of(found->digest, NODE, digits[0]);
    hex_of(found->worked, NODE, digits[1]);
    snprintf(lines, sizeof lines, "  in the leaf    %s\n  of its record  %s", digits[0], digits[1]);
    return lines;
}

/* ---- one alone */

static int tell_refusal(const Nodes *nodes, const Found *found) {
    const char *mode = nodes->mode->keyed ? "under the key that was given" : "without a key";
    int status = refused("stored node", found->number);
    if (found->number == KEEPER_OTHER_DIGEST) note("the two digests, that of the record worked out %s:\n%s", mode, two_digests(found));
    return status;
}

/* The name on standard error, as it is shown where that is a terminal. */
static int tell_unread(const char *name, const char *why) {
    static Shown shown;
    show_name(called(name), isatty(STDERR_FILENO), &shown);
    return failed("cannot read %s%s: %s", shown.mark, shown.text, why);
}

static int read_one(Nodes *nodes, const Found *found, const char *name) {
    const char *record = nodes->asked->record;
    forget_key();
    if (found->unread) return tell_unread(name, found->unread);
    if (found->number != KEEPER_DONE) return tell_refusal(nodes, found);
    if (record && found->kind == KEEPER_INNER) return failed("an inner node has no record: nothing was handed out");
    if (record) hand_out(record, given.bytes + found->record, found->length);
    if (!record || !is_input(record)) tell("", "", found);
    return DONE;
}

/* ---- many: a line each, and a total */

static void tell_one_of_many(const char *name, const Found *found) {
    static Shown shown;
    show_name(name, isatty(STDOUT_FILENO), &shown);
    if (found->unread) line("%s%s: not read: %s", shown.mark, shown.text, found->unread);
    else if (found->number == KEEPER_DONE) tell(shown.mark, shown.text, found);
    else line("%s%s: refused, number %u: %s", shown.mark, shown.text, (unsigned)found->number, words_of(found->number)->meaning);
    if (!found->unread && found->number == KEEPER_OTHER_DIGEST) line("%s", two_digests(found));
}

static int tell_total(const Nodes *nodes) {
    uint64_t all = nodes->accepted + nodes->refused + nodes->unread;
    line("%" PRIu64 " stored nodes: %" PRIu64 " accepted, %" PRIu64 " refused, %" PRIu64 " not read", all, nodes->accepted, nodes->refused,
         nodes->unread);
    return nodes->unread > 0 ? FAILED : nodes->refused > 0 ? REFUSED : DONE;
}

static int read_nodes(const Asked *asked, char *const *names, size_t count) {
    Nodes nodes = {.asked = asked, .mode = mode_taken()};
    Found found = {0};
    put_flag("keyed", nodes.mode->keyed != 0);
    put_open("nodes", '[');
    for (size_t i = 0; i < count; i++) {
        found = look_at(&nodes, names[i]);
        if (count > 1) tell_one_of_many(names[i], &found);
    }
    put_close();
    put_number("accepted_count", nodes.accepted);
    put_number("refused_count", nodes.refused);
    put_number("unread_count", nodes.unread);
    return count > 1 ? tell_total(&nodes) : read_one(&nodes, &found, names[0]);
}

/* ---- written */

/* The node goes out, or stands in the answer. */
static int write_node(const Asked *asked, const char *kind) {
    if (!asked->json) fwrite(written.bytes, 1, written.length, stdout);
    put_flag("keyed", mode_taken()->keyed != 0);
    put_text("kind", kind);
    put_bytes("digest", written.bytes + FLAG, NODE);
    put_bytes("node", written.bytes, written.length);
    return DONE;
}

static int write_leaf(const Asked *asked) {
    read_input(&given, asked->count > 0 ? path_of(asked->words[0]) : NULL, LONGEST_RECORD + 1);
    uint32_t number = keeper_store_leaf(mode_taken(), given.bytes, given.length, written.bytes, sizeof written.bytes, &written.length);
    forget_key();
    if (number != KEEPER_DONE) return refused("stored leaf", number);
    put_record(given.bytes, given.length);
    return write_node(asked, "leaf");
}

static int write_inner(const Asked *asked) {
    uint8_t digest[ROOT + 1];
    size_t length = bytes_in(asked->inner, "digest", digest);
    uint32_t number = keeper_store_inner(digest, length, written.bytes, sizeof written.bytes, &written.length);
    return number == KEEPER_DONE ? write_node(asked, "inner") : refused("inner node", number);
}

/* ---- the command */

static void demand_form(const Asked *asked) {
    int writes = asked->leaf || asked->inner;
    if (asked->leaf && asked->inner) wrong_use("a node is a leaf or an inner one: --leaf and --inner do not go together");
    if (writes && asked->record) wrong_use("--record hands out the record of a node that is read; that of a new leaf is the word behind --leaf");
    if (asked->leaf && asked->count > 1) wrong_use("--leaf takes one record, and there are %d", asked->count);
    if (asked->inner && asked->count > 0) wrong_use("--inner takes a digest and nothing else");
    if (asked->record && asked->count > 1) wrong_use("--record goes with one stored node, and there are %d", asked->count);
    if (asked->json && asked->record && is_input(asked->record)) wrong_use("the record and an object cannot both go to standard output");
    if (writes && !asked->json && isatty(STDOUT_FILENO)) fail("a stored node is bytes and no text: send it to a file, >NODE");
}

int node(const Asked *asked) {
    static char input[] = "-", *const alone[] = {input};
    char *const *names = asked->count > 0 ? asked->words : alone;
    size_t count = asked->count > 0 ? (size_t)asked->count : 1;
    demand_form(asked);
    if (asked->leaf) return write_leaf(asked);
    if (asked->inner) return write_inner(asked);
    if (name_input(names, count) && asked->key && is_input(asked->key)) take_standard_input();
    if (asked->record) demand_free_of(asked->record, names[0], "the stored node");
    return read_nodes(asked, names, count);
}
