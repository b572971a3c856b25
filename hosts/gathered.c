/* Records that are given for a passage: joined together, with the length of each, as the library takes them. */
#include <inttypes.h>
#include <string.h>
#include "answer.h"
#include "gathered.h"
#include "keeper.h"
#include "say.h"

static void add(Gathered *records, const char *name, size_t length) {
    records->names[records->count] = name;
    records->lengths[records->count++] = (uint32_t)length;
    records->length += length;
}

void gather_file(Gathered *records, const char *name) {
    ssize_t length = try_bytes(path_of(name), records->bytes + records->length, LONGEST_RECORD + 1);
    if (length < 0) fail_unread(path_of(name));
    add(records, called(name), (size_t)length);
}

/* ---- kept beside the log */

static void gather_one_kept(Gathered *records, const Store *log, uint64_t index) {
    static Input record;
    const Records *kept = &log->records;
    record.length = 0;
    if (index < kept->first)
        fail("%s has records from index %" PRIu64 " on, and not that of index %" PRIu64 ": give the records as files", kept->bytes_path, kept->first,
             index);
    if (index < store_leaves(log) && records_read(kept, index, &record) != 0)
        fail("%s or %s is damaged: the record of index %" PRIu64 " cannot be read. Give the records as files", kept->bytes_path, kept->ends_path,
             index);
    if (record.length > 0) memcpy(records->bytes + records->length, record.bytes, record.length);
    add(records, index < store_leaves(log) ? kept->bytes_path : NULL, record.length);
}

void gather_kept(Gathered *records, Store *log, const uint64_t *indexes, size_t count) {
    records_open(&log->records, log->file.path, store_leaves(log), 0, 0);
    if (!log->records.open) fail("%s keeps no records beside it: give them as files, and leave --records out", log->file.path);
    for (size_t k = 0; k < count; k++) gather_one_kept(records, log, indexes[k]);
}

/* ---- refusals */

static int is_other(const Store *log, uint64_t index, const uint8_t *record, size_t length) {
    uint8_t digest[NODE];
    keeper_digest(log->mode, record, length, digest, NODE);
    return memcmp(digest, store_nodes(log) + NODE * place_of(index, 0), NODE) != 0;
}

size_t place_refused(uint32_t number, const Store *log, uint64_t leaves, const uint64_t *indexes, const Gathered *records) {
    const uint8_t *record = records->bytes;
    size_t k = 0;
    for (; k < records->count; record += records->lengths[k++]) {
        if (number == KEEPER_NO_SUCH_LEAF && indexes[k] >= leaves) break;
        if (number == KEEPER_RECORD_TOO_LONG && records->lengths[k] > LONGEST_RECORD) break;
        if (number == KEEPER_OTHER_RECORD && is_other(log, indexes[k], record, records->lengths[k])) break;
    }
    return k;
}

int refused_at(const char *what, uint32_t number, const Store *log, uint64_t index, const char *name) {
    if (number == KEEPER_OTHER_RECORD && log->records.open)
        fail("%s is damaged: the record of index %" PRIu64 " is not the one that was logged. Nothing was written; keeper verify %s --records looks "
             "further, and the records can be given as files.", name, index, log->file.path);
    int status = refused(what, number);
    note("it is about index %" PRIu64 "%s%s", index, name ? ", with the record in " : "", name ? name : "");
    put_number("index", index);
    if (name) put_text("file", name);
    return status;
}
