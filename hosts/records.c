/* The records beside a log, where they were asked for: the bytes in LOG.records, and in LOG.index where each ends.

   Each file begins with a page: a name (16 bytes), the index of the first record that is kept there (8, big-endian) and the plain digest of those 24
   bytes, whatever the log's mode. Behind it LOG.records has the records' bytes one after the other, and LOG.index for each record 8 bytes,
   big-endian: where it ends in the other. How many there are, the log's own size says: both files are on disk before a size is that speaks of them,
   and what is behind it means nothing. So a crash leaves the records that the log has. That a record is the one that was logged, its leaf shows. */
#include <errno.h>
#include <fcntl.h>
#include <stdio.h>
#include <stdlib.h>
#include <string.h>
#include <unistd.h>
#include "fresh.h"
#include "keeper.h"
#include "key.h"
#include "records.h"
#include "say.h"

enum { HEAD = 4096, NAMED = 16, SEALED = 24, DIGEST = 32, END = 8 };
static const char bytes_name[NAMED + 1] = "cinchcleat rec 1", ends_name[NAMED + 1] = "cinchcleat ind 1";

static uint64_t number_at(const uint8_t *at) {
    uint64_t number = 0;
    for (int i = 0; i < 8; i++) number = number << 8 | at[i];
    return number;
}

static void put_at(uint8_t *at, uint64_t number) {
    for (int i = 0; i < 8; i++) at[i] = (uint8_t)(number >> (56 - 8 * i));
}

/* ---- the two files */

static char *path_beside(const char *log, const char *ending) {
    char *path = malloc(strlen(log) + strlen(ending) + 1);
    if (!path) fail("no memory");
    return strcat(strcpy(path, log), ending);
}

static void make_file(Mapped *mapped, int *made, const char *path, const char *name, uint64_t first) {
    uint8_t head[HEAD] = {0};
    memcpy(head, name, NAMED);
    put_at(head + NAMED, first);
    keeper_digest(&plain, head, SEALED, head + SEALED, DIGEST);
    *mapped = (Mapped){.path = path, .file = fresh_file(path, head, HEAD)};
    if (mapped->file < 0) fail("cannot make %s: %s", path, errno == EEXIST ? "another file is there" : strerror(errno));
    *made = 1;
    if (map_whole(mapped, HEAD) != 0) fail("cannot map %s: %s", path, strerror(errno));
}

/* Whether the name leads to a file, which is then open and mapped. */
static int open_file(const Records *records, Mapped *mapped, const char *path) {
    *mapped = (Mapped){.path = path, .file = -1};
    mapped->file = open(path, (records->writing ? O_RDWR : O_RDONLY) | O_NOFOLLOW | O_NONBLOCK | O_CLOEXEC);
    if (mapped->file < 0 && errno == ENOENT) return 0;
    if (mapped->file < 0) fail("cannot open %s: %s", path, errno == ELOOP ? "it is a link" : strerror(errno));
    if (map_whole(mapped, HEAD) != 0) fail("%s holds no records: it is no file of %d bytes or more", path, HEAD);
    return 1;
}

static uint64_t first_in(const Mapped *mapped, const char *name) {
    uint8_t seal[DIGEST];
    keeper_digest(&plain, mapped->bytes, SEALED, seal, DIGEST);
    if (memcmp(mapped->bytes, name, NAMED) != 0 || memcmp(mapped->bytes + SEALED, seal, DIGEST) != 0)
        fail("%s is no file of records, or its first bytes are damaged: take its copy", mapped->path);
    return number_at(mapped->bytes + NAMED);
}

static uint64_t end_of(const Records *records, uint64_t count) {
    return count == 0 ? 0 : number_at(records->ends.bytes + HEAD + END * (count - 1));
}

/* The log's own count decides: so many records are here, and the files are long enough for them. */
static void take_count(Records *records, uint64_t leaves) {
    records->first = first_in(&records->bytes, bytes_name);
    if (records->first != first_in(&records->ends, ends_name) || records->first > leaves)
        fail("%s and %s are not the records of this log: take their copies", records->bytes_path, records->ends_path);
    records->count = records->kept = leaves - records->first;
    if ((records->ends.length - HEAD) / END < records->count)
        fail("%s holds %llu records, and the log has %llu more of them: take its copy", records->ends_path,
             (unsigned long long)((records->ends.length - HEAD) / END), (unsigned long long)(records->count - (records->ends.length - HEAD) / END));
    records->end = records->kept_end = end_of(records, records->count);
    if (records->bytes.length - HEAD < records->end) fail("%s was cut, or %s was changed: take their copies", records->bytes_path, records->ends_path);
}

/* What fits the log, and not before. */
static void map_to_write(Records *records) {
    records->bytes.writing = records->ends.writing = 1;
    if (map_whole(&records->bytes, HEAD) != 0 || map_whole(&records->ends, HEAD) != 0) fail("cannot map %s: %s", records->bytes_path, strerror(errno));
}

/* An index without the records: whether the log has records of it, and so lacks their bytes. Where the log has none, a crash has left it, of making the
   two or of taking them back: a program that writes takes it away, before the log grows beyond it. A file of another kind is somebody else's. */
static int index_alone(const Records *records, uint64_t leaves) {
    uint8_t head[SEALED + DIGEST], seal[DIGEST];
    int file = open(records->ends_path, O_RDONLY | O_NOFOLLOW | O_NONBLOCK | O_CLOEXEC);
    if (file < 0) return 0;
    int ours = pread(file, head, sizeof head, 0) == (ssize_t)sizeof head && memcmp(head, ends_name, NAMED) == 0;
    if (ours) keeper_digest(&plain, head, SEALED, seal, DIGEST);
    int used = ours && (number_at(head + NAMED) < leaves || memcmp(head + SEALED, seal, DIGEST) != 0);
    if (ours && !used && records->writing) fresh_remove(records->ends_path, file);
    close(file);
    return used;
}

/* LOG.index is made first and LOG.records is opened first: so a reader beside the program that makes them finds none, or both. 1 where both are there, 0
   where none is, -1 where the first is missing. */
static int open_both(Records *records, uint64_t leaves) {
    if (!open_file(records, &records->bytes, records->bytes_path)) return index_alone(records, leaves) ? -1 : 0;
    if (!open_file(records, &records->ends, records->ends_path)) fail("%s is missing: take its copy", records->ends_path);
    return 1;
}

static void make_both(Records *records, uint64_t leaves) {
    make_file(&records->ends, &records->made[1], records->ends_path, ends_name, leaves);
    make_file(&records->bytes, &records->made[0], records->bytes_path, bytes_name, leaves);
}

void records_open(Records *records, const char *log, uint64_t leaves, int writing, int asked) {
    *records = (Records){.bytes.file = -1, .ends.file = -1, .writing = writing};
    records->bytes_path = path_beside(log, ".records");
    records->ends_path = path_beside(log, ".index");
    int there = open_both(records, leaves);
    if (there < 0) there = open_both(records, leaves);
    if (there < 0) fail("%s is missing: take its copy", records->bytes_path);
    if (!there && asked) make_both(records, leaves);
    records->open = there || asked;
    if (records->open) take_count(records, leaves);
    if (records->open && writing) map_to_write(records);
}

void records_close(Records *records) {
    if (records->made[0]) fresh_remove(records->bytes_path, records->bytes.file);
    if (records->made[1]) fresh_remove(records->ends_path, records->ends.file);
    map_close(&records->bytes);
    map_close(&records->ends);
    free(records->bytes_path);
    free(records->ends_path);
    *records = (Records){.bytes.file = -1, .ends.file = -1};
}

/* ---- records */

int records_room(Records *records, const Joined *joined) {
    if (!records->open) return 0;
    if (map_longer(&records->ends, HEAD + END * (records->count + joined->count)) != 0) return -1;
    return map_longer(&records->bytes, HEAD + records->end + joined->length);
}

void records_add(Records *records, const Joined *joined) {
    if (!records->open) return;
    if (joined->length > 0) memcpy(records->bytes.bytes + HEAD + records->end, joined->bytes, joined->length);
    for (size_t i = 0; i < joined->count; i++) {
        records->end += joined->lengths[i];
        put_at(records->ends.bytes + HEAD + END * records->count, records->end);
        records->count++;
    }
}

int records_keep(Records *records) {
    if (!records->open || records->count == records->kept) return 0;
    if (map_sync(&records->bytes, HEAD + records->kept_end, HEAD + records->end) != 0) return -1;
    if (map_sync(&records->ends, HEAD + END * records->kept, HEAD + END * records->count) != 0) return -1;
    records->kept = records->count;
    records->kept_end = records->end;
    return 0;
}

int records_read(const Records *records, uint64_t index, Input *record) {
    if (!records->open || index < records->first || index - records->first >= records->count) return -1;
    uint64_t from = end_of(records, index - records->first), to = end_of(records, index - records->first + 1);
    if (from > to || to - from > LONGEST_RECORD || to > records->bytes.length - HEAD) return -1;
    record->length = (size_t)(to - from);
    memcpy(record->bytes, records->bytes.bytes + HEAD + from, record->length);
    return 0;
}
