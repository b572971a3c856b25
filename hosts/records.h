/* The records beside a log, where they were asked for: the bytes in LOG.records, and in LOG.index where each ends. */
#ifndef RECORDS_H
#define RECORDS_H
#include "batch.h"
#include "input.h"
#include "mapped.h"

typedef struct {
    Mapped bytes, ends;
    char *bytes_path, *ends_path;
    uint64_t first;           /* the index of the first record that is kept here: the log may be older */
    uint64_t count, end;      /* records here, and where the next one begins */
    uint64_t kept, kept_end;  /* those on disk */
    int open, writing;
    int made[2];              /* which of the two this program has made, and takes back unless something is kept */
} Records;

/* The records beside a log of so many: open where there are some, and to write also made where they are asked for. Fails, with words, where the two
   files do not fit the log. */
void records_open(Records *records, const char *log, uint64_t leaves, int writing, int asked);

/* Room for these records behind the others: 0, or -1 with errno. The records themselves, which are not kept yet. */
int records_room(Records *records, const Joined *joined);
void records_add(Records *records, const Joined *joined);

/* What was added is on disk when this returns: 0, or -1 with errno. */
int records_keep(Records *records);

/* The record of an index: 0, or -1 where none is kept here, or what is here cannot be one. */
int records_read(const Records *records, uint64_t index, Input *record);

void records_close(Records *records);

#endif
