/* Records that are given for a passage: joined together, with the length of each, as the library takes them. */
#ifndef GATHERED_H
#define GATHERED_H
#include "letters.h"
#include "store.h"

typedef struct {
    size_t count, length;
    uint32_t lengths[MOST_RECORDS];
    const char *names[MOST_RECORDS]; /* what each was read from; NULL where there is none */
    uint8_t bytes[MOST_RECORDS * (LONGEST_RECORD + 1)];
} Gathered;

/* One more, of MOST_RECORDS in all at the most: a file, or standard input for "-". Fails, with words, where it cannot be read. */
void gather_file(Gathered *records, const char *name);

/* Those of these indexes that are kept beside the log, in their order; an index that the log does not have gets an empty one, and the library has a
   number for it. Fails, with words, where one is not kept, or cannot be read. */
void gather_kept(Gathered *records, Store *log, const uint64_t *indexes, size_t count);

/* The first record that a number is about, 5, 3 or 13, among these for indexes of a log of so many leaves; the count where there is none. */
size_t place_refused(uint32_t number, const Store *log, uint64_t leaves, const uint64_t *indexes, const Gathered *records);

/* The refusal, and which record it is about; returns REFUSED. Where that is one that was kept and not the one that was logged, the program fails. */
int refused_at(const char *what, uint32_t number, const Store *log, uint64_t index, const char *name);

#endif
