/* Letters of both kinds, of one record and of a passage: as they come in, and what the library says of them. */
#ifndef LETTERS_H
#define LETTERS_H
#include <stddef.h>
#include <stdint.h>
#include "input.h"
#include "tree.h"

/* A passage letter (RULES 12.1): size (8) and number of records (2), for each its index (8), its length (4) and its bytes, then digests. No request
   needs more than 24 of these for each of 256 records (RULES 12.4). */
enum { MOST_RECORDS = 256, PASSAGE_HEAD = 10, ENTRY_HEAD = 12, MOST_DIGESTS = 24 * MOST_RECORDS };
enum { LONGEST_PASSAGE = PASSAGE_HEAD + MOST_RECORDS * (ENTRY_HEAD + LONGEST_RECORD) + NODE * MOST_DIGESTS };

/* One byte more than the longest is read: the fields of what is longer lie within these bytes, and so it gets the same number. */
typedef struct {
    uint8_t bytes[LONGEST_PASSAGE + 1];
    size_t length;
} Letter;

/* A file, or standard input where the path is NULL: 0, or -1 with errno. The other fails, with words. */
int try_letter(Letter *letter, const char *path);
void read_letter(Letter *letter, const char *path);

/* Whether it is one of a passage (RULES 12.2): bytes 8 and 9 are then the number of its records, and in a letter of one record both are 0. */
int is_passage(const Letter *letter);

/* The size that a letter names, and how many records a passage letter says that it has; 0 where that is not there. */
uint64_t stated_size(const Letter *letter);
uint64_t stated_count(const Letter *letter);

/* What the library says of a letter, and its records: where it is accepted all of them; where it is refused none, or of a passage letter those whose
   index and length stand in it, as it says them. */
typedef struct {
    uint32_t number;
    uint64_t count, indexes[MOST_RECORDS], starts[MOST_RECORDS], lengths[MOST_RECORDS];
} Judged;

/* Against a size and a root that are trusted. */
void judge_letter(const keeper_mode *mode, uint64_t size, const uint8_t *top, size_t top_length, const Letter *letter, Judged *judged);

#endif
