/* Records that wait to be appended together, in memory that does not grow with their number. */
#ifndef BATCH_H
#define BATCH_H
#include <stddef.h>
#include <stdint.h>
#include "input.h"

/* Records joined together, one behind the other, and the length of each, as the library takes them. */
typedef struct {
    const uint8_t *bytes;
    size_t length; /* of all */
    const uint32_t *lengths;
    size_t count;
} Joined;

/* A batch is full with so many records or bytes: enough that what a call costs by itself is nothing beside them, and few enough that they are still
   near the processor when they are hashed. The last record may be a longest one, and one byte more. */
enum { BATCH_RECORDS = 1024, BATCH_BYTES = 1 << 16 };
typedef struct {
    size_t count, length;
    uint32_t lengths[BATCH_RECORDS];
    uint8_t bytes[BATCH_BYTES + LONGEST_RECORD];
} Batch;

/* Whether it takes no further record. One that is too long is the last too: it will be refused, and what comes behind it is not to be read before. */
int batch_is_full(const Batch *batch);

/* One more, of LONGEST_RECORD + 1 bytes at the most, where it is not full. */
void batch_add(Batch *batch, const uint8_t *record, size_t length);

Joined batch_joined(const Batch *batch);
void batch_empty(Batch *batch);

#endif
