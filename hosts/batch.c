/* Records that wait to be appended together, in memory that does not grow with their number. */
#include <string.h>
#include "batch.h"

int batch_is_full(const Batch *batch) {
    if (batch->count == 0) return 0;
    return batch->count == BATCH_RECORDS || batch->length >= BATCH_BYTES || batch->lengths[batch->count - 1] > LONGEST_RECORD;
}

void batch_add(Batch *batch, const uint8_t *record, size_t length) {
    if (length > 0) memcpy(batch->bytes + batch->length, record, length);
    batch->length += length;
    batch->lengths[batch->count++] = (uint32_t)length;
}

Joined batch_joined(const Batch *batch) { return (Joined){batch->bytes, batch->length, batch->lengths, batch->count}; }

void batch_empty(Batch *batch) { batch->count = batch->length = 0; }
